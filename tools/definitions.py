#!/usr/bin/env python3
"""Prints the definitions that a claim of README rests on, and no others, in the reading order of docs/PROOFS.md.

usage: definitions.py [CLAIM]     their text (make definitions CLAIM=nobody-gains); without a claim, of the first two rows of README's table
       definitions.py --count     of each claim, their number of lines, without comments and empty ones, and of files
"""
import pathlib
import re
import sys

ROOT = pathlib.Path(__file__).parent.parent
CRATES = ROOT / "crates"
# Of each claim the definitions, `CRATE/FILE.NAME`, and the calls, `CRATE/FILE.rt:NAME`, of whose clauses it consists.
CLAIMS = {
    "nobody-gains": ["core/Gains.NobodyGains"],
    "exact-answers": ["core/Machine.step", "core/Opening.opening", "http/Requests.AreCut", "serve/server.rt:serve_loop"],
    "checked": ["escalation/check.rt:check_write"],
    "watches": ["core/laws.rt:what_is_sent_of_a_watch_makes_its_list"],
    "confidential": [f"confidential/laws.rt:{it}" for it in ("reads_show_only_what_may_be_read", "writes_show_only_what_may_be_written", "events_show_only_what_is_watched")],
    "compare": ["access/answer.rt:answer_compare", "access/laws.rt:every_gain_is_reported", "access/laws.rt:each_line_is_a_gain"],
    "who": ["access/answer.rt:answer_who", "access/laws.rt:who_may_is_who_is_listed"],
    "what": ["access/rights.rt:answer_what"],
    "risks": ["access/answer.rt:answer_risks"],
    "suggest": ["suggest/laws.rt:what_is_suggested_is_what_was_used", "suggest/laws.rt:every_use_is_allowed"],
    "paths": ["paths/printed.rt:answer_paths"],
    "audit": ["audit/audit.rt:audit_run"],
    "replay": ["replay/replay.rt:replay_run"],
    "library": ["c/lib.rt:kapi_ask"],
}
HEADLINE = ["nobody-gains", "exact-answers"]
USE = re.compile(r"^(?:(?:pub|unfoldable)\s+)*use\s[^\n]*(?:\n[ \t}][^\n]*)*", re.M)
DECLARED = re.compile(r"^ {0,2}(?:(?:pub|abbrev|unfoldable|opaque|data|record)\s+)*([^\s:(){},]+)\s*(?:[{(][^:]*:[^})]*[})]\s*)*:(?=\s)")


class Module:
    """A file of definitions: its blocks of text, the block of each name, and what it imports, by the name that it has here."""

    def __init__(self, name, text):
        self.name, self.blocks, self.block_of, self.imports, self.modules = name, [], {}, {}, {}
        for item in USE.findall(text):
            self.take(re.sub(r"\s+", " ", item))
        for block in re.split(r"\n{2,}", USE.sub("", text)):
            lines = [line for line in block.splitlines() if not re.match(r"(pub )?mod |-- ----", line)]
            if any(not line.startswith("--") for line in lines):
                self.add(lines)

    def take(self, item):
        named = re.match(r"(?:\w+ )*use Rattle\.kapi_(\w+)\.specs\.(?!declared)([\w.]+?)(?:\.\{(.*)\}| as (\w+))?$", item)
        if not named:
            return
        module = f"{named[1]}/{named[2].replace('.', '/')}"
        if named[3] is None:
            self.modules[named[4] or module.split("/")[-1]] = module
        for word in filter(None, map(str.strip, (named[3] or "").split(","))):
            theirs, _, ours = word.partition(" as ")
            self.imports[ours or theirs] = module, theirs

    def add(self, lines):
        """A block that declares nothing at its margin goes on with the one before, as the middle of a `mutual` does."""
        if self.blocks and not any(re.match(r"[^\s-]", line) for line in lines):
            self.blocks[-1] += ["", *lines]
        else:
            self.blocks.append(lines)
        for line in lines:
            if declared := DECLARED.match(line):
                self.block_of.setdefault(declared[1], len(self.blocks) - 1)


def words(lines):
    """The words of a block, without comments and texts."""
    code = " ".join(line for line in lines if not re.match(r"\s*--", line))
    return set(re.findall(r'[^\s(){},;"]+', re.sub(r'"[^"]*"', "", code)))


def file_of(name):
    """The path of a name as `CRATE/FILE`, of a definition, or of a source if it ends in .rt."""
    crate, path = name.split("/", 1)
    return CRATES / f"kapi_{crate}" / (f"src/{path}" if path.endswith(".rt") else f"specs/{path}.antt")


def clauses(name, call):
    """The clauses of a function as a module of definitions, with what its source imports."""
    text = file_of(name).read_text()
    promise = re.search(rf"^pub [^\n]*fn {call}\b(.*?)^\{{", text, re.M | re.S)[1]
    return Module(name, "\n".join([*re.findall(r"^ghost (use [^;]*);", text, re.M), "", f"{call} :", promise]))


class Reading:
    """The blocks that are needed, by module."""

    def __init__(self):
        self.known, self.needed = {}, {}

    def module(self, name):
        if name not in self.known:
            self.known[name] = Module(name, file_of(name).read_text()) if file_of(name).is_file() else None
        return self.known[name]

    def claim(self, name):
        for head in CLAIMS[name]:
            place, _, call = head.rpartition(":" if ":" in head else ".")
            if ":" in head:
                module = clauses(place, call)
                todo = self.cited(module, [line for lines in module.blocks for line in lines])
            else:
                todo = [(place, call)]
            for found in list(todo):
                self.need(*found)

    def need(self, name, definition):
        todo = [(name, definition)]
        while todo:
            name, definition = todo.pop()
            module = self.module(name)
            if module is None:
                continue
            if definition not in module.block_of:
                todo += [module.imports[definition]] if definition in module.imports else []
                continue
            block = module.block_of[definition]
            if block not in self.needed.setdefault(name, set()):
                self.needed[name].add(block)
                todo += self.cited(module, module.blocks[block])

    def cited(self, module, lines):
        found = words(lines)
        for word in found:
            head, _, tail = word.partition(".")
            if word in module.block_of:
                yield module.name, word
            elif head in module.imports:
                yield module.imports[head]
            elif tail and head in module.modules:
                yield module.modules[head], tail
        for name, place in module.imports.items():
            if "◌" in name and (all(it in found for it in name.split("◌") if it) or name == "◌>>=◌" and "do" in found):
                yield place


def in_order(names):
    """The modules in the order of the page, then the others."""
    page = re.findall(r"`(\w+/\w+)`", "".join(re.findall(r"^\| \d+ \|.*$", (ROOT / "docs/PROOFS.md").read_text(), re.M)))
    return sorted(names, key=lambda it: (page.index(it) if it in page else len(page), it))


def needed(claims):
    """The blocks that claims rest on, by module."""
    reading = Reading()
    for claim in claims:
        reading.claim(claim)
    return {name: [reading.known[name].blocks[it] for it in sorted(reading.needed[name])] for name in in_order(reading.needed)}


def count(modules):
    """The lines of the needed definitions, without comments and empty ones."""
    return sum(1 for blocks in modules.values() for lines in blocks for line in lines if line.strip() and not line.lstrip().startswith("--"))


def main(words):
    if words == ["--count"]:
        for claim in CLAIMS:
            modules = needed([claim])
            print(f"{claim}: {count(modules):,} lines of {len(modules)} files")
        return 0
    if [it for it in words if it not in CLAIMS]:
        print(__doc__, f"The claims: {', '.join(CLAIMS)}", file=sys.stderr)
        return 2
    for name, blocks in needed(words or HEADLINE).items():
        print(f"-- ==== {name}\n")
        print("\n\n".join("\n".join(lines) for lines in blocks), end="\n\n")
    return 0


if __name__ == "__main__":
    sys.exit(main(sys.argv[1:]))
