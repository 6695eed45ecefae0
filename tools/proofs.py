#!/usr/bin/env python3
"""Prints each public call of each crate with the clauses that are proved of it and what it does, read from the sources.

usage: proofs.py             the list of public calls (make proofs-page)
       proofs.py --lines     the lines of the definitions that docs/PROOFS.md names; status 1 if it or README has other numbers
"""
import pathlib
import re
import sys
import textwrap

import definitions

ROOT = pathlib.Path(__file__).parent.parent
CRATES = ROOT / "crates"
PAGE = ROOT / "docs/PROOFS.md"
HEAD = """# What is proved of each public call

Every function of every crate is proved to meet its contract. This list has the public ones: a call, the names of its
clauses (`ensures NAME {..}` in the source; `result` is a clause without a name) and the first sentence of its comment.
A call without a clause is proved safe and total alone. A call of a module `laws` does nothing: its clauses are
statements about definitions.
"""
IMPORT = r"(?:pub )?use Rattle\.(kapi_\w+)\.specs\.([\w.]+?)(?:\.\{|\.TheVariants| as |$)"


def exported(crate):
    """The names that the crate's root exports, and its public modules."""
    root = next(it for it in (crate / "src/lib.rt", crate / "src/main.rt") if it.is_file()).read_text()
    uses = re.findall(r"^pub use \w+(?:::\w+)*::(?:\{([^}]*)\}|(\w+))", root, re.M)
    names = {name.strip().split(" as ")[0] for many, one in uses for name in (many or one).split(",")}
    return names - {""}, set(re.findall(r"^pub mod (\w+);", root, re.M)), re.findall(r"^//! ?(.*)", root, re.M)


def sentence(comments):
    """The first sentence of a comment."""
    text = " ".join(comments)
    end = re.search(r"\.(?= [A-Z`]|$)", text)
    return (text[: end.end()] if end else text).replace("|", "\\|")


def calls(text):
    """Each public function of a source with its type or trait, its comment and its clauses."""
    owner, comments, found = "", [], None
    for line in text.splitlines():
        if re.match(r"(impl|pub trait)\b", line):
            owner = owner_of(line)
        elif line.startswith("}"):
            owner = ""
        comment = re.match(r"\s*/// ?(.*)", line)
        named = re.match(r"( *)(pub )?fn (\w+)", line)
        if comment:
            comments.append(comment[1])
        elif named and (named[2] or owner.startswith("trait ")) and len(named[1]) == (4 if owner else 0):
            found = [owner.removeprefix("trait "), named[3], sentence(paragraph(comments)), []]
            yield found
            comments = []
        elif found and (clause := re.match(r"\s*ensures (?:(\w+) )?\{", line)):
            found[3].append(clause[1] or "result")
        elif not line.strip().startswith("#["):
            comments = []
        if line.strip() in ("{", "{}") or line.rstrip().endswith((");", "{}")) or line in ("    }", "}"):
            found = None if line.strip() in ("{", "{}", "}") else found


def paragraph(comments):
    """The lines before the first empty one."""
    return comments[: comments.index("")] if "" in comments else comments


def owner_of(line):
    """The type of an inherent `impl`, `trait NAME` of a public trait, or `-` for the impl of a trait."""
    trait = re.match(r"pub trait (\w+)", line)
    if trait:
        return f"trait {trait[1]}"
    inherent = re.match(r"impl(?:<.*?>+)? (\w+)(?:<[^{]*>)? \{", line)
    return inherent[1] if inherent and " for " not in line else "-"


def section(crate):
    names, modules, about = exported(crate)
    rows = []
    for file in sorted((crate / "src").rglob("*.rt")):
        module = file.stem
        for owner, name, said, clauses in list(calls(file.read_text())):
            is_public = owner in names if owner else name in names or module in modules
            if is_public and "tests" not in file.parts and module != "tests":
                call = f"{owner}::{name}" if owner else (f"{module}::{name}" if name not in names else name)
                rows.append(f"| `{call}` | {', '.join(clauses)} | {said} |")
    title = f"\n## {crate.name}\n\n{textwrap.fill(sentence(paragraph(about)), 120)}\n"
    return title + ("\n| Call | Clauses | What it does |\n|---|---|---|\n" + "\n".join(rows) + "\n" if rows else "")


def page():
    names = re.findall(r"^(\w+):", (ROOT / "crates.txt").read_text(), re.M)
    return HEAD + "".join(section(CRATES / name) for name in names)


def definition(name):
    """The file of a definition that is written as `CRATE/FILE`."""
    crate, file = name.split("/")
    return CRATES / f"kapi_{crate}" / "specs" / f"{file}.antt"


def lines(file):
    """The lines of a definition without comments, imports and empty ones."""
    return sum(1 for line in file.read_text().splitlines() if not re.match(r"\s*(--.*|(pub )?(use|mod) .*)?$", line))


def reached(file, seen):
    """Adds the file, and all definitions that it imports, to those seen."""
    if file in seen or not file.is_file():
        return
    seen.add(file)
    for crate, path in re.findall(IMPORT, file.read_text(), re.M):
        reached(CRATES / crate / "specs" / (path.replace(".", "/") + ".antt"), seen)


def count():
    """Prints the lines of each row of the page's table; whether the page and README say the same numbers."""
    parts, table, is_right = [], set(), True
    for part, names, said in re.findall(r"^\| (\d+) \|.*\| ([^|]+) \| (\d+) \|$", PAGE.read_text(), re.M):
        found = {name: lines(definition(name)) for name in re.findall(r"`(\w+/\w+)`", names)}
        parts.append([*found.values()])
        for name in found:
            reached(definition(name), table)
        is_right = is_right and sum(found.values()) == int(said)
        print(part, sum(found.values()), *(f"{name} {number}" for name, number in found.items()))
    seen, refines, whole = set(), set(), [lines(it) for it in CRATES.glob("*/specs/**/*.antt")]
    reached(definition("core/Machine"), seen)
    reached(definition("core/Refines"), refines)
    machine, read = lines(definition("core/Machine")), sum(map(lines, seen))
    needed = definitions.needed(definitions.HEADLINE)
    sentences = {
        f"The table has {sum(map(sum, parts)):,} lines in {sum(map(len, parts))} files, of some {round(sum(whole), -2):,} lines in all.": PAGE,
        f"`Machine.antt` and all that it imports from Kapi's crates have {read:,} lines in {len(seen)} files.": PAGE,
        f'For "nobody gains" read parts 1 to 4, {sum(map(sum, parts[:4]))} lines.': PAGE,
        f"Of part 7 the first six files, {sum(parts[6][:6])} lines,": PAGE,
        f"and nothing else, in reading order: {definitions.count(needed):,} lines of {len(needed)} files.": PAGE,
        f"the other four, {sum(parts[6][6:])} lines,": PAGE,
        f"what only it needs ({sum(map(lines, refines - table))} lines together).": PAGE,
        f"`step` in `kapi_core/specs/Machine.antt`, {machine} lines.": PAGE,
        f"`crates/kapi_core/specs/Machine.antt`: {machine} lines.": ROOT / "README.md",
        **{f"`{it}` {definitions.count(definitions.needed([it])):,}": ROOT / "README.md" for it in definitions.CLAIMS},
    }
    for said, page in sentences.items():
        is_there = said in " ".join(page.read_text().split())
        is_right = is_right and is_there
        print(f"{page.name}: {said}" + ("" if is_there else " IS NOT THERE"))
    return int(not is_right)


if __name__ == "__main__":
    if sys.argv[1:] == ["--lines"]:
        sys.exit(count())
    print(page(), end="")
