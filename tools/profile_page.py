#!/usr/bin/env python3
"""Checks docs/PROFILE.md: its rules are numbered in order, each file and transcript that it names exists, and each transcript is named. Status 1 if not.

usage: profile_page.py [RULE..]     with rules, as 4.17: prints each with the paths of its files
"""
import pathlib
import re
import sys

ROOT = pathlib.Path(__file__).parent.parent
PAGE = ROOT / "docs/PROFILE.md"
DATA = ROOT / "crates/kapi/data"


def rules():
    """Each rule: its number, the row's text, and the names in its last two cells."""
    for line in PAGE.read_text().splitlines():
        cells = [cell.strip() for cell in line.strip("|").split("|")]
        if re.match(r"\|\s*\d+\.\d+\s*\|", line):
            shown, kept = (re.findall(r"`([^`]+)`", cell) for cell in cells[-2:])
            yield cells[0], " ".join(cells[1:-2]), shown, [file for name in kept for file in files(name)]


def files(name):
    """The files of a name: `CRATE/FILE`, or `CRATE/some_name` for `some_name.rt` and `SomeName.antt`."""
    crate, stem = name.split("/")
    return [name] if "." in stem else [f"{name}.rt", f"{crate}/{''.join(word.capitalize() for word in stem.split('_'))}.antt"]


def transcript(name):
    return DATA / f"{name}.txt"


def kept_by(name):
    """The path of a file of code or of a definition that is written as `CRATE/FILE`."""
    crate, file = name.split("/")
    folder = "kapi" if crate == "program" else f"kapi_{crate}"
    return ROOT / "crates" / folder / ("src" if file.endswith(".rt") else "specs") / file


def faults():
    last, shown = (0, 0), set()
    for number, _text, shown_by, kept in rules():
        section, rule = map(int, number.split("."))
        if (section, rule) not in ((last[0], last[1] + 1), (last[0] + 1, 1)):
            yield f"{number} does not follow {last[0]}.{last[1]}"
        last = section, rule
        shown.update(shown_by)
        yield from (f"{number}: there is no {path.relative_to(ROOT)}" for path in [*map(transcript, shown_by), *map(kept_by, kept)] if not path.is_file())
        if {name[name.rindex("."):] for name in kept} != {".rt", ".antt"}:
            yield f"{number} does not name a file of code and a definition"
    yield from (f"no rule names the transcript {file.stem}" for file in sorted(DATA.glob("*.txt")) if file.stem not in shown)


def main(numbers):
    for number, text, shown_by, kept in rules():
        if number in numbers:
            print(number, text, *(path.relative_to(ROOT) for path in [*map(transcript, shown_by), *map(kept_by, kept)]), sep="\n")
    found = list(faults())
    print(*found, sep="\n", end="\n" if found else "")
    return int(bool(found))


if __name__ == "__main__":
    sys.exit(main(sys.argv[1:]))
