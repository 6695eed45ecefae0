"""Reports of `kapi replay`: what it says of transcripts that fail, how it corrects them, and JUnit, beside what stands in checks/reports.

usage: python3 -m checks PROGRAM reporting
"""
import pathlib
import re
import shutil
import xml.etree.ElementTree

from checks.harness import Case, commands, differs, room

FOLDER = pathlib.Path(__file__).parent / "reports"
NAMES = ["corrected", "checks-nothing", "names-of-groups", "manifests-faults", "reasons"]
REPORTS = {it.name: it.read_text() for it in FOLDER.iterdir() if it.suffix in (".report", ".written", ".xml")}
CASES = [
    *[Case(f"replay {it}.txt", 1, told=REPORTS[f"{it}.report"]) for it in NAMES],
    Case("replay --write corrected.txt", 1, told=REPORTS["corrected.written"]),
    Case(f"replay --junit made.xml {' '.join(f'{it}.txt' for it in NAMES)}", 1, None),
    Case("replay names-of-groups.txt --junit none/made.xml", 1, "none/made.xml: there is no such file"),
    # 403 of a resource that is not served is said, and fails with --strict
    *[Case(f"replay {words}", status, REPORTS["unserved.report"].removesuffix("\n")) for words, status in (("unserved.txt", 0), ("--strict unserved.txt", 1))],
    Case(f"replay --strict {pathlib.Path('examples/replay/support.txt').resolve()}"),
    # a file is named from the transcript's folder, wherever kapi runs
    Case("replay ../corrected.txt", 1, None, re.compile("(?!.*cannot be read).*", re.S), folder="faulty"),
]


def main(program):
    with room() as folder:
        shutil.copytree(FOLDER, folder, dirs_exist_ok=True)
        yield from commands(program, CASES, folder)
        junit = (folder / "made.xml").read_text()
    yield "JUnit", differs(REPORTS["junit.xml"], junit)
    yield "its suites", [it.get("name") for it in xml.etree.ElementTree.fromstring(junit)] != [f"{it}.txt" for it in NAMES]
