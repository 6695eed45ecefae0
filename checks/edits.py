"""Tries edits in crates/*/edits, small bugs that the prover must refuse. Each gate tries ten of the decisions, `always`, and draws two others.

usage: python3 -m checks PROGRAM edits [COUNT [SUM]]     COUNT others are drawn by the sum of the sources, so that a run can be repeated; `always`, or CRATE/NAME,CRATE/NAME.., for COUNT: the ten, or these

Needs rt, and the libraries that `make test` left in crates/*/out/rlib. The edited function is checked with what it calls; if that passes, its
module is, and then the whole crate.
"""
import os
import pathlib
import random
import re
import shutil
import subprocess
import tempfile
from concurrent.futures import ThreadPoolExecutor

ROOT = pathlib.Path(__file__).resolve().parent.parent
CRATES = pathlib.Path(os.environ.get("KAPI_LIBRARIES", ROOT / "crates"))
# Bugs that would let somebody do what no rule allows, or refuse what one does. Every gate tries them.
ALWAYS = [
    "kapi_answer/every_request_is_answered_alike",
    "kapi_answer/a_request_with_many_segments_needs_no_rule",
    "kapi_index/a_deleted_binding_stays_in_the_index",
    "kapi_escalation/a_binding_to_a_missing_role_passes",
    "kapi_escalation/an_update_looks_only_at_added_rules",
    "kapi_escalation/the_groups_are_not_checked",
    "kapi_aggregation/rules_are_only_added",
    "kapi_reviews/a_resource_with_a_slash_is_asked_about_beside_a_subresource",
    "kapi_rules/a_name_covers_all_names",
    "kapi_rules/any_resource_with_a_subresource_covers_the_resource",
]
KIT = pathlib.Path(shutil.which("rt") or "/rt").resolve().parent.parent


def uses():
    """The libraries that each crate names."""
    lines = re.findall(r"^(\w+)(?: staticlib)?: *(.*)$", (ROOT / "crates.txt").read_text(), re.M)
    return {name: words.split() for name, words in lines}


def below(name, table):
    """All crates of the repository that a crate stands on."""
    found = {it for it in table[name] if it in table}
    return found | {it for dep in found for it in below(dep, table)}


def words_of(name, table):
    """The words of `rattle check` for a crate, over the libraries that the gate proved."""
    main = "main" if (ROOT / "crates" / name / "src/main.rt").is_file() else "lib"
    words = ["--crate-name", name, f"src/{main}.rt", "-L", f"dependency={KIT}/rlibs", "--jobs", "1", "--links", f"{name}="]
    for dep in ["std", *table[name]]:
        folder = CRATES / dep / "out/rlib" if dep in table else KIT / "rlibs"
        words += ["--extern", f"{dep}={folder}/{dep}.rlib"]
    for dep in sorted(below(name, table)):
        words += ["-L", f"dependency={CRATES}/{dep}/out/rlib"]
    return [*words, "--antt-project", f"{KIT}/rattle/logic/antt-project.json", "--logic-built", f"{KIT}/logic_built"]


def pairs(edit):
    """The file, the old and the new text of each change of an edit."""
    file, old = "", ""
    for line in edit.read_text().splitlines():
        word, _, text = line.partition(": ")
        file = text.strip() if word == "file" else file
        old = text if word == "old" else old
        if word == "new":
            yield file, old, text


def paths_at(file, text, place):
    """The function in which a place of a source lies and its module, as `rattle check --only` names them."""
    module = file.removeprefix("src/").removesuffix(".rt").replace("/", "::")
    named = re.findall(r"^( *)(?:pub(?:\([a-z]+\))? )?fn (\w+)", text[:place], re.M)
    owners = re.findall(r"^impl(?:<.*?>)? (?:[\w<>', ]+ for )?(\w+)", text[:place], re.M)
    if not named or module in ("lib", "main"):
        return []
    indent, name = named[-1]
    return ["::".join([module, *(owners[-1:] if indent else []), name]), module]


def checked(folder, words):
    ran = subprocess.run([KIT / "bin/rattle", "check", *words], cwd=folder, stdin=subprocess.DEVNULL, stdout=subprocess.PIPE, stderr=subprocess.STDOUT, text=True, errors="replace")
    return ran.returncode, ran.stdout.rstrip().splitlines()


def tried(edit):
    """Whether the prover refuses an edit, and what it says."""
    name, table = edit.parts[-3], uses()
    with tempfile.TemporaryDirectory() as room:
        for part in ("src", "specs", "proofs"):
            if (ROOT / "crates" / name / part).is_dir():
                shutil.copytree(ROOT / "crates" / name / part, f"{room}/{part}")
        paths = []
        for file, old, new in pairs(edit):
            text = pathlib.Path(room, file).read_text()
            if text.count(old) != 1:
                return False, f"its old text stands {text.count(old)} times in {file}"
            paths = paths or (paths_at(file, text, text.index(old)) if file.endswith(".rt") else [])
            pathlib.Path(room, file).write_text(text.replace(old, new))
        words = words_of(name, table)
        for only in [*(["--only", it] for it in paths), []]:
            status, lines = checked(room, [*words, *only])
            last = lines[-1] if lines else ""
            if status == 1 and re.match(r"only=\d+ proved=|logic=not-proved", last):
                return True, next((it for it in lines if re.match(r"(note: )?\S+:\d+:\d+: |fn .*: not proved", it)), last)[:150]
        return False, "the crate is still proved" if status == 0 else f"status {status}: {' '.join(lines[-3:])[:400]}"


def named(name):
    crate, _, edit = name.partition("/")
    return ROOT / "crates" / crate / "edits" / f"{edit}.edit"


def main(_program, count="2", seed=""):
    if not shutil.which("rt"):
        return "rt, the Rattle toolchain, is not on the PATH"
    edits = sorted((ROOT / "crates").glob("*/edits/*.edit"))
    if count.isdigit():
        seed = seed or subprocess.run(["sh", "tools/sources.sh"], cwd=ROOT, stdout=subprocess.PIPE, text=True, check=True).stdout.split()[0]
        others = [it for it in edits if f"{it.parts[-3]}/{it.stem}" not in ALWAYS]
        edits = random.Random(seed).sample(others, int(count))
        print(f"{count} edits drawn by {seed}")
    else:
        edits = [named(it) for it in (ALWAYS if count == "always" else count.split(","))]
    with ThreadPoolExecutor(max(1, len(os.sched_getaffinity(0)) - 1)) as pool:
        results = list(pool.map(tried, edits))
    for edit, (is_refused, said) in zip(edits, results):
        print(f"{edit.parts[-3]}/{edit.stem}: {'refused' if is_refused else 'NOT REFUSED'}: {said}")
    return 0 if all(it for it, _ in results) else 1
