"""Plays each transcript of crates/kapi/data, as the gate does, four at a time. usage: python3 -m checks PROGRAM transcripts"""
import pathlib
import subprocess
from concurrent.futures import ThreadPoolExecutor

CRATE = pathlib.Path("crates/kapi")


def main(program):
    names, wanted = (CRATE / "args").read_text().split()[1:], (CRATE / "stdout").read_text()
    with ThreadPoolExecutor(4) as pool:
        told = list(pool.map(lambda name: subprocess.run([program, "replay", name], cwd=CRATE / "data", stdout=subprocess.PIPE, text=True).stdout, names))
    yield from ((name, text not in wanted and text) for name, text in zip(names, told))
    yield "all in their order", "".join(told) != wanted
    yield f"transcripts that {CRATE}/args does not name", ", ".join(sorted({it.name for it in (CRATE / "data").glob("*.txt")} - set(names)))
