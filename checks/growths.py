"""Plays a script with each growth of memory that it makes refused in turn, in a run of its own.

usage: python3 -m checks PROGRAM growths [SCRIPT..]     that of the demo if none is named; needs cc

A refused growth may end the program with a message; else the event's answer is `error Memory`, the same line once more gets the undisturbed answer,
and so do all lines after it; or nothing changes.
"""
import functools
import os
import pathlib
import subprocess
import tempfile
from concurrent.futures import ThreadPoolExecutor

from checks.harness import preloaded

DEMO = "examples/demo/events.txt"
REFUSED = b"error Memory\n"


def run(program, shim, events, number=0):
    """What a script is answered with one growth refused: its status, its answers, its message, and how many growths it made."""
    with tempfile.NamedTemporaryFile() as count, tempfile.TemporaryFile() as script:
        # A pipe would hand it on in pieces that differ from run to run, and so would what is grown for a line.
        script.write(b"".join(events))
        script.seek(0)
        ran = subprocess.run([program, "script"], env={**shim, "COUNT": count.name, "REFUSE": str(number)}, stdin=script, capture_output=True)
        return ran.returncode, ran.stdout.splitlines(keepends=True), ran.stderr, int(count.read() or 0)


def play(program, shim, events, answers, number):
    """What became of a script with this growth refused, and what was wrong with it."""
    status, told, message, _made = run(program, shim, events, number)
    if REFUSED in told:
        at = told.index(REFUSED)
        again = run(program, shim, [*events[: at + 1], *events[at:]], number)[:2]
        return "refused", again != (0, [*answers[:at], REFUSED, *answers[at:]]) and f"event {at + 1} is refused, and once more it or what follows is answered otherwise"
    if status:
        well = (b"memory" in message or b"OutOfMemory" in message) and answers[: len(told)] == told
        return "ended", not well and f"status {status}: {message!r}"
    return "unseen", told != answers and "some answer differs, and none is a refusal"


def main(program, *files):
    with preloaded("fail_alloc.c") as shim, ThreadPoolExecutor(os.cpu_count()) as pool:
        for file in files or [DEMO]:
            events = [it for it in pathlib.Path(file).read_bytes().splitlines(keepends=True) if it.strip() and not it.startswith(b"#")]
            _status, answers, _message, growths = run(program, shim, events)
            yield f"{file}: growths that are handed to a C library, as those of a program that the gate builds", not growths
            kinds = {"ended": 0, "refused": 0, "unseen": 0}
            for number, (kind, fault) in enumerate(pool.map(functools.partial(play, program, shim, events, answers), range(1, growths + 1)), 1):
                kinds[kind] += 1
                yield f"{file}, growth {number}", fault
            print(f"{file}: of {growths} growths {kinds['ended']} ended the program with a message, {kinds['refused']} were answered `error Memory`, {kinds['unseen']} changed nothing")
