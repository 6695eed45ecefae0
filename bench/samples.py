"""Tells in which parts of a server the processor time of a request goes, by samples. Wants perf and wrk.

usage: python3 -m bench PROGRAM samples

The system's part is that of all that is not the program and its C library; a crate's is that of its functions, with what the compiler
put into them of others.
"""
import collections
import re
import subprocess
import tempfile
import threading

from bench.load import KINDS, answered, loaded

SECONDS = 6


def part_of(place, symbol):
    """The part that a function belongs to: a crate, the JSON library, memory, or the system."""
    if place.startswith("libc"):
        return "the C library's copies and clears" if symbol.startswith("__mem") else "allocation" if re.search("alloc|free", symbol) else "the C library"
    if place.startswith("["):
        return "waking the sender" if symbol == "_raw_spin_unlock_irqrestore" else "the system"
    crate = symbol.split("::")[0]
    if crate in ("json", "serde_json", "simdutf8"):
        return "the JSON library"
    return crate if crate.startswith("kapi") else "allocation" if crate.startswith("rattle_") else "comparing bytes" if symbol.startswith("core::cmp") else "the standard library"


def parts(program, kind):
    """The shares of the parts in the samples of a server, in percent, by size."""
    with loaded(program) as server, tempfile.NamedTemporaryFile() as told:
        load = threading.Thread(target=answered, args=(kind, 8, SECONDS))
        load.start()
        record = ["perf", "record", "-q", "-e", "cpu-clock", "-F", "4000", "-o", told.name, "-p", str(server.process.pid), "--", "sleep", str(SECONDS - 2)]
        subprocess.run(record, check=True, stdout=subprocess.DEVNULL, stderr=subprocess.DEVNULL)
        load.join()
        report = ["perf", "report", "-i", told.name, "--no-children", "--stdio", "-F", "overhead,dso,symbol", "-t", "\t"]
        lines = subprocess.run(report, check=True, capture_output=True, text=True).stdout.splitlines()
    shares = collections.Counter()
    for line in lines:
        fields = [field.strip() for field in line.split("\t")]
        if len(fields) == 3 and fields[0].endswith("%"):
            shares[part_of(fields[1], fields[2][4:])] += float(fields[0][:-1])
    return shares.most_common()


def main(program):
    for kind in KINDS:
        told = parts(program, kind)
        print(f"{kind}:", ", ".join(f"{part} {share:.1f}" for part, share in told if share >= 0.5), flush=True)
