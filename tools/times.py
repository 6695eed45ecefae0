"""Runs a command and prints what each crate took of it: processor and wall seconds, the most memory, lines of code and of proofs.

usage: python3 -m tools.times COMMAND [WORD..]     or  --of PID: of a process that runs already

Reads /proc twice a second, of the process and all below it. A process counts for the crate that its words name by --crate-name or that it runs in,
or for what the process above it counts for.
"""
import collections
import os
import pathlib
import re
import subprocess
import sys
import threading
import time

ROOT = pathlib.Path(__file__).resolve().parent.parent
TICKS, PAGE = os.sysconf("SC_CLK_TCK"), os.sysconf("SC_PAGE_SIZE")


def text_of(path):
    """What a file of /proc holds, or nothing if its process is gone."""
    try:
        return pathlib.Path(path).read_bytes().decode(errors="replace")
    except OSError:
        return ""


def processes():
    """Of each process, by its number and start: the one above it, its processor seconds, its memory in bytes."""
    found = {}
    for pid in filter(str.isdigit, os.listdir("/proc")):
        _, _, behind = text_of(f"/proc/{pid}/stat").rpartition(") ")
        row = behind.split()
        if row:
            found[int(pid), int(row[19])] = int(row[1]), (int(row[11]) + int(row[12])) / TICKS, int(row[21]) * PAGE
    return found


def named(pid, above):
    """What a process is counted for."""
    words = text_of(f"/proc/{pid}/cmdline").split("\0")
    if "--crate-name" in words:
        name = words[words.index("--crate-name") + 1]
        return f"edits of {name}" if words[1] == "check" else f"tests of {name}" if "--test" in words else name
    try:
        place = re.search(r"/crates/(\w+)", os.readlink(f"/proc/{pid}/cwd"))
    except OSError:
        place = None
    return f"programs of {place[1]}" if place and above == "rt" else above


class Times:
    """What processes took, by what they are counted for."""

    def __init__(self):
        self.taken, self.memory, self.first, self.last, self.most = {}, collections.Counter(), {}, {}, 0

    def begin(self, root, name="rt"):
        """Looks at a process and all below it, beside whatever else is done, until it has ended."""
        watching = threading.Thread(target=self.watch, args=(root, name), daemon=True)
        watching.start()
        return watching

    def watch(self, root, name):
        while self.look(root, name):
            time.sleep(0.5)

    def look(self, root, name):
        """Notes what runs now; whether the process does."""
        now, found, memory = time.monotonic(), processes(), collections.Counter()
        names = {root: name}
        for (pid, start), (above, seconds, held) in sorted(found.items(), key=lambda it: it[0][1]):
            if pid == root or above in names:
                counted = named(pid, names.get(above, name))
                # A process that is ending has no words any more.
                if (pid, start) in self.taken and not text_of(f"/proc/{pid}/cmdline"):
                    counted = self.taken[pid, start][0]
                names[pid] = counted
                self.taken[pid, start] = counted, seconds
                memory[counted] += held
                self.first.setdefault(counted, now)
                self.last[counted] = now
        for counted, held in memory.items():
            self.memory[counted] = max(self.memory[counted], held)
        self.most = max(self.most, sum(memory.values()))
        return bool(memory)

    def table(self):
        seconds = collections.Counter()
        for name, took in self.taken.values():
            seconds[name] += took
        yield "| Part | Processor seconds | Wall seconds | GB | Lines of code | Of proofs |\n|---|---|---|---|---|---|"
        for name, took in seconds.most_common():
            sizes = [lines(name, it) or "" for it in ("src", "proofs")]
            yield row(name, took, self.last[name] - self.first[name], self.memory[name], *sizes)
        yield row("all", sum(seconds.values()), max(self.last.values()) - min(self.first.values()), self.most, "", "")


def row(name, seconds, wall, memory, code, proofs):
    return f"| {name} | {seconds:.0f} | {wall:.0f} | {memory / 1e9:.1f} | {code} | {proofs} |"


def lines(crate, folder):
    return sum(it.read_bytes().count(b"\n") for it in (ROOT / "crates" / crate / folder).rglob("*") if it.suffix in (".rt", ".antt"))


def main(*words):
    if not words:
        return __doc__
    times, running = Times(), None if words[0] == "--of" else subprocess.Popen(words)
    watching = times.begin(running.pid if running else int(words[1]))
    try:
        status = running.wait() if running else 0
        watching.join()
    except KeyboardInterrupt:
        status = 130
    print("\n".join(times.table()), flush=True)
    return status


if __name__ == "__main__":
    sys.exit(main(*sys.argv[1:]))
