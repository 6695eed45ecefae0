"""The gate: proves every crate, builds and plays the program, then runs the quick checks and tries edits that the prover must refuse.

usage: python3 -m tools.gate     at the top of a clean clone; ends with status 0 if all passed

Says which part runs and about how long is left, by the table of docs/PROOFS.md. At the end out/times has that table of this run.
"""
import os
import pathlib
import re
import shutil
import subprocess
import sys

from tools.times import ROOT, Times, lines

# Memory of one lane in bytes, as measured: four lanes at once never held more than four times as much.
LANE = 3_400_000_000
MEASURED = ROOT / "docs/PROOFS.md"
PROVED = re.compile(r"rt: (kapi\w*) (?:proved|is kept)")
QUIET = re.compile(r"(fn|struct|enum|impl|trait|type|const|static|union) \S.*: proved$|so far: |statements |by-macro: |logic[ =]")


def limits():
    """Of each control group with a limit of memory that the process is in: what it has left, in bytes."""
    for line in pathlib.Path("/proc/self/cgroup").read_text().splitlines():
        _, kinds, place = line.split(":", 2)
        root, most, used = ("memory/", "limit_in_bytes", "usage_in_bytes") if kinds == "memory" else ("", "max", "current")
        group = pathlib.Path(f"/sys/fs/cgroup/{root}{place}")
        try:
            yield int((group / f"memory.{most}").read_text()) - int((group / f"memory.{used}").read_text())
        except (OSError, ValueError):
            pass


def free_memory():
    """Free memory in bytes, of the machine and of the control groups."""
    free = re.search(r"MemAvailable: +(\d+) kB", pathlib.Path("/proc/meminfo").read_text())
    return min([1024 * int(free[1]), *limits()])


def lanes():
    return max(1, min(len(os.sched_getaffinity(0)), free_memory() // LANE))


class Progress:
    """How much of the proofs is left, in processor seconds."""

    def __init__(self, jobs):
        self.jobs = jobs
        measured = dict(re.findall(r"^\| (kapi\w*) \| (\d+) ", MEASURED.read_text(), re.M))
        names = re.findall(r"^(kapi\w*)(?: staticlib)?:", (ROOT / "crates.txt").read_text(), re.M)
        self.left = {it: int(measured.get(it, 0.13 * lines(it, "src"))) for it in names}
        self.whole = sum(self.left.values())

    def done(self, name):
        self.left.pop(name, None)
        seconds = sum(self.left.values())
        return f"{len(self.left)} crates are left, {100 * seconds // self.whole} % of the proofs: about {1 + int(1.1 * seconds / self.jobs / 60)} minutes, and 5 more for the rest"


def started(times, name, *words):
    running = subprocess.Popen(words, cwd=ROOT)
    times.begin(running.pid, name)
    return running


def beside(times):
    """What runs beside the last two crates: the edits of each gate, and then the C library, if there is a compiler for it."""
    words = f"'{sys.executable}' -m checks /bin/true edits always"
    if shutil.which("cc") and shutil.which("objcopy"):
        words += " && sh tools/library.sh out/library"
    else:
        print("The C library is left out: cc or objcopy is not there.", flush=True)
    return started(times, "edits and C library", "sh", "-c", words)


def prove(times):
    """Runs `rt ci` on all crates; its status, its last line, and what runs beside the last two crates."""
    jobs = lanes()
    progress, last, other = Progress(jobs), "", None
    print(f"Proves {len(progress.left)} crates, {jobs} at a time: about {5 + int(1.1 * progress.whole / jobs / 60)} minutes from nothing.", flush=True)
    running = subprocess.Popen(["rt", "ci"], cwd=ROOT, env={**os.environ, "RT_JOBS": str(jobs)}, stdout=subprocess.PIPE, stderr=subprocess.STDOUT, text=True, errors="replace")
    times.begin(running.pid)
    for line in running.stdout:
        if not QUIET.match(line):
            print(line, end="", flush=True)
        crate = PROVED.match(line)
        if crate and crate[1] in progress.left:
            print(f"  {progress.done(crate[1])}", flush=True)
            other = other or (beside(times) if len(progress.left) <= 2 else None)
        last = line.strip() or last
    return running.wait(), last, other


def rest(times, program, other):
    """What is left when all is proved: two edits that are drawn, and the quick checks."""
    print("Edits that the prover must refuse, and what is left of the C library: 1 to 4 min.", flush=True)
    drawn = started(times, "edits", sys.executable, "-m", "checks", "/bin/true", "edits", "2")
    status = (other or beside(times)).wait() or drawn.wait()
    print("Quick checks: 1 min or so.", flush=True)
    return status or started(times, "quick checks", sys.executable, "-m", "checks", program).wait()


def main():
    times, program = Times(), "crates/kapi/out/kapi"
    (ROOT / "out").mkdir(exist_ok=True)
    status, last, other = prove(times)
    if not status:
        sources = subprocess.run(["sh", "tools/sources.sh"], cwd=ROOT, stdout=subprocess.PIPE, check=True).stdout
        (ROOT / "crates/kapi/out/proved").write_bytes(sources)
        status = rest(times, program, other)
    (ROOT / "out/times").write_text("\n".join(times.table()) + "\n")
    print(f"What each crate took is in out/times.\n{last}", flush=True)
    return status


if __name__ == "__main__":
    sys.exit(main())
