"""Runs the commands of README and of the pages for users, and compares what they print with what the page shows.

usage: python3 -m checks PROGRAM pages [PAGE..]      needs curl and jq; a block that needs more is left out if that is not there

A block marked `sh` is run by bash at the top of a copy of the repository. The next block without a mark is what a terminal shows of
it, but for line ends at the end; a block that shows nothing must end with status 0. The server of `make serve-demo` goes on until the
page starts another. Lines that compile, install or fetch are left out, and a cluster's objects are those of examples/audit. A block
marked `python` is run by python3.
"""
import os
import pathlib
import re
import shlex
import shutil
import subprocess
import sys
import tempfile

from checks.harness import part, shell
from tools.server import started

HERE = pathlib.Path(__file__).resolve().parent.parent
PAGES = ("README.md", *(f"docs/{name}.md" for name in ("USING", "AUDIT", "REPLAY", "COMPARE", "DEPLOYING", "ESCALATION", "KINDS", "KUBERNETES", "POLICIES")))
LEFT_OUT = ("make ", "sudo ", "git ")
SERVERS = ("kapi serve ", "make serve-demo", "python3 tools/kubectl_proxy.py ")
WANTED = {"kubectl ": ["kubectl", "version", "--client"], "tools/policy.py": ["python3", "-c", "import yaml"], "import client": ["python3", "-c", "import kubernetes"]}


def blocks(page):
    """The fenced blocks of a page, each as its mark and its text."""
    return re.findall(r"^```(\w*)\n(.*?)^```$", page, re.M | re.S)


class Terminal:
    """A shell in a copy of the repository, and the servers that it has started."""

    def __init__(self, program, room):
        self.room, self.servers = room, {}
        for name in ("examples", "tools"):
            shutil.copytree(HERE / name, room / name)
        for line, text in enumerate(it for it in (HERE / "examples/compare/before.jsonl").read_text().splitlines() if it.startswith("{")):
            for folder in (room / "base/rbac", room / "rbac"):
                folder.mkdir(parents=True, exist_ok=True)
                (folder / f"{line}.json").write_text(text)
        (room / "bin").mkdir()
        (room / "bin/kapi").symlink_to(program)
        # Debian's packages are for Debian's python3, which need not be the first on the PATH.
        (room / "bin/python3").symlink_to(shutil.which("python3", path="/usr/bin") or sys.executable)
        self.env = {**os.environ, "HOME": str(room), "PATH": f"{room}/bin:{os.environ['PATH']}"}

    def serve(self, command):
        """Starts a server in place of the one of its kind."""
        folder = self.room
        if command.startswith("make "):
            folder = self.room / "examples/serve"
            command = (folder / "command").read_text()
        words = shlex.split(command, comments=True)
        self.stop(words[0])
        lines = sum("=" in it for it in words) + words.count("--answer") if words[0] == "kapi" else 1
        self.servers[words[0]] = started([self.room / "bin" / words[0], *words[1:]], lines, cwd=folder)

    def stop(self, *names):
        for process in [self.servers.pop(it) for it in names if it in self.servers]:
            process.kill()
            process.wait()

    def run(self, command):
        """What a terminal shows of a command, and its status."""
        ran = subprocess.run(command, cwd=self.room, env=self.env, stdout=subprocess.PIPE, stderr=subprocess.STDOUT, text=True, timeout=120, start_new_session=True)
        return ran.stdout, ran.returncode

    def block(self, mark, text):
        """What a terminal shows of a block, and its status; nothing if it starts a server or is left out."""
        text = re.sub(r"^kubectl get .*> cluster.json$", "cp examples/audit/cluster.json cluster.json", text, flags=re.M)
        lines = [it for it in text.splitlines() if not it.startswith(LEFT_OUT)]
        servers = [it for it in text.splitlines() if it.startswith(SERVERS)]
        if servers:
            self.serve(servers[0])
        elif lines and not any(word in text and self.run(words)[1] for word, words in WANTED.items()):
            return self.run(["python3" if mark == "python" else "bash", "-c", "\n".join(lines)])
        return None


def wrong(terminal, page):
    """How many blocks of a page were run, and those that print something else or fail."""
    count, faults, found = 0, [], blocks(page) + [("end", "")]
    for (mark, text), (next_mark, shown) in zip(found, found[1:]):
        if mark not in ("sh", "python"):
            continue
        ended = terminal.block(mark, text)
        if ended is None:
            continue
        count += 1
        printed, status = ended
        if printed.rstrip("\n") != shown.rstrip("\n") if not next_mark else status:
            faults.append(f"{text}  prints, with status {status}:\n{printed}")
    return count, faults


def served(program, room):
    """Whether the example of `kapi serve --help` prints what it says."""
    text = subprocess.run([program, "serve", "--help"], capture_output=True, text=True).stdout
    printed = shell(program, part(text, "Example:").replace("8001", "60011").replace("8002", "60012"), room)
    first = 'listening 60011\nlistening 60012\n{"apiVersion":"v1","data":{"k":"v"},"kind":"ConfigMap"'
    return 1, [] if printed.startswith(first) and '"code":403,' in printed else [printed]


def checked(program, name):
    """What is wrong with a page."""
    with tempfile.TemporaryDirectory() as room:
        terminal = Terminal(program, pathlib.Path(room))
        try:
            terminal.serve("make serve-demo")
            if name not in PAGES:
                return served(str(terminal.room / "bin/kapi"), room)
            count, faults = wrong(terminal, (HERE / name).read_text(encoding="utf-8"))
            made = terminal.room / "policy.jsonl"
            if made.exists() and made.read_bytes() != (HERE / "examples/audit/policy.jsonl").read_bytes():
                faults.append("examples/audit/policy.jsonl is not what the page makes of cluster.json there\n")
            return count, faults
        finally:
            terminal.stop(*list(terminal.servers))


def main(program, *pages):
    failed = False
    for name in pages or (*PAGES, "kapi serve --help"):
        count, faults = checked(os.path.abspath(program), name)
        failed |= bool(faults)
        print(f"{name}: {count} blocks run, {len(faults)} not as shown")
        print("".join(f"  {it}\n" for it in faults), end="")
    return 1 if failed else 0
