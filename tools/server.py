"""A server of the program, and clients of it over sockets."""
import itertools
import json
import os
import pathlib
import re
import socket
import subprocess
import sys
import tempfile

# Each process has ports of its own, below those that the system gives to clients.
FIRST = 20_000 + os.getpid() % 2_500 * 4
ROOT, ANN, ANSWER, OTHER = range(FIRST, FIRST + 4)


def free():
    """Other ports, on which nobody listens."""
    for port in range(10_000 + os.getpid() % 20 * 300, 18_000):
        with socket.socket() as client:
            if client.connect_ex(("127.0.0.1", port)):
                yield port


def started(words, lines, **how):
    """The program once it has printed so many lines. Where it ends before, as it does where a port is taken, what it said is shown, and this ends with status 3."""
    process = subprocess.Popen(words, stdout=subprocess.PIPE, **how)
    if all(process.stdout.readline() for _line in range(lines)):
        return process
    process.kill()
    said = process.communicate()[1]
    print(f"{words[0]} did not start", *([said] if said else []), sep="\n", file=sys.stderr)
    sys.exit(3)


def seconds_of(process):
    """Seconds of processor time of a process: its own, and the system's for it."""
    fields = pathlib.Path(f"/proc/{process.pid}/stat").read_text().rsplit(")", 1)[1].split()
    return [int(field) / os.sysconf("SC_CLK_TCK") for field in fields[11:13]]


def of_threads(process):
    """Nanoseconds of processor time of each thread of a process."""
    tasks = pathlib.Path(f"/proc/{process.pid}/task")
    return {it.name: int((it / "schedstat").read_text().split()[0]) for it in tasks.iterdir()}


class Server:
    """A server of root's and ann's port, with options and the objects that it loads. It is killed at the end of its block."""

    def __init__(self, program, *options, objects=(), before=(), **how):
        self.file = tempfile.NamedTemporaryFile("w", suffix=".jsonl")
        self.file.writelines(json.dumps(it, separators=(",", ":")) + "\n" for it in objects)
        self.file.flush()
        words = [*before, program, "serve", "--load", self.file.name, *options, f"{ROOT}=root,system:masters", f"{ANN}=ann"]
        self.process = started(words, 3 if "--answer" in options else 2, **how)

    def __enter__(self):
        return self

    def __exit__(self, *_fault):
        self.process.kill()
        self.process.wait()

    def resident(self):
        """Resident memory, in kB."""
        return int(re.search(r"VmRSS:\s+(\d+)", pathlib.Path(f"/proc/{self.process.pid}/status").read_text())[1])

    def descriptors(self):
        return len(os.listdir(f"/proc/{self.process.pid}/fd"))

    def seconds(self):
        """Seconds of processor time."""
        return sum(seconds_of(self.process))

    def precise(self):
        """The same of all threads, to the nanosecond."""
        return sum(of_threads(self.process).values()) / 1e9


def connect(port):
    return socket.create_connection(("127.0.0.1", port))


def request(method, path, body=""):
    """The bytes of a request."""
    length = f"Content-Length: {len(body)}\r\n" if body else ""
    media = "Content-Type: application/merge-patch+json\r\n" if method == "PATCH" else ""
    return f"{method} {path} HTTP/1.1\r\nHost: a\r\n{media}{length}\r\n{body}".encode()


def whole_answer(client):
    """An answer with its body, in whatever pieces it comes; of a watch its head, since that has no length."""
    answer, whole = bytearray(), None
    while whole is None or len(answer) < whole:
        piece = client.recv(65536)
        if not piece:
            raise ConnectionError(f"the connection ended behind {bytes(answer)}")
        answer += piece
        end = answer.find(b"\r\n\r\n") if whole is None else -1
        if end >= 0:
            length = re.search(rb"Content-Length: (\d+)", answer[:end])
            whole = end + 4 + int(length[1] if length else 0)
    return bytes(answer)


def ask(client, method, path, item=None):
    """Sends a request, with an object if one is named, and waits for its answer."""
    client.sendall(request(method, path, json.dumps(item) if item else ""))
    return whole_answer(client)


class Client:
    """A client of a port, whose answers are read line by line."""

    def __init__(self, port, seconds):
        self.socket = connect(port)
        self.socket.settimeout(seconds)
        self.lines = self.socket.makefile("rb")

    def reply(self, *words):
        """The code and the body of the answer to a request; of a watch the code alone."""
        self.socket.sendall(request(*words))
        head = b"".join(itertools.takewhile(bytes.strip, self.lines))
        length = re.search(rb"Content-Length: (\d+)", head)
        return (head[9:13] + self.lines.read(int(length[1]) if length else 0)).decode()

    def event(self):
        """The next event of a watch; the word end at the end of the body, and the word nothing if none comes."""
        try:
            size = int(self.lines.readline(), 16)
            text = self.lines.read(size + 2)
        except (TimeoutError, ValueError):
            return "nothing"
        return json.loads(text) if size else "end"
