"""What checks share. A check is a module with `main`, which yields cases: what each is, and what came if it is otherwise (tools/chosen.py tells it).

Commands run in a folder with files, servers are those of tools/server.py, and objects are made here.
"""
import contextlib
import json
import os
import pathlib
import re
import shlex
import subprocess
import tempfile
from dataclasses import dataclass, field

from tools.server import request, whole_answer

RBAC = "rbac.authorization.k8s.io"


def compact(value):
    return json.dumps(value, separators=(",", ":"))


def lines(*values):
    return "".join(compact(it) + "\n" for it in values)


def thing(kind, name, namespace=None, version=None, **members):
    """An object; of RBAC, if it has no version and its kind is that of a role or binding."""
    metadata = {"name": name} | ({"namespace": namespace} if namespace else {})
    return {"apiVersion": version or (f"{RBAC}/v1" if "Role" in kind else "v1"), "kind": kind, "metadata": metadata, **members}


def rule(verbs, resources, groups="", names=()):
    """A rule of lists of words."""
    return {"apiGroups": groups.split() or [""], "resources": resources.split(), **({"resourceNames": list(names)} if names else {}), "verbs": verbs.split()}


def subject(words):
    """A subject of the words KIND NAME, and NAMESPACE of an account."""
    return dict(zip(("kind", "name", "namespace"), words.split())) | ({} if words.startswith("ServiceAccount") else {"apiGroup": RBAC})


def bound(of, *subjects):
    """What a binding has: the role KIND NAME, and subjects."""
    return {"roleRef": {"apiGroup": RBAC, **dict(zip(("kind", "name"), of.split()))}, "subjects": [subject(it) for it in subjects]}


@contextlib.contextmanager
def room(files=()):
    """A folder with these files for a while."""
    with tempfile.TemporaryDirectory() as folder:
        write(pathlib.Path(folder), dict(files))
        yield pathlib.Path(folder)


@contextlib.contextmanager
def preloaded(source):
    """The environment in which a program calls a source of this folder in place of the C library, for a while."""
    with room() as folder:
        subprocess.run(["cc", "-shared", "-fPIC", "-O2", "-o", folder / "shim.so", pathlib.Path(__file__).with_name(source), "-ldl"], check=True)
        yield {"LD_PRELOAD": str(folder / "shim.so")}


def write(folder, files):
    """Writes files of these names; a character is a byte."""
    for name, text in files.items():
        (folder / name).parent.mkdir(parents=True, exist_ok=True)
        (folder / name).write_bytes(text.encode("latin-1"))


@dataclass
class Case:
    """Words of a command, its status, and its lines on standard error. A pattern stands for whatever it matches, None for anything."""

    words: object
    status: int = 0
    error: object = ""
    told: object = None
    input: str = ""
    files: dict = field(default_factory=dict)
    folder: str = ""
    is_full: bool = False
    is_mute: bool = False


def fault(program, case, folder):
    """What came of a case in a folder where it is otherwise."""
    write(folder, case.files)
    words = shlex.split(case.words) if isinstance(case.words, str) else case.words
    with open("/dev/full", "wb") as full:
        out, error = (full if it else subprocess.PIPE for it in (case.is_full, case.is_mute))
        how = {"stdout": out, "stderr": error, "timeout": 300}
        try:
            ran = subprocess.run([program, *words], input=case.input.encode("latin-1"), cwd=folder / case.folder, **how)
        except subprocess.TimeoutExpired as late:
            return str(late)
    got = {"status": ran.returncode, "error": (ran.stderr or b"").decode().removesuffix("\n"), "told": (ran.stdout or b"").decode()}
    return "; ".join(f"{name} {it}" for name, text in got.items() if (it := differs(getattr(case, name), text)))


def differs(wanted, got):
    """How a text differs from a wanted one, from a little before the first byte that does."""
    text = getattr(wanted, "pattern", wanted)
    if wanted is None or (wanted.fullmatch(got) if text is not wanted else text == got):
        return None
    text, got = str(text), str(got)
    at = next((it for it, (one, other) in enumerate(zip(text, got)) if one != other), min(len(text), len(got)))
    return "line {}: wanted {!r}, got {!r}".format(got[:at].count("\n") + 1, *(it[max(at - 40, 0) : at + 80] for it in (text, got)))


def commands(program, cases, folder):
    """Cases of commands, one after the other in a folder."""
    for case in cases:
        yield f"kapi {case.words if isinstance(case.words, str) else shlex.join(case.words)} {case.input[:80]!r}", fault(program, case, folder)


def shell(program, commands, folder):
    """What commands print that call the program `kapi`."""
    words = {"env": {**os.environ, "PATH": f"{os.path.dirname(program)}:{os.environ['PATH']}"}, "stdout": subprocess.PIPE, "stderr": subprocess.DEVNULL}
    return subprocess.run(["bash", "-c", commands], cwd=folder, text=True, timeout=60, **words).stdout


def part(text, head):
    """The lines that stand indented below a line of a help."""
    return re.sub("^  ", "", re.search(rf"^{head}\n((?:  .*\n)+)", text, re.M)[1], flags=re.M)


def cost(server, client, method, path, body="", wanted=(200, 201)):
    """Seconds of the server's processor time for a request, which has one of these statuses."""
    before = server.precise()
    client.sendall(request(method, path, body if isinstance(body, str) else compact(body)))
    answer = whole_answer(client)
    assert int(answer[9:12]) in wanted, f"{method} {path[:200]}: {answer[:200]}"
    return server.precise() - before


def judged(what, measure):
    """Prints the figures that are measured: each what it is, how much, and at most how much, or None. What is above its bound."""
    try:
        figures = measure()
    except (AssertionError, OSError) as error:
        return repr(error)
    shown = (f"{name} {f'{value:,.3f}'.rstrip('0').rstrip('.')}" + (f" (at most {most:,})" if most is not None else "") for name, value, most in figures)
    print(f"{what} {'; '.join(shown)}", flush=True)
    return "; ".join(f"{name} above its bound" for name, value, most in figures if most is not None and value > most)
