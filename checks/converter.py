"""What tools/policy.py makes of texts and folders, and what it refuses; where kubectl reads otherwise than a reader of YAML might.

usage: python3 -m checks PROGRAM converter     needs python3-yaml
"""
import itertools
import json
import os
import pathlib
import resource
import subprocess
import sys

from checks.harness import room, write

TOOL = pathlib.Path(__file__).resolve().parent.parent / "tools/policy.py"
# A text, and the documents that it is.
READ = {
    "a: 1\n---\nb: 2\n": [{"a": 1}, {"b": 2}],
    "# roles\n---\r\n---   # more\n\"---\": x\n---\n": [{"---": "x"}],
    "\ufeffa: |\n  ---\n  b\n": [{"a": "---\nb\n"}],
    "{\"a\":\t1}\n# next\n{\"b\": 2}": [{"a": 1}, {"b": 2}],
    "---\n{\"a\":\t1}\n": [{"a": 1}],
    "a: [y, n, on, 'y', ~, ]": [{"a": [True, False, True, "y", None]}],
    "a: [012, 0o12, 0x1F, 0b11, 1_000, -8, 18446744073709551615]": [{"a": [10, 10, 31, 3, 1000, -8, (1 << 64) - 1]}],
    "a: [2001-01-01, 1:30, 0x, _1, 1e3, 08, .5]": [{"a": ["2001-01-01", "1:30", "0x", "_1", 1000.0, 8.0, 0.5]}],
    "1: a\nyes: b\n'<<': c\n": [{"1": "a", "true": "b", "<<": "c"}],
    "a: &it [get]\nb: *it\n": [{"a": ["get"], "b": ["get"]}],
    "": [],
}
# A list below another document, and where it and its items stand.
LISTED = "a: 1\n---\n# more\nkind: List\nitems:\n- b: 1\n\n- c:\n    2\n- {d: 3}\n"
PLACED = '#line 1 "-"\n{"a": 1}\n#line 4 "-"\n{"kind": "List", "items": [\n\n{"b": 1}, \n\n{"c": 2}, \n\n{"d": 3}]}\n'
MANY = "a: &a [x,x,x,x,x,x,x,x,x]\n" + "".join(f"{new}: &{new} [{','.join(['*' + old] * 9)}]\n" for old, new in zip("abcdefgh", "bcdefghi"))
# A text, and what is said of it.
REFUSED = {
    "a: &a {b: 1}\nc:\n  <<: *a\n": "3: it has a merge key, <<",
    "---\na: 1\nb: 2\na: 3\n": '4: it has the key "a" twice',
    "1: a\n'1': b\n": '2: it has the key "1" twice',
    "{\"a\": 1,\n\"a\": 2}": "1: it has a key twice",
    "a: 1\n--- {b: 2}\n": "2: a document begins, and no line --- of its own stands above it",
    "a: 1\n...\n---\nb: 2\n...\n--- c\n": "6: a document begins, and no line --- of its own stands above it",
    "a: !!str 1\n": "1: it has the tag tag:yaml.org,2002:str",
    "~: a\n": "1: it has a key that is no text",
    "? [a]\n: b\n": "1: it has a key that is no text",
    "a: .inf\n": " Out of range float values are not JSON compliant",
    "{\"a\": NaN}": "1: NaN is no number of JSON",
    "{a: 1}": "1: Expecting property name enclosed in double quotes",
    "a: 1\n---\nb: *c\n": "3: found undefined alias",
    MANY: "1: it nests too deep, or its aliases make too much of it",
    "a: &a [*a]\n": "1: it nests too deep, or its aliases make too much of it",
    "[" * 5000: None,
    "{\"a\":" * 5000: " it nests too deep",
    **{f"# c{end}kind: Role\n": f"1: it has the character U+{ord(end):04X}, at which some readers end a line" for end in "\r\x85\u2028\u2029"},
    "a: 1\n\ufeff---\nb: 2\n": "2: it has the character U+FEFF, at which some readers end a line",
}


def converted(*words, text="", folder=None):
    ran = subprocess.run([sys.executable, TOOL, *words], input=text.encode(), cwd=folder, capture_output=True, timeout=60)
    return ran.returncode, ran.stdout.decode(), ran.stderr.decode()


def texts():
    for text, wanted in READ.items():
        status, out, error = converted("-", text=text)
        yield text, (status, [json.loads(it) for it in out.splitlines() if not it.startswith("#")], error), (0, wanted, "")
    yield "lines", converted("-", text=LISTED)[1], PLACED
    for text, reason in REFUSED.items():
        status, out, error = converted("-", text=text)
        yield text, (status, out, error if reason else ""), (1, "", f"-:{reason}\n" if reason else "")


TREE = {"rbac/b.yaml": "b: 1", "rbac/more/a.yml": "a: 1", "rbac/more/.hidden/c.json": "{\"c\": 1}", "rbac/more/.hidden/d": "",
        "rbac/x.jsonl": "{\"x\": 1}\n{\"x\": 2}\n", "other/o.yaml": "o: 1", "rbac/e.YAML": "e: 1", "rbac/f.yaml.tmpl": "f: 1"}
FOUND = (("b.yaml", 1, '{"b": 1}'), ("linked/o.yaml", 1, '{"o": 1}'), ("more/.hidden/c.json", 1, '{"c": 1}'), ("more/a.yml", 1, '{"a": 1}'), ("x.jsonl", 1, '{"x": 1}'), ("x.jsonl", 2, '{"x": 2}'))


def folders(folder):
    """Folders in folders and links are read; what is not read is named; a circle, a FIFO and a file that is wrong are faults, and then nothing is printed."""
    os.symlink(folder / "other", folder / "rbac/linked")
    out = "".join(f'#line {line} "rbac/{name}"\n{text}\n' for name, line, text in FOUND)
    others = "not read: rbac/e.YAML\nnot read: rbac/f.yaml.tmpl\n"
    yield "a folder", converted("rbac", folder=folder), (0, out, others)
    yield "a folder, strictly", converted("--strict", "rbac", folder=folder), (1, out, others)
    yield "a file of any name", converted("--strict", "rbac/e.YAML", folder=folder), (0, '#line 1 "rbac/e.YAML"\n{"e": 1}\n', "")
    os.symlink(folder / "rbac", folder / "rbac/more/.hidden/circle")
    yield "a circle", converted("rbac", folder=folder)[:2], (1, "")
    (folder / "rbac/more/.hidden/circle").unlink()
    os.mkfifo(folder / "rbac/z.yaml")
    yield "a FIFO", converted("rbac", folder=folder)[:2], (1, "")
    yield "no file", converted("none", folder=folder)[:2], (1, "")
    yield "a name that clears the screen", converted("\x1b[2J##[error]", folder=folder), (1, "", "\\u001b[2J#\\u0023[error]: [Errno 2] No such file or directory: '\\x1b[2J#\\u0023[error]'\n")


def large(folder):
    """1.3 MB take 1.5 s of a processor at most."""
    rule = "- apiGroups: [\"\", apps]\n  resources: [pods, deployments]\n  verbs:\n  - get\n  - list\n"
    write(folder, {"large.yaml": "---\n".join(f"kind: Role\nmetadata:\n  name: r{it}\nrules:\n{rule * 4}" for it in range(3300))})
    before = resource.getrusage(resource.RUSAGE_CHILDREN)
    yield "1.3 MB", converted("large.yaml", folder=folder)[0], 0
    after = resource.getrusage(resource.RUSAGE_CHILDREN)
    took = after.ru_utime + after.ru_stime - before.ru_utime - before.ru_stime
    yield f"{(folder / 'large.yaml').stat().st_size:,} bytes in {took:.1f} s", took <= 1.5, True


def main(_program):
    with room(TREE) as folder:
        for what, found, wanted in itertools.chain(texts(), folders(folder), large(folder)):
            yield repr(what[:60]), found != wanted and f"{found}, wanted {wanted}"
