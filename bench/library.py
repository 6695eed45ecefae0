"""Measures the C library: processor time of a load and of a decision, by the number of bindings.

usage: python3 -m bench PROGRAM library [FOLDER]     the folder that `make library PREFIX=..` wrote, out/library if left out; needs cc

Each binding gives a user of its own a role: in one of 100 or 10 namespaces, or cluster-wide. Half of the questions are allowed. The program is not run.
"""
import json
import pathlib
import subprocess
import tempfile

from bench.policies import NAMESPACES, policy

RBAC = "rbac.authorization.k8s.io"
SIZES = [(10, NAMESPACES), (1_000, NAMESPACES), (1_000, 10), (100_000, NAMESPACES), (1_000, 0), (100_000, 0)]
QUESTIONS, SECONDS = 2_000, 1


def cluster_wide(file, count):
    """Writes a policy of so many cluster-wide bindings."""
    rules = [{"verbs": ["get", "list"], "apiGroups": [""], "resources": ["pods"]}]
    role = {"kind": "ClusterRole", "apiVersion": f"{RBAC}/v1", "metadata": {"name": "reader"}, "rules": rules}
    binding = {"kind": "ClusterRoleBinding", "apiVersion": f"{RBAC}/v1", "roleRef": {"apiGroup": RBAC, "kind": "ClusterRole", "name": "reader"}}
    bindings = [{**binding, "metadata": {"name": f"b{it:06}"}, "subjects": [{"apiGroup": RBAC, "kind": "User", "name": f"user{it}"}]} for it in range(count)]
    file.write_text("".join(json.dumps(it) + "\n" for it in [role, *bindings]), encoding="utf-8")


def ask(file, bindings, spaces, count=QUESTIONS):
    """Writes so many questions, a question a line as bench/library.c reads it: about pods, which are allowed, and secrets."""
    users = [(it, it * 7919 % bindings) for it in range(count)]
    lines = [f"user{who}\tsystem:authenticated\tn{who % (spaces or 1)}\tget\t\t{'secrets' if it % 2 else 'pods'}\t\t\t\n" for it, who in users]
    file.write_text("".join(lines), encoding="utf-8")


def where(count, spaces):
    return f"{count:,} bindings " + (f"in {spaces} namespaces" if spaces else "cluster-wide")


def write(room, count, spaces, questions=QUESTIONS):
    """The files of a policy and of questions."""
    objects, asked = room / "objects", room / "questions"
    policy(objects, count, spaces) if spaces else cluster_wide(objects, count)
    ask(asked, count, spaces, questions)
    return objects, asked


def driver(folder, room):
    """bench/library.c, linked with the library."""
    made = room / "library"
    subprocess.run(["cc", "-O2", "-std=c11", "-Wall", "-Wextra", f"-I{folder}/include", "bench/library.c", f"{folder}/lib/libkapi.a", "-o", made], check=True)
    return made


def run(*words):
    """The numbers that a driver prints, and its answers."""
    ran = subprocess.run([str(word) for word in words], check=True, capture_output=True, text=True)
    numbers, answers = ran.stdout.splitlines()
    return [float(it) for it in numbers.split()], answers


def main(program, folder="out/library"):
    with tempfile.TemporaryDirectory() as name:
        room = pathlib.Path(name)
        made = driver(folder, room)
        for count, spaces in SIZES:
            (used, load, memory), answers = run(made, *write(room, count, spaces), SECONDS)
            assert answers.count("1") == QUESTIONS / 2, answers
            print(f"{where(count, spaces)}: loaded in {load:,.1f} ms and {memory:,.0f} MB with the text, a decision in {used:.2f} us", flush=True)
