"""Measures the questions about whole policies: processor time and memory of `kapi compare`, `who` and `risks` over policies of many bindings.

usage: python3 -m bench PROGRAM policies [BINDINGS..]     10,000 and 100,000 bindings if none are named

Each binding gives a user of its own a role in one of 100 namespaces. The policy after has ten bindings more, of users who hold nothing.
"""
import json
import os
import pathlib
import tempfile

NAMESPACES, CHANGED, QUESTIONS = 100, 10, 100
ROLE = {"kind": "Role", "apiVersion": "rbac.authorization.k8s.io/v1", "rules": [{"verbs": ["get", "list"], "apiGroups": [""], "resources": ["pods"]}]}
BINDING = {"kind": "RoleBinding", "apiVersion": "rbac.authorization.k8s.io/v1", "roleRef": {"kind": "Role", "name": "reader"}}


def policy(file, count, namespaces=NAMESPACES):
    """Writes a policy of so many bindings in so many namespaces."""
    spaces = [f"n{it}" for it in range(namespaces)]
    objects = [{"apiVersion": "v1", "kind": "Namespace", "metadata": {"name": it}} for it in spaces]
    objects += [{**ROLE, "metadata": {"name": "reader", "namespace": it}} for it in spaces]
    objects += [
        {**BINDING, "metadata": {"name": f"b{it:06}", "namespace": spaces[it % namespaces]}, "subjects": [{"kind": "User", "name": f"user{it}"}]} for it in range(count)
    ]
    file.write_text("".join(json.dumps(it) + "\n" for it in objects), encoding="utf-8")


def used(*words):
    """Seconds of processor time and the most kB that a command takes, and its status."""
    with open(os.devnull, "wb") as null:
        child = os.posix_spawn(words[0], words, os.environ, file_actions=[(os.POSIX_SPAWN_DUP2, null.fileno(), 1)])
    _, status, usage = os.wait4(child, 0)
    return usage.ru_utime + usage.ru_stime, usage.ru_maxrss, os.waitstatus_to_exitcode(status)


def forms(program, lines, none, load):
    """The same objects as manifests: a line each, and one List, printed prettily."""
    listed = lines.with_suffix(".json")
    items = [json.loads(it) for it in lines.read_text().splitlines()]
    listed.write_text(json.dumps({"apiVersion": "v1", "kind": "List", "items": items}, indent=4))
    for form, file in (("lines", lines), ("one List", listed)):
        seconds, memory, status = used(program, "audit", "--manifests", str(file), str(none))
        assert status == 0, status
        print(f"  as manifests, {form} of {file.stat().st_size / 1e6:.0f} MB: {seconds:.2f} s, {seconds / load:.2f} of the loading as lines, and {memory:,} kB")


def measure(program, count, room):
    before, after, none, one, many = (room / it for it in ("before", "after", "none", "one", "many"))
    policy(before, count)
    policy(after, count + CHANGED)
    none.write_text("")
    one.write_text("get pods n7\n")
    many.write_text("get pods n7\n" * (QUESTIONS + 1))
    load, load_memory, _ = used(program, "audit", str(before), str(none))
    same, _, status = used(program, "compare", str(before), str(before))
    assert status == 0, status
    changed, memory, status = used(program, "compare", str(before), str(after))
    assert status == 3, status
    who = (used(program, "who", str(before), "--questions", str(many))[0] - used(program, "who", str(before), "--questions", str(one))[0]) / QUESTIONS
    risks, _, _ = used(program, "risks", str(before))
    forms(program, before, none, load)
    print(f"{count:,} bindings: loaded in {load:.2f} s and {load_memory:,} kB")
    print(f"  compare with itself {same:.2f} s, with {CHANGED} bindings more {changed:.2f} s and {memory:,} kB; above the loading of both {changed - 2 * load:.2f} s")
    print(f"  who, a question {who * 1000:.2f} ms; risks above the loading {risks - load:.2f} s", flush=True)


def main(program, *counts):
    with tempfile.TemporaryDirectory() as room:
        for count in counts or ("10000", "100000"):
            measure(os.path.abspath(program), int(count), pathlib.Path(room))
