"""Runs the controller of examples/controller twice before a server: one leads and does its work, the other takes over once it is ended, and a missing
permission shows as a 403 that names it.

usage: python3 -m checks PROGRAM controller     needs Debian's package python3-kubernetes
"""
import json
import pathlib
import subprocess
import sys
import tempfile
import time
import urllib.request

from tools.server import free, started

EXAMPLE = pathlib.Path("examples/controller")
ACCOUNT = "system:serviceaccount:default:widgets,system:serviceaccounts,system:serviceaccounts:default,system:authenticated"
WIDGETS, MAPS = "/apis/example.org/v1/namespaces/default/widgets", "/api/v1/namespaces/default/configmaps"


class Failed(Exception):
    """What is not as wanted."""


def ask(port, path, body=None):
    request = urllib.request.Request(f"http://127.0.0.1:{port}{path}", json.dumps(body).encode() if body else None, {"Content-Type": "application/json"})
    with urllib.request.urlopen(request) as answer:
        return json.load(answer)


def wait_for(what, seconds=20):
    """What a function gives once it gives something; an answer that is not there yet is asked for again."""
    until = time.monotonic() + seconds
    while time.monotonic() < until:
        try:
            if found := what():
                return found
        except urllib.error.HTTPError:
            pass
        time.sleep(0.1)
    raise Failed(f"not seen within {seconds} s")


def said(log, words):
    return lambda: words in log.read_text()


def begin(program, room, objects, *roles):
    """A server, a discovery proxy to the controller's port, and the controllers of these names with their logs."""
    ports = free()
    root, account, proxy = (next(ports) for _each in range(3))
    file = pathlib.Path(room, "objects.jsonl")
    file.write_text(objects)
    kinds = ["--kinds", "kubernetes", "--kinds", str(EXAMPLE / "widgets.kinds")]
    running = [started([program, "serve", *kinds, "--load", str(file), f"{root}=root,system:masters", f"{account}={ACCOUNT}"], 2)]
    running.append(started([sys.executable, "tools/kubectl_proxy.py", str(proxy), str(account), "kubernetes", str(EXAMPLE / "widgets.kinds")], 1))
    logs = []
    for name in roles:
        log = pathlib.Path(room, name)
        running.append(subprocess.Popen(["/usr/bin/python3", EXAMPLE / "controller.py", f"http://127.0.0.1:{proxy}", name], stdout=log.open("w")))
        logs.append(log)
        wait_for(said(log, "leads") if name == roles[0] else log.exists)
    return root, running, logs


def create(root, name, size):
    ask(root, WIDGETS, {"apiVersion": "example.org/v1", "kind": "Widget", "metadata": {"name": name}, "spec": {"size": size}})


def takes_over(program, objects):
    with tempfile.TemporaryDirectory() as room:
        root, running, (first, second) = begin(program, room, objects, "first", "second")
        try:
            create(root, "small", 1)
            wait_for(lambda: ask(root, f"{MAPS}/small")["data"] == {"size": "1"})
            wait_for(lambda: ask(root, f"{WIDGETS}/small").get("status") == {"made": "1"})
            time.sleep(3)
            if "leads" in second.read_text():
                raise Failed("two lead")
            running[2].kill()
            begun = time.monotonic()
            wait_for(said(second, "leads"))
            create(root, "large", 9)
            wait_for(lambda: ask(root, f"{MAPS}/large")["data"] == {"size": "9"})
            print(f"the second leads and works {time.monotonic() - begun:.1f} s after the first was ended")
        finally:
            for process in running:
                process.kill()
                process.wait()


def is_refused(program, objects):
    with tempfile.TemporaryDirectory() as room:
        root, running, (log,) = begin(program, room, objects.replace('"verbs":["create","get","update"]', '"verbs":["get"]', 1), "only")
        try:
            create(root, "small", 1)
            wait_for(said(log, "refused: 403 "))
            line = next(it for it in log.read_text().splitlines() if it.startswith("refused:"))
            print(line)
            if "may not do this" not in line:
                raise Failed("the refusal names nothing")
        finally:
            for process in running:
                process.kill()
                process.wait()


def main(program):
    objects = (EXAMPLE / "objects.jsonl").read_text()
    try:
        takes_over(program, objects)
        is_refused(program, objects)
    except Failed as failed:
        print(f"FAILED: {failed}")
        return 1
    print("the controller works, is taken over, and is refused what its Role lacks")
    return 0
