"""Changes the policy of a server while clients of its answer port ask, and looks at what they are told; and at when scripts and audits answer.

usage: python3 -m checks PROGRAM live

A role is made (the first change) and then a binding of it made and deleted 100 times. After an even number of changes from 2 on ann is
allowed, else denied; the number never falls on a connection, and is 201 in the end. Clients who go away amid a line, or before their answers, take
no reader with them. A script's answer comes before its next line is read, and readers of an audit run at once.
"""
import contextlib
import os
import pty
import select
import socket
import subprocess
import threading
import time
import tty

from checks.harness import bound, room, rule, thing
from checks.sockets import SECONDS, reset, unread, until
from tools.server import ANSWER, ROOT, Server, ask, connect, of_threads

READERS, TIMES = 4, 100
POLICY = "/apis/rbac.authorization.k8s.io/v1/namespaces/default"
QUESTION = b'{"user":"ann","resourceAttributes":{"namespace":"default","verb":"get","resource":"pods"}}\n'
ROLE, BINDING = thing("Role", "r", rules=[rule("get", "pods")]), thing("RoleBinding", "b", **bound("Role r", "User ann"))


def change(client, method, path, item=None):
    answer = ask(client, method, POLICY + path, item)
    assert answer.startswith(b"HTTP/1.1 2"), answer


def change_often():
    client = connect(ROOT)
    change(client, "POST", "/roles", ROLE)
    for _time in range(TIMES):
        change(client, "POST", "/rolebindings", BINDING)
        change(client, "DELETE", "/rolebindings/b")


def question(told, is_over):
    client = connect(ANSWER)
    lines = client.makefile("r")
    while not is_over.is_set():
        client.sendall(QUESTION)
        told.append(lines.readline())
    client.sendall(QUESTION)
    told.append(lines.readline())


def go_away():
    """As many clients as there are readers go away amid a line, and as many before their answers."""
    for text in (QUESTION[:20], QUESTION * 1_000):
        clients = [connect(ANSWER) for _reader in range(READERS)]
        for client in clients:
            client.sendall(text)
        for client in clients:
            until(lambda: client.recv(1) if text.endswith(b"\n") else not unread(client))
            reset(client)


def is_right(told):
    counts = [int(line.split()[0]) for line in told if line[:1].isdigit()]
    return len(counts) == len(told) > 0 and counts == sorted(counts) and counts[-1] == 2 * TIMES + 1 and all((" allowed " in line) == (n >= 2 and n % 2 == 0) for n, line in zip(counts, told))


def script(program):
    """Whether a script's answer comes before its next line is read; then the script cannot be read any more."""
    ours, theirs = pty.openpty()
    tty.setraw(theirs)
    process, told = subprocess.Popen([program, "script"], stdin=ours, stdout=subprocess.PIPE, stderr=subprocess.PIPE), []
    os.close(ours)
    for line in (b"open a\n", b"turn\n"):
        os.write(theirs, line)
        select.select([process.stdout], [], [], SECONDS)
        os.set_blocking(process.stdout.fileno(), False)
        told.append(process.stdout.read())
    os.close(theirs)
    return (*told, *process.communicate(timeout=SECONDS), process.returncode) == (b"conn 0\n", b"none\n", b"", b"the script cannot be read\n", 1)


def audit(program, folder):
    """Whether two threads of an audit went on between two looks, thrice; of one that takes some seconds, if shorter ones do not show it."""
    for power in range(5, 11):
        (folder / "questions").write_bytes(QUESTION * 4**power)
        process = subprocess.Popen([program, "audit", "policy", "questions", "--readers", "2"], cwd=folder, stdout=subprocess.DEVNULL)
        before, times = {}, 0
        while process.poll() is None and times < 3 and sum(before.values()) < 4e9:
            time.sleep(0.005)
            with contextlib.suppress(OSError):
                now = of_threads(process)
                times += sum(now[it] > before.get(it, now[it]) for it in now) > 1
                before = now
        process.kill()
        process.wait()
        if times == 3 or sum(before.values()) >= 4e9:
            return times == 3
    return False


def main(program):
    socket.setdefaulttimeout(SECONDS)
    told, is_over = [[] for _reader in range(READERS)], threading.Event()
    with Server(program, "--answer", str(ANSWER), "--readers", str(READERS)):
        go_away()
        clients = [threading.Thread(target=question, args=(each, is_over)) for each in told]
        for client in clients:
            client.start()
        change_often()
        is_over.set()
        for client in clients:
            client.join()
    yield from ((f"{len(each)} answers, {len({line.partition(' ')[0] for line in each})} numbers of changes", not is_right(each)) for each in told)
    yield "a script's answers come at once", not script(program)
    with room({"policy": ""}) as folder:
        yield "readers of an audit run at once", not audit(program, folder)
