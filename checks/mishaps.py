"""Lets each call of a server on its clients fail in turn, pass one byte, or find nothing, and looks at what four clients get.

usage: python3 -m checks PROGRAM mishaps     needs cc

A watch, a client who writes (`turned` of checks/sockets.py), one without rights, and one of the answer port are there at once. Calls that pass one
byte or find nothing change nothing of what each gets. One that fails ends one connection: its client got a beginning of what was due, all others
get theirs, but for the watch if the writer is cut off.
"""
import contextlib
import itertools
import mmap
import os
import re
import socket
import struct
import tempfile

from checks.harness import preloaded
from checks.sockets import MAPS, ROLES, SECONDS, TURNING, got, revision, turned, until
from tools.server import ANN, ANSWER, ROOT, Server, ask, connect, request

NOTHING, BYTE, WAITS, FAILS = range(4)
# The kinds of mishaps, and the numbers of the calls that have them; 0 stands for each one.
MISHAPS = ((BYTE, [0]), (BYTE, itertools.count(1)), (WAITS, itertools.count(1)), (FAILS, itertools.count(1)))
QUESTIONS = b'{"user":"ann","resourceAttributes":{"verb":"get","resource":"pods"}}\n' * 2
CUTS = ([], ["watch"], ["writer"], ["watch", "writer"], ["ann"], ["asker"])


def talk(base, refusal):
    """What is due to each client behind a revision, and what it gets."""
    shown, answered = turned(base)
    due = {"watch": shown, "writer": answered, "ann": refusal, "asker": b"N denied\n" * 2}
    sent = request("GET", f"{ROLES}?watch=1&resourceVersion={base}"), b"".join(TURNING), request("GET", MAPS), QUESTIONS
    clients = dict(zip(due, map(connect, (ROOT, ROOT, ANN, ANSWER))))
    for (name, client), text in zip(clients.items(), sent):
        with contextlib.suppress(OSError):
            client.sendall(text)
            if name != "watch":
                client.shutdown(socket.SHUT_WR)
    told = {name: got(clients[name]) for name in ("writer", "ann", "asker")}
    # If the writer was cut off, what the watch has yet is all that it gets.
    clients["watch"].settimeout(SECONDS if told["writer"] == answered else 0)
    told["watch"] = got(clients["watch"], len(shown))
    told["asker"] = re.sub(rb"^\d+", b"N", told["asker"], flags=re.MULTILINE)
    return due, told


def is_right(kind, due, told):
    cut = [name for name in due if told[name] != due[name]]
    return cut in (CUTS if kind == FAILS else [[]]) and all(due[name].startswith(told[name]) for name in cut)


def play(server, plan):
    """Each mishap: its kind, the number of its call, how many calls were made, and whether the clients got what they should and left nothing behind."""
    root, ann = connect(ROOT), connect(ANN)
    refusal, _made, before = ask(ann, "GET", MAPS), revision(root), server.descriptors()
    for kind, numbers in MISHAPS:
        for number in numbers:
            base = revision(root)
            struct.pack_into("III", plan, 0, kind, number, 0)
            try:
                due, told = talk(base, refusal)
            except TimeoutError:
                yield kind, number, 0, False
                return
            calls = struct.unpack_from("III", plan)[2]
            struct.pack_into("III", plan, 0, NOTHING, 0, 0)
            yield kind, number, calls, is_right(kind, due, told) and until(lambda: server.descriptors() == before)
            for name in ("sum", "part"):
                ask(root, "DELETE", f"{ROLES}/{name}")
            if calls < number:
                break


def main(program):
    socket.setdefaulttimeout(SECONDS)
    with preloaded("mishap.c") as shim, tempfile.NamedTemporaryFile() as file:
        file.truncate(mmap.PAGESIZE)
        plan, made = mmap.mmap(file.fileno(), mmap.PAGESIZE), 0
        with Server(program, "--answer", str(ANSWER), env={**os.environ, **shim, "MISHAP": file.name}) as server:
            for kind, number, calls, is_well in play(server, plan):
                made += calls
                yield f"{f'call {number}' if number else 'each call'} {('', 'passes a byte', 'finds nothing', 'fails')[kind]}", not is_well
        yield "calls of a C library", not made
