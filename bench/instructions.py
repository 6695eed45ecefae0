"""Counts what a request costs a server: instructions of the processor, also by part, and allocations, by kind. Wants valgrind.

usage: python3 -m bench PROGRAM instructions..

Each figure is the difference of a run of 1,024 requests more, in which watches are woken four times: of one connection, with
eleven bindings. An event is what a put costs more for each of ten watches that see it. A part is that of samples.py, without
the system's.
"""
import collections
import re
import signal
import subprocess
import tempfile

from bench.load import MAPS, objects
from bench.samples import part_of
from tools.server import ANN, ROOT, Server, ask, connect

FEW, MORE, SEEING, IDLE = 200, 1_024, 10, 240
NAMED = re.compile(r"(fn|ob|cfn|cob)=(\(\d+\))(?: (.*))?")
DENIED = "/api/v1/namespaces/default/secrets/a"
OTHERS = "/api/v1/namespaces/other/configmaps"
ROLE = "/apis/rbac.authorization.k8s.io/v1/namespaces/default/roles/reader"
KINDS = {
    "a health request": (ROOT, "GET", "/healthz", None, []),
    "a get": (ANN, "GET", f"{MAPS}/map-0", None, []),
    "a denied get": (ANN, "GET", DENIED, None, []),
    "a put": (ROOT, "PUT", f"{MAPS}/map-0", "map-0", []),
    "a post": (ROOT, "POST", MAPS, "made-{}", []),
    "a patch of a role": (ROOT, "PATCH", ROLE, ROLE, []),
    "a put that ten watches see": (ROOT, "PUT", f"{MAPS}/map-0", "map-0", [MAPS] * SEEING),
    "a get beside 240 watches of another namespace": (ANN, "GET", f"{MAPS}/map-0", None, [OTHERS] * IDLE),
    "a put beside 240 watches of another namespace": (ROOT, "PUT", f"{MAPS}/map-0", "map-0", [OTHERS] * IDLE),
}


def body(name, number):
    """A configmap that no request before had, or what a patch changes of a role."""
    if name is None:
        return None
    if name == ROLE:
        return {"metadata": {"annotations": {"key": f"{number:>0100}"}}}
    return {"metadata": {"name": name.format(number), "namespace": "default"}, "data": {"key": f"{number:>0100}"}}


def watch_of(path):
    """A connection that watches what is there."""
    watch = connect(ROOT)
    ask(watch, "GET", f"{path}?watch=1")
    return watch


def send(kind, times):
    """Sends so many requests, and takes in what the watches show that see them."""
    port, method, path, name, watched = kind
    watches = [watch_of(each) for each in watched]
    seeing = watches if MAPS in watched else []
    client = connect(port)
    for number in range(times):
        ask(client, method, path, body(name, number))
        for watch in seeing:
            watch.recv(65536)
    for each in [client, *watches]:
        each.close()


def told_by(program, options, kind, times):
    """What valgrind tells on standard error of a server that answers so many requests."""
    with Server(program, objects=objects(10, 1), before=["valgrind", *options], stderr=subprocess.PIPE, text=True) as server:
        send(kind, times)
        server.process.send_signal(signal.SIGTERM)
        return server.process.communicate()[1]


def own_costs(lines):
    """The instructions of each part, read off a file of callgrind's: those of each function, without those of what it calls."""
    names, costs, function, place, is_of_callee = {}, collections.Counter(), "", "", False
    for line in lines:
        if named := NAMED.match(line):
            kind, number, name = named.groups()
            name = names.setdefault((kind[-2:], number), name)
            function, place = (name if kind == "fn" else function), (name if kind == "ob" else place)
        elif line.startswith("calls="):
            is_of_callee = True
        elif line[0] in "0123456789+-*":
            if not is_of_callee:
                costs[part_of(place.rpartition("/")[2], function)] += int(line.split()[1])
            is_of_callee = False
    return costs


def instructions(program, kind, times):
    with tempfile.NamedTemporaryFile("r") as told:
        told_by(program, ["--tool=callgrind", f"--callgrind-out-file={told.name}"], kind, times)
        return own_costs(line for line in told if line.strip())


def allocations(program, kind, times):
    told = told_by(program, ["--tool=memcheck", "--undef-value-errors=no"], kind, times)
    return collections.Counter(allocations=int(re.search(r"total heap usage: ([\d,]+) allocs", told)[1].replace(",", "")))


def for_each(count, program, kind):
    """What each request more costs, by part."""
    more = count(program, kind, FEW + MORE)
    more.subtract(count(program, kind, FEW))
    return {part: cost / MORE for part, cost in more.most_common()}


def main(*programs):
    for program in programs:
        print(program)
        for name, kind in KINDS.items():
            parts = for_each(instructions, program, kind)
            print(f"  {name}: {sum(parts.values()):,.0f} instructions, {for_each(allocations, program, kind)['allocations']:,.1f} allocations")
            print("   ", ", ".join(f"{part} {cost:,.0f}" for part, cost in parts.items() if cost >= 50), flush=True)
