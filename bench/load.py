"""Measures a server under load, and prints requests a second, processor times and resident memory. Wants wrk.

usage: python3 -m bench PROGRAM load     bench/echo.c is compiled and measured beside it
"""
import itertools
import json
import pathlib
import re
import statistics
import subprocess
import tempfile
import threading
import time

from tools.server import ANN, OTHER, ROOT, Server, ask, connect, request, seconds_of, started, whole_answer

MAPS = "/api/v1/namespaces/default/configmaps"
RULES = [{"apiGroups": [""], "resources": ["configmaps"], "verbs": ["get", "list", "watch"]}]


def config_map(name):
    return {"apiVersion": "v1", "kind": "ConfigMap", "metadata": {"name": name, "namespace": "default"}, "data": {"key": "x" * 100}}


def binding(name, user):
    rbac = "rbac.authorization.k8s.io"
    subject = {"kind": "User", "name": user, "apiGroup": rbac}
    return {"apiVersion": f"{rbac}/v1", "kind": "RoleBinding", "metadata": {"name": name, "namespace": "default"},
            "subjects": [subject], "roleRef": {"apiGroup": rbac, "kind": "Role", "name": "reader"}}


def objects(bindings, maps):
    """A role that reads configmaps, bound to ann and to so many others, and configmaps."""
    role = {"apiVersion": "rbac.authorization.k8s.io/v1", "kind": "Role", "metadata": {"name": "reader", "namespace": "default"}, "rules": RULES}
    others = [binding(f"b-{number}", f"user-{number}") for number in range(bindings)]
    return [role, binding("ann-reads", "ann"), *others, *[config_map(f"map-{number}") for number in range(maps)]]


def labelled(number):
    """A configmap with three labels."""
    labels = {"app": f"app-{number % 7}", "tier": "backend", "release": f"r{number % 100}"}
    return config_map(f"map-{number}") | {"metadata": {"name": f"map-{number}", "namespace": "default", "labels": labels}}


def loaded(program, bindings=10, maps=1, more=()):
    """A server of these objects."""
    return Server(program, objects=[*objects(bindings, maps), *more])


def written(name, value):
    """A configmap that a request writes."""
    return json.dumps({"metadata": {"name": name, "namespace": "default"}, "data": {"key": value}})


# In the place of NUMBER stands a number that no request before had.
NUMBER = "#" * 9
KINDS = {
    "a health request": (ROOT, "GET", "/healthz", ""),
    "a get": (ANN, "GET", f"{MAPS}/map-0", ""),
    "a denied get": (ANN, "GET", "/api/v1/namespaces/default/secrets/a", ""),
    "a post": (ROOT, "POST", MAPS, written(f"made-{NUMBER}", "x")),
    "a put": (ROOT, "PUT", f"{MAPS}/map-0", written("map-0", NUMBER)),
}
RUNS = itertools.count(1)


def wrk_script(method, body):
    """What wrk is to send: the method and the body, whose number goes on behind those of earlier runs."""
    before, _number, behind = body.partition(NUMBER)
    return f"""wrk.method = "{method}"
local number = {next(RUNS) * 10_000_000}
local function numbered()
  number = number + 1
  return wrk.format(nil, nil, nil, [==[{before}]==] .. string.format("%09d", number) .. [==[{behind}]==])
end
request = {"numbered" if body else "nil"}
"""


def answered(kind, connections, seconds=4, port=None):
    """How many requests wrk got answers to, all of them granted but for those of a denied get."""
    own, method, path, body = KINDS[kind]
    with tempfile.NamedTemporaryFile("w", suffix=".lua") as file:
        file.write(wrk_script(method, body))
        file.flush()
        words = ["wrk", "-t", "1", "-c", str(connections), "-d", f"{seconds}s", "-s", file.name, f"http://127.0.0.1:{port or own}{path}"]
        told = subprocess.run(words, capture_output=True, text=True, check=True).stdout
    if kind != "a denied get" and "Non-2xx" in told:
        raise SystemExit(f"{kind} is refused:\n{told}")
    return int(re.search(r"(\d+) requests in", told)[1])


def rates(kind, connections, times=3):
    """Requests a second, of several runs."""
    return ", ".join(str(answered(kind, connections) // 4) for _time in range(times))


def time_of_each(process, kind, port=None):
    """Microseconds of a process for each request that is answered in four seconds over 8 connections: its own, and the system's."""
    before = seconds_of(process)
    count = answered(kind, 8, 4, port)
    return [(after - then) * 1_000_000 / count for after, then in zip(seconds_of(process), before)]


def beside_the_echo(program, echo, kind):
    """The processor time of a request beside that of an echo of its answer, of five pairs of runs in turns: medians, and each ratio."""
    port, method, path, body = KINDS[kind]
    with loaded(program) as server, tempfile.NamedTemporaryFile() as reply:
        reply.write(answer_to(port, request(method, path, body.replace(NUMBER, "0" * 9))))
        reply.flush()
        other = started([echo, str(OTHER), reply.name], 1)
        try:
            pairs = [(time_of_each(server.process, kind), time_of_each(other, kind, OTHER)) for _pair in range(5)]
        finally:
            other.kill()
            other.wait()
    ours, theirs = ([round(statistics.median(times), 1) for times in zip(*side)] for side in zip(*pairs))
    ratios = sorted(sum(one) / sum(other) for one, other in pairs)
    print(f"{kind}: {ours} us of its own and of the system, the echo {theirs};", "ratios", *(f"{ratio:.2f}" for ratio in ratios), flush=True)


def drip(sockets, is_over):
    """Each connection sends one byte a second of a head that never ends."""
    head = b"GET /healthz HTTP/1.1\r\nHost: a\r\nX: " + b"y" * 10_000
    for byte in head:
        for each in sockets:
            if is_over.is_set():
                return
            each.send(bytes([byte]))
            time.sleep(1 / len(sockets))


def beside_slow():
    """Requests a second over one connection while 255 others send one byte a second each."""
    sockets, is_over = [connect(ROOT) for _client in range(255)], threading.Event()
    slow = threading.Thread(target=drip, args=(sockets, is_over))
    slow.start()
    rate = rates("a get", 1, 1)
    is_over.set()
    slow.join()
    for each in sockets:
        each.close()
    return rate


def answer_to(port, text):
    """The bytes that a request is answered."""
    with connect(port) as client:
        client.sendall(text)
        return whole_answer(client)


def change(times):
    """Changes a configmap so often."""
    with connect(ROOT) as client:
        for number in range(times):
            ask(client, "PATCH", f"{MAPS}/map-0", {"data": {"key": str(number) + "x" * 1000}})


def cost(server, requests):
    """Microseconds of the server's processor time for each of some requests of root."""
    client, before = connect(ROOT), server.seconds()
    for one in requests:
        ask(client, *one)
    client.close()
    return round((server.seconds() - before) * 1_000_000 / len(requests), 1)


def beside_watches(program, count, namespace, times=10_000):
    """What a get and a put cost beside so many watches of a namespace, in microseconds."""
    with loaded(program) as server:
        root = connect(ROOT)
        ask(root, "POST", "/api/v1/namespaces", {"metadata": {"name": "other"}})
        watches = [connect(ROOT) for _watch in range(count)]
        for watch in watches:
            ask(watch, "GET", f"/api/v1/namespaces/{namespace}/configmaps?watch=1")
        gets = [("GET", f"{MAPS}/map-0")] * times
        puts = [("PUT", f"{MAPS}/map-0", config_map("map-0") | {"data": {"key": str(number)}}) for number in range(times if namespace != "default" else 400)]
        told = cost(server, gets), cost(server, puts)
        for each in [root, *watches]:
            each.close()
        return told


# What is loaded by the thousands.
KEPT = {
    "configmaps of 100 bytes": lambda number: config_map(f"more-{number}"),
    "configmaps of 100 bytes and three labels": labelled,
    "role bindings": lambda number: binding(f"more-{number:06}", f"other-{number}"),
}


def kept(program, make, count):
    """The kB resident of a server that has loaded so many more objects, and the microseconds that it took."""
    with loaded(program, maps=0, more=[make(number) for number in range(count)]) as server:
        return server.resident(), round(server.seconds() * 1_000_000)


def main(program):
    with tempfile.TemporaryDirectory() as room:
        echo = f"{room}/echo"
        subprocess.run(["cc", "-O2", "-o", echo, pathlib.Path(__file__).with_name("echo.c")], check=True)
        for kind in KINDS:
            beside_the_echo(program, echo, kind)
    for bindings in (10, 10_000):
        with loaded(program, bindings):
            print(f"a get and a denied get, {bindings:,} bindings, requests a second over 8 connections:", rates("a get", 8), "and", rates("a denied get", 8))
    with loaded(program):
        for _pair in range(5):
            print("a get over 1 connection, alone and beside 255 that send one byte a second:", rates("a get", 1, 1), beside_slow())
    with loaded(program) as server:
        watcher = connect(ANN)
        watcher.sendall(request("GET", f"{MAPS}?watch=1"))
        change(2000)
        before = server.resident()
        change(20_000)
        print("a watcher that reads nothing, kB resident after 2,000 and after 22,000 changes:", before, server.resident())
        watcher.close()
    for count, namespace in ((0, "other"), (240, "other"), (240, "default")):
        print(f"a get and a put of a configmap, us of processor time, beside {count} watches of the namespace {namespace}:", *beside_watches(program, count, namespace))
    for name, make in KEPT.items():
        (few, _brief), (many, long) = kept(program, make, 10_000), kept(program, make, 100_000)
        each = (many - few) * 1024 // 90_000
        print(f"10,000 and 100,000 {name}: {few:,} and {many:,} kB resident, {each:,} bytes each; {long / 100_000:.1f} us each to load")
