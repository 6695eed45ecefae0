"""Clients that come in a crowd, ask for much at once or byte by byte, go away, or take nothing; sleeping watches, and turns, for which nobody asks.

usage: python3 -m checks PROGRAM sockets
"""
import contextlib
import functools
import json
import pathlib
import select
import signal
import socket
import struct
import sys
import time

from checks.hostile import is_served
from tools.server import ROOT, Client, Server, ask, connect, request, whole_answer

SECONDS = 60
# What docs/PROFILE.md and docs/KUBERNETES.md say: connections, bytes of two turns, bytes kept of what is not served, bytes that wait, of a head, and changes.
OPEN, SHARES, UNSERVED, PENDING, HEAD, KEPT = 256, 4_096, 2_097_152, 1_048_576, 16_384, 1_024
LARGE = 600_000
# So many large answers are more than the sockets of a client that takes nothing hold, and what waits for it besides.
STALLING = (int(pathlib.Path("/proc/sys/net/ipv4/tcp_wmem").read_text().split()[2]) + 2 * PENDING) // LARGE + 1
ALL_MAPS, MAPS, OTHERS = "/api/v1/configmaps", "/api/v1/namespaces/default/configmaps", "/api/v1/namespaces/other/configmaps"
ROLES = "/apis/rbac.authorization.k8s.io/v1/clusterroles"
WATCHED = b"HTTP/1.1 200 OK\r\nContent-Type: application/json\r\nTransfer-Encoding: chunked\r\n\r\n"
HEALTH = request("GET", "/healthz")


def until(holds):
    """Whether something holds before long."""
    end = time.monotonic() + SECONDS
    while not holds() and time.monotonic() < end:
        time.sleep(0.005)
    return holds()


@contextlib.contextmanager
def standing(server):
    """The server stands still meanwhile."""
    server.process.send_signal(signal.SIGSTOP)
    stat = pathlib.Path(f"/proc/{server.process.pid}/stat")
    until(lambda: stat.read_text().rsplit(")", 1)[1].split()[0] == "T")
    yield
    server.process.send_signal(signal.SIGCONT)


def unread(client):
    """How many bytes of what a client has sent the server has not read."""
    ends = ["0100007F:%04X" % it[1] for it in (client.getsockname(), client.getpeername())]
    rows = [line.split()[1:5] for line in pathlib.Path("/proc/net/tcp").read_text().splitlines()]
    return sum(int(queues[:8] if places == ends else queues[9:], 16) for *places, _state, queues in rows if places in (ends, ends[::-1]))


def reset(client):
    """Ends a connection, whatever is under way on it."""
    client.setsockopt(socket.SOL_SOCKET, socket.SO_LINGER, struct.pack("ii", 1, 0))
    client.close()


def got(client, most=sys.maxsize):
    """What a client gets until its connection ends, or until it is so much."""
    answer = b""
    with client, contextlib.suppress(ConnectionError, BlockingIOError):
        while len(answer) < most and (piece := client.recv(65536)):
            answer += piece
    return answer


def is_answered(client):
    return ask(client, "GET", "/healthz").startswith(b"HTTP/1.1 200 ")


def create(client, path, name, letters=0):
    answer = ask(client, "POST", path, {"metadata": {"name": name}, **({"data": {"k": "a" * letters}} if letters else {})})
    assert answer.startswith(b"HTTP/1.1 201 "), answer


def crowd(_server):
    clients = [connect(ROOT) for _client in range(OPEN)]
    yield f"{OPEN} clients are answered", all(map(is_answered, clients))
    yield "one more is turned away", got(connect(ROOT)) == b""
    yield "that changes nothing for the others", all(map(is_answered, clients))
    clients.pop(100).close()
    yield "there is room when one has left", until(is_served)


def fair(server):
    writes = [request("POST", MAPS, json.dumps({"metadata": {"name": f"m{number:03}"}})) for number in range(500)]
    with standing(server):
        greedy, other = connect(ROOT), connect(ROOT)
        greedy.sendall(b"".join(writes))
        other.sendall(request("GET", MAPS))
    written = whole_answer(other).count(b'"uid"')
    yield f"a client waits for two shares of another one at most, and not for {written} of its writes", 0 < written <= SHARES // len(writes[0])
    yield "all its writes are made", until(lambda: ask(other, "GET", MAPS).count(b'"uid"') == len(writes))


def leave_answer():
    """Goes away as an answer has come that is not read, so that the system resets the connection."""
    client = connect(ROOT)
    client.sendall(HEALTH)
    select.select([client], [], [], SECONDS)
    client.close()


def leave_part():
    """Has sent more than is read at once, and no whole request."""
    client = connect(ROOT)
    client.sendall(b"GET /a" * 1_700)
    client.close()


def leave_watch():
    client = connect(ROOT)
    ask(client, "GET", f"{MAPS}?watch=1")
    reset(client)


def gone(server):
    before = server.descriptors()
    for leave in (leave_answer, leave_part, leave_watch):
        leave()
        yield f"the connection ends: {leave.__name__}", until(lambda: server.descriptors() == before)
    with standing(server):
        leave_part()
    yield "it ends if what was sent and its end come at once", is_served() and until(lambda: server.descriptors() == before)
    answer, asking, watching = ask(connect(ROOT), "GET", "/healthz"), connect(ROOT), connect(ROOT)
    asking.sendall(HEALTH * 2 + HEALTH[:9])
    ask(watching, "GET", f"{MAPS}?watch=1")
    for client, told in ((asking, answer * 2), (watching, b"")):
        client.shutdown(socket.SHUT_WR)
        yield "what was asked is answered when no more comes, and the connection closed", got(client) == told


def revision(client):
    """The revision of all objects."""
    return int(json.loads(ask(client, "GET", "/api/v1/namespaces").split(b"\r\n\r\n")[1])["metadata"]["resourceVersion"])


def watches(_server):
    """A watch that takes nothing, and such as sleep, while more changes are made than are kept."""
    root, slow = connect(ROOT), Client(ROOT, SECONDS)
    slow.reply("GET", f"{MAPS}?watch=1")
    for number in range(STALLING):
        create(root, MAPS, f"large-{number:02}", LARGE)
    small = [f"small-{number:04}" for number in range(KEPT + 76)]
    wanted, base = {OTHERS: ["last"], ROLES: ["last"], ALL_MAPS: [*small, "last"]}, revision(root)
    watchers = {place: Client(ROOT, SECONDS) for place in wanted}
    for place, watcher in watchers.items():
        watcher.reply("GET", f"{place}?watch=1&resourceVersion={base}")
    create(root, "/api/v1/namespaces", "other")
    for name in small:
        create(root, MAPS, name)
    create(root, OTHERS, "last")
    create(root, ROLES, "last")
    for place, names in wanted.items():
        yield f"a watch of {place} shows each change", [name_of(watchers[place].event()) for _name in names] == names
    told = []
    while (event := slow.event()) not in ("end", "nothing"):
        told.append(name_of(event))
    due = [f"large-{number:02}" for number in range(len(told) - 1)] + ["410"]
    yield "a watch that took nothing is told what waited for it, and then 410", (told, event) == (due, "end") and 2 < len(told)
    yield "then its connection is served", is_answered(slow.socket)


def name_of(event):
    """The name that an event of a watch shows, or the code of its error."""
    return event if isinstance(event, str) else event["object"]["metadata"].get("name") or str(event["object"]["code"])


def watcher_sends(server):
    """A client sends as much as is kept behind a watch, and then a byte more."""
    before, watch, root = server.descriptors(), Client(ROOT, SECONDS), connect(ROOT)
    watch.reply("GET", f"{MAPS}?watch=1")
    watch.socket.sendall(b"a" * UNSERVED)
    yield "what is sent behind a watch is read", until(lambda: not unread(watch.socket))
    create(root, MAPS, "a")
    yield "the watch goes on", name_of(watch.event()) == "a"
    watch.socket.sendall(b"a")
    yield "a byte more ends it, and nobody else", until(lambda: server.descriptors() == before + 1) and is_answered(root)


def deaf(server):
    """A client asks for more than waits for it, and then as much as is kept, before it takes anything; and one that sends more."""
    before, root = server.descriptors(), connect(ROOT)
    create(root, MAPS, "large", LARGE)
    large, none = (ask(root, "GET", f"{MAPS}/{name}") for name in ("large", "none"))
    head, end = request("GET", f"{MAPS}/none")[:-2] + b"X: ", b"\r\n\r\n"
    longest = head + b"a" * (HEAD - len(head + end)) + end
    late, never = connect(ROOT), connect(ROOT)
    for client in (late, never):
        client.sendall(request("GET", f"{MAPS}/large") * STALLING + longest * (UNSERVED // HEAD - 1))
        yield "what a client sends that takes nothing is read", until(lambda: not unread(client))
    yield "and its connection stays", server.descriptors() == before + 3
    with contextlib.suppress(ConnectionError):
        never.sendall(longest * 2)
    yield "too much of it ends the connection", until(lambda: server.descriptors() == before + 2) and is_answered(root)
    told = large * STALLING + none * (UNSERVED // HEAD - 1)
    yield "a client that takes late is answered in full", got(late, len(told)) == told


text_of = functools.partial(json.dumps, separators=(",", ":"), sort_keys=True)


def role(name, made, revision, rules=(), **more):
    """A cluster role that was made with a revision, as it is at another."""
    metadata = {"name": name, "resourceVersion": str(revision), "uid": f"00000000-0000-4000-8000-{made:012x}"}
    taking = {"aggregationRule": {"clusterRoleSelectors": [{"matchLabels": LABELS}]}} if name == "sum" else {}
    return {"apiVersion": "rbac.authorization.k8s.io/v1", "kind": "ClusterRole", "metadata": metadata | more, "rules": list(rules)} | taking


LABELS, RULES = {"agg": "m"}, [{"apiGroups": [""], "resources": ["pods"], "verbs": ["get"]}]
# An aggregated role is made and one whose rules it takes, which goes again.
TURNING = [
    request("POST", ROLES, text_of({"metadata": {"name": "sum"}, "aggregationRule": {"clusterRoleSelectors": [{"matchLabels": LABELS}]}})),
    request("POST", ROLES, text_of({"metadata": {"name": "part", "labels": LABELS}, "rules": RULES})),
    request("GET", f"{ROLES}/sum"),
    request("DELETE", f"{ROLES}/part"),
    request("GET", f"{ROLES}/sum"),
]


def turned(base):
    """What a watch from a revision on is sent of that, and what the requests are answered."""
    first, taken, left = role("sum", base + 1, base + 1), role("sum", base + 1, base + 3, RULES), role("sum", base + 1, base + 5)
    part, removed = (role("part", base + 2, base + it, RULES, labels=LABELS) for it in (2, 4))
    details = {"group": "rbac.authorization.k8s.io", "kind": "clusterroles", "name": "part", "uid": part["metadata"]["uid"]}
    deleted = {"apiVersion": "v1", "details": details, "kind": "Status", "metadata": {}, "status": "Success"}
    events = [text_of({"object": it, "type": kind}) + "\n" for kind, it in (("ADDED", first), ("ADDED", part), ("MODIFIED", taken), ("DELETED", removed), ("MODIFIED", left))]
    answers = [(status, text_of(it)) for status, it in (("201 Created", first), ("201 Created", part), ("200 OK", taken), ("200 OK", deleted), ("200 OK", left))]
    return WATCHED + "".join(f"{len(it):x}\r\n{it}\r\n" for it in events).encode(), \
        "".join(f"HTTP/1.1 {status}\r\nContent-Type: application/json\r\nContent-Length: {len(it)}\r\n\r\n{it}" for status, it in answers).encode()


def turns(_server):
    root = connect(ROOT)
    for pieces in (TURNING, [b"".join(TURNING)], [bytes([it]) for it in b"".join(TURNING)]):
        base = revision(root)
        watcher, writer, later = (connect(ROOT) for _client in range(3))
        shown, answered = turned(base)
        watcher.sendall(request("GET", f"{ROLES}?watch=1&resourceVersion={base}"))
        writer.setsockopt(socket.IPPROTO_TCP, socket.TCP_NODELAY, 1)
        for piece in pieces:
            # The slot of the later client has its turn behind the writer's, so the piece is read when it is answered.
            writer.sendall(piece)
            is_answered(later)
        yield f"turns are shown to a client who sends {len(pieces)} pieces", got(writer, len(answered)) == answered
        yield "and to a watch", got(watcher, len(shown)) == shown
        ask(root, "DELETE", f"{ROLES}/sum")


def main(program):
    socket.setdefaulttimeout(SECONDS)
    for scene in (crowd, fair, gone, watches, watcher_sends, deaf, turns):
        with Server(program) as server:
            try:
                yield from ((f"{scene.__name__}: {what}", not holds) for what, holds in scene(server))
            except (OSError, ValueError, AssertionError) as error:
                yield scene.__name__, repr(error)
