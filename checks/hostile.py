"""Attacks a server on 127.0.0.1 as a client with few rights may, and prints what each attack costs the others.

usage: python3 -m checks PROGRAM hostile [ATTACK..]     all attacks if none is named

Without any right: greedy flood silent stalled idle spin line readers trees asked. With the right to read: list unread selected selector
window. To create roles: memory missing rules bound_again. To create cluster roles: labels unions. To create reviews: groups many repeats
own_rules. To write bindings: subjects.
Each attack starts a server of its own on free ports, is bounded in count and time, and gives figures: what, how much, and at most how much.
"""
import contextlib
import itertools
import multiprocessing
import resource
import select
import socket
import statistics
import time
from concurrent.futures import ThreadPoolExecutor

from checks.harness import RBAC, bound, compact, cost, judged, rule, thing
from tools import server as ports
from tools.server import Server, ask, connect, free, request, whole_answer

MAPS, PODS, OTHERS = (f"/api/v1/namespaces/{it}" for it in ("default/configmaps", "default/pods", "other/configmaps"))
REVIEWS, SELF_REVIEWS = (f"/apis/authorization.k8s.io/v1/{it}" for it in ("subjectaccessreviews", "selfsubjectaccessreviews"))
ROLES, BINDINGS_IN, CLUSTER_ROLES = (f"/apis/{RBAC}/v1/{it}" for it in ("namespaces/default/roles", "namespaces/default/rolebindings", "clusterroles"))
GET = request("GET", MAPS)
QUESTION = b'{"user":"ann","resourceAttributes":{"verb":"get","resource":"pods"}}\n'
GREEDY_CLIENTS, GREEDY_SECONDS = 8, 20
CONNECTS, FLOODERS, FLOOD_SECONDS = 100_000, 4, 10
SILENT_CLIENTS, SILENT_SECONDS = 450, 75
STALLED_CLIENTS, STALLED_REQUESTS, GETS = 240, 320, 20_000
SPIN_SECONDS = 2
LINE_BYTES = 64_000_000
LABELS, REQUIREMENTS, PATCHES = 2_000, 5_000, 200
GROUPS, REPEATS, BINDINGS = 16_000, 1_000, 2_000
STARVED_CLIENTS, STARVED_SECONDS, LONG = 50, 20, 320
IDLE_CLIENTS, LET_IN, LISTED, WIDE, CHECKED, LABELLED = 320, 100, 100_000, 56, 1_000, 5_000
MANY, MANY_SECONDS, JUNK = 50, 15, [{"": 0}] * (1_000_000 // 7)
QUIET, REMOVED = 100, 1_024
RULES = 300
UNREAD, UNREAD_OBJECTS = 250, 10_000
ASKED = 4_000
SELECTED, SUBJECTS = 5_000, 32_000


def answering(program, **how):
    """A server with a port for questions."""
    return Server(program, "--answer", str(ports.ANSWER), "--readers", "2", **how)


def grant(kind, verbs, resources="configmaps", groups="", more=()):
    """Objects by which ann may do something and has more rules, in the namespace default or, for a ClusterRole, everywhere."""
    place = "default" if kind == "Role" else None
    return [thing(kind, "granted", place, rules=[rule(verbs, resources, groups), *more]), thing(f"{kind}Binding", "granted", place, **bound(f"{kind} granted", "User ann"))]


def writers(*more):
    return grant("Role", "create", "roles", RBAC, more)


def long_rule(count, prefix=""):
    """A rule of four lists of so many entries."""
    return {word: [f"{prefix}{word[0]}{number}" for number in range(count)] for word in ("apiGroups", "resources", "resourceNames", "verbs")}


def role_of(*rules):
    return {"metadata": {"name": "made"}, "rules": rules}


def maps(count, **members):
    return [thing("ConfigMap", f"m{number:06}", "default", **members) for number in range(count)]


def waits(seconds, pause=0.02):
    """Milliseconds that each of root's gets waits for its answer, one after the other over one connection; the last one may have none."""
    client, told, end = connect(ports.ROOT), [], time.monotonic() + seconds
    client.settimeout(seconds)
    while time.monotonic() < end:
        begin, answer = time.monotonic(), None
        with contextlib.suppress(OSError):
            client.sendall(GET)
            answer = client.recv(65536)
        told.append(1000 * (time.monotonic() - begin))
        if not answer:
            break
        time.sleep(pause)
    client.close()
    return told


def demand(port):
    """A client without rights that sends without pause and reads its refusals, until it is killed or a minute has passed."""
    client, requests, end = connect(port), GET * 64, time.monotonic() + 60
    client.setblocking(False)
    left = requests
    while time.monotonic() < end:
        readable, writable, _none = select.select([client], [client], [], 0.1)
        if readable and not client.recv(1 << 20):
            return
        if writable:
            left = left[client.send(left):] or requests


def greedy(program):
    """Clients that send without pause, in processes of their own, beside root's gets."""
    with answering(program):
        clients = [multiprocessing.Process(target=demand, args=(ports.ANN,)) for _client in range(GREEDY_CLIENTS)]
        for client in clients:
            client.start()
        time.sleep(1)
        told = waits(GREEDY_SECONDS)
        lasting = sum(client.is_alive() for client in clients)
        for client in clients:
            client.kill()
            client.join()
    return ("root's get, ms in the median", statistics.median(told), 10), ("at the most", max(told), 100), ("clients left", lasting, None)


def flood(program):
    """Connects in great number, beside root's gets over an open connection."""
    def attack(_number):
        for count in range(CONNECTS // FLOODERS):
            if time.monotonic() > end:
                return count
            try:
                connect(ports.ANN).close()
            except OSError:
                time.sleep(0.01)
        return CONNECTS // FLOODERS

    with answering(program), ThreadPoolExecutor(FLOODERS) as pool:
        end = time.monotonic() + FLOOD_SECONDS
        made = pool.map(attack, range(FLOODERS))
        told = waits(FLOOD_SECONDS)
    return ("connects", sum(made), None), ("an open connection's get, ms at the most", max(told), 50), ("in the median", statistics.median(told), None)


def deaf(port):
    """A client that takes little in."""
    client = socket.socket()
    client.setsockopt(socket.SOL_SOCKET, socket.SO_RCVBUF, 4096)
    client.connect(("127.0.0.1", port))
    return client


def silent(program):
    """Clients that ask for a large answer and that their connection be closed, and read nothing."""
    with answering(program) as server:
        root = connect(ports.ROOT)
        for name in "abc":
            ask(root, "POST", MAPS, {"metadata": {"name": name}, "data": {"k": "a" * 900_000}})
        root.close()
        clients, most = [], 0
        for _client in range(SILENT_CLIENTS):
            clients.append(deaf(ports.ROOT))
            clients[-1].sendall(GET.replace(b"\r\n\r\n", b"\r\nConnection: close\r\n\r\n"))
            most = max(most, server.descriptors())
        time.sleep(3)
        most, resident = max(most, server.descriptors()), server.resident() / 1000
        time.sleep(SILENT_SECONDS)
        begin, refused = time.monotonic(), not is_served(20)
        return ("descriptors", most, 340), ("million bytes resident", resident, None), ("refused", refused, 0), \
            ("seconds until a client is served that comes after a minute", time.monotonic() - begin, 10)


def cost_of_get(server):
    """Microseconds of the server's processor time for each of root's gets, one after the other over one connection."""
    client, before = connect(ports.ROOT), server.seconds()
    for _get in range(GETS):
        client.sendall(GET)
        client.recv(65536)
    client.close()
    return 1e6 * (server.seconds() - before) / GETS


def rest(server, pause=1):
    """Waits until the server does next to nothing more, for a minute at most."""
    before, end = -1, time.monotonic() + 60
    while server.seconds() > before + 0.02 and time.monotonic() < end:
        before = server.seconds()
        time.sleep(pause)


def stalled(program):
    """Clients without rights that send requests and take none of their refusals, beside root's gets."""
    with answering(program) as server:
        alone, clients = cost_of_get(server), [deaf(ports.ANN) for _client in range(STALLED_CLIENTS)]
        for _request in range(STALLED_REQUESTS // 16):
            for client in clients:
                client.sendall(request("GET", f"{MAPS}/{'a' * 8_000}") * 16)
        rest(server)
        beside = cost_of_get(server)
        for client in clients:
            client.close()
    return ("root's get, us of processor time", beside, None), ("alone", alone, None), ("times that", beside / alone, 1.5)


def spin(program):
    """Clients of the port for questions beyond the descriptors that the server has."""
    with answering(program, preexec_fn=lambda: resource.setrlimit(resource.RLIMIT_NOFILE, (24, 24))) as server:
        _clients = [connect(port) for port in [ports.ANSWER] * 40 + [ports.ANN] * 40]
        time.sleep(0.5)
        before = server.seconds()
        time.sleep(SPIN_SECONDS)
        return (f"seconds of processor time in {SPIN_SECONDS} s", server.seconds() - before, 0.2),


def line(program):
    """A line without end on the port for questions."""
    with answering(program) as server:
        before, sent, client = server.resident(), 0, connect(ports.ANSWER)
        with contextlib.suppress(OSError):
            while sent < LINE_BYTES:
                sent += client.send(b"a" * 65536)
        grown = (server.resident() - before) / 1000
        other = connect(ports.ANSWER)
        other.settimeout(10)
        other.sendall(QUESTION)
        return ("million bytes more resident", grown, 8), ("sent, millions", sent / 1e6, None), ("others refused", other.recv(64) != b"0 denied\n", 0)


def requirements():
    """Selectors of thousands of requirements: the same one, of other keys, of other values of one key."""
    keys = ["".join(it) for it in itertools.islice(itertools.product("abcdefghijklmnopqrstuvwxyz0123456789", repeat=3), 3_000)]
    return {"equal ones": ["!z"] * REQUIREMENTS, "other keys": [f"!{key}" for key in keys], "one key": [f"k!={key}" for key in keys[:2_200]]}


def selector(program):
    """Watches of thousands of requirements next to an object of thousands of labels, which is patched; the last label is not met."""
    labels = {f"l{number:05}": "" for number in range(LABELS)}

    def patches(begin):
        before = server.precise()
        for number in range(PATCHES):
            ask(root, "PATCH", f"{MAPS}/a", {"data": {"k": str(begin + number)}})
        return server.precise() - before

    with Server(program) as server:
        root = connect(ports.ROOT)
        ask(root, "POST", MAPS, {"metadata": {"name": "a", "labels": labels}})
        figures = [("seconds of processor time alone", patches(0), None)]
        for turn, (name, asked) in enumerate(requirements().items(), 1):
            watch = connect(ports.ROOT)
            ask(watch, "GET", f"{MAPS}?watch=1&labelSelector={','.join([*asked, f'!{max(labels)}'])}")
            figures.append((f"seconds next to a watch with {name}", patches(turn * PATCHES), 0.8))
            watch.close()
    return figures


def selected(program):
    """Lists of thousands of objects by selectors of thousands of requirements."""
    made = [it | {"metadata": {**it["metadata"], "labels": {"k": "v"}}} for it in maps(SELECTED)]
    with Server(program, objects=made + grant("Role", "list")) as server:
        client = connect(ports.ANN)
        return [(f"ms of processor time with {name}", 1000 * cost(server, client, "GET", f"{MAPS}?labelSelector={','.join(asked)}"), 60) for name, asked in requirements().items()]


def subjects(program):
    """All subjects of a binding are replaced, by one who holds what it gives."""
    first, second = ({"metadata": {"name": "many"}, **bound("Role granted"), "subjects": [{"kind": "User", "name": f"{letter}{number:05}"} for number in range(SUBJECTS)]} for letter in "ab")
    with Server(program, objects=grant("Role", "create update", "rolebindings", RBAC)) as server:
        client = connect(ports.ANN)
        cost(server, client, "POST", BINDINGS_IN, first)
        return (f"seconds of processor time for {SUBJECTS:,}", cost(server, client, "PUT", f"{BINDINGS_IN}/many", second), 0.2),


def review_of_groups(program, held, asked):
    """A review of an identity of so many groups, beside bindings of groups that do not grant it."""
    objects = [thing("ClusterRole", "reader", rules=[rule("get", "pods")])]
    objects += [thing("ClusterRoleBinding", f"b{number:05}", **bound("ClusterRole reader", f"Group {group}")) for number, group in enumerate(held)]
    review = {"spec": {"user": "u", "groups": asked, "resourceAttributes": {"verb": "list", "resource": "secrets", "namespace": "default"}}}
    with Server(program, objects=objects) as server:
        root = connect(ports.ROOT)
        figures = (f"seconds of processor time for {len(asked):,}", cost(server, root, "POST", REVIEWS, review), 0.1),
        assert b'"allowed":false' in ask(root, "POST", REVIEWS, review)
        return figures


def groups(program):
    """A review of an identity of thousands of groups, beside thousands of bindings of groups that do not grant it."""
    names = [f"g{number:05}" for number in range(GROUPS)]
    return review_of_groups(program, names[:BINDINGS], names)


def repeats(program):
    """A review of an identity whose one group is listed again and again, beside thousands of bindings of it."""
    return review_of_groups(program, ["g"] * BINDINGS, ["g"] * REPEATS)


def memory(program):
    """Clients that may only create roles, each with a rule that lacks ten thousand million permissions, for whose list no memory suffices, beside root's gets."""
    with Server(program, objects=writers()) as server:
        clients = [connect(ports.ANN) for _client in range(STARVED_CLIENTS)]
        for client in clients:
            client.sendall(request("POST", ROLES, compact(role_of(long_rule(LONG)))))
        rest(server, 0.5)
        before, told = server.seconds(), waits(STARVED_SECONDS)
        used = (server.seconds() - before) / STARVED_SECONDS
        left = sum(stays(client) for client in clients)
    return ("root's get, ms in the median", statistics.median(told), 2), ("at the most", max(told), 20), ("processors", used, None), (f"clients left after {STARVED_SECONDS} s", left, None)


def stays(client, seconds=0.01):
    """Whether a client's connection is open; ends it."""
    client.settimeout(seconds)
    try:
        return bool(client.recv(1))
    except TimeoutError:
        return True
    except OSError:
        return False
    finally:
        client.close()


def idle(program):
    """Clients that connect and send nothing, and then clients of root, which stay."""
    with answering(program):
        clients = [connect(ports.ANN) for _client in range(IDLE_CLIENTS)]
        time.sleep(1)
        begin, others = time.monotonic(), [connect(ports.ROOT) for _client in range(LET_IN)]
        locked, waited = sum(not is_answered(other) for other in others), time.monotonic() - begin
        lost = sum(not is_answered(other) for other in others)
        left = sum(map(stays, clients))
    return (f"of {LET_IN} clients of root locked out", locked, 0), ("seconds until they are answered", waited, 1), ("clients of root that are ended later", lost, 0), ("idle ones left", left, None)


def is_answered(client, seconds=2):
    """Whether a client's get is answered within so many seconds."""
    with contextlib.suppress(OSError):
        client.settimeout(seconds)
        client.sendall(GET)
        return bool(client.recv(65536))
    return False


def is_served(seconds=2):
    """Whether root is answered within so many seconds."""
    with connect(ports.ROOT) as client:
        return is_answered(client, seconds)


def many(program):
    """Reviews of a megabyte by many clients of one user at once, beside root's gets."""
    objects = grant("ClusterRole", "create", "selfsubjectaccessreviews", "authorization.k8s.io")
    review = {"spec": {"resourceAttributes": {"verb": "get"}}, "x": JUNK}

    def attack(client):
        client.settimeout(4 * MANY_SECONDS)
        client.sendall(request("POST", SELF_REVIEWS, compact(review)))
        return whole_answer(client).startswith(b"HTTP/1.1 201 ")

    with Server(program, objects=objects) as server, ThreadPoolExecutor(MANY) as pool:
        alone = 1000 * cost(server, connect(ports.ROOT), "POST", SELF_REVIEWS, review)
        answered = pool.map(attack, [connect(ports.ANN) for _client in range(MANY)])
        told, left = waits(MANY_SECONDS), MANY - sum(answered)
    return ("root's get, ms at the most", max(told), alone), ("in the median", statistics.median(told), None), ("ms of processor time of one review", alone, None), (f"of {MANY} reviews not answered", left, 0)


def readers(program):
    """Clients of the port for questions that ask nothing, as many as it has readers."""
    with answering(program):
        _clients = [connect(ports.ANSWER) for _reader in range(2)]
        time.sleep(0.2)
        other = connect(ports.ANSWER)
        other.settimeout(2)
        other.sendall(QUESTION)
        return ("others locked out", stays(other), None),


def trees(program):
    """Reviews with a megabyte of small objects, and of labels that are checked one by one; a small patch of as much that is stored."""
    labels = {f"{number:06}": "" for number in range(1_000_000 // 12)}
    review = {"spec": {"resourceAttributes": {"verb": "get"}}}
    with Server(program) as server:
        root = connect(ports.ROOT)
        resident = server.resident()
        figures = [(what, cost(server, root, "POST", SELF_REVIEWS, review | more), 0.03) for what, more in (("seconds of processor time", {"x": JUNK}), ("of labels", {"metadata": {"labels": labels}}))]
        figures.append(("million bytes more resident", (server.resident() - resident) / 1000, 20))
        for what, place in (("of a patch", MAPS), ("of a patch of a Pod, whose status is kept", PODS)):
            cost(server, root, "POST", place, {"metadata": {"name": "a"}, "x": JUNK})
            resident = server.resident()
            figures.append((what, cost(server, root, "PATCH", f"{place}/a", {"data": {"k": "1"}}), 0.06))
            figures.append(("million bytes more resident", (server.resident() - resident) / 1000, 60))
    return figures


def unread(program):
    """Lists of thousands of objects by many clients of one user, which read nothing for a while, beside root's gets."""
    with Server(program, objects=maps(UNREAD_OBJECTS, data={"k": "a" * 100}) + grant("Role", "list")) as server:
        resident, clients = server.resident(), [connect(ports.ANN) for _client in range(UNREAD)]
        for client in clients:
            client.sendall(request("GET", MAPS))
        rest(server)
        more, told = (server.resident() - resident) / 1000, waits(2)
        left = UNREAD - sum(whole_answer(client).startswith(b"HTTP/1.1 200 ") for client in clients)
    return ("million bytes more resident", more, 100), ("root's get, ms at the most", max(told), 100), (f"of {UNREAD} lists not answered when they are read", left, 0)


def asked(program):
    """A question of an identity of thousands of groups to the answer port, beside thousands of bindings of some of them."""
    names = [f"g{number:05}" for number in range(ASKED)]
    objects = [thing("ClusterRole", "reader", rules=[rule("get", "pods")])]
    objects += [thing("ClusterRoleBinding", f"b{number:05}", **bound("ClusterRole reader", f"Group {name}")) for number, name in enumerate(names[:BINDINGS])]
    with answering(program, objects=objects) as server:
        client, before = connect(ports.ANSWER), server.precise()
        client.sendall(compact({"user": "u", "groups": names[::-1], "resourceAttributes": {"verb": "list", "resource": "secrets"}}).encode() + b"\n")
        assert client.recv(64).endswith(b" denied\n")
        return ("seconds of processor time", server.precise() - before, 0.02),


def own_rules(program):
    """A review of the own rules of one who has a role by thousands of bindings."""
    role, binding = grant("Role", "get")
    bindings = [binding | {"metadata": {"name": f"b{number:05}", "namespace": "default"}} for number in range(BINDINGS)]
    more = grant("ClusterRole", "create", "selfsubjectrulesreviews", "authorization.k8s.io")
    with Server(program, objects=[role, *bindings, *more]) as server:
        resident = server.resident()
        used = cost(server, connect(ports.ANN), "POST", REVIEWS.replace("subjectaccess", "selfsubjectrules"), {"spec": {"namespace": "default"}})
        return ("seconds of processor time", used, 0.1), ("million bytes more resident", (server.resident() - resident) / 1000, None)


def unions(program):
    """Cluster roles that select each other: a write beside thirty, and beside twelve of thousands of rules each."""
    def member(name, rules):
        chosen = {"clusterRoleSelectors": [{"matchLabels": {"a": "b"}}]}
        return thing("ClusterRole", name, aggregationRule=chosen, rules=rules) | {"metadata": {"name": name, "labels": {"a": "b"}}}

    figures = []
    for what, count, rules in (("thirty", 30, 1), ("twelve of 500 rules", 12, 500)):
        made = [member(f"c{number:02}", [rule("get", f"r{number}x{it}") for it in range(rules)]) for number in range(count)]
        with Server(program, objects=[*made, *grant("ClusterRole", "create", "clusterroles", RBAC)]) as server:
            rest(server)
            before = server.precise()
            cost(server, connect(ports.ANN), "POST", CLUSTER_ROLES, thing("ClusterRole", "last", rules=[]) | {"metadata": {"name": "last", "labels": {"a": "b"}}}, (201,))
            rest(server)
            figures.append((f"seconds of processor time of a write beside {what}", server.precise() - before, 0.1))
    return figures


def long_list(program):
    """A list of many objects, by one who may list them."""
    with Server(program, objects=maps(LISTED, data={"k": "a" * 100}) + grant("Role", "list")) as server:
        client, resident, begin = connect(ports.ANN), server.resident(), time.monotonic()
        used = 1000 * cost(server, client, "GET", MAPS)
        return ("ms of processor time", used, 400), ("million bytes more resident", (server.resident() - resident) / 1000, None), ("ms until it has come", 1000 * (time.monotonic() - begin), None)


def missing(program):
    """A rule of long lists, by one who may only create roles: its refusal lists each missing permission."""
    with Server(program, objects=writers()) as server:
        before, answer = server.precise(), ask(connect(ports.ANN), "POST", ROLES, role_of(long_rule(WIDE)))
        return ("seconds of processor time", server.precise() - before, None), ("million bytes of answer", len(answer) / 1e6, None), ("million bytes resident", server.resident() / 1000, None)


def rules(program):
    """A role of many rules, by one who may create roles and has all that they grant, in as many rules."""
    short = [long_rule(12, f"r{number % 250}-") for number in range(CHECKED)]
    with Server(program, objects=writers(*short)) as server:
        return (f"seconds of processor time for {CHECKED:,}", cost(server, connect(ports.ANN), "POST", ROLES, role_of(*short), (201,)), 0.6),


def bound_again(program):
    """A role of one rule, by one who may create roles and holds a role of hundreds of rules by thousands of bindings."""
    short = [long_rule(1, f"r{number}-") for number in range(RULES)]
    role, binding = writers(*short)
    bindings = [binding | {"metadata": {"name": f"b{number:05}", "namespace": "default"}} for number in range(BINDINGS)]
    with Server(program, objects=[role, *bindings]) as server:
        return ("ms of processor time", 1000 * cost(server, connect(ports.ANN), "POST", ROLES, role_of(short[0]), (201,)), 20),


def labels(program):
    """A cluster role by one who may create them, beside thousands of labelled ones from which another takes its rules."""
    mark = {"labels": {"a": "b"}}
    made = [thing("ClusterRole", "taker", aggregationRule={"clusterRoleSelectors": [{"matchLabels": mark["labels"]}]}, rules=[])]
    made += [thing("ClusterRole", name, rules=[rule("get", "pods")]) | {"metadata": {"name": name, **mark}} for name in (f"c{number:05}" for number in range(LABELLED))]
    with Server(program, objects=[*made, *grant("ClusterRole", "create", "clusterroles", RBAC)]) as server:
        rest(server, 0.5)
        before = server.precise()
        cost(server, connect(ports.ANN), "POST", CLUSTER_ROLES, {"metadata": {"name": "last", **mark}, "rules": []}, (201,))
        rest(server, 0.5)
        return ("ms of processor time", 1000 * (server.precise() - before), None),


def shown(watch):
    """What a watch is sent within a second."""
    watch.settimeout(1)
    sent = b""
    try:
        while piece := watch.recv(65536):
            sent += piece
    except TimeoutError:
        return sent
    return sent + b" and the end"


def window(program):
    """Two watches beside the deletion of as many objects as changes are kept: nothing concerns one, and of the other an event is due."""
    with Server(program, objects=[thing("Namespace", "other"), *maps(REMOVED)]) as server:
        quiet, due, root = (connect(ports.ROOT) for _client in range(3))
        ask(quiet, "GET", f"{OTHERS.replace('configmaps', 'pods')}?watch=1")
        ask(due, "GET", f"{OTHERS}?watch=1")
        for number in range(QUIET):
            ask(root, "PATCH", f"{MAPS}/m{number:06}", {"data": {"k": str(number)}})
        root.sendall(request("POST", OTHERS, compact(thing("ConfigMap", "last"))) + request("DELETE", MAPS))
        rest(server, 0.2)
        quiet_shown, due_shown = shown(quiet), shown(due)
    events = due_shown.count(b'"type":"ADDED"') - due_shown.count(b'"type":"ERROR"') - due_shown.count(b" and the end")
    return ("bytes shown to a watch that it does not concern", len(quiet_shown), 0), ("events lost of another watch", 1 - events, 0)


ATTACKS = {it.__name__: it for it in (greedy, flood, silent, stalled, idle, many, spin, line, readers, trees, unread, asked, own_rules, unions, selected, selector, window, memory, missing, rules, bound_again, labels, groups, repeats, subjects)}
ATTACKS["list"] = long_list


def main(program, *names):
    resource.setrlimit(resource.RLIMIT_NOFILE, (min(4096, resource.getrlimit(resource.RLIMIT_NOFILE)[1]),) * 2)
    for name in names or ATTACKS:
        ports.ROOT, ports.ANN, ports.ANSWER, ports.OTHER = itertools.islice(free(), 4)
        yield name, judged(ATTACKS[name].__doc__, lambda: ATTACKS[name](program))
