"""Each program by its real command, with each option and without it: its output and status, and of a server what its clients are answered.

usage: python3 -m checks PROGRAM commands     prints each case that is otherwise on a line, and ends with status 1 if there is one

Faults of the words and of files, and what is told on standard error, are looked at in checks/statuses.py.
"""
import contextlib
import functools
import json
import re
import select
import socket
import subprocess
import time

from checks.harness import Case, bound, compact, commands, differs, lines, room, rule, thing
from tools.server import Client, free


def item(kind, place, **members):
    """An object as a line; its place is NAME or NAMESPACE/NAME."""
    namespace, _slash, name = place.rpartition("/")
    return lines(thing(kind, name, namespace, **members))


def role(kind, place, verbs, resource, *names, group=""):
    return item(kind, place, rules=[rule(verbs, resource, group, names)])


def binding(kind, place, of, *subjects):
    return item(kind, place, **bound(of, *subjects))


def question(user, verb, resource, namespace="shop"):
    return compact({"user": user, "resourceAttributes": {"namespace": namespace, "verb": verb, "resource": resource}}) + "\n"


# The last line of some files has no end.
SEER = role("ClusterRole", "seer", "get", "nodes") + binding("ClusterRoleBinding", "seers", "ClusterRole seer", "Group system:authenticated")
READER, READERS = role("Role", "shop/reader", "get delete", "pods"), binding("RoleBinding", "shop/readers", "Role reader", "User ann")
BEFORE = item("Namespace", "shop") + SEER + READER + READERS
AFTER = BEFORE.replace("delete", "list") + binding("ClusterRoleBinding", "olga-sees", "ClusterRole seer", "User olga")
ACTORS = role("Role", "actor", "impersonate", "users") + binding("RoleBinding", "actors", "Role actor", "User bob")
TWO = [rule(it, "pods") for it in ("get", "get list")]
HEALTH = item("ClusterRole", "health", rules=[{"nonResourceURLs": ["/healthz"], "verbs": ["get"]}])
DANGLES = item("ServiceAccount", "shop/till") + role("Role", "shop/idle", "get", "pods") + item("Role", "shop/two", rules=TWO) + binding("RoleBinding", "shop/twos", "Role two", "ServiceAccount robot") \
    + role("ClusterRole", "typo", "get", "podz") + binding("ClusterRoleBinding", "typos", "ClusterRole typo", "User ann")
QUESTIONS = question("ann", "list", "pods") + question("ann", "delete", "pods") + question("bob", "get", "pods") + question("ann", "get", "pods").rstrip()
MAPS, MAP = "/api/v1/namespaces/default/configmaps", {it: item("ConfigMap", f"default/{it}", data={"k": it}) for it in "ab"}


def event(user, verb, decision, name="", resource="pods"):
    """An event of an audit log."""
    reference = {"resource": resource, "namespace": "shop", "name": name, "apiVersion": "v1"}
    return compact({"kind": "Event", "apiVersion": "audit.k8s.io/v1", "stage": "ResponseComplete", "verb": verb, "requestURI": "/", "user": {"username": user, "groups": ["system:authenticated"]},
                    "objectRef": reference, "annotations": {"authorization.k8s.io/decision": decision}}) + "\n"


LOG = event("ann", "list", "allow") + event("ann", "create", "allow", "made") + event("bob", "get", "forbid", "web") + event("ann", "get", "forbid", "web") + event("ann", "list", "allow").replace("Complete", "Started")
FILES = {
    "dangling": DANGLES, "logged": LOG,
    "before": BEFORE, "after": AFTER, "questions": QUESTIONS, "asked": "list pods shop\nget pods shop", "others": "get nodes *\n",
    "doubtful": AFTER + binding("RoleBinding", "shop/viewers", "ClusterRole view", "User ann"),
    "tills": BEFORE + binding("ClusterRoleBinding", "accounts", "ClusterRole seer", "Group system:serviceaccounts:shop") + binding("RoleBinding", "shop/more", "Role reader", "User bob"),
    "owned": role("ClusterRole", "owner", "*", "configmaps") + binding("ClusterRoleBinding", "owners", "ClusterRole owner", "User ann")
    + role("ClusterRole", "scopes", "impersonate", "userextras/scopes", group="authentication.k8s.io")
    + binding("ClusterRoleBinding", "scoped", "ClusterRole scopes", "User bob"),
    "long": item("ClusterRole", "wide", rules=[rule("get", "pods")] * 301) + binding("ClusterRoleBinding", "wide", "ClusterRole wide", "User bob"),
    "kept": item("Namespace", "shop") + "".join(role("ClusterRole", it, "get", it) for it in ("nodes", "namespaces"))
    + "".join(binding("RoleBinding", f"shop/{it}", f"ClusterRole {it}", "User bob") for it in ("nodes", "namespaces"))
    + role("ClusterRole", "binder", "bind", "clusterroles", group="rbac.authorization.k8s.io") + binding("RoleBinding", "shop/binds", "ClusterRole binder", "User ann"),
    "homeless": ACTORS, "more": ACTORS + binding("RoleBinding", "others", "Role actor", "User eve"),
    "twice": "".join(role("Role", f"{it}/actor", "impersonate", "users") + binding("RoleBinding", f"{it}/actors", "Role actor", "User bob") for it in ("shop", "web"))
    + binding("RoleBinding", "shop/again", "Role actor", "User ann", "User bob") + binding("RoleBinding", "web/more", "Role actor", "User bob"),
    "health": HEALTH, "there": HEALTH + binding("RoleBinding", "shop/all", "ClusterRole health", "User ann"), "wide": HEALTH + binding("ClusterRoleBinding", "all", "ClusterRole health", "User ann"),
    "named": role("Role", "shop/reader", "get", "pods", "a") + READERS.rstrip(), "map": MAP["b"], "maps": MAP["a"] + MAP["b"].rstrip(),
    "folder/1.json": compact({"kind": "List", "items": [json.loads(it) for it in SEER.splitlines()]}),
    "folder/2.jsonl": READER.rstrip(), "folder/3.jsonl": READERS.rstrip(), "folder/.notes": "not read",
    "one": f"load map\nas root,system:masters\nGET {MAPS}/a\n= 404\nGET /healthz\n> ?\n",
    "two": f"load maps\nas root,system:masters\nGET {MAPS}/a\n= 200\nGET {MAPS}/b\n= 200\nGET /healthz\n= 403",
    "may": role("Role", "default/m", "get list watch", "configmaps") + binding("RoleBinding", "default/ms", "Role m", "User ann", "Group dev")
    + role("Role", "default/s", "list", "secrets") + binding("RoleBinding", "default/ss", "Role s", "Group ops").rstrip(),
}


def case(words, told="", status=0, given=""):
    """A command, what it prints, its status, and its standard input."""
    return Case(words, int(status), None, told, given)


def table(*rows):
    """Rows in columns that are as wide as their widest cells."""
    cells = [it.split(" | ") for it in rows]
    widths = [max(map(len, column)) for column in zip(*cells)]
    return "".join("  ".join(map(str.ljust, row, widths)).rstrip() + "\n" for row in cells)


gains = functools.partial(table, "SUBJECT | NAMESPACE | GAINS | BY")
BASIC = "create | selfsubjectaccessreviews.authorization.k8s.io,selfsubjectrulesreviews.authorization.k8s.io | - | * | ClusterRoleBinding system:basic-user, ClusterRole system:basic-user, rule 0"
rights = functools.partial(table, "VERBS | RESOURCES | NAMES | SCOPE | BY", BASIC)
ways = functools.partial(table, "SUBJECT | NAMESPACE | BINDING | RULE", "Group system:masters | * | - | everything")
SEEN, READ = "get | nodes | - | * | ClusterRoleBinding seers, ClusterRole seer, rule 0", "get,delete | pods | - | shop | RoleBinding readers, Role reader, rule 0"
OWNED = "get | nodes | - | * | ClusterRoleBinding accounts, ClusterRole seer, rule 0; ClusterRoleBinding seers, ClusterRole seer, rule 0"
LIST, DELETE = (f"User ann | shop | {verb} pods | RoleBinding readers, Role reader, rule 0" for verb in ("list", "delete"))
OLGA = "User olga | * | get nodes | ClusterRoleBinding olga-sees, ClusterRole seer, rule 0"
EVE = "User eve | {} | ! impersonate users | RoleBinding others, Role actor, rule 0"
ATOMS = [it.replace("list pods", '["list","","pods"]').replace("get nodes", '["get","","nodes"]') for it in (OLGA, LIST)]
ANN, BOB = "User ann | shop | RoleBinding readers | Role reader, rule 0", "User bob | {} | RoleBinding actors | Role actor, rule 0"
SEES = "User olga | * | ClusterRoleBinding olga-sees | ClusterRole seer, rule 0", "Group system:authenticated | * | ClusterRoleBinding seers | ClusterRole seer, rule 0"
BY = '"binding":"readers","bindingKind":"RoleBinding","namespace":"shop","role":"reader","roleKind":"Role","rule":0,"subject":"ann","subjectKind":"User"}\n'
BY_OLGA = '"binding":"olga-sees","bindingKind":"ClusterRoleBinding","namespace":"","role":"seer","roleKind":"ClusterRole","rule":0,"subject":"olga","subjectKind":"User"}\n'
JSON = '{"subject":"system:masters","subjectKind":"Group"}\n'
WHAT_JSON = '{"by":[{"binding":"system:basic-user","bindingKind":"ClusterRoleBinding","role":"system:basic-user","roleKind":"ClusterRole","rule":0}],"namespace":"",' \
    '"rule":{"apiGroups":["authorization.k8s.io"],"resources":["selfsubjectaccessreviews","selfsubjectrulesreviews"],"verbs":["create"]}}\n' \
    '{"by":[{"binding":"seers","bindingKind":"ClusterRoleBinding","role":"seer","roleKind":"ClusterRole","rule":0}],"namespace":"",' \
    '"rule":{"apiGroups":[""],"resources":["nodes"],"verbs":["get"]}}\n' \
    '{"by":[{"binding":"readers","bindingKind":"RoleBinding","role":"reader","roleKind":"Role","rule":0}],"namespace":"shop",' \
    '"rule":{"apiGroups":[""],"resources":["pods"],"verbs":["get","delete"]}}\n'
NOTHING = "Through roles and bindings, nothing that others without the verb impersonate write lets anybody do what neither that one nor any of them was allowed. kapi paths lists other ways.\n"
ALLOWED = "allowed RoleBinding readers, Role reader, rule 0\n"
HEALTHY = r"out HTTP/1.1 200 OK\r\nContent-Type: text/plain\r\nContent-Length: 2\r\n\r\nok"
ONE, TWO = (f"{place}\n  asked  GET /healthz\n  wanted {wanted}\n  got    {HEALTHY}\n  why    allowed by group system:masters\n{place[:3]}: {answers} checks, 1 not as wanted\n"
            for place, wanted, answers in (("one:6", "> ?", 2), ("two:8", "= 403", 3)))
found = functools.partial(table, "WHERE | FINDING")
DANGLING = found("dangling:2 | Role shop/idle: nothing binds it", "dangling:3 | Role shop/two: rule 1 covers rule 0",
                 "dangling:4 | RoleBinding shop/twos: there is no ServiceAccount shop/robot", "dangling:5 | ClusterRole typo: rule 0: no kind serves the resource podz")


def suggested(*places):
    """The objects that are suggested for rules of users in the namespace shop."""
    text = ""
    for number, (user, verbs) in enumerate(places, 1):
        name = f"suggested-{number}"
        whole = thing("Role", name, "shop", rules=[rule(verbs, "pods")]), thing("RoleBinding", name, "shop", **bound(f"Role {name}", f"User {user}"))
        text += "".join(json.dumps(it, sort_keys=True, separators=(",", ":")) + "\n" for it in whole)
    return text


SUGGESTED, SUGGESTED_AFTER, LOGGED = suggested(("ann", "list delete get"), ("bob", "get")), suggested(("ann", "list get")), suggested(("ann", "list create"))
AUDITED = table("LINE | LOG | POLICY | REQUEST", "2 | allowed | denied | User ann: create pods in namespace shop", "4 | denied | allowed | User ann: get pods named web in namespace shop") \
    + "\n" + table("TIMES | DENIED", "1 | User ann: create pods in namespace shop", "1 | User bob: get pods named web in namespace shop")
CASES = [
    *[case(it, "kapi 0.1.0\n") for it in ("--version", "-V")], case("script"),
    case("script", f"conn 0\nok\n{HEALTHY}\n", given="open root,system:masters\nfeed 0 GET /healthz HTTP/1.1\\r\\nHost: a\\r\\n\\r\\n\nserve 0"),
    *[case(f"audit before questions {it}", f"denied\n{ALLOWED}denied\n{ALLOWED}") for it in ("", "--readers 1", "--readers 16")],
    *[case(f"audit {it}", f"{ALLOWED}denied\ndenied\n{ALLOWED}", 0, given) for it, given in (("after /dev/stdin", QUESTIONS), ("/dev/stdin questions", AFTER.rstrip()))],
    *[case(f"compare {it} after", gains(OLGA, LIST), 3, BEFORE.rstrip()) for it in ("before", "-", "folder")],
    *[case(f"compare after {it}", gains(DELETE), 3, BEFORE.rstrip()) for it in ("before", "-")],
    case("compare --json before after", f'{{"atom":["get","","nodes"],{BY_OLGA}{{"atom":["list","","pods"],{BY}', 3),
    case("compare --usual-groups before after", gains(LIST), 3),
    case("compare --usual-groups --json before doubtful", f'{{"atom":["list","","pods"],{BY}', 3),
    *[case(f"compare {it}", gains(OLGA, LIST), status) for it, status in (("before doubtful", 3), ("--strict before after", 3), ("--strict before doubtful", 1))],
    case("compare --strict doubtful before", gains(DELETE), 1),
    case("compare --strict after after", "Nobody gains.\n"),
    case("compare --atoms before after", gains(*ATOMS), 3), case("compare --lost before after", gains(DELETE), 3),
    case("compare --lost --atoms after before", gains(*ATOMS), 3),
    case("compare --format markdown before after", "| SUBJECT | NAMESPACE | GAINS | BY |\n|---|---|---|---|\n" + "".join(f"| {it} |\n".replace("*", r"\*") for it in (OLGA, LIST)), 3),
    case("compare --format table before after", gains(OLGA, LIST), 3), case("compare --format text before after", "", 2),
    *[case(it, "", 1) for it in ("compare homeless more", "who homeless impersonate users", "risks homeless")],
    *[case(f"compare homeless more --namespace {it}", gains(EVE.format(it)), 3) for it in ("shop", "web")],
    case("compare health there", "Nobody gains.\n"), case("compare health wide", gains("User ann | * | get /healthz | ClusterRoleBinding all, ClusterRole health, rule 0"), 3),
    *[case(it, rights()) for it in ("what there ann", "what there ann --namespace shop")],
    *[case(it, rights("get | /healthz | - | * | ClusterRoleBinding all, ClusterRole health, rule 0")) for it in ("what wide ann", "what wide ann --namespace shop")],
    *[case(f"who there get /healthz {it}", ways()) for it in ("", "--namespace shop")],
    case("who wide get /healthz --namespace shop", ways("User ann | * | ClusterRoleBinding all | ClusterRole health, rule 0")),
    *[case(f"who after list pods {it}", ways(*[ANN] * (it in ("", "--namespace shop")))) for it in ("", "--namespace shop", "--namespace web", "--cluster")],
    case("who after list po --namespace shop", ways(ANN)), case("who after list pods --namespace shop --cluster", "", 2),
    *[case(f"who after list pods --namespace shop {it}", f"{JSON}{{{BY}") for it in ("--json", "--strict --json")],
    *[case(f"who doubtful get nodes {it}", ways(*SEES), it == "--strict") for it in ("", "--strict")],
    *[case(f"who homeless impersonate users --namespace {it}", ways(BOB.format(it))) for it in ("shop", "web")],
    *[case(f"who named get pods --namespace shop {it}", ways(*[ANN] * (it == "--name a"))) for it in ("", "--name a", "--name b")],
    case("who before --questions asked", f"line 1: list pods shop\n{ways()}line 2: get pods shop\n{ways(ANN)}"),
    *[case(f"who kept {it}", ways()) for it in ("get nodes", "get no", "get nodes/proxy --cluster", "create clusterrole")],
    *[case(f"who kept get {it}", ways(f"User bob | shop | RoleBinding {of} | ClusterRole {of}, rule 0")) for it, of in (("nodes --namespace shop", "nodes"), ("namespaces", "namespaces"), ("ns", "namespaces"))],
    case("who kept bind clusterrole", ways("User ann | shop | RoleBinding binds | ClusterRole binder, rule 0")),
    *[case(f"who doubtful --questions others {it}", f"line 1: get nodes *\n{ways(*SEES)}", it == "--strict") for it in ("", "--strict")],
    case("who before --questions /dev/stdin --json", f'{{"line":1}}\n{JSON}{{{BY}', given="get pods shop"),
    case("who - get pods --namespace shop", ways(ANN), given=BEFORE.rstrip()),
    case("who folder delete pods --namespace shop", ways(ANN)),
    *[case(f"what {it}", rights(SEEN, READ)) for it in ("before ann", "before ann dev", "before ann --namespace shop", "folder ann --strict")],
    *[case(f"what before {it}", rights(SEEN)) for it in ("bob", "ann --namespace web", "bob dev --namespace shop")],
    case("what before system:anonymous", "Nothing is allowed.\n"), case("what - ann", rights(SEEN, READ), given=BEFORE.rstrip()),
    *[case(f"what tills system:serviceaccount:{it}", rights(told)) for it, told in (("shop:till", OWNED), ("web:till", SEEN))],
    case("what before ann --namespace shop --json", WHAT_JSON), case("what doubtful ann --strict", rights(SEEN, READ.replace("delete", "list")), 1),
    *[case(f"risks homeless --namespace {it}", ways(BOB.format(it)) + NOTHING) for it in ("shop", "web")],
    case("risks homeless --namespace shop --json", JSON + "{" + BY.replace("reader", "actor").replace("ann", "bob") + '{"settled":true}\n'),
    *[case(f"risks {it}", ways() + NOTHING, it == "doubtful --strict") for it in ("doubtful", "doubtful --strict", "after --strict", "folder")],
    *[case(f"check {it}", "Nothing dangles.\n", 0) for it in ("before", "folder")],
    case("check doubtful", found("doubtful:7 | RoleBinding shop/viewers: ClusterRole view is not in the policy: it gives nothing"), 3),
    case("check doubtful --format markdown", "| WHERE | FINDING |\n|---|---|\n| doubtful\\:7 | RoleBinding shop/viewers\\: ClusterRole view is not in the policy\\: it gives nothing |\n", 3),
    case("check dangling", DANGLING, 3),
    case("check long", found("long:1 | ClusterRole wide: over 300 rules: whether one covers another was not looked at"), 3),
    case("check --json doubtful", '{"file":"doubtful","finding":"RoleBinding shop/viewers: ClusterRole view is not in the policy: it gives nothing","line":7}\n', 3),
    case("suggest questions", SUGGESTED), case("suggest --policy after questions", SUGGESTED_AFTER),
    case("suggest --log logged", LOGGED), case("suggest before", "", 1),
    *[case(f"audit {it} after logged --log", AUDITED, 3) for it in ("", "--manifests")],
    case("audit --json before questions", '{"allowed":false}\n{"allowed":true,"reason":"RoleBinding readers, Role reader, rule 0"}\n' * 2),
    case("risks twice", ways(BOB.format("shop"), "User ann | shop | RoleBinding again | Role actor, rule 0", BOB.format("web")) + NOTHING),
    case("risks owned", ways("User bob | * | ClusterRoleBinding scoped | ClusterRole scopes, rule 0") + NOTHING),
    case("risks - --namespace shop", ways(BOB.format("shop")) + NOTHING, given=ACTORS.rstrip()),
    *[case(f"replay {words}", told, 1) for words, told in (("one", ONE), ("one two", ONE + TWO), ("two one", TWO + ONE))],
    case("replay /dev/stdin", "/dev/stdin: 2 checks\n", given=FILES["two"].partition("GET /healthz")[0].rstrip()),
    case("replay --write one two", f"{FILES['one'][:-2]}{HEALTHY}\n{FILES['two'][:-5]}= 200", 1),
]


def listed(revision, **revisions):
    """The list of the ConfigMaps of these names, at the revision of each."""
    places = {name: {"name": name, "namespace": "default", "resourceVersion": str(at), "uid": f"00000000-0000-4000-8000-{at:012x}"} for name, at in revisions.items()}
    maps = [{"apiVersion": "v1", "data": {"k": name}, "kind": "ConfigMap", "metadata": place} for name, place in places.items()]
    return "200 " + compact({"apiVersion": "v1", "items": maps, "kind": "ConfigMapList", "metadata": {"resourceVersion": str(revision)}})


def refused(user):
    return re.compile(f'403 .*"message":"{user} may not do this in namespace default".*')


ROOT, BINDING, SOME = "A=root,system:masters", "/apis/rbac.authorization.k8s.io/v1/namespaces/default/rolebindings/ms", re.compile("20[01] .*")
CLOCK = re.compile(f'200 .*"resourceVersion":"({"|".join(str(int(time.time()) + it) for it in range(200))})[0-9]{{3}}05".*')
ASKS, TOLD, OTHER = f'?{question("ann", "get", "configmaps", "default")}', "4 allowed RoleBinding ms, Role m, rule 0\n", question("bob", "get", "configmaps", "default")
CLUSTER_ROLES = "/apis/rbac.authorization.k8s.io/v1/clusterroles"
LOST = [("B", f"GET {MAPS}?watch=1", "200 "), ("A", f"DELETE {BINDING}", SOME), ("A", f"POST {MAPS} {MAP['a']}", SOME)]
GROUPS = [(client, f"GET {MAPS.replace('configmaps', it)}", SOME if it in may else refused(user)) for it in ("configmaps", "secrets")
          for client, user, may in (("A", "ann", "configmaps"), ("B", "bob", ""), ("C", "bob", "configmaps"), ("D", "bob", "configmaps, secrets"), ("E", "bob", "secrets"))]
ONE_MORE = [("Q", ASKS, ""), ("Q", "wait", "nothing"), ("Q0", "end", ""), ("Q", "?", TOLD)]
# With ten revisions left, of which the opening takes five, three are made; two can go, one after the other.
FEW = [*[(f"POST {MAPS} {item('ConfigMap', f'default/{it}')}", True) for it in "abc"], (f"DELETE {MAPS}", False), *[(f"DELETE {MAPS}?fieldSelector=metadata.name%3D{it}", True) for it in "bc"],
       (f"PATCH {MAPS}/a {{}}", True), (f'PATCH {MAPS}/a {{"data":{{}}}}', False), (f"DELETE {MAPS}/a", False), (f"DELETE {MAPS}?labelSelector=x", True)]
# A to P are ports and Q is that of answers; of a server what a client does, whose name begins with its port, and what comes.
SERVERS = [(f"serve {words}", steps, "") for words, steps in (
    (f"--first-revision {(1 << 48) - 11} {ROOT}", [("A", does, SOME if is_made else re.compile("503 .*no revision is left.*")) for does, is_made in FEW]),
    (ROOT, [("A", f"GET {MAPS}", listed(5)), ("A", "elsewhere", "nobody")]),
    (f"--load maps {ROOT}", [("A", f"GET {MAPS}", listed(7, a=6, b=7))]),
    (f"--load map --answer Q {ROOT}", [("A", f"GET {MAPS}", listed(6, b=6)), ("Q", ASKS, "0 denied\n")]),
    (f"--manifests may --with-defaults {ROOT} B=ann", [("B", f"GET {MAPS}", SOME), ("A", f"GET {BINDING}", SOME), ("A", f"GET {CLUSTER_ROLES}/view", SOME)]),
    (f"--manifests folder --manifests homeless --namespace shop {ROOT}", [("A", f"GET {CLUSTER_ROLES}/seer", SOME), ("A", f"GET {CLUSTER_ROLES}/view", re.compile("404 .*"))]),
    (f"--first-revision 41 {ROOT}", [("A", f"GET {MAPS}", listed(46))]),
    (f"--load map --first-revision 4100 {ROOT}", [("A", f"GET {MAPS}", listed(4106, b=4106))]),
    (f"--first-revision clock {ROOT}", [("A", f"GET {MAPS}", CLOCK)]),
    (" ".join(f"{it}={it.lower()}" for it in "PONMLKJIHGFEDCBA"), [(it, f"GET {MAPS}", refused(it.lower())) for it in "ABCDEFGHIJKLMNOP"]),
    ("--load may A=ann B=bob C=bob,dev D=bob,dev,ops E=bob,qa,ops", GROUPS),
    (f"--load may {ROOT} B=ann", [*LOST, ("B", "event", "ADDED a")]),
    *[(f"--load may --recheck-watches {words} {ROOT} B=ann", [*LOST, ("B", "event", "ERROR 403"), ("B", "event", "end"), ("B", f"GET {MAPS}", refused("ann"))])
      for words in ("", "--answer Q --readers 1")],
    *[(f"--load may --answer Q {words} {ROOT}", [(f"Q{it}", ASKS, TOLD) for it in range(count)] + ONE_MORE) for words, count in (("", 2), ("--readers 1", 1), ("--readers 3", 3))],
    (f"--load may --answer Q {ROOT}", [
        ("Q", f"?# a comment\n\n{ASKS[1:]}{OTHER}x\n{ASKS[1:]}", f"{TOLD}4 denied\nbad\n{TOLD}"), ("Q", ASKS[:20], ""), ("Q", "wait", "nothing"),
        ("Q", f"?{ASKS[20:]}", TOLD), ("A", f"DELETE {BINDING}", SOME), ("Q", ASKS, "5 denied\n"), ("Q", ASKS[:-1], ""), ("Q", "end", "5 denied\n"),
        ("Q1", "elsewhere", "nobody"), ("Q1", f"?{OTHER[:-1]:70000}\n", "5 denied\n"), ("Q1", f"?{OTHER[:-1]:1048577}", ""), ("Q1", "end", "")]),
)] + [(f"serve --load /dev/stdin {ROOT}", [("A", f"GET {MAPS}", listed(6, b=6))], MAP["b"].rstrip())]


def step(client, does, wanted):
    """What comes when a client does this. A text behind `?` is sent, and as many lines are read as are wanted."""
    if does.startswith("?"):
        client.socket.sendall(does[1:].encode())
        return b"".join(client.lines.readline() for _line in wanted.splitlines()).decode()
    if does == "wait":
        return "something" if select.select([client.socket], [], [], 0.2)[0] else "nothing"
    if does == "elsewhere":
        return "somebody" if socket.socket().connect_ex(("127.0.0.2", client.socket.getpeername()[1])) == 0 else "nobody"
    if does == "end":
        client.socket.shutdown(socket.SHUT_WR)
        return client.lines.read().decode()
    if does != "event":
        return client.reply(*does.split(" ", 2))
    event = client.event()
    return event if isinstance(event, str) else f'{event["type"]} {event["object"].get("code") or event["object"]["metadata"]["name"]}'


def server(program, words, steps, given, folder, numbers):
    """Of a server what is wanted and what came: what it has printed, each step of its clients, and what it has printed then."""
    ports = dict(zip(re.findall(r"\b[A-Q]\b", words), numbers))
    printed, told = "".join(f"listening {ports[it]}\n" for it in re.findall("([A-P])=", words) + re.findall("--answer (Q)", words)), folder / "told"
    with told.open("w") as output:
        process = subprocess.Popen([program, *re.sub(r"\b[A-Q]\b", lambda it: str(ports[it[0]]), words).split()], stdin=subprocess.PIPE, stdout=output, cwd=folder, text=True)
    try:
        with contextlib.suppress(BrokenPipeError), process.stdin as stream:
            stream.write(given)
        end, clients = time.monotonic() + 60, {}
        while told.read_text() != printed and process.poll() is None and time.monotonic() < end:
            time.sleep(0.01)
        yield "it prints", printed, told.read_text()
        for name, does, wanted in steps:
            try:
                clients[name] = clients.get(name) or Client(ports[name[0]], seconds=60)
                yield f"client {name}, {does[:80]!r}", wanted, step(clients[name], does, wanted)
            except (OSError, ValueError) as error:
                yield f"client {name}, {does[:80]!r}", wanted, repr(error)
        yield "it has printed in the end", printed, told.read_text()
    finally:
        process.kill()
        process.wait()


def main(program):
    with room(FILES) as folder:
        yield from commands(program, CASES, folder)
        numbers = free()
        for words, steps, given in SERVERS:
            with contextlib.closing(server(program, words, steps, given, folder, numbers)) as seen:
                yield f"kapi {words}", next((f"{what}: {it}" for what, wanted, got in seen if (it := differs(wanted, got))), None)
