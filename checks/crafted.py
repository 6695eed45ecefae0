"""Sends a server on 127.0.0.1 policies that are made to be costly, and prints the processor time that each costs it.

usage: python3 -m checks PROGRAM crafted [PROGRAM]     a second program is measured beside the first, and the ratio is told

Ann may bind cluster roles whose rules she holds, and holds what each line says. What is above its bound is measured up to twice more, and the
least counts, since others on the machine can only add to it.
"""
import itertools
import random
import time

from bench import events
from checks.harness import RBAC as GROUP
from checks.harness import bound, compact, cost, judged, rule, thing
from tools.server import ANN, ROOT, Server, connect, request

RBAC = f"/apis/{GROUP}/v1"
PODS = "/api/v1/namespaces/default/pods"
RULES, WRITES, WATCHES, SECONDS = 15_000, 4_000, 20, 120
HALF = RULES // 2


def lists(verbs, groups, resources, names=()):
    """A rule of these lists, without those that are empty."""
    return {name: list(it) for name, it in (("verbs", verbs), ("apiGroups", groups), ("resources", resources), ("resourceNames", names)) if it}


def single(resource, *names):
    """A rule of one verb on a resource."""
    return rule("get", resource, names=names)


def entries(count, letter="e"):
    return [f"{letter}{it}" for it in range(count)]


def square(count):
    """A rule of four lists of so many entries."""
    return lists(*[entries(count, letter) for letter in "vgrn"])


def halves(count):
    """The same in two halves of its verbs."""
    whole = square(count)
    return [{**whole, "verbs": whole["verbs"][it::2]} for it in (0, 1)]


def resources():
    """Rules of one permission each, which differ in the resource."""
    return [single(it) for it in entries(RULES)]


def names():
    return [single("pods", it) for it in entries(RULES)]


def paths():
    return [{"verbs": ["get"], "nonResourceURLs": [f"/{it}"]} for it in entries(RULES)]


def long_paths():
    return {"verbs": ["get"], "nonResourceURLs": [f"/{it}" for it in entries(RULES)]}


def split_whole():
    return lists(entries(15, "v"), [""], ["pods"], entries(HALF))


def split():
    """Rules of one name, two for each: some of 15 verbs, and the others."""
    dice, verbs = random.Random(7), entries(15, "v")
    for name in entries(HALF):
        some = set(dice.sample(verbs, 7))
        for part in (True, False):
            yield lists([it for it in verbs if (it in some) == part], [""], ["pods"], [name])


def repeats():
    """Rules of one name, and then ten rules of many of these."""
    return names()[:7_000] + [single("pods", *entries(5_000))] * 10


def product():
    """One rule of many resources and many names."""
    return lists(["get"], [""], entries(HALF, "r"), entries(HALF))


def diagonal():
    """Rules of a resource and a name each, and then rules of a name each, on all resources."""
    return [single(f"r{it}", f"e{it}") for it in range(HALF)] + [single("*", it) for it in entries(HALF)]


def elevens():
    """Rules of one permission each, of eleven values of each part."""
    return [lists(*[[it] for it in parts]) for parts in itertools.product(*[entries(11, letter) for letter in "vgrn"])]


def some_of(count, chosen, values, seed, parts="vgrn"):
    """Rules of some of the values of each part, by chance."""
    dice = random.Random(seed)
    return [lists(*[dice.sample(entries(values, letter), chosen) for letter in parts]) for _ in range(count)]


def some_paths(count, chosen, values, seed):
    """Rules of some of the verbs and some of the paths, by chance."""
    dice, paths = random.Random(seed), [f"/{it}" for it in entries(values)]
    return [{"verbs": dice.sample(entries(values, "v"), chosen), "nonResourceURLs": dice.sample(paths, chosen)} for _ in range(count)]


def others(count):
    """Rules of a value of its own in each part."""
    return [lists(*[[f"{letter}other{it}"] for letter in "vgrn"]) for it in range(count)]


def with_own(rules):
    """The same rules, each with a resource of its own."""
    return [{**it, "resources": [*it["resources"], f"own{number}"]} for number, it in enumerate(rules)]


def with_unheld(rules):
    """The same rules, each with a resource that nobody holds."""
    return [{**it, "resources": it["resources"] + ["unheld"]} for it in rules]


def slashed(verbs=("get",)):
    """One rule of many resources behind a slash."""
    return lists(verbs, [""], [f"a{it}/x{it}" for it in range(RULES)])


def any_with():
    """Rules of one resource behind a slash each, of all before it."""
    return [single(f"*/x{it}") for it in range(RULES)]


def beginnings():
    """Rules of all paths with a beginning."""
    return [{"verbs": ["get"], "nonResourceURLs": [f"/{it}*"]} for it in entries(RULES)]


def role(name, rules, **metadata):
    return thing("ClusterRole", name, rules=list(rules)) | {"metadata": {"name": name, **metadata}}


def binding(name):
    """Gives ann the role of that name."""
    return thing("ClusterRoleBinding", name, **bound(f"ClusterRole {name}", "User ann"))


BINDER = [role("binder", [rule("create", "clusterrolebindings", GROUP)]), binding("binder")]


def check(program, held, wanted, status=201):
    """The cost of the check of a binding that ann writes to a role, who holds the first rules."""
    with Server(program, objects=[*BINDER, role("held", held), binding("held"), role("new", wanted)]) as server:
        return cost(server, connect(ANN), "POST", f"{RBAC}/clusterrolebindings", binding("new"), (status,))


def refused(program):
    """The cost of the first try of a request whose answer is not had for lack of memory. It is tried again five times a second."""
    with Server(program, objects=[*BINDER, role("new", [square(320)])]) as server:
        client, before = connect(ANN), server.precise()
        client.sendall(request("POST", f"{RBAC}/clusterrolebindings", compact(binding("new"))))
        time.sleep(0.1)
        return server.precise() - before


ALL = {**role("all", []), "aggregationRule": {"clusterRoleSelectors": [{"matchLabels": {"fills": "all"}}]}}


def source(rules):
    return role("source", rules, labels={"fills": "all"})


def gathering(program):
    """The creation of a cluster role that takes many rules from another, in a server: the request, the turn, and the look that finds them there."""
    with Server(program) as server:
        root = connect(ROOT)
        cost(server, root, "POST", f"{RBAC}/clusterroles", source(resources()))
        first = cost(server, root, "POST", f"{RBAC}/clusterroles", ALL)
        before = server.precise()
        time.sleep(1)
        return first + server.precise() - before


def turn(program, is_again=False):
    """A turn of a script: it takes many rules into a cluster role that has none, or that has them all but the last."""
    made = [*events.request(0, "POST", f"{RBAC}/clusterroles", source(resources())), *events.request(0, "POST", f"{RBAC}/clusterroles", ALL)]
    if is_again:
        made += ["turn", "turn", *events.request(0, "PUT", f"{RBAC}/clusterroles/source", source([*resources()[:-1], rule("list", "last")]))]
    made = events.opening(made)
    return events.script_time(program, [*made, "turn"]) - events.script_time(program, made)


def watch(target, length):
    """Starts a watch of root. What is returned reads so many bytes of it each time."""
    stream = connect(ROOT)
    stream.settimeout(SECONDS)
    stream.sendall(request("GET", target))

    def read():
        left = length
        while left > 0:
            piece = stream.recv(1 << 20)
            assert piece, f"{target}: the watch ended"
            left -= len(piece)

    return read


def gone(program, method, **more):
    """An object of nearly a mebibyte goes, which watches see: it is deleted, or loses the label that they ask for."""
    body = thing("Pod", "a", spec={"x": [{"": 0}] * 149_000})
    labelled = body | {"metadata": {"name": "a", "labels": {"seen": "yes"}}}
    with Server(program) as server:
        root = connect(ROOT)
        cost(server, root, "POST", PODS, labelled)
        watches = [watch(f"{PODS}?watch=1&labelSelector=seen%3Dyes", len(compact(labelled))) for _ in range(WATCHES)]
        for read in watches:
            read()
        before = server.precise()
        cost(server, root, method, f"{PODS}/a", body if method == "PUT" else "")
        for read in watches:
            read()
        return server.precise() - before


def writes(program, target):
    with Server(program) as server:
        root = connect(ROOT)
        return sum(cost(server, root, "POST", target, {"metadata": {"name": it}, "rules": [rule("get", "pods")]}) for it in entries(WRITES))


# What is checked, the bound in seconds, the rules that are held, those that are wanted, and another status than 201.
CHECKS = (
    ("four lists of 8 entries, none held: 4,096 causes", 0.05, lambda: ([], [square(8)], 403)),
    ("four lists of 16 entries, none held: 65,536 causes", 0.2, lambda: ([], [square(16)], 403)),
    ("four lists of 56 entries, held in two halves", 0.03, lambda: (halves(56), [square(56)])),
    (f"{RULES:,} rules against as many, by resource", 0.5, lambda: (resources(), resources())),
    (f"{RULES:,} rules against as many, by name", 0.5, lambda: (names(), names())),
    (f"{RULES:,} rules against as many, by path", 0.5, lambda: (paths(), paths())),
    ("14,641 rules against as many, eleven of each part", 0.5, lambda: (elevens(), elevens())),
    (f"{RULES:,} names against as many rules", 0.5, lambda: (names(), [single("pods", *entries(RULES))])),
    (f"{RULES:,} resources against as many rules", 0.5, lambda: (resources(), [lists(["get"], [""], entries(RULES))])),
    (f"{RULES:,} paths against as many rules", 0.5, lambda: (paths(), [long_paths()])),
    (f"{HALF:,} names of 15 verbs against two rules for each", 0.5, lambda: (list(split()), [split_whole()])),
    (f"{HALF:,} resources of as many names against a rule for each resource", 0.5, lambda: ([single(it) for it in entries(HALF, "r")], [product()])),
    ("the same against single pairs, and then a rule for each name", 1, lambda: (diagonal(), [product()])),
    ("ten rules of 5,000 names behind 7,000 of one, none held", 0.5, lambda: ([], repeats(), 403)),
    (f"{RULES:,} rules against one with as many names", 0.5, lambda: ([single("pods", *entries(RULES))], names())),
    (f"{RULES:,} rules of two of eleven of each part against as many", 0.5, lambda: (some_of(RULES, 2, 11, 1), some_of(RULES, 2, 11, 2))),
    ("the same, each with a resource that nobody holds", 0.5, lambda: (some_of(RULES, 2, 11, 1), with_unheld(some_of(RULES, 2, 11, 2)), 403)),
    (f"{RULES:,} rules of three of ten of each part against as many", 0.5, lambda: (some_of(RULES, 3, 10, 1), some_of(RULES, 3, 10, 2))),
    ("8,000 rules of four of ten of each part against as many", 0.5, lambda: (some_of(8_000, 4, 10, 1), some_of(8_000, 4, 10, 2))),
    (f"{RULES:,} rules of four of 30 of each part against as many", 0.5, lambda: (some_of(RULES, 4, 30, 1), some_of(RULES, 4, 30, 2), 403)),
    (f"{RULES:,} rules of four of 30 of each part and a resource of its own against the same", 0.5, lambda: (with_own(some_of(RULES, 4, 30, 1)), with_own(some_of(RULES, 4, 30, 1)))),
    ("2,400 rules of 16 of 32 of each part against as many behind 64 others", 5, lambda: (others(64) + some_of(2_400, 16, 32, 1), some_of(2_400, 16, 32, 2))),
    ("2,400 rules of 22 of 44 of each part, without names, against as many", 5, lambda: (some_of(2_400, 22, 44, 1, "vgr"), some_of(2_400, 22, 44, 2, "vgr"))),
    ("1,500 rules of 24 of 48 of each part against as many", 5, lambda: (some_of(1_500, 24, 48, 1), some_of(1_500, 24, 48, 2))),
    ("1,200 rules of 32 of 64 of each part against as many", 5, lambda: (some_of(1_200, 32, 64, 1), some_of(1_200, 32, 64, 2))),
    ("1,600 rules of 32 of 64 of each part, without names, against as many", 5, lambda: (some_of(1_600, 32, 64, 1, "vgr"), some_of(1_600, 32, 64, 2, "vgr"))),
    ("800 rules of 64 of 128 of each part, without names, against as many", None, lambda: (some_of(800, 64, 128, 1, "vgr"), some_of(800, 64, 128, 2, "vgr"))),
    ("980 rules of 40 of 80 of each part against as many", None, lambda: (some_of(980, 40, 80, 1), some_of(980, 40, 80, 2))),
    ("600 rules of 64 of 128 of each part against as many", None, lambda: (some_of(600, 64, 128, 1), some_of(600, 64, 128, 2))),
    ("one rule of 128 of 256 of each part against 300", None, lambda: (some_of(300, 128, 256, 1), some_of(1, 128, 256, 2))),
    ("1,500 rules of 50 of 100 paths and of verbs against as many", 0.5, lambda: (some_paths(1_500, 50, 100, 1), some_paths(1_500, 50, 100, 2))),
    (f"{RULES:,} resources behind a slash against a rule for all before each", 0.5, lambda: (any_with(), [slashed()])),
    ("the same of two verbs, one of them held", None, lambda: (any_with(), [slashed(["get", "list"])], 403)),
    (f"{RULES:,} paths against a rule for the beginning of each", 0.5, lambda: (beginnings(), [long_paths()])),
)
OTHERS = (
    ("four lists of 320 entries, none held: refused for lack of memory", 0.01, refused),
    (f"a turn of {RULES:,} rules", 0.2, turn),
    ("the same, where all but one are there", 0.2, lambda it: turn(it, True)),
    (f"a cluster role that takes {RULES:,} rules, with its request and the look that finds them there", None, gathering),
    (f"a pod of a mebibyte of small objects is deleted, which {WATCHES} watches see", 0.15, lambda it: gone(it, "DELETE")),
    ("the same loses the label that they ask for", 0.5, lambda it: gone(it, "PUT")),
    (f"{WRITES:,} roles", None, lambda it: writes(it, f"{RBAC}/namespaces/default/roles")),
    (f"{WRITES:,} cluster roles", None, lambda it: writes(it, f"{RBAC}/clusterroles")),
)


def least(measure, program, most):
    """What is above its bound is measured up to twice more, and the least counts."""
    used = measure(program)
    for _ in range(2):
        if most is not None and used > most:
            used = min(used, measure(program))
    return used


def main(program, other=None):
    figures = {}

    def figure(what, most, measure):
        used = figures[what] = least(measure, program, most)
        yield "s", used, most
        if other:
            old = measure(other)
            yield from (("s by the other program", old, None), ("times that", old / used, None))

    measured = [(what, most, lambda it, rules=rules: check(it, *rules())) for what, most, rules in CHECKS]
    for what, most, measure in [*measured, *OTHERS]:
        yield what, judged(f"{what}:", lambda: list(figure(what, most, measure)))
    yield "both kinds of roles", judged("a cluster role takes", lambda: [("times a role", figures[f"{WRITES:,} cluster roles"] / figures[f"{WRITES:,} roles"], 2)])
