"""A step of checks/cluster.py: a real API server that asks Kapi beside one in mode RBAC over the same etcd, random roles, and what each decides."""
import json
import pathlib
import random
import subprocess
import sys
import urllib.parse

from checks.api_server import free_port
from checks.mirrored import GROUP, MANY, RBAC, Client, until_equal

REVIEW = "/apis/authorization.k8s.io/v1/subjectaccessreviews"
VERBS = ("get", "list", "watch", "create", "update", "patch", "delete", "deletecollection", "*")
API_GROUPS = ("", "apps", "*")
RESOURCES = ("pods", "pods/log", "pods/*", "*/log", "*/scale", "configmaps", "services", "deployments", "deployments/scale", "*")
NAMES, SPACES = ("a", "b", "c"), ("default", "kube-public")
URLS = ("/healthz", "/healthz/*", "/logs", "/logs/*", "/openapi/v2", "/api*", "*")
USERS = [f"user-{it}" for it in range(6)] + [f"system:serviceaccount:{space}:{name}" for space in SPACES for name in NAMES]
TEAMS = [f"team-{it}" for it in range(3)] + ["system:serviceaccounts", "system:serviceaccounts:default"]
# Where an API server has them: the group, the resource, and its subresources.
PLACES = (("", "pods", ("", "log", "status")), ("", "configmaps", ("",)), ("", "services", ("", "status")), ("apps", "deployments", ("", "scale", "status")))
PATHS = ("/healthz", "/healthz/ping", "/logs", "/logs/a", "/openapi/v2", "/api", "/api/v1", "/apis/apps", "/metrics", "/none%2Fb")
METHODS = {"get": "GET", "list": "GET", "create": "POST", "update": "PUT", "patch": "PATCH", "delete": "DELETE", "deletecollection": "DELETE"}


def some(chance, choices):
    return chance.sample(choices, chance.choice((1, 1, 2)))


def rule(chance, is_of_cluster):
    if is_of_cluster and chance.random() < 0.3:
        return {"verbs": some(chance, ("get", "post", "*")), "nonResourceURLs": some(chance, URLS)}
    named = {"resourceNames": some(chance, NAMES)} if chance.random() < 0.3 else {}
    return {"verbs": some(chance, VERBS), "apiGroups": some(chance, API_GROUPS), "resources": some(chance, RESOURCES), **named}


def subject(chance):
    name = chance.choice(USERS + TEAMS)
    if name in TEAMS:
        return {"kind": "Group", "apiGroup": GROUP, "name": name}
    if name.startswith("system:") and chance.random() < 0.7:
        return {"kind": "ServiceAccount", "namespace": name.split(":")[2], "name": name.split(":")[3]}
    return {"kind": "User", "apiGroup": GROUP, "name": name}


def write_policy(run, chance, count):
    """Random roles and bindings: so many that most users have some right and none has all."""
    for number in range(count):
        space = chance.choice((None, *SPACES))
        at, kind = (f"{RBAC}/namespaces/{space}/", "Role") if space else (RBAC + "/cluster", "ClusterRole")
        name = {"name": f"random-{number}"}
        rules = [rule(chance, not space) for _rule in range(chance.choice((1, 2)))]
        run.write("POST", at + "roles", {"metadata": name, "rules": rules})
        subjects = [subject(chance) for _subject in range(chance.choice((1, 2)))]
        run.write("POST", at + "rolebindings", {"metadata": name, "roleRef": {"apiGroup": GROUP, "kind": kind, **name}, "subjects": subjects})


def identity(chance):
    """A user with the groups that an API server gives it."""
    user = chance.choice(USERS)
    own = ["system:serviceaccounts", f"system:serviceaccounts:{user.split(':')[2]}"] if user.startswith("system:") else [it for it in TEAMS[:3] if chance.random() < 0.2]
    return user, own + ["system:authenticated"]


def review(chance):
    """The spec of a random review."""
    user, groups = identity(chance)
    if chance.random() < 0.3:
        return {"user": user, "groups": groups, "nonResourceAttributes": {"verb": chance.choice(("get", "post")), "path": urllib.parse.unquote(chance.choice(PATHS))}}
    group, resource, parts = chance.choice(PLACES)
    asked = {"verb": chance.choice(VERBS[:-1] + ("use",)), "group": group, "resource": resource, "subresource": chance.choice(parts)}
    asked |= {"namespace": chance.choice(("", *SPACES)), "name": chance.choice(("", *NAMES)), "version": "v1"}
    return {"user": user, "groups": groups, "resourceAttributes": {key: it for key, it in asked.items() if it}}


def request(chance):
    """A random request that changes nothing: a body is none that can be stored, and a name one that is not there."""
    if chance.random() < 0.3:
        return chance.choice(("GET", "POST")), chance.choice(PATHS)
    group, resource, parts = chance.choice(PLACES)
    verb, space = chance.choice(list(METHODS)), chance.choice(("", *SPACES))
    whole = (f"/apis/{group}/v1" if group else "/api/v1") + (f"/namespaces/{space}" if space else "") + f"/{resource}"
    named = verb not in ("list", "create", "deletecollection")
    part = chance.choice(parts) if named and verb in ("get", "update", "patch") else ""
    return METHODS[verb], whole + (f"/{chance.choice(NAMES)}" if named else "") + (f"/{part}" if part else "")


class Pair:
    """Clients of both API servers, as a member of system:masters who may impersonate."""

    def __init__(self, *clusters):
        self.clients = [Client(it.port, it.trust, Authorization="Bearer admin") for it in clusters]

    def allowed(self, spec):
        """What each decides of a review."""
        found = [it.ask("POST", REVIEW, {"spec": spec}) for it in self.clients]
        assert all(status == 201 for status, _said in found), (spec, found)
        return [said["status"]["allowed"] for _status, said in found]

    def refused(self, user, team, method, path):
        """Whether each answers a request with 403."""
        found = []
        for client in self.clients:
            headers = {**client.headers, "Impersonate-User": user, **({"Impersonate-Group": team} if team else {})}
            asker = Client(client.port, client.trust)
            asker.headers = headers
            found.append(asker.ask(method, path, {"kind": "Odd", "apiVersion": "v9"} if method in ("POST", "PUT", "PATCH") else None)[0])
        assert not {0, 500} & set(found), (user, team, method, path, found)
        return [status == 403 for status in found]


def in_shadow(run, log):
    """What tools/shadow.py prints of a log with the cluster's present policy."""
    policy = []
    for path in ("/api/v1/namespaces", *(f"{RBAC}/{kind}" for kind in ("clusterroles", "roles", "clusterrolebindings", "rolebindings"))):
        said = run.admin.ask("GET", path)[1]
        policy += [{**it, "kind": said["kind"].removesuffix("List"), "apiVersion": said["apiVersion"], "aggregationRule": None} for it in said["items"]]
    own = {("Namespace", "default")} | {(kind, name) for kind in ("ClusterRole", "ClusterRoleBinding") for name in ("cluster-admin", "system:basic-user")}
    file = pathlib.Path(run.room, "alike.jsonl")
    file.write_text("".join(json.dumps(it) + "\n" for it in policy if (it["kind"], it["metadata"]["name"]) not in own))
    words = [sys.executable, "tools/shadow.py", "--kapi", run.program, "--before", str(file), str(log)]
    return subprocess.run(words, stdout=subprocess.PIPE, text=True).stdout.strip().splitlines()


def alike(run):
    """Random reviews and requests are decided as by an API server in mode RBAC, and its audit log as by kapi audit"""
    chance, count = random.Random(80), 3000 if run.changes >= MANY else 300
    write_policy(run, chance, 24)
    until_equal(run)
    other = run.cluster.beside(free_port(), 0)
    other.mode = "RBAC"
    other.start()
    try:
        pair = Pair(run.cluster, other)
        counts = {True: 0, False: 0}
        for _review in range(count):
            spec = review(chance)
            found = pair.allowed(spec)
            assert len(set(found)) == 1, (spec, found)
            counts[found[0]] += 1
        refused = 0
        for _request in range(count):
            asked = chance.choice(USERS), chance.choice((None, *TEAMS[:3])), *request(chance)
            found = pair.refused(*asked)
            assert len(set(found)) == 1, (asked, found)
            refused += found[0]
    finally:
        other.stop()
    shown = in_shadow(run, other.path / f"audit-{other.port}.log")[-1]
    assert shown.endswith(" 0 that differ"), shown
    return f"of {count} reviews {counts[True]} are allowed, of {count} requests {refused} refused, all by both; of the log {shown}"
