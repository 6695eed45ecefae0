"""Measures the program from outside: seconds of processor time for N and for 2N events or questions, what each of the second N takes, and
how many times the second N takes what the first N took. Times that programs and other work share are noise; ratios tell more.

usage: python3 -m bench PROGRAM events [N]     N is a number of events, 10,000 if left out
"""
import json
import os
import pathlib
import subprocess
import sys
import tempfile

MAPS = "/api/v1/namespaces/default/configmaps"
RBAC = "/apis/rbac.authorization.k8s.io/v1"


def request(conn, method, target, body=None, media=""):
    text = "" if body is None else json.dumps(body, separators=(",", ":"))
    head = f"{method} {target} HTTP/1.1\\r\\nHost: a\\r\\n{media}Content-Length: {len(text)}\\r\\n\\r\\n"
    return [f"feed {conn} {head}" + text.replace("\\", "\\\\"), f"serve {conn}"]


def config_map(number, value="x" * 100):
    return {"metadata": {"name": f"m{number}"}, "data": {"key": value}}


def role(name, *rules):
    return {"metadata": {"name": name}, "rules": [dict(zip(("verbs", "apiGroups", "resources"), rule)) for rule in rules]}


def opening(*requests):
    """Two connections, of root and of ann, who may read configmaps, and some requests of root."""
    lines = ["open root,system:masters", "open ann"]
    lines += request(0, "POST", f"{RBAC}/namespaces/default/roles", role("reader", (["get", "list", "watch"], [""], ["configmaps"])))
    subject = {"kind": "User", "name": "ann"}
    binding = {"metadata": {"name": "reader"}, "roleRef": {"kind": "Role", "name": "reader"}, "subjects": [subject]}
    lines += request(0, "POST", f"{RBAC}/namespaces/default/rolebindings", binding)
    for each in requests:
        lines += each
    return lines


def creates(count):
    return opening(*[request(0, "POST", MAPS, config_map(number)) for number in range(count)])


def gets(count):
    return opening(request(0, "POST", MAPS, config_map(0)), *[request(1, "GET", f"{MAPS}/m0")] * count)


def denials(count):
    return opening(*[request(1, "GET", "/api/v1/namespaces/default/secrets/s")] * count)


def patches(count):
    media = "Content-Type: application/merge-patch+json\\r\\n"
    each = [request(0, "PATCH", f"{MAPS}/m0", {"data": {"key": str(number)}}, media) for number in range(count)]
    return opening(request(0, "POST", MAPS, config_map(0)), *each)


def watched(count):
    """Changes of which ten watches show each."""
    lines = opening(request(0, "POST", MAPS, config_map(0)))
    for watch in range(10):
        lines += ["open ann"] + request(watch + 2, "GET", f"{MAPS}?watch=1") + [f"pump {watch + 2}"]
    for number in range(count):
        lines += request(0, "PUT", f"{MAPS}/m0", config_map(0, str(number))) + [f"pump {watch + 2}" for watch in range(10)]
    return lines


def roles(count):
    """Roles that ann may write, since she holds what they give: each is checked against all that she holds."""
    lines = opening()
    lines += request(0, "POST", f"{RBAC}/clusterroles", role("writer", (["create"], ["rbac.authorization.k8s.io"], ["roles"])))
    binding = {"metadata": {"name": "writer"}, "roleRef": {"kind": "ClusterRole", "name": "writer"}, "subjects": [{"kind": "User", "name": "ann"}]}
    lines += request(0, "POST", f"{RBAC}/clusterrolebindings", binding)
    for number in range(count):
        lines += request(1, "POST", f"{RBAC}/namespaces/default/roles", role(f"r{number}", (["get", "list"], [""], ["configmaps"])))
    return lines


def seconds(words, text=""):
    """The processor time of a run, in seconds."""
    with tempfile.TemporaryFile() as given, open(os.devnull, "wb") as nowhere:
        given.write(text.encode())
        given.seek(0)
        process = subprocess.Popen(words, stdin=given, stdout=nowhere)
        _pid, status, used = os.wait4(process.pid, 0)
        if status:
            sys.exit(f"{words}: status {status}")
    return used.ru_utime + used.ru_stime


def script_time(program, lines):
    return min(seconds([program, "script"], "\n".join(lines) + "\n") for _run in range(3))


def audit_time(program, bindings, questions):
    """Questions of a user who has one of so many bindings."""
    group = "rbac.authorization.k8s.io"
    objects = [{"apiVersion": f"{group}/v1", "kind": "Role", "metadata": {"name": "r", "namespace": "default"},
                "rules": [{"verbs": ["get"], "apiGroups": [""], "resources": ["pods"]}]}]
    for number in range(bindings):
        objects.append({"apiVersion": f"{group}/v1", "kind": "RoleBinding", "metadata": {"name": f"b{number}", "namespace": "default"},
                        "roleRef": {"kind": "Role", "name": "r"}, "subjects": [{"kind": "User", "name": f"user{number}"}]})
    asked = {"user": "user1", "resourceAttributes": {"namespace": "default", "verb": "get", "resource": "pods"}}
    with tempfile.TemporaryDirectory() as room:
        policy, asks = pathlib.Path(room, "policy"), pathlib.Path(room, "questions")
        policy.write_text("".join(json.dumps(item) + "\n" for item in objects))
        asks.write_text((json.dumps(asked) + "\n") * questions)
        return min(seconds([program, "audit", str(policy), str(asks), "--readers", "1"]) for _run in range(3))


def tell(what, none, once, twice, count):
    first, second = once - none, twice - once
    print(f"{what}: {once:.2f} s of {count}, {twice:.2f} s of {2 * count}; {second / count * 1e6:.1f} us each, the second half {second / max(first, 1e-9):.2f} times the first")


def main(program, count=10_000):
    count = int(count)
    for what, lines in (("a create", creates), ("a get", gets), ("a denied get", denials), ("a patch", patches), ("a change seen by ten watches", watched), ("a role whose writer holds it", roles)):
        tell(what, *[script_time(program, lines(number)) for number in (0, count, 2 * count)], count)
    for bindings in (10, 1_000, 10_000):
        tell(f"a question, {bindings} bindings", *[audit_time(program, bindings, number) for number in (0, 10 * count, 20 * count)], 10 * count)
