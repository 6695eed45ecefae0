"""The steps of checks/cluster.py that need a real kube-apiserver: modes, certificates and etcd are not the stand-in's."""
import contextlib
import time

from checks.alike import alike
from checks.api_server import free_port
from checks.mirrored import GROUP, NAMED, PODS, RBAC, SECONDS, SELF, SELF_REVIEW, Client, Mirror, binding, role

SECRET = "/api/v1/namespaces/default/secrets"
CACHED = PODS + "?resourceVersion=0"


def restarted(run, mode):
    run.cluster.stop()
    run.cluster.mode = mode
    run.cluster.start()
    forget_connections(run)


def forget_connections(run):
    """After a start of the API server the first request over an old connection is answered by nobody."""
    run.clients.clear()
    run.admin = run.client("admin")


def without_kapi(run):
    """Without Kapi the API server answers 500, to whoever impersonates 403, and 500 to probes that name no user"""
    forget_connections(run)
    run.mirror.end()
    assert run.status("bob") == 500
    assert Client(run.cluster.port, run.trust, Authorization="Bearer bob", Impersonate_User="ann").ask("GET", PODS)[0] == 403
    probed = Client(run.cluster.port, run.trust).ask("GET", "/livez")[0]
    assert probed == 500, probed
    run.mirrored()
    waited = run.until(200, "bob")
    assert Client(run.cluster.port, run.trust).ask("GET", "/livez")[0] == 200
    return waited


def store_away(run):
    """While etcd is away the API server decides by the policy as it was"""
    run.until(200, "bob", CACHED)
    run.cluster.stop_store()
    until = time.monotonic() + 15
    try:
        while time.monotonic() < until:
            decided = run.status("bob", SELF, "POST", SELF_REVIEW), run.status("bob", CACHED), run.status("eve")
            assert decided == (403, 200, 403), decided
            time.sleep(0.1)
        written = run.admin.ask("POST", NAMED + "/rolebindings", binding("ann", "sees-pods", "ann"))[0]
    finally:
        run.cluster.start_store()
    assert written >= 500, written
    begun = time.monotonic()
    while run.admin.ask("POST", NAMED + "/rolebindings", binding("ann", "sees-pods", "ann"))[0] not in (201, 409):
        assert time.monotonic() - begun < SECONDS, "nothing can be written after etcd is back"
    waited = run.until(200, "ann")
    run.write("DELETE", NAMED + "/rolebindings/ann")
    run.until(403, "ann")
    return f"a write is answered {written}; a grant is seen {waited} after etcd is back"


def escalation(run):
    """The API server itself checks whether a role gives more than its writer holds"""
    writes = {"metadata": {"name": "writes-roles"}, "rules": [{"apiGroups": [GROUP], "resources": ["roles"], "verbs": ["create"]}]}
    run.write("POST", NAMED + "/roles", writes)
    run.write("POST", NAMED + "/rolebindings", binding("fay", "writes-roles", "fay"))
    begun = time.monotonic()
    while (said := run.client("fay").ask("POST", NAMED + "/roles", role("more", "services")))[0] != 403 or "attempting to grant" not in said[1]["message"]:
        assert time.monotonic() - begun < SECONDS and said[0] in (403, 500), said
    run.write("DELETE", NAMED + "/rolebindings/fay")


def default_roles(run):
    """A default role that is missing, as after a new version, is written at a start with RBAC, and not at one without; Kapi follows"""
    path, asked = f"{RBAC}/clusterroles/system:discovery", ("dan", "/api")
    run.until(200, *asked)
    run.write("DELETE", path)
    run.until(403, *asked)
    restarted(run, "Webhook")
    time.sleep(5)
    assert run.status(*asked) == 403 and run.admin.ask("GET", path)[0] == 404
    restarted(run, "RBAC")
    begun = time.monotonic()
    while run.admin.ask("GET", path)[0] != 200:
        assert time.monotonic() - begun < SECONDS, "it is not written"
    restarted(run, "Webhook")
    return run.until(200, *asked)


def kubelet_objects(run):
    """A node, a pod on it with a secret, and another secret."""
    run.admin.ask("POST", "/api/v1/namespaces/default/serviceaccounts", {"metadata": {"name": "default"}})
    for name in ("of-pod", "of-nobody"):
        run.write("POST", SECRET, {"metadata": {"name": name}})
    volumes = [{"name": "v", "secret": {"secretName": "of-pod"}}]
    spec = {"nodeName": "x", "containers": [{"name": "c", "image": "i"}], "volumes": volumes, "automountServiceAccountToken": False}
    run.write("POST", PODS, {"metadata": {"name": "p"}, "spec": spec})


def kubelets(run):
    """In mode Node,Webhook the Node authorizer decides first: a kubelet has its own without Kapi, and Kapi decides about all else"""
    restarted(run, "Node,Webhook")
    run.until(200, "bob")
    kubelet = Client(run.cluster.port, lambda: run.cluster.certified("system:node:x", "system:nodes"))
    assert kubelet.ask("POST", "/api/v1/nodes", {"metadata": {"name": "x"}})[0] == 201
    kubelet_objects(run)
    asked = {"/api/v1/nodes/x": 200, f"{SECRET}/of-pod": 200, f"{SECRET}/of-nobody": 403, NAMED + "/roles": 403}
    begun = time.monotonic()
    while (found := {path: kubelet.ask("GET", path)[0] for path in asked}) != asked:
        assert time.monotonic() - begun < SECONDS, found
    run.mirror.end()
    found = {path: kubelet.ask("GET", path)[0] for path in asked}
    assert list(found.values()) == [200, 200, 500, 500] and run.status("bob") == 500, found
    run.mirrored()
    run.until(200, "bob")
    run.write("POST", NAMED + "/rolebindings", {**binding("nodes", "sees-secrets"), "subjects": [{"kind": "Group", "apiGroup": GROUP, "name": "system:nodes"}]})
    begun = time.monotonic()
    while kubelet.ask("GET", SECRET)[0] != 200:
        assert time.monotonic() - begun < SECONDS, "a grant to system:nodes is not seen"
    run.write("DELETE", NAMED + "/rolebindings/nodes")
    restarted(run, "Webhook")
    return run.until(200, "bob")


def two_of_them(run):
    """Two API servers with a mirror and a Kapi each: a grant at one is seen at both, and without one Kapi the other goes on"""
    root, webhook, port = free_port(), free_port(), free_port()
    other = run.cluster.beside(port, webhook)
    mirror = None
    try:
        other.start()
        mirror = Mirror(run.program, run.kubeconfig("admin", port), root, webhook)
        clients = [Client(port, other.trust, Authorization=f"Bearer {user}") for user in ("bob", "ann")]

        def until(client, status):
            begun = time.monotonic()
            while (found := client.ask("GET", PODS)[0]) != status:
                assert time.monotonic() - begun < SECONDS and found in (200, 403, 500), (found, mirror.lines)
            return f"{(time.monotonic() - begun) * 1000:.0f} ms"

        until(clients[0], 200)
        run.write("POST", NAMED + "/rolebindings", binding("ann", "sees-pods", "ann"))
        waited = f"{run.until(200, 'ann')} and {until(clients[1], 200)} after a grant"
        run.write("DELETE", NAMED + "/rolebindings/ann")
        waited += f", {run.until(403, 'ann')} and {until(clients[1], 403)} after its end"
        run.mirror.end()
        assert run.status("bob") == 500 and clients[0].ask("GET", PODS)[0] == 200 and clients[1].ask("GET", PODS)[0] == 403
        run.mirrored()
        return f"{waited}; {run.until(200, 'bob')}"
    finally:
        with contextlib.suppress(AttributeError):
            mirror.end()
        other.stop()


STEPS = (without_kapi, store_away, escalation, default_roles, kubelets, two_of_them, alike)
