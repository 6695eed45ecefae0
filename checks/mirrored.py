"""What tools/mirror.py runs between in checks: clients of an API server, a wire that can be cut, a running mirror, and what Kapi has."""
import contextlib
import http.client
import json
import pathlib
import re
import signal
import socket
import subprocess
import sys
import threading
import time

from tools.server import ANN, ANSWER, OTHER, ROOT

API, WIRE, WEBHOOK = ANSWER, OTHER, ANN
SECONDS = 60
MANY = 10000
RBAC = "/apis/rbac.authorization.k8s.io/v1"
NAMED = RBAC + "/namespaces/default"
PODS, SECRETS = "/api/v1/namespaces/default/pods", "/api/v1/namespaces/default/secrets"
SELF = "/apis/authorization.k8s.io/v1/selfsubjectaccessreviews"
SELF_REVIEW = {"spec": {"resourceAttributes": {"namespace": "default", "verb": "list", "resource": "pods"}}}
GROUP = "rbac.authorization.k8s.io"


def role(name, resource):
    return {"metadata": {"name": name}, "rules": [{"apiGroups": [""], "resources": [resource], "verbs": ["list"]}]}


def binding(name, of, *users):
    subjects = [{"kind": "User", "apiGroup": GROUP, "name": user} for user in users]
    return {"metadata": {"name": name}, "roleRef": {"apiGroup": GROUP, "kind": "Role", "name": of}, "subjects": subjects}


class Client:
    """A client of an HTTP port, of one thread, with a header that says who it is."""

    def __init__(self, port, trust=None, **headers):
        self.port, self.trust, self.client = port, trust, None
        self.headers = {"Content-Type": "application/json", **{name.replace("_", "-"): value for name, value in headers.items()}}

    def ask(self, method, path, item=None):
        """The status, 0 if nobody answers, and what is answered."""
        try:
            if not self.client:
                given = {"context": self.trust()} if self.trust else {}
                self.client = (http.client.HTTPSConnection if self.trust else http.client.HTTPConnection)("127.0.0.1", self.port, timeout=60, **given)
            self.client.request(method, path, json.dumps(item) if item else None, self.headers)
            answer = self.client.getresponse()
            said = answer.read()
            # A real API server writes a 500 as plain text.
            return answer.status, json.loads(said) if said.startswith(b"{") else {"message": said.decode()}
        except (OSError, http.client.HTTPException):
            self.client = None
            return 0, {}


class Wire:
    """Hands on what comes to a port to another, until it is cut, and unless it is held."""

    def __init__(self, port, behind):
        self.behind, self.is_cut, self.ends, self.flows = behind, False, [], threading.Event()
        self.flows.set()
        self.server = socket.create_server(("127.0.0.1", port))
        threading.Thread(target=self.take, daemon=True).start()

    def take(self):
        while True:
            client, _address = self.server.accept()
            try:
                if self.is_cut:
                    raise OSError
                served = socket.create_connection(("127.0.0.1", self.behind))
            except OSError:
                client.close()
                continue
            self.ends += [client, served]
            for ends in ((client, served), (served, client)):
                threading.Thread(target=self.hand_on, args=ends, daemon=True).start()

    def hand_on(self, one, other):
        with contextlib.suppress(OSError):
            while data := one.recv(65536):
                self.flows.wait()
                other.sendall(data)
        with contextlib.suppress(OSError):
            other.shutdown(socket.SHUT_RDWR)

    def cut(self, is_cut=True):
        self.is_cut = is_cut
        for end in self.ends if is_cut else []:
            with contextlib.suppress(OSError):
                end.shutdown(socket.SHUT_RDWR)
        self.ends = [] if is_cut else self.ends


class Mirror:
    """A running tools/mirror.py and what it says."""

    def __init__(self, program, kubeconfig, root=ROOT, webhook=WEBHOOK):
        words = [sys.executable, "tools/mirror.py", "--kubeconfig", kubeconfig, "--kapi", program, str(root), str(webhook)]
        # What runs in the background of a shell would ignore SIGINT.
        how = {"stdout": subprocess.PIPE, "stderr": subprocess.STDOUT, "text": True, "preexec_fn": lambda: signal.signal(signal.SIGINT, signal.SIG_DFL)}
        self.process, self.lines = subprocess.Popen(words, **how), []
        threading.Thread(target=self.read, daemon=True).start()

    def read(self):
        for line in self.process.stdout:
            self.lines.append(line)

    def kapi(self):
        """The process of its Kapi, or nothing."""
        children = pathlib.Path(f"/proc/{self.process.pid}/task")
        found = [it for task in children.glob("*/children") for it in task.read_text().split()]
        return int(found[0]) if found else None

    def end(self, how=signal.SIGKILL):
        self.process.send_signal(how)
        self.process.wait()


class Asker(threading.Thread):
    """Asks without pause, and counts the answers."""

    def __init__(self, client, method, path, item=None, read=lambda status, _said: status):
        super().__init__(daemon=True)
        self.client, self.question, self.seen, self.goes_on, self.read = client, (method, path, item), {}, True, read

    def run(self):
        while self.goes_on:
            found = self.read(*self.client.ask(*self.question))
            self.seen[found] = self.seen.get(found, 0) + 1
            time.sleep(0.01)

    def end(self):
        self.goes_on = False
        self.join()
        return self.seen


class Run:
    """An API server, a wire before it, and what mirrors it."""

    def __init__(self, program, cluster, room, changes):
        self.program, self.cluster, self.room, self.changes, self.mirror = program, cluster, room, changes, None
        self.trust = getattr(cluster, "trust", None)
        self.admin, self.clients = self.client("admin"), {}
        self.wire = Wire(WIRE, API)

    def client(self, user):
        return Client(API, self.trust, Authorization=f"Bearer {user}")

    def kubeconfig(self, token, port=WIRE):
        served = {"server": f"{'https' if self.trust else 'http'}://127.0.0.1:{port}"}
        served |= {"certificate-authority": str(self.cluster.path / "apiserver.crt")} if self.trust else {}
        parts = {"clusters": [{"name": "c", "cluster": served}], "users": [{"name": "u", "user": {"token": token}}]}
        path = pathlib.Path(self.room, f"{token}-{port}.json")
        whole = {"apiVersion": "v1", "kind": "Config", **parts, "contexts": [{"name": "c", "context": {"cluster": "c", "user": "u"}}], "current-context": "c"}
        path.write_text(json.dumps(whole))
        return str(path)

    def mirrored(self, token="admin"):
        self.mirror = Mirror(self.program, self.kubeconfig(token))

    def write(self, method, path, item=None):
        status, said = self.admin.ask(method, path, item)
        assert status in (200, 201), (method, path, status, said)

    def status(self, user, path=PODS, method="GET", item=None):
        return self.clients.setdefault(user, self.client(user)).ask(method, path, item)[0]

    def until(self, status, user, path=PODS, method="GET", item=None):
        """Milliseconds until a user is answered so."""
        begun = time.monotonic()
        while (found := self.status(user, path, method, item)) != status:
            assert time.monotonic() - begun < SECONDS, f"{user} {method} {path} is answered {found} and not {status}; the mirror: {self.said()}"
            time.sleep(0.001)
        return f"{(time.monotonic() - begun) * 1000:.0f} ms"

    def said(self):
        return "".join(self.mirror.lines[-5:]) if self.mirror else ""

    def until_said(self, words, behind=0, seconds=SECONDS):
        """Waits until the mirror has said it, behind so many lines."""
        begun = time.monotonic()
        while not any(words in line for line in self.mirror.lines[behind:]):
            assert time.monotonic() - begun < seconds, f"the mirror does not say '{words}': {self.said()}"
            time.sleep(0.02)


def held(client):
    """Roles and bindings by kind, namespace and name, with what decisions read; nothing if nobody answers."""
    found = {}
    for kind in ("clusterroles", "roles", "clusterrolebindings", "rolebindings"):
        for it in client.ask("GET", f"{RBAC}/{kind}")[1].get("items", []):
            found[kind, it["metadata"].get("namespace"), it["metadata"]["name"]] = it.get("rules") or [], it.get("roleRef"), it.get("subjects") or []
    return found


def until_equal(run, seconds=SECONDS):
    """Milliseconds until Kapi has the cluster's objects, but for the two that are its own."""
    begun, kapi = time.monotonic(), Client(ROOT)
    while True:
        wanted, found = held(run.admin), held(kapi)
        own = {key for key in found if re.fullmatch("kapi:[0-9a-f]{32}", key[2])}
        if wanted and len(own) == 2 and {key: it for key, it in found.items() if key not in own} == wanted:
            return f"{len(wanted)} objects equal after {(time.monotonic() - begun) * 1000:.0f} ms"
        assert time.monotonic() - begun < seconds, sorted(key for key in {**found, **wanted} if found.get(key) != wanted.get(key))
        time.sleep(0.1)
