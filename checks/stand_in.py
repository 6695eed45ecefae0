"""A stand-in for an API server that asks a webhook: it begins with the lists of a real one, sends the bytes of its reviews and writes watches as it does.

What is stored was recorded of kube-apiserver (checks/recorded): four lists, watches, and for each request of checks/cluster.py the review that it
caused. Objects are the four RBAC kinds; every other path that is allowed answers an empty object. Who has the token `admin` may do everything.
"""
import bisect
import contextlib
import http.client
import http.server
import json
import pathlib
import socket
import threading
import urllib.parse

RECORDED = pathlib.Path(__file__).parent / "recorded" / "kube-apiserver-1.20.2.jsonl"
RBAC = "rbac.authorization.k8s.io/v1"
KINDS = {"clusterroles": "ClusterRole", "roles": "Role", "clusterrolebindings": "ClusterRoleBinding", "rolebindings": "RoleBinding"}


class Refused(Exception):
    """A Status: its code and message."""


class Objects:
    """The stored objects by resource, namespace and name, and every change of them with its revision."""

    def __init__(self, lines):
        self.revision = max(int(it["body"]["metadata"]["resourceVersion"]) for it in lines)
        self.held = {self.key(it["list"], each): each for it in lines for each in it["body"]["items"]}
        self.events, self.changed, self.between = [], threading.Condition(), None

    @staticmethod
    def key(resource, item):
        return resource, item["metadata"].get("namespace", ""), item["metadata"]["name"]

    def list(self, resource):
        """Its list. What is to change between two lists does so before that of the roles, which comes behind that of the cluster roles."""
        with self.changed:
            if resource == "roles" and self.between:
                self.change(*self.between)
                self.between = None
            items = [item for key, item in self.held.items() if key[0] == resource]
            return {"kind": KINDS[resource] + "List", "apiVersion": RBAC, "metadata": {"resourceVersion": str(self.revision)}, "items": items}

    def write(self, kind, key, item):
        """Makes a change and wakes those that watch."""
        with self.changed:
            self.revision += 1
            whole = {**(item or self.held[key]), "kind": KINDS[key[0]], "apiVersion": RBAC}
            whole["metadata"] = {**whole["metadata"], "resourceVersion": str(self.revision)}
            self.take(kind, key, whole, json.dumps({"type": kind, "object": whole}))
            return whole

    def take(self, kind, key, item, line):
        self.held.pop(key, None)
        self.held.update({} if kind == "DELETED" else {key: item})
        self.events.append((self.revision, key[0], line + "\n"))
        self.changed.notify_all()

    def replay(self, resource, lines):
        """Makes the changes of a stored watch, whose lines go out as they came in."""
        for line in lines:
            event = json.loads(line)
            with self.changed:
                self.revision = max(self.revision, int(event["object"]["metadata"]["resourceVersion"]))
                if event["type"] == "BOOKMARK":
                    self.events.append((self.revision, resource, line + "\n"))
                else:
                    self.take(event["type"], self.key(resource, event["object"]), event["object"], line)

    def expire(self, line):
        with self.changed:
            self.revision += 1
            self.events += [(self.revision, resource, line + "\n") for resource in KINDS]
            self.changed.notify_all()

    def change(self, method, key, item):
        if (method == "POST") == (key in self.held):
            raise Refused(409 if method == "POST" else 404, f"{key[2]} is there" if method == "POST" else f"{key[2]} is not there")
        if method == "PUT" and self.held[key].get("roleRef") != item.get("roleRef"):
            raise Refused(422, "cannot change roleRef")
        return self.write({"POST": "ADDED", "PUT": "MODIFIED", "DELETE": "DELETED"}[method], key, item)

    def after(self, revision, resource, seconds):
        """The lines of the changes after a revision, when there are some or the time is over, and the revision then."""
        with self.changed:
            self.changed.wait_for(lambda: self.revision > revision, seconds)
            later = self.events[bisect.bisect_right(self.events, revision, key=lambda it: it[0]) :]
            return [line for _at, of, line in later if of == resource], self.revision


class StandIn:
    def __init__(self, port, webhook, version="v1"):
        lines = [json.loads(it) for it in RECORDED.read_text().splitlines()]
        self.port, self.webhook, self.version, self.server = port, webhook, version, None
        self.objects = Objects([it for it in lines if "list" in it])
        self.watched = {it["watch"]: it["lines"] for it in lines if "watch" in it}
        self.reviews = {(it["version"], it["review"]): it for it in lines if "review" in it}

    def start(self):
        """Starts it with the objects that it had."""
        self.clients = set()
        self.server = http.server.ThreadingHTTPServer(("127.0.0.1", self.port), type("Named", (Handler,), {"stand_in": self}))
        threading.Thread(target=self.server.serve_forever, args=(0.05,), daemon=True).start()

    def stop(self):
        self.server.shutdown()
        self.server.server_close()
        for client in list(self.clients):
            client.close_now()

    def end(self):
        self.stop()

    def replay(self, resource):
        self.objects.replay(resource, self.watched[resource])

    def expire(self):
        """Ends each running watch by the line that the real one wrote where a revision was too old."""
        self.objects.expire(self.watched["expired"][0])

    def authorize(self, asked, user, groups):
        """Posts the review that the real one posted for this request, with this user in it."""
        if "system:masters" in groups:
            return
        stored = self.reviews[self.version, asked]
        review = json.loads(stored["body"])
        review["spec"].update({"user": user, "groups": groups})
        try:
            client = http.client.HTTPConnection("127.0.0.1", self.webhook, timeout=30)
            client.request("POST", stored["path"], json.dumps(review), stored["head"])
            answer = client.getresponse()
            said = json.loads(answer.read())
            client.close()
        except (OSError, http.client.HTTPException, ValueError) as fault:
            raise Refused(500, f"Internal Server Error: {asked}: {fault}") from fault
        if answer.status not in (200, 201):
            raise Refused(500, f"Internal Server Error: {asked}: {said.get('message')}")
        if not said["status"]["allowed"]:
            raise Refused(403, f"{user} cannot {asked}")


class Handler(http.server.BaseHTTPRequestHandler):
    protocol_version = "HTTP/1.1"
    disable_nagle_algorithm = True
    stand_in = None

    def setup(self):
        super().setup()
        self.stand_in.clients.add(self)

    def finish(self):
        self.stand_in.clients.discard(self)
        super().finish()

    def close_now(self):
        with contextlib.suppress(OSError):
            self.connection.shutdown(socket.SHUT_RDWR)

    def log_message(self, *_words):
        pass

    def who(self):
        token = (self.headers["Authorization"] or "").removeprefix("Bearer ")
        if not token or token == "nobody":
            raise Refused(401, "Unauthorized")
        user = self.headers["Impersonate-User"] if token == "admin" else token
        return (user, ["system:authenticated"]) if user else ("admin", ["system:masters", "system:authenticated"])

    def serve(self):
        body = self.rfile.read(int(self.headers["Content-Length"] or 0))
        path, _mark, query = self.path.partition("?")
        try:
            self.stand_in.authorize(f"{self.command} {path}", *self.who())
            self.go_on(path, dict(urllib.parse.parse_qsl(query)), json.loads(body) if body else None)
        except Refused as refusal:
            code, message = refusal.args
            self.answer(code, {"kind": "Status", "apiVersion": "v1", "status": "Failure", "message": message, "code": code})

    do_GET = do_POST = do_PUT = do_DELETE = serve

    def go_on(self, path, query, item):
        words = [urllib.parse.unquote(it) for it in path.removeprefix(f"/apis/{RBAC}/").split("/")]
        namespace = words[1] if words[0] == "namespaces" else ""
        resource, name = (words[2:] if namespace else words)[:1], (words[3:] if namespace else words[1:])[:1]
        if not path.startswith(f"/apis/{RBAC}/"):
            self.answer(201 if item else 200, {})
        elif self.command == "GET" and "watch" in query:
            self.watch(resource[0], int(query["resourceVersion"]))
        elif self.command == "GET":
            objects = self.stand_in.objects
            self.answer(200, objects.held[resource[0], namespace, name[0]] if name else objects.list(resource[0]))
        else:
            item = item and {**item, "metadata": {**item["metadata"], **({"namespace": namespace} if namespace else {})}}
            key = (resource[0], namespace, name[0] if name else item["metadata"]["name"])
            self.answer(201, self.stand_in.objects.change(self.command, key, item))

    def answer(self, code, item):
        text = json.dumps(item).encode()
        self.send_response(code)
        self.send_header("Content-Type", "application/json")
        self.send_header("Content-Length", str(len(text)))
        # Its client may be gone, as it is when this is stopped.
        with contextlib.suppress(OSError):
            self.end_headers()
            self.wfile.write(text)

    def watch(self, resource, revision):
        self.send_response(200)
        self.send_header("Content-Type", "application/json")
        self.send_header("Transfer-Encoding", "chunked")
        self.end_headers()
        try:
            while True:
                lines, revision = self.stand_in.objects.after(revision, resource, 1)
                for line in lines:
                    self.wfile.write(f"{len(line.encode()):x}\r\n{line}\r\n".encode())
                self.wfile.flush()
                if self.stand_in.server.socket.fileno() < 0:
                    return
        except OSError:
            self.close_connection = True
