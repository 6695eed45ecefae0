#!/usr/bin/env python3
"""Runs a `kapi serve` that has the roles and bindings of a cluster, so that the cluster's API server can ask it what is allowed (docs/CLUSTER.md).

usage: mirror.py [--kubeconfig FILE] [--kapi PROGRAM] ROOT WEBHOOK     needs setpriv and the package kubernetes of Python
ROOT and WEBHOOK are ports of 127.0.0.1: root's, by which Kapi is kept equal, and the one to which reviews are posted. The exit status is 2 if
the kubeconfig cannot be read and 3 if the cluster refuses its user. Kapi ends whenever this does.
"""
import argparse
import contextlib
import http.client
import json
import os
import queue
import re
import secrets
import socket
import subprocess
import sys
import tempfile
import threading
import time
import urllib.parse

try:
    import urllib3
    import yaml
    from kubernetes import client, config
except ImportError:
    sys.exit("mirror.py needs the package kubernetes of Python: apt-get install python3-kubernetes")

RBAC = "rbac.authorization.k8s.io/v1"
KINDS = {"ClusterRole": "clusterroles", "Role": "roles", "ClusterRoleBinding": "clusterrolebindings", "RoleBinding": "rolebindings"}
# What Kapi has from its start, so no file can load it.
BEGINS_WITH = [(kind, "", name) for kind in ("ClusterRole", "ClusterRoleBinding") for name in ("cluster-admin", "system:basic-user")]
# What Kapi takes at most: the body of a request, and a name in a path, of which a quoted character takes up to twelve.
BODY, NAME = 1 << 20, 12_000
# So long Kapi may take for an answer; it is asked each second.
ANSWER_SECONDS = 3
# The cluster ends a watch after so long, and it goes on by another; one that is silent for longer is broken.
WATCH_SECONDS, SILENT_SECONDS, PAUSE_SECONDS, SAME_SECONDS = 60, 70, 1, 60


class Fault(Exception):
    """Something that is said and tried again."""


class Refusal(Fault):
    """An object that Kapi does not take."""


FAULTS = (Fault, OSError, ValueError, KeyError, http.client.HTTPException, urllib3.exceptions.HTTPError)


def say(text):
    """Prints a text without characters that a terminal obeys: names and answers of the cluster are in it."""
    print(time.strftime("%H:%M:%S"), "".join(it if it.isprintable() else f"\\u{ord(it):04x}" for it in text), flush=True)


def words_of(fault):
    """A fault in one line."""
    is_answer = isinstance(fault, client.ApiException)
    words = f"{fault.status} {fault.reason} {(fault.body or b'').decode()}" if is_answer else f"{type(fault).__name__} {fault}".removeprefix("Fault ").removeprefix("Refusal ")
    return " ".join(re.sub(" object at 0x[0-9a-f]+", "", words).split())


def key_of(kind, item):
    return kind, item["metadata"].get("namespace", ""), item["metadata"]["name"]


def copied(kind, item):
    """What decisions read of an object. Without labels and aggregationRule, only the cluster's controller fills aggregated cluster roles."""
    place = {it: item["metadata"][it] for it in ("name", "namespace") if it in item["metadata"]}
    parts = {it: item[it] for it in ("rules", "roleRef", "subjects") if item.get(it)}
    return {"apiVersion": RBAC, "kind": kind, "metadata": place, **parts}


def path_of(kind, namespace="", name=""):
    """A name may have any sign but / and %: unquoted, that of one object could be the path of another."""
    return f"/apis/{RBAC}" + (f"/namespaces/{namespace}" if namespace else "") + f"/{KINDS[kind]}" + (f"/{urllib.parse.quote(name)}" if name else "")


class Cluster:
    """Lists and watches the four kinds."""

    def __init__(self):
        self.api = client.ApiClient()

    def ask(self, method, path, query=(), body=None, **headers):
        how = {"auth_settings": ["BearerToken"], "_preload_content": False, "_return_http_data_only": True, "_request_timeout": (5, SILENT_SECONDS)}
        return self.api.call_api(path, method, query_params=list(query), body=body, header_params=headers, **how)

    def list(self):
        """A revision, and the objects of all kinds at it by their keys."""
        found, at = {}, {}
        for kind in KINDS:
            page = json.loads(self.ask("GET", path_of(kind), at.items()).data)
            at = at or {"resourceVersion": page["metadata"]["resourceVersion"], "resourceVersionMatch": "Exact"}
            found.update((key_of(kind, it), copied(kind, it)) for it in page["items"])
        return at["resourceVersion"], found

    def changes(self, revision):
        """Lists of what has changed after the revision: the key of each object, with the object or nothing. Until one of the watches breaks."""
        said = queue.Queue()
        watches = [Watch(self, kind, revision, said) for kind in KINDS]
        try:
            while True:
                found = [said.get(), *(said.get_nowait() for _it in range(said.qsize()))]
                yield [it for it in found if not isinstance(it, Fault)]
                for fault in (it for it in found if isinstance(it, Fault)):
                    raise fault
        finally:
            for watch in watches:
                watch.end()

    def asks(self, user):
        """Whether the cluster asks this Kapi, in words: a review is created as a user whom this Kapi alone lets do that."""
        review = {"spec": {"user": user, "nonResourceAttributes": {}}}
        try:
            self.ask("POST", "/apis/authorization.k8s.io/v1/subjectaccessreviews", body=review, **{"Impersonate-User": user, "Content-Type": "application/json"})
            return "the cluster asks this Kapi"
        except (client.ApiException, *FAULTS) as fault:
            if getattr(fault, "status", 0) == 403:
                return "the cluster does NOT ask this Kapi, or the mirror's user may not impersonate"
            hint = "; start the API server with --authorization-webhook-version=v1" if "bad request: version" in words_of(fault) else ""
            return f"a review at the cluster fails: {words_of(fault)}{hint}"


class Watch(threading.Thread):
    """Watches a kind: puts each change, and at the end how it broke."""

    def __init__(self, cluster, kind, revision, said):
        super().__init__(daemon=True)
        self.cluster, self.kind, self.revision, self.said, self.goes_on, self.response = cluster, kind, revision, said, True, None
        self.start()

    def run(self):
        try:
            while self.goes_on:
                query = {"watch": "true", "timeoutSeconds": WATCH_SECONDS, "allowWatchBookmarks": "true", "resourceVersion": self.revision}
                self.response = self.cluster.ask("GET", path_of(self.kind), query.items())
                for line in self.response:
                    self.take(json.loads(line))
        except (client.ApiException, *FAULTS) as fault:
            self.said.put(Fault(f"the watch of {KINDS[self.kind]} broke: {words_of(fault)}"))

    def take(self, event):
        item = event["object"]
        if event["type"] == "ERROR":
            raise Fault(item.get("message", "ERROR"))
        self.revision = item["metadata"]["resourceVersion"]
        if event["type"] != "BOOKMARK":
            self.said.put((key_of(self.kind, item), None if event["type"] == "DELETED" else copied(self.kind, item)))

    def end(self):
        self.goes_on = False
        with contextlib.suppress(OSError, AttributeError):
            self.response.connection.sock.shutdown(socket.SHUT_RDWR)


def body_of(item):
    """An object in the bytes of a request; what is no text is refused by Kapi."""
    return json.dumps(item, ensure_ascii=False).encode(errors="surrogatepass")


def is_too_large(key, item):
    return len(body_of(item)) > BODY or len(urllib.parse.quote(key[2])) > NAME


class Kapi:
    """A `kapi serve` with the objects that are wanted. It is started anew from them whenever it ends.

    An object that it does not take is left out, the one of that name that it had too: without a role or a binding it allows no more."""

    def __init__(self, program, root, webhook):
        self.program, self.root, self.webhook = program, root, webhook
        self.user = f"kapi:{secrets.token_hex(16)}"
        self.wanted, self.left_out, self.is_filled, self.process, self.lock = {}, set(), False, None, threading.RLock()
        self.changed, self.starts = 0, 0

    def fill(self, objects):
        """Makes it equal to a list. More than one difference is never shown in part: Kapi is started anew."""
        with self.lock:
            differ = [key for key in {**self.wanted, **objects} if self.wanted.get(key) != objects.get(key)]
            if self.is_filled and len(differ) == 1:
                self.change([(differ[0], objects.get(differ[0]))])
            elif differ or not self.is_filled:
                self.wanted, self.is_filled, self.changed = objects, True, self.changed + len(differ)
                self.start()

    def change(self, changes):
        """Makes changes one by one. If one cannot be made, Kapi is started anew once, with those behind it too."""
        with self.lock:
            for at, (key, item) in enumerate(changes):
                held = None if key in self.left_out else self.wanted.get(key)
                if not self.want(key, item):
                    continue
                try:
                    self.make(key, held, item)
                except FAULTS as fault:
                    say(f"Kapi did not take {' '.join(filter(None, key))}: {words_of(fault)}; it is started anew")
                    for key, item in changes[at + 1:]:
                        self.want(key, item)
                    return self.start()

    def want(self, key, item):
        """Whether it is another than the one that was wanted."""
        old = self.wanted.pop(key, None)
        self.wanted.update({key: item} if item else {})
        self.changed += old != item
        return old != item

    def make(self, key, held, item):
        """Makes one change; of an object that is not taken, that it is not there."""
        self.left_out.discard(key)
        try:
            if item and is_too_large(key, item):
                raise Refusal("it is too large")
            self.send(key, held, item)
        except Refusal as fault:
            if not item:
                raise
            self.leave_out(key, fault)
            self.send(key, held, None)

    def leave_out(self, key, why):
        self.left_out.add(key)
        say(f"Kapi refuses {key[0]} {'/'.join(filter(None, key[1:]))[:300]}, so it is left out: {words_of(why)[:300]}")

    def send(self, key, old, item):
        """Makes one change by one request, so that no review meets half of it."""
        kind, namespace, name = key
        if old and item and old.get("roleRef") != item.get("roleRef"):
            raise Fault("its roleRef is another")
        if not old and not item:
            return
        if namespace not in self.namespaces:
            self.ask("POST", "/api/v1/namespaces", {"metadata": {"name": namespace}})
            self.namespaces.add(namespace)
        method = "POST" if old is None else "PUT" if item else "DELETE"
        self.ask(method, path_of(kind, namespace, name if old else ""), item)

    def ask(self, method, path, item=None):
        self.client.request(method, path, body_of(item) if item else None, {"Content-Type": "application/json"})
        answer = self.client.getresponse()
        said = answer.read().decode()
        if answer.status >= 300:
            raise (Refusal if answer.status in (400, 413, 422, 431) else Fault)(f"{answer.status} {said}")
        return said

    def start(self):
        """Ends it and starts it with all that is wanted. Until the last step it answers no review."""
        self.starts += 1
        try:
            self.end()
            self.load()
            for key in BEGINS_WITH:
                self.ask("DELETE", path_of(*key))
                if key in self.wanted:
                    self.make(key, None, self.wanted[key])
            self.let_in()
        except FAULTS as fault:
            say(words_of(fault))
            self.end()
            time.sleep(PAUSE_SECONDS)

    def load(self):
        """Starts the program with all that it can load, but for what it refuses."""
        self.namespaces = {"", "default"} | {namespace for _kind, namespace, _name in self.wanted}
        objects = [(None, {"apiVersion": "v1", "kind": "Namespace", "metadata": {"name": it}}) for it in sorted(self.namespaces - {"", "default"})]
        large = {key for key, it in self.wanted.items() if is_too_large(key, it)}
        for key in large - self.left_out:
            self.leave_out(key, Refusal("it is too large"))
        self.left_out = large
        objects += [(key, it) for key, it in self.wanted.items() if key not in BEGINS_WITH and key not in large]
        while fault := self.launch([it for _key, it in objects]):
            if not fault.startswith("load line "):
                raise Fault(f"Kapi does not start: {fault}")
            key, refused = objects.pop(int(fault.split()[2]) - 1)
            self.leave_out(key or ("Namespace", "", refused["metadata"]["name"]), Refusal(" ".join(fault.split()[3:])))
        self.client = http.client.HTTPConnection("127.0.0.1", self.root, timeout=ANSWER_SECONDS)

    def launch(self, objects):
        """Starts the program; what it says if it ends."""
        with tempfile.NamedTemporaryFile("w", suffix=".jsonl") as file:
            file.writelines(json.dumps(it) + "\n" for it in objects)
            file.flush()
            ports = [f"{self.root}=kapi:mirror,system:masters", f"{self.webhook}={self.user}"]
            # It is killed when this ends. If this had ended before that was so, it would have another parent, and so is not run.
            bound = ["setpriv", "--pdeathsig", "KILL", "sh", "-c", f'test $PPID = {os.getpid()} && exec "$@"', "sh"]
            words = [*bound, self.program, "serve", "--load", file.name, *ports]
            self.process = subprocess.Popen(words, stdout=subprocess.PIPE, stderr=subprocess.PIPE, text=True)
            if all(self.process.stdout.readline() for _port in ports):
                return None
            return self.process.communicate()[1] or f"status {self.process.returncode}"

    def let_in(self):
        """Lets the webhook's user create reviews. Nobody else has its name, so nobody else gets that."""
        rule = {"apiGroups": ["authorization.k8s.io"], "resources": ["subjectaccessreviews"], "verbs": ["create"]}
        self.ask("POST", path_of("ClusterRole"), {"metadata": {"name": self.user}, "rules": [rule]})
        parts = {"roleRef": {"kind": "ClusterRole", "name": self.user}, "subjects": [{"kind": "User", "name": self.user}]}
        self.ask("POST", path_of("ClusterRoleBinding"), {"metadata": {"name": self.user}, **parts})

    def end(self):
        if self.process:
            self.process.kill()
            self.process.communicate()

    def tend(self):
        """Starts it anew whenever it has ended, or does not answer, without end."""
        asked = time.monotonic()
        while True:
            time.sleep(0.1)
            with self.lock:
                if self.is_filled and (not self.process or self.process.poll() is not None):
                    say(f"Kapi has ended{f' with status {self.process.returncode}' if self.process else ''}; it is started anew")
                    self.start()
                elif self.is_filled and time.monotonic() - asked > 1:
                    asked = time.monotonic()
                    self.wake()

    def wake(self):
        """Starts it anew if it does not answer."""
        try:
            self.ask("GET", "/healthz")
        except FAULTS as fault:
            say(f"Kapi does not answer: {words_of(fault)}; it is started anew")
            self.start()

    def compare(self):
        """Starts it anew if its lists are others than the cluster's, each time: whoever writes into it may do so again."""
        with self.lock:
            at, wanted = (self.changed, self.starts), {key: held(it) for key, it in self.wanted.items() if key not in self.left_out}
        try:
            found = self.shown()
        except FAULTS as fault:
            return say(f"Kapi's lists cannot be compared: {words_of(fault)}")
        differ = [key for key in {**found, **wanted} if found.get(key) != wanted.get(key)]
        with self.lock:
            if differ and at == (self.changed, self.starts):
                say(f"Kapi has another {', '.join(' '.join(filter(None, it)) for it in differ[:3])} than the cluster; it is started anew")
                self.start()

    def shown(self):
        """What it has, asked for beside the changes."""
        found, client = {}, http.client.HTTPConnection("127.0.0.1", self.root, timeout=WATCH_SECONDS)
        for kind in KINDS:
            client.request("GET", path_of(kind))
            found.update((key_of(kind, it), held(it)) for it in json.loads(client.getresponse().read())["items"] if it["metadata"]["name"] != self.user)
        return found


def held(item):
    """What decisions read of an object, as Kapi and a cluster both show it."""
    return item.get("rules") or [], item.get("roleRef"), item.get("subjects") or []


def report(cluster, kapi):
    """A line a minute, after Kapi's lists were compared with the cluster's."""
    last = 0
    while True:
        if kapi.process:
            kapi.compare()
            with kapi.lock:
                counts = [f"{sum(key[0] == kind for key in kapi.wanted)} {plural}" for kind, plural in KINDS.items()]
                last, changed = kapi.changed, kapi.changed - last
            say(f"{', '.join(counts)}; {changed} changes since the last such line; {cluster.asks(kapi.user)}")
        time.sleep(60 if kapi.process else 0.1)


def follow(cluster, kapi):
    """Lists the cluster and follows its changes, and begins again if that breaks; what the cluster says if it refuses that."""
    last, since = None, 0
    while True:
        try:
            revision, objects = cluster.list()
            last = None
            kapi.fill(objects)
            for changes in cluster.changes(revision):
                kapi.change(changes)
        except (client.ApiException, *FAULTS) as fault:
            if getattr(fault, "status", 0) in (401, 403):
                return words_of(fault)
            # While there is no API server each second has the same fault.
            if words_of(fault) != last or time.monotonic() - since > SAME_SECONDS:
                last, since = words_of(fault), time.monotonic()
                say(last)
        time.sleep(PAUSE_SECONDS)


def main():
    reader = argparse.ArgumentParser(usage=__doc__)
    reader.add_argument("--kubeconfig")
    reader.add_argument("--kapi", default="kapi")
    reader.add_argument("ports", type=int, nargs=2)
    words = reader.parse_args()
    try:
        config.load_kube_config(words.kubeconfig)
    except (config.ConfigException, yaml.YAMLError, OSError, ValueError, TypeError, KeyError, AttributeError) as fault:
        say(f"the kubeconfig cannot be read: {words_of(fault)}")
        return 2
    cluster, kapi = Cluster(), Kapi(words.kapi, *words.ports)
    threading.Thread(target=kapi.tend, daemon=True).start()
    threading.Thread(target=report, args=(cluster, kapi), daemon=True).start()
    say(f"the cluster refuses this user: {follow(cluster, kapi)}")
    return 3


if __name__ == "__main__":
    sys.exit(main())
