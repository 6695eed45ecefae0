"""A real kube-apiserver over an etcd of its own, both on loopback addresses, which asks a webhook. Wants openssl."""
import copy
import functools
import pathlib
import socket
import ssl
import subprocess
import sys
import tempfile
import time
import urllib.request

HOOK = """apiVersion: v1
kind: Config
clusters: [{name: kapi, cluster: {server: "http://127.0.0.1:%d/apis/authorization.k8s.io/v1/subjectaccessreviews"}}]
users: [{name: kube-apiserver}]
contexts: [{name: kapi, context: {cluster: kapi, user: kube-apiserver}}]
current-context: kapi
"""
AUDIT = "apiVersion: audit.k8s.io/v1\nkind: Policy\nrules: [{level: Metadata}]\nomitStages: [RequestReceived]\n"
USERS = ("ann", "bob", "dan", "eve", "fay", "hal")


def openssl(path, *words):
    subprocess.run(["openssl", *words], cwd=path, check=True, stderr=subprocess.DEVNULL)


def free_port():
    with socket.create_server(("127.0.0.1", 0)) as server:
        return server.getsockname()[1]


class ApiServer:
    """One that keeps its objects from start to start."""

    def __init__(self, program, etcd, port, webhook, version="v1", mode="Webhook"):
        self.program, self.port, self.webhook, self.version, self.mode = program, port, webhook, version, mode
        self.room = tempfile.TemporaryDirectory()
        self.path = pathlib.Path(self.room.name)
        self.process, self.client, self.words = None, free_port(), []
        tokens = ["admin,admin,1,system:masters"] + [f"{name},{name},{name}" for name in USERS]
        (self.path / "tokens").write_text("\n".join(tokens) + "\n")
        (self.path / "audit.yaml").write_text(AUDIT)
        openssl(self.path, "genrsa", "-out", "sa.key", "2048")
        openssl(self.path, "req", "-x509", "-newkey", "rsa:2048", "-nodes", "-keyout", "ca.key", "-out", "ca.crt", "-subj", "/CN=ca")
        self.store_words = self.etcd_words(etcd)
        self.start_store()

    def start_store(self):
        self.etcd = subprocess.Popen(self.store_words, stdout=subprocess.DEVNULL, stderr=subprocess.DEVNULL)

    def stop_store(self):
        self.etcd.kill()
        self.etcd.wait()

    def beside(self, port, webhook):
        """Another one over the same etcd, which asks another webhook."""
        other = copy.copy(self)
        other.port, other.webhook, other.process = port, webhook, None
        return other

    def certified(self, user, group):
        """How to trust this one, as a client with a certificate of this user."""
        file = user.replace(":", "-")
        openssl(self.path, "req", "-newkey", "rsa:2048", "-nodes", "-keyout", f"{file}.key", "-out", f"{file}.csr", "-subj", f"/O={group}/CN={user}")
        openssl(self.path, "x509", "-req", "-in", f"{file}.csr", "-CA", "ca.crt", "-CAkey", "ca.key", "-CAcreateserial", "-out", f"{file}.crt")
        context = ssl.create_default_context(cafile=str(self.path / "apiserver.crt"))
        context.load_cert_chain(self.path / f"{file}.crt", self.path / f"{file}.key")
        return context

    def etcd_words(self, etcd):
        client, peer = f"http://127.0.0.1:{self.client}", f"http://127.0.0.1:{free_port()}"
        listen = ["--listen-client-urls", client, "--advertise-client-urls", client, "--listen-peer-urls", peer]
        return [etcd, "--data-dir", str(self.path / "etcd"), *listen, "--initial-advertise-peer-urls", peer, "--initial-cluster", f"default={peer}"]

    def flags(self):
        """Those of docs/CLUSTER.md, and what else an API server needs."""
        config = self.path / f"webhook-{self.webhook}.yaml"
        config.write_text(HOOK % self.webhook)
        hook = {"config-file": config, "version": self.version, "cache-authorized-ttl": "0s", "cache-unauthorized-ttl": "0s"}
        given = {f"authorization-webhook-{name}": value for name, value in hook.items()} if "Webhook" in self.mode else {}
        given |= {"authorization-mode": self.mode, "etcd-servers": f"http://127.0.0.1:{self.client}", "cert-dir": self.path, "secure-port": self.port}
        given |= {"bind-address": "127.0.0.1", "advertise-address": "127.0.0.1", "endpoint-reconciler-type": "none"}
        given |= {"token-auth-file": self.path / "tokens", "client-ca-file": self.path / "ca.crt", "service-cluster-ip-range": "10.0.0.0/24"}
        given |= {"service-account-issuer": "https://kubernetes.default.svc", "service-account-key-file": self.path / "sa.key"}
        given |= {"service-account-signing-key-file": self.path / "sa.key"}
        given |= {"audit-log-path": self.path / f"audit-{self.port}.log", "audit-policy-file": self.path / "audit.yaml"}
        return [f"--{name}={value}" for name, value in given.items()]

    def begin(self):
        """Has the default roles written, as an API server does only in mode RBAC."""
        mode, self.mode = self.mode, "RBAC"
        self.start()
        self.stop()
        self.mode = mode

    def start(self):
        with open(self.path / "log", "a") as log:
            self.process = subprocess.Popen([self.program, *self.flags(), *self.words], stdout=log, stderr=log)
        until = time.monotonic() + 120
        while not self.is_ready():
            if self.process.poll() is not None or time.monotonic() > until:
                sys.exit(f"kube-apiserver did not start:\n{(self.path / 'log').read_text()[-2000:]}")
            time.sleep(0.2)

    def is_ready(self):
        asked = urllib.request.Request(f"https://127.0.0.1:{self.port}/readyz", headers={"Authorization": "Bearer admin"})
        try:
            return urllib.request.urlopen(asked, context=self.trust(), timeout=5).status == 200
        except OSError:
            return False

    @functools.cache
    def trust(self):
        return ssl.create_default_context(cafile=str(self.path / "apiserver.crt"))

    def stop(self):
        self.process.kill()
        self.process.wait()

    def end(self):
        if self.process:
            self.stop()
        self.stop_store()
        self.room.cleanup()
