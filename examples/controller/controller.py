#!/usr/bin/env python3
"""A controller of Widgets: each has a ConfigMap of its name with its size, and a status that says so. Of several that run one leads.

usage: controller.py URL NAME     needs Debian's package python3-kubernetes

It prints `leads` when it begins to lead, `made NAME` for each Widget that is as wanted, and what the server refuses. It ends with status 1
once it cannot renew its lease.
"""
import contextlib
import datetime
import json
import sys
import threading
import time

from kubernetes import client, watch
from kubernetes.client.exceptions import ApiException
from urllib3.exceptions import HTTPError

NAMESPACE, LEASE, SECONDS = "default", "widgets", 2
KIND = ("example.org", "v1", NAMESPACE, "widgets")


def say(*words):
    print(*words, flush=True)


def said(refused):
    """The code and the message of what the server refuses, and the permissions that are missing."""
    status = json.loads(refused.body)
    causes = [it["message"] for it in status.get("details", {}).get("causes", [])]
    return " ".join([str(refused.status), status["message"], *causes])


class Leader:
    """Holds a Lease, as client-go's leader election does: it takes one over that was not renewed for its whole time."""

    def __init__(self, api, name):
        self.leases, self.name, self.seen = client.CoordinationV1Api(api), name, ("", 0.0)

    def spec(self, lease=None):
        now = datetime.datetime.now(datetime.timezone.utc)
        took = lease.spec.acquire_time if lease and lease.spec.holder_identity == self.name else now
        return client.V1LeaseSpec(holder_identity=self.name, lease_duration_seconds=SECONDS, acquire_time=took, renew_time=now)

    def try_once(self):
        """Whether the lease is held now."""
        try:
            lease = self.leases.read_namespaced_lease(LEASE, NAMESPACE)
        except ApiException as refused:
            if refused.status != 404:
                raise
            self.leases.create_namespaced_lease(NAMESPACE, client.V1Lease(metadata=client.V1ObjectMeta(name=LEASE), spec=self.spec()))
            return True
        if lease.metadata.resource_version != self.seen[0]:
            self.seen = lease.metadata.resource_version, time.monotonic()
        if lease.spec.holder_identity != self.name and time.monotonic() - self.seen[1] < SECONDS:
            return False
        lease.spec = self.spec(lease)
        self.leases.replace_namespaced_lease(LEASE, NAMESPACE, lease)
        return True

    def held(self):
        """Whether the lease is held; one that another changed meanwhile is not."""
        try:
            return self.try_once()
        except ApiException as refused:
            if refused.status != 409:
                say("refused:", said(refused))
            return False


def reconcile(api, widget):
    """Makes the ConfigMap of a Widget, and then its status."""
    name, maps = widget["metadata"]["name"], client.CoreV1Api(api)
    wanted = {"size": str(widget.get("spec", {}).get("size", 0))}
    try:
        config = maps.read_namespaced_config_map(name, NAMESPACE)
        if config.data != wanted:
            config.data = wanted
            maps.replace_namespaced_config_map(name, NAMESPACE, config)
    except ApiException as refused:
        if refused.status != 404:
            raise
        maps.create_namespaced_config_map(NAMESPACE, client.V1ConfigMap(metadata=client.V1ObjectMeta(name=name), data=wanted))
    if widget.get("status") != {"made": wanted["size"]}:
        widget["status"] = {"made": wanted["size"]}
        client.CustomObjectsApi(api).replace_namespaced_custom_object_status(*KIND, name, widget)
    say("made", name)


def work(api):
    """Reconciles what is there, and then what changes; a watch that breaks is begun anew."""
    widgets = client.CustomObjectsApi(api)
    while True:
        with contextlib.suppress(HTTPError):
            for event in watch.Watch().stream(widgets.list_namespaced_custom_object, *KIND):
                if event["type"] != "DELETED":
                    attempt(api, event["object"])
        time.sleep(SECONDS / 4)


def attempt(api, widget):
    try:
        reconcile(api, widget)
    except ApiException as refused:
        # A Widget that was changed meanwhile comes again.
        if refused.status != 409:
            say("refused:", said(refused))


def main(url, name):
    api = client.ApiClient(client.Configuration(host=url))
    leader = Leader(api, name)
    while not leader.held():
        time.sleep(SECONDS / 4)
    say("leads")
    threading.Thread(target=work, args=[api], daemon=True).start()
    while leader.held():
        time.sleep(SECONDS / 4)
    return 1


if __name__ == "__main__":
    sys.exit(main(*sys.argv[1:]) if len(sys.argv) == 3 else __doc__)
