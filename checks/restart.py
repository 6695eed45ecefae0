"""Kills a server behind a running informer and starts it again, with fewer and with more objects, and looks at the informer's cache.

usage: python3 -m checks PROGRAM restart     needs the package kubernetes of Python; a client asks through the discovery proxy (tools/kubectl_proxy.py)

The informer lists, watches from the list's revision, goes on from the last revision that it saw where its connection breaks, and lists anew
where it is told 410, as client-go's does. The exit status is 1 where its cache is not the server's list within 10 s.
"""
import sys
import threading
import time

import urllib3
from kubernetes import client, watch

from tools.server import OTHER, ROOT, Server, started

SECONDS = 10


def objects(number):
    return [{"apiVersion": "v1", "kind": "ConfigMap", "metadata": {"name": f"c{it}", "namespace": "default"}, "data": {"of": str(number)}} for it in range(number)]


class Informer(threading.Thread):
    """A cache of the ConfigMaps of `default`, by name: the data of each."""

    def __init__(self):
        super().__init__(daemon=True)
        configuration = client.Configuration()
        configuration.host = f"http://127.0.0.1:{OTHER}"
        self.api = client.CoreV1Api(client.ApiClient(configuration))
        self.cache, self.revision, self.lists = {}, None, 0

    def run(self):
        while True:
            try:
                if self.revision is None:
                    self.list()
                self.watch()
            except client.ApiException as error:
                self.revision = None if error.status == 410 else self.revision
                time.sleep(0.2)
            except (urllib3.exceptions.HTTPError, ConnectionError):
                time.sleep(0.2)

    def list(self):
        found = self.api.list_namespaced_config_map("default")
        self.cache = {it.metadata.name: it.data for it in found.items}
        self.revision, self.lists = found.metadata.resource_version, self.lists + 1

    def watch(self):
        stream = watch.Watch().stream(self.api.list_namespaced_config_map, "default", resource_version=self.revision, timeout_seconds=SECONDS)
        for event in stream:
            item = event["object"]
            self.revision = item.metadata.resource_version
            if event["type"] == "DELETED":
                self.cache.pop(item.metadata.name, None)
            else:
                self.cache[item.metadata.name] = item.data


def is_right_after(informer, number):
    """The seconds until the cache is that of so many objects, or nothing."""
    wanted, begun = {it["metadata"]["name"]: it["data"] for it in objects(number)}, time.monotonic()
    while time.monotonic() - begun < SECONDS:
        if informer.cache == wanted:
            return time.monotonic() - begun
        time.sleep(0.02)
    return None


def main(program):
    proxy = started([sys.executable, "tools/kubectl_proxy.py", str(OTHER), str(ROOT)], 1)
    informer, wrong = Informer(), 0
    for number in (40, 20, 80, 0):
        with Server(program, "--first-revision", "clock", objects=objects(number)):
            if not informer.is_alive():
                informer.start()
            seconds = is_right_after(informer, number)
        wrong += seconds is None
        said = "its cache is wrong" if seconds is None else f"its cache is right after {seconds:.1f} s"
        print(f"{number} objects: {said}, {informer.lists} lists so far")
        time.sleep(1)
    proxy.kill()
    return 1 if wrong else 0
