"""Measures a real kube-apiserver that asks Kapi beside the same one in mode RBAC, with many ClusterRoleBindings. Wants wrk and python3-kubernetes.

usage: python3 -m bench PROGRAM cluster [BINDINGS]     KUBE_APISERVER and ETCD name the two programs (docs/CLUSTER.md builds them)
"""
import os
import pathlib
import re
import signal
import statistics
import subprocess
import sys
import tempfile
import time

from checks.api_server import ApiServer
from checks.mirrored import API, GROUP, NAMED, PODS, RBAC, WEBHOOK, Run, binding, role, until_equal
from tools.server import seconds_of

TURNS, SECONDS = 3, 8


class Process:
    def __init__(self, pid):
        self.pid = pid

    def seconds(self):
        return sum(seconds_of(self))

    def resident(self):
        """Resident memory, in MB."""
        return int(re.search(r"VmRSS:\s+(\d+)", pathlib.Path(f"/proc/{self.pid}/status").read_text())[1]) / 1024


def bind_others(run, count):
    """Writes so many ClusterRoleBindings of other users."""
    of = {"apiGroup": GROUP, "kind": "ClusterRole", "name": "view"}
    for number in range(count):
        subjects = [{"kind": "User", "apiGroup": GROUP, "name": f"user-{number}"}]
        run.write("POST", RBAC + "/clusterrolebindings", {"metadata": {"name": f"many-{number}"}, "roleRef": of, "subjects": subjects})


def asked(run, connections=16, seconds=SECONDS):
    """How many GETs of bob were answered, their median milliseconds, and how many were refused."""
    words = ["wrk", "--latency", "-t", "1", "-c", str(connections), "-d", f"{seconds}s", "--timeout", "60s", "-H", "Authorization: Bearer bob"]
    said = subprocess.run([*words, f"https://127.0.0.1:{API}{PODS}"], capture_output=True, text=True, check=True).stdout
    half, unit = re.search(r"50%\s+([\d.]+)(us|ms|s)", said).groups()
    refused = re.search(r"Non-2xx or 3xx responses: (\d+)", said)
    count = int(re.search(r"(\d+) requests in", said)[1])
    return count, float(half) * {"us": 0.001, "ms": 1, "s": 1000}[unit], int(refused[1]) if refused else 0


def turn(run, mode, connections=16):
    """One run of GETs: GETs a second, median milliseconds, and processor milliseconds of the API server and of Kapi for each."""
    processes = [Process(run.cluster.process.pid)] + ([Process(run.mirror.kapi())] if run.mirror else [])
    before = [it.seconds() for it in processes]
    begun = time.monotonic()
    count, half, refused = asked(run, connections)
    rate = count / (time.monotonic() - begun)
    costs = [(it.seconds() - then) * 1000 / count for it, then in zip(processes, before)]
    costed = f"{costs[0]:.2f} ms of the API server" + (f", {costs[1]:.3f} of Kapi" if run.mirror else "")
    print(f"{mode}, {connections} clients: {rate:.0f} GETs a second, {half:.1f} ms in the median, {refused} refused; processor time of each {costed}", flush=True)
    return rate, costs


def begun(run, mode):
    """Starts the API server in this mode, with a mirror if it asks Kapi, and waits for the first yes."""
    run.cluster.stop()
    run.cluster.mode = mode
    run.cluster.start()
    if mode == "Webhook":
        since = time.monotonic()
        run.mirrored()
        run.until(200, "bob")
        print(f"from the start of the mirror to the first yes {time.monotonic() - since:.1f} s", flush=True)
    run.until(200, "bob")
    asked(run, seconds=2)


def grants(run, times=101):
    """Milliseconds from the answer of a grant's write to the first yes, sorted."""
    found = []
    for _time in range(times):
        run.write("POST", NAMED + "/rolebindings", binding("ann", "sees-pods", "ann"))
        since = time.monotonic()
        run.until(200, "ann")
        found.append((time.monotonic() - since) * 1000)
        run.write("DELETE", NAMED + "/rolebindings/ann")
        run.until(403, "ann")
    return sorted(found)


def killed(run, times=5):
    """Seconds until bob is answered 200 after Kapi was killed, sorted. He is answered 500 meanwhile, and never 403."""
    found = []
    for _time in range(times):
        os.kill(run.mirror.kapi(), signal.SIGKILL)
        since = time.monotonic()
        time.sleep(0.02)
        while (status := run.status("bob")) != 200:
            assert status == 500, status
        found.append(time.monotonic() - since)
    return sorted(found)


def in_turns(run):
    """GETs in each mode, in turns, since the speed of a machine changes."""
    turns = {"RBAC": [], "Webhook": []}
    for mode in list(turns) * TURNS:
        begun(run, mode)
        turns[mode].append(turn(run, mode))
        if run.mirror:
            kapi, mirror = Process(run.mirror.kapi()), Process(run.mirror.process.pid)
            print(f"Kapi has {kapi.resident():.0f} MB, the mirror {mirror.resident():.0f}", flush=True)
            end_mirror(run)
    for mode, each in turns.items():
        rates, costs = zip(*each)
        middle = ", ".join(f"{statistics.median(it):.3f}" for it in zip(*costs))
        print(f"{mode}: medians of {TURNS} turns: {statistics.median(rates):.0f} GETs a second, processor time {middle} ms", flush=True)


def end_mirror(run):
    run.mirror.end()
    run.mirror = None


def measure(run, count):
    """Prints all figures with what is there."""
    run.mirrored()
    run.until(200, "bob")
    print(f"{until_equal(run)}, of which {count} ClusterRoleBindings are ours", flush=True)
    found = grants(run)
    print(f"from a grant to the first yes {statistics.median(found):.0f} ms in the median, {found[-1]:.0f} at most of {len(found)}", flush=True)
    found = killed(run)
    print(f"500s after Kapi was killed: {found[0]:.1f} to {found[-1]:.1f} s, of {len(found)}", flush=True)
    turn(run, "Webhook", 100)
    end_mirror(run)
    in_turns(run)


def main(program, bindings="5000"):
    if not {"KUBE_APISERVER", "ETCD"} <= set(os.environ):
        sys.exit("KUBE_APISERVER and ETCD must name the two programs (docs/CLUSTER.md)")
    with tempfile.TemporaryDirectory() as room:
        cluster = ApiServer(os.environ["KUBE_APISERVER"], os.environ["ETCD"], API, WEBHOOK)
        run = Run(program, cluster, room, 0)
        try:
            cluster.begin()
            cluster.start()
            run.write("POST", NAMED + "/roles", role("sees-pods", "pods"))
            run.write("POST", NAMED + "/rolebindings", binding("bob", "sees-pods", "bob"))
            measure(run, 0)
            # The connection of the other one has broken, as the API server was started anew.
            run.admin = run.client("admin")
            bind_others(run, int(bindings))
            measure(run, int(bindings))
        finally:
            run.mirror and run.mirror.end()
            cluster.end()
