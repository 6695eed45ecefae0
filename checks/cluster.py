"""Runs tools/mirror.py between an API server and Kapi, ends and starts each part in each order, and looks whether anybody is let in or kept out wrongly.

usage: python3 -m checks PROGRAM cluster [CHANGES]     needs python3-kubernetes and setpriv

With KUBE_APISERVER and ETCD, the paths of the two programs, the API server is a real one (checks/api_server.py), else the stand-in of
checks/stand_in.py. While the steps run, bob, who may list pods, eve, who may not, and a member of system:masters ask the API server without pause:
it never answers 403 to bob or 200 to eve, only 500 while there is no Kapi, and never 403 or 500 to the last. The exit status is 1 if a step fails.
With fewer than 10,000 changes the steps that wait for half a minute and longer are left out.
"""
import contextlib
import importlib.util
import json
import os
import pathlib
import signal
import subprocess
import sys
import tempfile
import time
import urllib.parse

from checks.mirrored import API, GROUP, MANY, NAMED, PODS, RBAC, ROOT, SECONDS, SECRETS, SELF, SELF_REVIEW, WEBHOOK, Asker, Client, Mirror, Run, binding, role, until_equal

if not importlib.util.find_spec("kubernetes"):
    sys.exit("this check needs the package kubernetes of Python: apt-get install python3-kubernetes, and PYTHON=/usr/bin/python3")


def cluster_alone(run):
    """Before there is a mirror nobody is let in or refused, but for members of system:masters"""
    for item in (role("sees-pods", "pods"), role("sees-secrets", "secrets")):
        run.write("POST", NAMED + "/roles", item)
    run.write("POST", NAMED + "/rolebindings", binding("bob", "sees-pods", "bob"))
    # An aggregated cluster role into which no controller has yet put what its selector means.
    selectors = {"clusterRoleSelectors": [{"matchLabels": {"gathered": "yes"}}]}
    run.write("POST", RBAC + "/clusterroles", {**role("gathered", "pods"), "aggregationRule": selectors})
    source = role("source", "secrets")
    run.write("POST", RBAC + "/clusterroles", {**source, "metadata": {"name": "source", "labels": {"gathered": "yes"}}})
    # The subject of a binding that Kapi begins with is taken away.
    path = RBAC + "/clusterrolebindings/system:basic-user"
    basic = run.admin.ask("GET", path)[1]
    basic["metadata"].setdefault("annotations", {})["rbac.authorization.kubernetes.io/autoupdate"] = "false"
    run.write("PUT", path, {**basic, "subjects": []})
    assert run.status("bob") == 500 and run.status("eve") == 500
    assert run.admin.ask("GET", PODS)[0] == 200


def mirror_later(run):
    """The mirror starts behind the cluster"""
    run.mirrored()
    return f"bob {run.until(200, 'bob')}, eve {run.until(403, 'eve')}; {until_equal(run)}"


def set_up_is_seen(run):
    """The mirror says that it is asked"""
    run.until_said("the cluster asks this Kapi")


def grants_are_seen(run):
    """A grant and its end are seen"""
    times = []
    for _time in range(11):
        run.write("POST", NAMED + "/rolebindings", binding("ann", "sees-pods", "ann"))
        times.append(float(run.until(200, "ann").split()[0]))
        run.write("DELETE", NAMED + "/rolebindings/ann")
        run.until(403, "ann")
    return f"median {sorted(times)[5]:.0f} ms"


def kapi_killed(run):
    """Kapi is killed"""
    times = []
    for _time in range(2):
        os.kill(run.mirror.kapi(), signal.SIGKILL)
        time.sleep(0.05)
        times.append(run.until(200, "bob"))
    return f"{', '.join(times)}; {until_equal(run)}"


def kapi_is_gone(run):
    assert Client(ROOT).ask("GET", "/healthz")[0] == 0 and Client(WEBHOOK).ask("GET", "/healthz")[0] == 0
    assert run.status("bob") == 500 and run.status("eve") == 500


def mirror_killed(run):
    """The mirror is killed, and Kapi ends with it; the cluster changes before it is back"""
    run.mirror.end()
    time.sleep(0.1)
    kapi_is_gone(run)
    run.write("POST", NAMED + "/rolebindings", binding("ann", "sees-pods", "ann"))
    run.mirrored()
    waited = run.until(200, "ann")
    run.write("DELETE", NAMED + "/rolebindings/ann")
    run.until(403, "ann")
    return waited


ENDS = (signal.SIGINT, signal.SIGTERM, signal.SIGKILL)


def kapi_then_mirror(run):
    """Kapi is killed, then the mirror is ended, by each of three signals"""
    times = []
    for how in ENDS:
        os.kill(run.mirror.kapi(), signal.SIGKILL)
        run.mirror.end(how)
        time.sleep(0.1)
        kapi_is_gone(run)
        run.mirrored()
        times.append(run.until(200, "bob"))
    return ", ".join(times)


def mirror_then_kapi(run):
    """The mirror is ended by each of three signals, then Kapi is killed"""
    times = []
    for how in ENDS:
        kapi = run.mirror.kapi()
        run.mirror.end(how)
        with contextlib.suppress(ProcessLookupError):
            os.kill(kapi, signal.SIGKILL)
        time.sleep(0.1)
        kapi_is_gone(run)
        run.mirrored()
        times.append(run.until(200, "bob"))
    return ", ".join(times)


def words_of(process):
    """The command of a process that has not ended."""
    with contextlib.suppress(OSError):
        return pathlib.Path(f"/proc/{process}/cmdline").read_text().split("\0")
    return []


def killed_at_once(run):
    """The mirror is killed when it has just begun to start Kapi, thirty times: no Kapi outlives it"""
    run.mirror.end()
    for _time in range(30):
        run.mirrored()
        while not (kapi := run.mirror.kapi()):
            assert run.mirror.process.poll() is None, run.said()
        run.mirror.end()
        begun = time.monotonic()
        while any(found := words_of(kapi)):
            # What was not run yet may be seen before it ends.
            assert time.monotonic() - begun < (1 if found[0] == run.program else 10), found
            time.sleep(0.01)
    run.mirrored()
    return run.until(200, "bob")


def mirror_stopped(run):
    """While the mirror is stopped and not ended, Kapi goes on by the policy that it has"""
    run.mirror.process.send_signal(signal.SIGSTOP)
    run.write("POST", NAMED + "/rolebindings", binding("ann", "sees-pods", "ann"))
    time.sleep(1)
    assert run.status("ann") == 403 and run.status("bob") == 200
    run.mirror.process.send_signal(signal.SIGCONT)
    waited = run.until(200, "ann")
    run.write("DELETE", NAMED + "/rolebindings/ann")
    run.until(403, "ann")
    return f"{waited} after it goes on"


def kapi_stopped(run):
    """Kapi is stopped and not ended, and is started anew"""
    os.kill(run.mirror.kapi(), signal.SIGSTOP)
    time.sleep(0.2)
    waited = run.until(200, "bob")
    assert float(waited.split()[0]) < 10_000, waited
    return waited


def cluster_restarts(run):
    """The cluster ends and starts, and the mirror stays"""
    run.cluster.stop()
    time.sleep(1)
    run.cluster.start()
    return f"{run.until(200, 'bob')}; {until_equal(run)}"


def mirror_first(run):
    """The mirror starts before the cluster, and Kapi not before the first list"""
    run.mirror.end()
    run.cluster.stop()
    run.mirrored()
    time.sleep(2)
    assert run.mirror.kapi() is None and run.mirror.process.poll() is None, run.said()
    run.cluster.start()
    return f"{run.until(200, 'bob')}; {until_equal(run)}"


def watch_cut(run):
    """The watches are cut, and what changes meanwhile is not missed"""
    run.write("POST", NAMED + "/rolebindings", binding("ann", "sees-pods", "ann"))
    run.until(200, "ann")
    run.wire.cut()
    run.write("DELETE", NAMED + "/rolebindings/ann")
    run.write("POST", NAMED + "/rolebindings", binding("fay", "sees-pods", "fay"))
    time.sleep(2)
    assert run.status("ann") == 200 and run.status("fay") == 403
    run.wire.cut(False)
    waited = f"{run.until(403, 'ann')}, {run.until(200, 'fay')}; {until_equal(run)}"
    run.write("DELETE", NAMED + "/rolebindings/fay")
    return waited


def watch_silent(run):
    """Watches that are silent are given up, and what changes meanwhile is not missed"""
    if run.changes < MANY:
        return "left out of a short run"
    run.wire.flows.clear()
    begun, behind = time.monotonic(), len(run.mirror.lines)
    run.write("POST", NAMED + "/rolebindings", binding("ann", "sees-pods", "ann"))
    run.until_said("ReadTimeoutError", behind, 2 * SECONDS)
    waited = f"given up after {time.monotonic() - begun:.0f} s"
    assert run.status("ann") == 403 and run.status("bob") == 200
    run.wire.flows.set()
    waited += f"; {run.until(200, 'ann')} after they go on; {until_equal(run)}"
    run.write("DELETE", NAMED + "/rolebindings/ann")
    run.until(403, "ann")
    return waited


def odd_names(run):
    """Of names with signs of a URL, each change is one of the object of that name"""
    names = {"odd": "dan", "odd?of=ann": "ann", "odd#ann": "ann", "odd ann&+;\u00e4": "ann"}
    for name, user in names.items():
        run.write("POST", NAMED + "/rolebindings", binding(name, "sees-pods", user))
    until_equal(run)
    for name in list(names)[1:]:
        path = f"{NAMED}/rolebindings/{urllib.parse.quote(name)}"
        run.write("PUT", path, binding(name, "sees-pods", "ann", "fay"))
        until_equal(run)
        run.write("DELETE", path)
        until_equal(run)
    assert (run.status("ann"), run.status("fay"), run.status("dan")) == (403, 403, 200)
    run.write("DELETE", NAMED + "/rolebindings/odd")
    return until_equal(run)


def selectors(run):
    """A review with the selectors, uid and extra that newer API servers send is answered as one without them"""
    review = {"kind": "SubjectAccessReview", "apiVersion": "authorization.k8s.io/v1", "metadata": {"creationTimestamp": None}, "status": {"allowed": False}}
    asked = {"namespace": "default", "verb": "list", "version": "v1", "resource": "pods"}
    more = {"fieldSelector": {"requirements": [{"key": "spec.nodeName", "operator": "In", "values": ["x"]}]},
            "labelSelector": {"requirements": [{"key": "app", "operator": "NotIn", "values": ["a", "b"]}, {"key": "tier", "operator": "Exists"}]}}
    for user, wanted in ("bob", True), ("eve", False):
        whole = {"user": user, "groups": ["system:authenticated"]}
        for spec in ({**whole, "resourceAttributes": asked}, {**whole, "uid": "1", "extra": {"a/b": ["c"]}, "resourceAttributes": {**asked, **more}}):
            status, said = Client(WEBHOOK).ask("POST", "/apis/authorization.k8s.io/v1/subjectaccessreviews", {**review, "spec": spec})
            assert (status, said["status"]["allowed"]) == (201, wanted), (spec, status, said)


def pair(_status, said):
    """The roles and users of the bindings `one` and `two`, as one list shows them."""
    found = {it["metadata"]["name"]: f"{it['roleRef']['name']} {it['subjects'][0]['name']}" for it in said.get("items", [])}
    return " ".join(f"{name}: {found.get(name)}" for name in ("one", "two")) if found else None


def swapped(run, swap):
    """What Kapi showed of the two bindings while they were swapped."""
    asker = Asker(Client(ROOT), "GET", NAMED + "/rolebindings", read=pair)
    asker.start()
    time.sleep(0.2)
    swap()
    until_equal(run)
    return set(asker.end()) - {None}


def swap_live(run):
    """Two bindings swap their subjects, one write each: Kapi shows just what the cluster had"""
    run.write("POST", NAMED + "/rolebindings", binding("one", "sees-pods", "dan"))
    run.write("POST", NAMED + "/rolebindings", binding("two", "sees-secrets", "fay"))
    until_equal(run)

    def swap():
        run.write("PUT", NAMED + "/rolebindings/one", binding("one", "sees-pods", "fay"))
        run.write("PUT", NAMED + "/rolebindings/two", binding("two", "sees-secrets", "dan"))

    seen = swapped(run, swap)
    between = {f"one: sees-pods {one} two: sees-secrets {two}" for one, two in (("dan", "fay"), ("fay", "fay"), ("fay", "dan"))}
    assert seen <= between, seen
    assert run.status("dan") == 403 and run.status("dan", SECRETS) == 200
    return f"{len(seen)} of the three states of the cluster were seen"


def swap_in_a_cut(run):
    """Two bindings are made anew with each other's role during a cut: Kapi shows the old two or the new two"""

    def swap():
        run.wire.cut()
        for name in ("one", "two"):
            run.write("DELETE", f"{NAMED}/rolebindings/{name}")
        run.write("POST", NAMED + "/rolebindings", binding("one", "sees-secrets", "fay"))
        run.write("POST", NAMED + "/rolebindings", binding("two", "sees-pods", "dan"))
        run.wire.cut(False)

    seen = swapped(run, swap)
    assert seen == {"one: sees-pods fay two: sees-secrets dan", "one: sees-secrets fay two: sees-pods dan"}, seen
    assert run.status("dan") == 200 and run.status("dan", SECRETS) == 403


def stored_watch(run):
    """The lines of a stored watch are followed, and one that has expired makes it list anew"""
    if not hasattr(run.cluster, "replay"):
        return "left out, since this is a real one"
    run.cluster.replay("rolebindings")
    until_equal(run)
    run.cluster.expire()
    run.until_said("too old resource version")
    return until_equal(run)


def change_between_lists(run):
    """A cluster role that goes between the list of its kind and the next one is not missed"""
    if not hasattr(run.cluster, "replay"):
        return "left out, since this is a real one"
    run.cluster.objects.between = "DELETE", ("clusterroles", "", "source"), None
    run.wire.cut()
    run.wire.cut(False)
    begun = time.monotonic()
    while run.cluster.objects.between:
        assert time.monotonic() - begun < SECONDS, "no list came"
        time.sleep(0.02)
    return until_equal(run)


def refused_object(run):
    """An object that Kapi refuses is left out and named, and all else goes on"""
    if not hasattr(run.cluster, "replay"):
        return "left out, since a real one refuses it too"
    run.write("POST", RBAC + "/clusterroles", {"metadata": {"name": "odd"}, "rules": [{"verbs": []}]})
    kapi = run.mirror.kapi()
    run.until_said("Kapi refuses ClusterRole odd")
    run.until(200, "bob")
    run.write("DELETE", RBAC + "/clusterroles/odd")
    assert run.mirror.kapi() == kapi
    return until_equal(run)


def large_roles(run):
    """Roles that are too large, or have long names, are left out, and Kapi goes on; one that grows gives nothing until it is small again"""
    kapi, large = run.mirror.kapi(), role("grows", "pods")
    run.write("POST", NAMED + "/roles", large)
    run.write("POST", NAMED + "/rolebindings", binding("grows", "grows", "ann"))
    run.until(200, "ann")
    large = {**large, "rules": large["rules"] + [{"apiGroups": [""], "resources": ["pods"], "verbs": ["get"], "resourceNames": [f"name-{it:08}" for it in range(85_000)]}]}
    long = {**role("x" * 16_300, "pods"), "metadata": {"name": "x" * 16_300}}
    for _time in range(3):
        run.write("PUT", NAMED + "/roles/grows", large)
        run.write("POST", NAMED + "/roles", long)
        run.until(403, "ann")
        run.write("PUT", NAMED + "/roles/grows", role("grows", "pods"))
        run.until(200, "ann")
        run.write("DELETE", NAMED + "/roles/" + "x" * 16_300)
    run.write("DELETE", NAMED + "/rolebindings/grows")
    run.write("DELETE", NAMED + "/roles/grows")
    assert run.mirror.kapi() == kapi, "it was started anew"
    return until_equal(run)


def other_hand(run):
    """What another local user writes into Kapi is gone after a minute, and so is the same if it is written again at once"""
    if run.changes < MANY:
        return "left out of a short run"
    more = {"metadata": {"name": "more"}, "roleRef": {"apiGroup": GROUP, "kind": "ClusterRole", "name": "cluster-admin"}, "subjects": [{"kind": "User", "apiGroup": GROUP, "name": "ida"}]}
    waited = []
    for _time in range(2):
        behind = len(run.mirror.lines)
        assert Client(ROOT).ask("POST", RBAC + "/clusterrolebindings", more)[0] == 201
        run.until(200, "ida")
        run.until_said("Kapi has another ClusterRoleBinding more than the cluster", behind, 2 * SECONDS)
        waited.append(run.until(403, "ida"))
    return f"{', '.join(waited)} after it was seen"


def many_changes(run):
    """Many changes, the watches cut in their midst"""
    begun = time.monotonic()
    for number in range(run.changes // 4):
        name = f"many-{number % 100}"
        run.write("POST", NAMED + "/rolebindings", binding(name, "sees-pods", name))
        run.write("PUT", f"{NAMED}/rolebindings/{name}", binding(name, "sees-pods", name, "ann"))
        run.write("PUT", f"{NAMED}/rolebindings/{name}", binding(name, "sees-pods", "ann"))
        run.write("DELETE", f"{NAMED}/rolebindings/{name}")
        if number == run.changes // 8:
            run.wire.cut()
            run.wire.cut(False)
    seconds = time.monotonic() - begun
    return f"{run.changes} changes in {seconds:.1f} s; {until_equal(run, 10 * SECONDS)}"


def refused(run):
    """A mirror ends with status 2 if its kubeconfig cannot be read, and with 3 if the cluster refuses its user"""
    file = pathlib.Path(run.room, "odd")
    for text in ("", "a: [b", "[]", "{}", "\udcff"):
        file.write_text(text, errors="surrogateescape")
        other = Mirror(run.program, str(file))
        assert other.process.wait(SECONDS) == 2, other.lines
    for token in ("ann", "nobody"):
        other = Mirror(run.program, run.kubeconfig(token))
        assert other.process.wait(SECONDS) == 3, other.lines
    return "".join(other.lines).strip()


def old_reviews(run):
    """Of reviews of v1beta1 the mirror says which flag is missing, and users are answered 500"""
    run.cluster.stop()
    run.cluster.version = "v1beta1"
    run.cluster.start()
    run.mirror.end()
    run.mirrored()
    run.until_said("--authorization-webhook-version=v1")
    run.until(500, "bob")
    run.until(500, "eve")
    run.cluster.stop()
    run.cluster.version = "v1"
    run.cluster.start()
    return run.until(200, "bob")


def stored_policy():
    """The policy under which a stored audit log was written, as `kapi audit` reads it, and the log."""
    from checks.stand_in import RECORDED
    lines = [json.loads(it) for it in RECORDED.read_text().splitlines()]
    listed = [{**item, "apiVersion": GROUP + "/v1", "kind": it["body"]["kind"].removesuffix("List")} for it in lines if "list" in it for item in it["body"]["items"]]
    spaces = [{"apiVersion": "v1", "kind": "Namespace", "metadata": {"name": name}} for name in ("kube-system", "kube-public")]
    given, log = ([it for line in lines for it in line.get(part, [])] for part in ("policy", "audit"))
    policy = [{**it, "aggregationRule": None} for it in spaces + listed + given]
    return [it for it in policy if it["metadata"]["name"] not in ("cluster-admin", "system:basic-user")], log


def shadow(run):
    """tools/shadow.py finds the decisions of a stored audit log, and what another policy would have refused of them"""
    policy, log = stored_policy()
    files = {"log": log, "before": policy, "after": [it for it in policy if it["metadata"]["name"] != "ann-works"]}
    path = {name: str(pathlib.Path(run.room, name)) for name in files}
    for name, items in files.items():
        pathlib.Path(path[name]).write_text("".join(json.dumps(it) + "\n" for it in items))
    words = [sys.executable, "tools/shadow.py", "--kapi", run.program, "--before", path["before"], "--policy", path["after"], path["log"]]
    said = subprocess.run(words, stdout=subprocess.PIPE, text=True).stdout
    assert "47 decisions, 47 alike, 0 that differ\n" in said and "\n1         ann   default    create            configmaps\n" in said, said
    return said.strip().splitlines()[-1]


STEPS = (cluster_alone, mirror_later, set_up_is_seen, grants_are_seen, kapi_killed, mirror_killed, kapi_then_mirror, mirror_then_kapi, killed_at_once,
         mirror_stopped, kapi_stopped, cluster_restarts, mirror_first, watch_cut, watch_silent, swap_live, swap_in_a_cut, odd_names, selectors,
         stored_watch, change_between_lists, refused_object, large_roles, other_hand, many_changes, refused, old_reviews, shadow)


def cluster_of(webhook):
    """The real one if there is one, else the stand-in; how it is called; and what steps need it."""
    if "KUBE_APISERVER" in os.environ and "ETCD" in os.environ:
        from checks import real_cluster
        from checks.api_server import ApiServer
        cluster = ApiServer(os.environ["KUBE_APISERVER"], os.environ["ETCD"], API, webhook)
        cluster.begin()
        return cluster, "a real kube-apiserver", real_cluster.STEPS
    from checks.stand_in import RECORDED, StandIn
    return StandIn(API, webhook), f"a stand-in that replays {RECORDED.stem}; for a real one name its programs by KUBE_APISERVER and ETCD (docs/CLUSTER.md builds them)", ()


def played(run, step):
    """Whether a step went well."""
    try:
        print(f"{step.__doc__}: {step(run) or 'yes'}", flush=True)
        return True
    except AssertionError as fault:
        print(f"{step.__doc__}: FAILED, {fault}", flush=True)
        return False


def play(run, steps):
    """Plays the steps up to the first that fails; whether all went well."""

    def decided(status, _said):
        # In mode RBAC, which a step needs, Kapi is not asked.
        return status if getattr(run.cluster, "mode", "Webhook") != "RBAC" else f"in mode RBAC {status}"

    asked = {"bob": ("GET", PODS, None), "eve": ("GET", PODS, None), "hal": ("POST", SELF, SELF_REVIEW), "admin": ("GET", "/version", None)}
    askers = {user: Asker(run.client(user), *question, decided) for user, question in asked.items()}
    is_well = played(run, steps[0])
    for asker in askers.values():
        asker.start()
    is_well = is_well and all(played(run, step) for step in steps[1:])
    # 504 is what a real one answers while Kapi is stopped.
    for name, wanted in {"bob": {0, 200, 500, 504}, "eve": {0, 403, 500, 504}, "hal": {0, 403, 500, 504}, "admin": {0, 200}}.items():
        seen = askers[name].end()
        is_wanted = {it for it in seen if isinstance(it, int)} <= wanted
        is_well = is_well and is_wanted
        counted = ", ".join(f"{status} {count} times" for status, count in sorted(seen.items(), key=str))
        print(f"{name} was answered {counted}" + ("" if is_wanted else f"; FAILED, never but {wanted}"))
    return is_well


def main(program, changes="10000"):
    with tempfile.TemporaryDirectory() as room:
        cluster, called, more = cluster_of(WEBHOOK)
        print(f"the API server is {called}", flush=True)
        run = Run(program, cluster, room, int(changes))
        try:
            cluster.start()
            return 0 if play(run, STEPS + more) else 1
        finally:
            run.mirror and run.mirror.end()
            cluster.end()
