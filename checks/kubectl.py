"""Runs everyday commands of kubectl through tools/kubectl_proxy.py, and compares how what each prints begins with a table.

usage: python3 -m checks PROGRAM kubectl [KUBECTL]     from kubectl 1.32 on it needs Debian's packages that tools/bodies.py names

The last line counts the commands that work. The exit status is 1 if a line differs from the table.
"""
import json
import os
import pathlib
import re
import shlex
import subprocess
import tempfile

from tools.server import OTHER, ROOT, Server, started

# Debian's own, which has Debian's packages.
PYTHON = "/usr/bin/python3"
KINDS = "examples/controller/widgets.kinds"
MAP = {"apiVersion": "v1", "kind": "ConfigMap", "metadata": {"name": "b"}, "data": {"k": "v"}}
WIDGET = {"apiVersion": "example.org/v1", "kind": "Widget", "metadata": {"name": "w"}, "spec": {"size": 1}}
POD = {"apiVersion": "v1", "kind": "Pod", "metadata": {"name": "p", "labels": {"a": "b"}}, "spec": {"containers": [{"name": "c", "image": "x"}]}}
DEPLOYMENT = {"apiVersion": "apps/v1", "kind": "Deployment", "metadata": {"name": "d"},
              "spec": {"replicas": 1, "selector": {"matchLabels": {"a": "b"}}, "template": {"metadata": {"labels": {"a": "b"}}, "spec": POD["spec"]}}}
FILES = {
    "map.json": MAP,
    "other.json": {**MAP, "data": {"k": "w"}},
    "widget.json": WIDGET,
    "other-widget.json": {**WIDGET, "spec": {"size": 2}},
    "pod.json": POD,
    "labeled-pod.json": {**POD, "metadata": {"name": "p", "labels": {"a": "c"}}},
    "ready-pod.json": {**POD, "status": {"phase": "Running", "conditions": [{"type": "Ready", "status": "True"}]}},
    "deployment.json": DEPLOYMENT,
    "more.json": {**DEPLOYMENT, "spec": {**DEPLOYMENT["spec"], "replicas": 2}},
    "rolled-out.json": {**DEPLOYMENT, "status": {"replicas": 2, "updatedReplicas": 2, "availableReplicas": 2}},
    "node.json": {"apiVersion": "v1", "kind": "Node", "metadata": {"name": "n"}},
    "role.json": {"apiVersion": "rbac.authorization.k8s.io/v1", "kind": "Role", "metadata": {"name": "sees", "namespace": "default"},
                  "rules": [{"apiGroups": [""], "resources": ["pods"], "verbs": ["get"]}]},
    "folder/kustomization.yaml": {"resources": ["map.json"], "namePrefix": "my-"},
    "folder/map.json": MAP,
}
# A command, how its first line begins, and what is seen instead if it does not work, with the versions if those are not all.
TABLE = """
version -o json | {
cluster-info | Kubernetes control plane
api-versions | apiextensions.k8s.io/v1
api-resources | NAME
api-resources --namespaced=false | NAME
api-resources --api-group=apps -o name | daemonsets.apps
explain pods | KIND: | error: couldn't find resource for "/v1, Kind=Pod"
get --raw /api/v1/namespaces/default | {"apiVersion":"v1"
create namespace shop | namespace/shop created
get namespaces | NAME
label ns shop team=a | namespace/shop labeled
describe namespace shop | Name:         shop
create configmap size --from-literal=door=two | configmap/size created
create configmap files --from-file=map.json | configmap/files created
get cm | NAME
get cm -A | NAMESPACE
get cm -o wide | NAME
get cm size -o yaml | apiVersion: v1
get cm size -o json | {
get cm size -o name | configmap/size
get cm size -o jsonpath={.data.door} | two
get cm -o custom-columns=OF:.metadata.name | OF
get cm --sort-by=.metadata.name | NAME
get cm none | Error from server (NotFound): configmaps none not found
get cm -w --request-timeout=1s | NAME
label cm size color=blue | configmap/size labeled
get cm -l color=blue | NAME
get cm -l 'color notin (blue)' --show-labels | NAME
get cm --field-selector metadata.name=size | NAME
label cm size color=red --overwrite | configmap/size labeled
label cm size color- | configmap/size
annotate cm size by=root | configmap/size annotate
patch cm size --type=merge -p '{"data":{"door":"four"}}' | configmap/size patched
patch cm size -p '{"data":{"door":"five"}}' | configmap/size patched
patch cm size --type=json -p '[{"op":"remove","path":"/data"}]' | configmap/size patched | -20: Error from server (UnsupportedMediaType) | 21-: error: application/json-patch+json is not supported
edit cm size | configmap/size edited
describe cm size | Name:         size | Error from server (BadRequest)
create -f map.json | configmap/b created
create -f map.json | Error from server (AlreadyExists)
get -f map.json | NAME
replace -f other.json | configmap/b replaced
replace --force -f map.json | configmap "b" deleted
apply -f map.json | Warning: resource configmaps/b is missing
apply -f map.json | configmap/b unchanged
apply -f other.json | configmap/b configured
apply -f other.json --dry-run=client | configmap/b
apply -f map.json --dry-run=server | configmap/b configured | -20: error: /v1, Kind=ConfigMap doesn't support dry-run | 21-: Error from server (BadRequest)
apply -f map.json --server-side | configmap/b serverside-applied | error: Server-side apply not available
apply view-last-applied cm b | apiVersion: v1
diff -f map.json | diff | -20: error: | 21-: Error from server (BadRequest)
apply -k folder | configmap/my-b created
create cm more --from-literal=k=v --dry-run=client -o yaml | apiVersion: v1
create cm more --from-literal=k=v --dry-run=server | configmap/more created | error:
delete -f map.json | configmap "b" deleted
delete cm files | configmap "files" deleted
create secret generic word --from-literal=p=q | secret/word created
create secret docker-registry hub --docker-username=a --docker-password=b --docker-server=c | secret/hub created
get secrets | NAME
get secret word -o jsonpath={.data.p} | cQ==
describe secret word | Name:         word
delete secret word | secret "word" deleted
create serviceaccount bot | serviceaccount/bot created
get sa | NAME
describe sa bot | Name:                bot
create token bot | ey | -20: Error: must specify one of -f and -k | 21-: error: failed to create token: no such resource
create role r --verb=get,list --resource=pods | role.rbac.authorization.k8s.io/r created
create rolebinding rb --role=r --user=ann | rolebinding.rbac.authorization.k8s.io/rb created
create clusterrole cr --verb=get --resource=nodes | clusterrole.rbac.authorization.k8s.io/cr created
create clusterrolebinding crb --clusterrole=cr --serviceaccount=default:bot | clusterrolebinding.rbac.authorization.k8s.io/crb created
get roles | NAME
get clusterroles | NAME
get rolebindings -o wide -A | NAMESPACE
get clusterrolebindings | NAME
describe role r | Name:         r
describe clusterrole cr | Name:         cr
describe rolebinding rb | Name:         rb
describe clusterrolebinding crb | Name:         crb
set subject rolebinding rb --user=bob | rolebinding.rbac.authorization.k8s.io/rb subjects updated
auth can-i create deployments | yes
auth can-i get pods --as ann | yes
auth can-i delete pods --as ann | no
auth can-i get secrets -n shop --as ann | no
auth can-i --list --as ann | Resources
auth reconcile -f role.json | role.rbac.authorization.k8s.io/sees
auth whoami | ATTRIBUTE | -20: error: unknown command | 21-31: error: the selfsubjectreviews API is not enabled | 32-: Error from server
--as ann get pods | No resources found
--as ann get secrets | Error from server (Forbidden): ann may not do this in namespace default
--as ann --as-group system:masters get secrets | NAME
delete rolebinding rb | rolebinding.rbac.authorization.k8s.io "rb" deleted
run q --image=x | pod/q created
apply -f pod.json | pod/p created
apply -f labeled-pod.json | pod/p configured
get pods -o wide | NAME
get pod p -o yaml | apiVersion: v1
get pods --field-selector status.phase=Running | NAME | Error from server (BadRequest)
label pods --all x=y | pod/p labeled
describe pod p | Name:         p
replace --raw /api/v1/namespaces/default/pods/p/status -f ready-pod.json | {
wait --for=condition=Ready pod/p --timeout=5s | pod/p condition met
logs p | x | Error from server (NotFound): no such resource
exec p -- ls | x | Error from server
cp p:/x x | x | Error from server
port-forward p 8080:80 | Forwarding | error: error upgrading connection
top pods | NAME | error: Metrics API not available
expose pod p --port=80 | service/p exposed
delete pod q | pod "q" deleted
create deployment front --image=x --replicas=2 | deployment.apps/front created
apply -f deployment.json | deployment.apps/d created
apply -f more.json | deployment.apps/d configured
get deployments | NAME
get deploy d -o yaml | apiVersion: apps/v1
describe deployment d | Name:               d
scale deployment d --replicas=3 | deployment.apps/d scaled | Error from server (NotFound): no such resource
set image deployment/d c=y | deployment.apps/d image updated | error: failed to patch image update to pod template
set env deployment/d A=b | deployment.apps/d env updated | error: failed to patch env update to pod template
set serviceaccount deployment d bot | deployment.apps/d serviceaccount updated
rollout restart deployment/d | deployment.apps/d restarted
rollout pause deployment/d | deployment.apps/d paused
rollout resume deployment/d | deployment.apps/d resumed
rollout history deployment/d | deployment.apps/d
replace --raw /apis/apps/v1/namespaces/default/deployments/d/status -f rolled-out.json | {
rollout status deployment/d --timeout=5s | deployment "d" successfully rolled out
rollout undo deployment/d | deployment.apps/d rolled back | error: no rollout history found
autoscale deployment d --max=3 | horizontalpodautoscaler.autoscaling/d autoscaled | error: cannot autoscale
expose deployment d --port=80 | service/d exposed
create service clusterip front --tcp=80:80 | service/front created
get svc | NAME
describe service front | Name:              front
get all | NAME
create job j --image=x | job.batch/j created | 32-: error: failed to create job: the discovery proxy passes on no such protobuf
create cronjob c --image=x --schedule='* * * * *' | cronjob.batch/c created | -20: error: failed to create cronjob: no such resource | 32-: error: failed to create cronjob: the discovery proxy passes on no such protobuf
create ingress i --rule=a/b=front:80 | ingress.networking.k8s.io/i created | 32-: error: failed to create ingress: the discovery proxy passes on no such protobuf
create poddisruptionbudget pdb --selector=a=b --min-available=1 | poddisruptionbudget.policy/pdb created | -20: error: no matches for kind "PodDisruptionBudget" | 32-: error: failed to create poddisruptionbudgets: the discovery proxy passes on no such protobuf
create quota q --hard=pods=2 | resourcequota/q created
create priorityclass pc --value=10 | priorityclass.scheduling.k8s.io/pc created | 32-: error
get pvc,netpol,hpa | No resources found
get events | No resources found
apply -f node.json | node/n created
get nodes | NAME
describe node n | Name:               n | Error from server (BadRequest)
taint node n a=b:NoSchedule | node/n tainted
cordon n | node/n cordoned
uncordon n | node/n uncordoned
drain n | node/n drained | node/n cordoned
apply -f widget.json | widget.example.org/w created
get widgets | NAME
apply -f other-widget.json | widget.example.org/w configured
patch widget w --type=merge -p '{"spec":{"size":3}}' | widget.example.org/w patched
describe widget w | Name:         w
delete widget w | widget.example.org "w" deleted
delete cm --all | configmap
delete deployment d | deployment.apps "d" deleted
delete namespace shop | namespace "shop" deleted
"""


def said(kubectl, words, room):
    """The first line that is printed, without the colors of a terminal, and the exit status."""
    command = [kubectl, "--server", f"http://127.0.0.1:{OTHER}", *shlex.split(words)]
    there = {**os.environ, "HOME": room, "KUBECONFIG": "", "KUBE_EDITOR": "sed -i s/five/six/"}
    ran = subprocess.run(command, stdin=subprocess.DEVNULL, stdout=subprocess.PIPE, stderr=subprocess.STDOUT, text=True, timeout=60, cwd=room, env=there)
    return re.sub(r"\x1b\[[\d;]*m", "", ran.stdout).lstrip("\n").partition("\n")[0], ran.returncode


def instead(cells, minor):
    """What is seen with this version in place of what is wanted; nothing if the command works."""
    for least, most, text in (re.fullmatch(r"(?:(\d*)-(\d*): )?(.*)", it).groups() for it in cells):
        if int(least or 0) <= minor <= int(most or minor):
            return text
    return None


def wrong_and_working(kubectl, room):
    """How many lines differ from the table, and how many commands work."""
    client = json.loads(subprocess.run([kubectl, "version", "--client", "-o", "json"], stdout=subprocess.PIPE, check=True).stdout)["clientVersion"]
    wrong = working = 0
    for row in TABLE.strip().splitlines():
        words, wanted, *cells = row.split(" | ")
        seen = instead(cells, int(re.match(r"\d+", client["minor"])[0]))
        line, status = said(kubectl, words, room)
        is_refusal = seen is not None or wanted == "no" or wanted.startswith("Error")
        is_well = line.startswith(wanted if seen is None else seen) and is_refusal == (status != 0)
        wrong += not is_well
        working += is_well and seen is None
        print(f"kubectl {words}: {line}" + ("" if is_well else f"; WANTED {wanted if seen is None else seen}, status {status}"), flush=True)
    return wrong, working


def main(program, kubectl="kubectl"):
    objects = [json.loads(it) for it in pathlib.Path("examples/serve/objects.jsonl").read_text().splitlines() if it.startswith("{")]
    kinds = ["kubernetes", KINDS]
    options = [word for name in kinds for word in ("--kinds", name)]
    with Server(program, "--first-revision", "clock", *options, objects=objects), tempfile.TemporaryDirectory() as room:
        proxy = started([PYTHON, "tools/kubectl_proxy.py", str(OTHER), str(ROOT), *kinds], 1)
        for name, item in FILES.items():
            file = pathlib.Path(room, name)
            file.parent.mkdir(exist_ok=True)
            file.write_text(json.dumps(item))
        wrong, working = wrong_and_working(kubectl, room)
        proxy.kill()
    print(f"{working} of {len(TABLE.strip().splitlines())} commands work")
    return 1 if wrong else 0
