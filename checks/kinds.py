"""Compares kinds with the program: tools/kinds.txt and examples/kinds/kubernetes.jsonl with what it serves, and files of kinds with what it refuses.

usage: python3 -m checks PROGRAM kinds

Each resource is served, in its scope, with its kind and its status, and no other stands in the source. The exit status is 1 where they differ.
"""
import json
import pathlib
import re

from checks.harness import Case, bound, commands, lines, room, rule, thing
from tools import kubectl_proxy

CRATES = pathlib.Path(__file__).parent.parent / "crates"
SOURCES = [CRATES / "kapi_core/src/resource.rt", CRATES / "kapi_core/src/programs.rt"]
COMMON = CRATES / "kapi_kinds/src/kubernetes.rt"

LINE = {"group": "example.org", "version": "v1", "resource": "widgets", "kind": "Widget", "namespaced": True, "status": True}
SPEC = {"group": "example.org", "names": {"plural": "widgets", "kind": "Widget"}, "scope": "Namespaced", "versions": [{"name": "v1", "served": True}]}
DEFINITION = thing("CustomResourceDefinition", "widgets.example.org", version="apiextensions.k8s.io/v1")
SECRETS = {**LINE, "group": "", "resource": "secrets", "kind": "Other"}
# A file of kinds, and how each line that the program says of it begins.
REFUSED = [
    (json.dumps({**LINE, "short": "w"}), ["1: short: "]),
    (json.dumps({key: it for key, it in LINE.items() if key != "namespaced"}), ["1: namespaced: "]),
    (json.dumps({**LINE, "resource": "Widgets"}), ["1: resource: "]),
    (json.dumps({**LINE, "group": "-"}), ["1: group: "]),
    (json.dumps({**LINE, "group": "rbac.authorization.k8s.io"}), ["1: no kind is added to the group rbac.authorization.k8s.io"]),
    (json.dumps(LINE) + "\n" + json.dumps({**LINE, "kind": "Gadget"}), ["2: the resource widgets of the group example.org is there already"]),
    (json.dumps(LINE) + "\n" + json.dumps({**LINE, "resource": "gadgets", "version": "v2"}), ["2: the kind Widget of the group example.org is there already"]),
    (json.dumps(SECRETS) + "\n\n" + json.dumps({**SECRETS, "resource": "others", "kind": "Secret"}),
     ["1: the resource secrets of the core group is there already", "3: the kind Secret of the core group is there already"]),
    (json.dumps({**DEFINITION, "spec": {**SPEC, "scope": "Everywhere"}}, indent=2), ["1: spec.scope: "]),
    (json.dumps({**DEFINITION, "spec": {**SPEC, "versions": [{"name": "v1", "served": False}]}}), ["1: spec.versions: "]),
    (json.dumps({"kind": "List", "apiVersion": "v1", "items": [LINE, {"apiVersion": "v1", "kind": "ConfigMap"}]}), ["1: it is neither a line of a kind nor a CustomResourceDefinition"]),
    ("group: example.org\n", ["1: it begins like YAML"]),
    ('{"group":', ["1: the object that begins here is not closed"]),
]


def path(row, in_namespace):
    root = f"/apis/{row.group}/{row.version}" if row.group else f"/api/{row.version}"
    return f"{root}/namespaces/default/{row.plural}" if in_namespace else f"{root}/{row.plural}"


def wanted(row):
    """The requests about a resource as a transcript: its list or, of a review, that it is only created; the other scope; its status."""
    own, other = (path(row, row.namespaced == it) for it in (True, False))
    if row.is_review:
        return [f"GET {own}", "= 405", f"POST {own} {{}}", "= 422", f"POST {other} {{}}", "= 404"]
    lines = [f"GET {own}", "= 200", f'= 200 "kind":"{row.kind}List"', f"POST {other} {{}}", "= 405" if row.namespaced else "= 404"]
    missing = f"= 404 {row.plural} none not found" if row.status else "= 404 no such resource"
    return [*lines, f"GET {own}/none/status", missing]


def asked(rows, *head):
    """A transcript of these rows is as wanted."""
    text = "\n".join([*head, "as root,system:masters", *(line for row in rows for line in wanted(row))]) + "\n"
    return Case("replay transcript", told=re.compile(r"transcript: \d+ checks\n"), files={"transcript": text})


def plurals_of_source():
    """The plurals that the source of the program's table names."""
    found = set()
    for source in SOURCES:
        text = source.read_text()
        found |= set(re.findall(r'plural: "(\w+)"', text)) | set(re.findall(r'open\("[\w.]*", "(\w+)"', text))
    return found


ROLE = thing("Role", "r", "default", rules=[rule("get", "widgets gears", "example.org")])
WIDGET = thing("Widget", "w", "default", "example.org/v1")
# As an API server writes a list: its items have no kind of their own.
DEFINITIONS = {"apiVersion": DEFINITION["apiVersion"], "kind": f"{DEFINITION['kind']}List", "items": [{"metadata": DEFINITION["metadata"], "spec": SPEC}]}
GEARS = "policy:1  Role default/r: rule 0: no kind serves the resource gears"
FILES = {"own": lines(LINE), "definitions": lines(DEFINITIONS), "policy": lines(ROLE, WIDGET),
         "questions": lines({"user": "ann", "resourceAttributes": {"verb": "get", "resource": "widgets", "group": "example.org"}})}
# A cluster-scoped kind that is named as one of Kubernetes that lives in namespaces, and a policy that names no widgets.
SCOPED = {**LINE, "resource": "secrets", "kind": "Secret", "namespaced": False, "status": False}
PLACED = lines(thing("Widget", "w", "shop", "example.org/v1"), thing("Secret", "s", None, "example.org/v1"))
PLAYED = "as root,system:masters\nGET /apis/example.org/v1/namespaces/shop/widgets/w\n= 200\nGET /apis/example.org/v1/secrets/s\n= 200\n"
# What stands above the first request of a case belongs to it, in any order.
HEADS = ["manifests placed\nkinds own\nkinds scoped\n", "kinds own\nmanifests placed\nkinds scoped\n", "kinds own\nbegin\nkinds scoped\nmanifests placed\n",
         "manifests bound\nkinds own\nkinds scoped\nmanifests placed\n"]
BOUND = lines(thing("ClusterRole", "r", rules=[rule("get", "pods")]), thing("ClusterRoleBinding", "b", **bound("ClusterRole r", "User ann")))
MORE = {"scoped": lines(SCOPED), "placed": PLACED, "homeless": lines(thing("Widget", "w", None, "example.org/v1")), "bound": BOUND,
        "unplaced": HEADS[1].replace("placed", "homeless") + PLAYED}
CASES = [
    *[Case("replay played", told="played: 2 checks\n", files={**MORE, "played": head + PLAYED}) for head in HEADS],
    # what a line names that holds no kind: a file, a file of a folder, a folder without files that are read
    *[Case("replay bare", 1, told="bare:2: the file or folder holds no kind\nbare: 2 checks, 1 not as wanted\n", files={"bare": f"begin\nkinds {name}\nkinds own\n{PLAYED}", path: "\n"})
      for name, path in (("blank", "blank"), ("folder", "folder/1.json"), ("hidden", "hidden/.kinds"))],
    Case("replay unplaced", 1, None, re.compile(".*metadata.namespace: required of Widget w.*", re.S)),
    Case("audit --manifests bound questions --kinds own --strict", told="denied\n"),
    Case("audit --manifests bound questions --strict", 1, "no rule names the resource widgets", "denied\n"),
    *[Case("script --kinds kinds", 1, re.compile("\n".join(f"kinds:{re.escape(it)}.*" for it in said)), files={"kinds": text}) for text, said in REFUSED],
    Case("audit policy questions", 1, re.compile("policy line 2.*", re.S)),
    *[Case(f"audit {words}", told="denied\n") for words in ("policy questions --kinds own", "--kinds own --kinds kubernetes policy questions", "policy questions --kinds definitions")],
    Case("audit policy questions --kinds none", 1, "none: there is no such file"),
    *[Case(f"check policy{words}", 3, "skipped: 1 Widget", re.compile(f"{told}.*", re.S)) for words, told in (("", f"(?!.*{GEARS})"), (" --kinds own", f".*{GEARS}"))],
    Case("check --kinds own --kinds own policy", 1, "own:1: the resource widgets of the group example.org is there already"),
    Case("script --kinds own"), Case("who policy get pods --kinds own", 2, re.compile(".*--kinds.*", re.S)),
]


def main(program):
    own, common = kubectl_proxy.own_rows(), kubectl_proxy.added_rows("kubernetes")
    with room(FILES) as folder:
        yield from commands(program, [*CASES, asked(own), asked(common, "kinds kubernetes")], folder)
    yield "kinds in tools/kinds.txt or in the source alone", ", ".join(sorted({row.plural for row in own} ^ plurals_of_source()))
    in_source = COMMON.read_text().count('"group"')
    yield "common kinds", f"{len(common)}, and {in_source} lines in the source" * (in_source != len(common))
