"""Files of manifests as people have them, of each form, through `kapi compare`, `kapi who` and `kapi risks`: what loads, what is told of it, and what is refused.

usage: python3 -m checks PROGRAM manifests     needs bash, and the package PyYAML for the files of YAML
"""
import importlib.util
import json
import os
import pathlib
import re
import subprocess
import sys

from checks.harness import RBAC, Case, bound, commands, lines, room, rule, thing, write


def pretty(value):
    return json.dumps(value, indent=4) + "\n"


def listed(*values, kind="List", version="v1"):
    return {"apiVersion": version, "items": list(values), "kind": kind, "metadata": {"resourceVersion": ""}}


SHOP = thing("Namespace", "shop")
READER = thing("Role", "reader", "shop", rules=[rule("get", "secrets")])
READERS = thing("RoleBinding", "readers", "shop", **bound("Role reader", "User ann"))
SEER = thing("ClusterRole", "seer", rules=[rule("list", "secrets")])
SEERS = thing("ClusterRoleBinding", "seers", **bound("ClusterRole seer", "User bob"))
OTHERS = [
    thing("NetworkPolicy", f"n{it}", "shop", "networking.k8s.io/v1", spec={"podSelector": {}}) for it in range(3)
] + [thing("CustomResourceDefinition", "c", None, "apiextensions.k8s.io/v1", spec={"weight": 0.5}), thing("ConfigMap", "m", "shop", "v1")]
MASTERS = "Group system:masters"
EVERY = (MASTERS, "*", "-", "everything")
ANN = ("User ann", "shop", "RoleBinding readers", "Role reader, rule 0")


def table(*rows):
    """The rows of an answer, whatever the width of its columns."""
    head = ("SUBJECT", "NAMESPACE", "BINDING", "RULE")
    return re.compile("".join(" +".join(re.escape(it) for it in row) + "\n" for row in (head, *rows)))


def who(text, *rows, error="", name="policy", words="get secrets --namespace shop"):
    """The policy of a text lets just these get secrets in the namespace `shop`, besides the masters."""
    return Case(f"who {name} {words}", 0, error, table(EVERY, *rows), files={name: text})


def refused(text, *told, words="risks policy", name="policy"):
    """The policy of a text is refused with these lines on standard error, and nothing is printed."""
    return Case(words, 1, "\n".join(told), "", files={name: text})


SKIPPED = "skipped: 1 ConfigMap, 1 CustomResourceDefinition, 3 NetworkPolicy"
POLICY = [READER, READERS, SEER]
HOMELESS = "metadata.namespace: required of {} {}; --namespace names one for all objects that name none"
BARE = lines(thing("Role", "reader", rules=[rule("get", "secrets")]), thing("RoleBinding", "readers", **bound("Role reader", "User ann")))
YAML = "policy:1: it begins like YAML, and JSON is read; 'tools/policy.py FILE..' makes JSON of it, as 'yq -o json FILE' does"
NO_JSON = "the object is no JSON: the fault is at line {}, column {}"
OPEN = "the object that begins here is not closed"
STRAY = "no JSON object begins here"
FORMS = [
    who(lines(*POLICY), ANN),
    who(lines(SHOP, *POLICY), ANN),
    who(pretty(READER) + pretty(READERS), ANN),
    who(lines(READERS) + "\n# a comment\n" + pretty(READER) + lines(SEER).rstrip("\n"), ANN),
    who(json.dumps(READER) + json.dumps(READERS) + " " + json.dumps(SEER), ANN),
    who(pretty(listed(*POLICY)), ANN),
    who(json.dumps(listed(*reversed(POLICY))), ANN),
    who(pretty(listed(READER, kind="RoleList", version=f"{RBAC}/v1")) + pretty(listed(READERS)), ANN),
    who(pretty(listed(*POLICY)).replace("\n", "\r\n"), ANN),
    who("\xef\xbb\xbf" + lines(*POLICY).replace("\n", "\r\n"), ANN),
    who(pretty(listed(*OTHERS, *POLICY)), ANN, error=SKIPPED),
    who(lines(thing("Role", "}{\"\\", "shop", rules=[]), *POLICY), ANN),
    Case("risks - --namespace shop", 0, "", re.compile("SUBJECT.*\nGroup.*\nThrough roles.*\n"), input=BARE),
    who(BARE, ANN),
    refused(BARE, "policy:1: " + HOMELESS.format("Role", "reader"), "policy:2: " + HOMELESS.format("RoleBinding", "readers")),
]
ITEMS = "kubectl takes a document with a member items for a list; they are no array, or named in another case, or nest too deep"
BODY = {key: it for key, it in READER.items() if key not in ("kind", "apiVersion")}
CONFIG = thing("ConfigMap", "c", "shop")
OPENED = [
    who(lines({**CONFIG, "items": POLICY}), ANN),
    who(lines({**thing("Role", "other", "shop", rules=[]), "items": [BODY]}, READERS), ANN),
    who(pretty(listed(listed(READER), listed(listed(READERS), SEER))), ANN),
    refused(pretty(listed(listed(listed(listed(READER))))), f"policy:1: {ITEMS}"),
    *[refused(lines(READER, {**CONFIG, "items": it}), f"policy:2: {ITEMS}") for it in (None, {}, "a")],
    *[refused(lines({**CONFIG, name: []}), f"policy:1: {ITEMS}") for name in ("Items", "ITEMS", "item\u017f")],
    refused(json.dumps({**READERS, "items": [1, READER, [], {"kind": "Role"}]}, indent=0), *[f"policy:{it}: apiVersion and kind: required, each a text" for it in (1, 22, 44)]),
]
STANDING = [
    thing("Namespace", "default"),
    thing("ClusterRole", "cluster-admin", rules=[rule("*", "*", "*"), {"nonResourceURLs": ["*"], "verbs": ["*"]}]),
    thing("ClusterRole", "system:basic-user", rules=[rule("create", "selfsubjectreviews", "authentication.k8s.io")]),
    thing("ClusterRoleBinding", "cluster-admin", **bound("ClusterRole cluster-admin", "User olga")),
    thing("ClusterRoleBinding", "system:basic-user", **bound("ClusterRole system:basic-user", "Group system:authenticated")),
]
OLGA = ("User olga", "*", "ClusterRoleBinding cluster-admin", "ClusterRole cluster-admin, rule 0")
DUMPS = [
    who(pretty(listed(*STANDING, *POLICY)), OLGA, ANN),
    Case("who policy create selfsubjectreviews.authentication.k8s.io", 0, "", re.compile(".*\nGroup system:masters .*\nUser olga .*\nGroup system:authenticated .*\n"),
         files={"policy": pretty(listed(*STANDING))}),
    Case("who policy create selfsubjectaccessreviews.authorization.k8s.io", 0, "", re.compile(".*\nGroup system:masters .*\nUser olga .*\n")),
    Case("who policy create selfsubjectaccessreviews.authorization.k8s.io", 0, "",
         re.compile(".*\nGroup system:masters .*\nGroup system:authenticated .*\n"), files={"policy": lines(SEER)}),
]
FAULTS = [
    refused("apiVersion: v1\nkind: Role\nmetadata: {}\n", YAML),
    refused("# roles\n---\napiVersion: v1\n", YAML),
    refused(lines(READER) + "kind: Role\n[]\n", f"policy:2: {STRAY}", f"policy:3: {STRAY}"),
    refused(lines(READER) + '{"kind" "Role"}\n' + lines(READERS) + '{\n "kind":\n  Role\n}\n{"kind":', "policy:2: " + NO_JSON.format(2, 9),
            "policy:4: " + NO_JSON.format(6, 3), f"policy:8: {OPEN}"),
    refused(lines({"kind": "Role"}, {"apiVersion": "v1"}, {"apiVersion": 1, "kind": "Role"}), *[f"policy:{it}: apiVersion and kind: required, each a text" for it in (1, 2, 3)]),
    refused("".join(f'{{"a":{it},}}\n' for it in range(25)), *[f"policy:{it}: " + NO_JSON.format(it, 8 if it <= 10 else 9) for it in range(1, 21)], "and 5 more"),
    refused(lines(READER, READER), "policy:2: roles reader already exists"),
    refused(pretty(listed(READER, {**READERS, "roleRef": {}}, thing("Role", "none", "shop", rules=[{}]))),
            "policy:25: roleRef.kind: required; roleRef.name: required",
            "policy:41: rules[0].verbs: required; rules[0].apiGroups: required; rules[0].resources: required"),
    refused(lines(thing("Role", "r", "shop", f"{RBAC}/v1beta1", rules=[])), f"policy:1: apiVersion: a Role has '{RBAC}/v1', and not '{RBAC}/v1beta1'"),
    refused(lines(thing("Group", "r", None, f"{RBAC}/v1")), f"policy:1: kind 'Group' of apiVersion '{RBAC}/v1' is not served; docs/PROFILE.md names those that are"),
    refused(lines(thing("Role", "r", "shop", "v1", rules=[])), f"policy:1: apiVersion: a Role has '{RBAC}/v1', and not 'v1'"),
    refused(lines(thing("Role", "r", "No Name", rules=[])), "policy:1: metadata.name: bad value", "policy:1: namespaces No Name not found"),
    refused("[" * 200 + "]" * 200 + "\n", f"policy:1: {STRAY}"),
    Case("risks policy", 1, re.compile("policy:1: the object is no JSON: .*"), "", files={"policy": '{"a":' * 200 + "1" + "}" * 200 + "\n"}),
    refused(b"\xff\xfe{".decode("latin-1"), f"policy:1: {STRAY}"),
]
COUNTS = "before: roles: {}, bindings: {}\nafter: roles: {}, bindings: {}"
GAINED = re.compile("SUBJECT.*\nUser bob +\\* .*\n")
LOOSE = "RoleBinding shop/viewers: ClusterRole view is not in the policy: it gives nothing"
COMPARED = [
    Case("compare before after", 0, COUNTS.format(2, 1, 2, 1), "Nobody gains.\n", files={"before": lines(*POLICY), "after": pretty(listed(*reversed(POLICY)))}),
    Case("compare before after", 3, COUNTS.format(2, 1, 2, 2), GAINED, files={"after": lines(*POLICY, SEERS)}),
    Case("compare after before", 0, "after: roles: 2, bindings: 2\nbefore: roles: 2, bindings: 1", "Nobody gains.\n"),
    Case("compare before empty", 1, "before: roles: 2, bindings: 1\nempty: there is no role and no binding in it", "", files={"empty": lines(SHOP)}),
    Case("compare before yaml", 1, YAML.replace("policy:", "yaml:"), "", files={"yaml": "kind: ClusterRoleBinding\nroleRef: {name: cluster-admin}\n"}),
    Case("compare before loose", 0, "before: roles: 2, bindings: 1\nloose: roles: 2, bindings: 2\n" + LOOSE, "Nobody gains.\n",
         files={"loose": lines(*POLICY, thing("RoleBinding", "viewers", "shop", **bound("ClusterRole view", "User ann")))}),
    *[Case(f"compare {words}", 1, None, "Nobody gains.\n") for words in ("--strict before loose", "--strict loose loose", "loose loose --strict")],
    Case("compare --strict before before", 0, None, "Nobody gains.\n"),
    Case("compare loose loose", 0, "loose: roles: 2, bindings: 2\n" * 2 + LOOSE, "Nobody gains.\n"),
    Case("who loose get secrets", 0, LOOSE, None),
    Case("risks loose", 0, LOOSE, None),
    *[Case(words, 1, LOOSE, None) for words in ("who --strict loose get secrets", "risks --strict loose")],
    Case("risks --strict before", 0, "", None),
    Case("compare --namespace shop bare before", 0, "bare: roles: 1, bindings: 1\nbefore: roles: 2, bindings: 1", "Nobody gains.\n", files={"bare": BARE}),
]

BARE_ROLES = json.dumps({"apiVersion": f"{RBAC}/v1", "kind": "RoleList", "items": [{"metadata": {"name": "reader", "namespace": "shop"}, "rules": READER["rules"]}]})
VIEWERS = lines(thing("RoleBinding", "viewers", "shop", **bound("ClusterRole view", "User bob")))
BOB = ("User bob", "shop", "RoleBinding viewers", "ClusterRole view, rule 0")
QUESTIONS = "".join(json.dumps({"user": user, "resourceAttributes": {"namespace": "shop", "verb": "get", "resource": what}}) + "\n" for user, what in (("ann", "secrets"), ("bob", "pods")))
ALLOWED = "allowed RoleBinding readers, Role reader, rule 0\n"
NONE = "none: there is no role and no binding in it"
MEANT = "no rule names the resource secretz; did you mean secrets?"
ASKED = [
    {"user": "anne", "resourceAttributes": {"namespace": "shop", "verb": "get", "resource": "widgets"}},
    {"user": "olga", "groups": ["system:masters"], "nonResourceAttributes": {"verb": "get", "path": "/healthz"}},
    {"user": "system:serviceaccount:shop:till", "resourceAttributes": {"verb": "get", "resource": "pods"}},
]
MORE = "For more information, try 'kapi {} --help'."
READING = "error: --with, --with-defaults, --namespace and --strict are for --manifests\n\n" + MORE.format("audit")
TOGETHER = [
    Case("who roles get secrets --namespace shop --with readers", 0, "", table(EVERY, ANN), files={"roles": BARE_ROLES, "readers": lines(READERS), "viewers": VIEWERS}),
    Case("who - get secrets --namespace shop --with roles --with viewers", 0, LOOSE, table(EVERY, ANN), input=lines(READERS)),
    Case("who roles get pods --namespace shop --with viewers --with-defaults --strict", 0, "", table(EVERY, BOB)),
    Case("compare readers readers --with roles --with viewers --with-defaults --strict", 0, re.compile("(readers: roles: 1, bindings: 2\n?){2}"), "Nobody gains.\n"),
    Case("risks roles --with missing", 1, re.compile("missing: .*"), ""),
    Case("audit --manifests readers questions --with roles --with viewers --with-defaults", 0, "", ALLOWED + "allowed RoleBinding viewers, ClusterRole view, rule 0\n", files={"questions": QUESTIONS}),
    Case("audit --manifests readers questions --with roles --with viewers", 0, LOOSE, ALLOWED + "denied\n"),
    Case("audit readers questions --manifests --with roles --with viewers --strict", 1, LOOSE, ALLOWED + "denied\n"),
    Case("audit --manifests loose bad", 1, "question line 1\n  it is JSON, and no object", "", files={"bad": "[]\n"}),
    Case("audit --manifests twice questions", 1, "twice:2: roles reader already exists", "", files={"twice": lines(READER, READER)}),
    *[Case(f"audit readers questions {it}", 2, READING, "") for it in ("--strict", "--with roles", "--with-defaults", "--namespace shop")],
    *[Case(f"{it} --strict", 1, NONE, None, files={"none": lines(SHOP)}) for it in ("risks none", "who none get secrets")],
    Case("audit --manifests none questions", 0, NONE + "\nno binding names the user ann\nno binding names the user bob", "denied\n" * 2),
    Case("who before get secretz", 0, MEANT, None),
    Case("who before get secret", 0, "", None),
    Case("who before gte secrets --namespace shpo --strict", 1, "no rule names the verb gte; did you mean get?\nno object names the namespace shpo; did you mean shop?", None),
    Case("who before get endpoints", 0, "no rule names the resource endpoints", None),
    *[Case(f"who before {it}", 0, "", None) for it in ("get endpoints --with-defaults", "get /healthz", "get pods/log", "'*' '*'", "delete deployments.apps")],
    Case("who before --questions lines --strict", 1, MEANT, None, files={"lines": "# two\nget secretz shop\nlist secretz *\n"}),
    Case("audit --manifests before asked --strict", 1, "no rule names the resource widgets\nno binding names the user anne; did you mean ann?\nno binding names the service account till", "denied\nallowed group system:masters\ndenied\n",
         files={"asked": "".join(json.dumps(it) + "\n" for it in ASKED)}),
    Case("who none get secrets --with-defaults", 0, NONE, None),
    Case("who roles --questions crlf --with readers", 0, "", re.compile("(line [12]: .*\n.*\nGroup .*\nUser ann .*\n){2}"), files={"crlf": "get secrets shop\r\nget secrets shop anything\r\n"}),
    Case("serve --manifests roles --load readers 8001=ann", 2, "error: --load FILE, or --manifests FILE and --with-defaults, and not both\n\n" + MORE.format("serve"), ""),
    Case("serve --namespace shop 8001=ann", 2, "error: --namespace is for --manifests\n\n" + MORE.format("serve"), ""),
    Case("serve --manifests policy 8001=ann", 1, "policy:1: kind 'NetworkPolicy' of apiVersion 'networking.k8s.io/v1' is not served; docs/PROFILE.md names those that are", "", files={"policy": lines(OTHERS[0])}),
    Case("serve --manifests bare 8001=ann", 1, "bare:1: " + HOMELESS.format("Role", "reader") + "\nbare:2: " + HOMELESS.format("RoleBinding", "readers"), ""),
]


def everybody(words, error="", status=0):
    """Who may get secrets in `shop` is just ann, besides the masters."""
    return Case(f"who {words} get secrets --namespace shop", status, error, table(EVERY, ANN) if not status else "")


def in_folder(folder):
    """A folder is its files of JSON and those of folders in it and of links, in the order of their names, and one of YAML among them is refused; others are named."""
    write(folder, {"rbac/b.json": pretty(SEER), "rbac/more/a.jsonl": lines(READER), "elsewhere/l.json": lines(READERS), "rbac/notes.md": "# notes\n", "rbac/.git": ""})
    os.symlink("../elsewhere", folder / "rbac/linked")
    other = "not read: rbac/notes.md"
    yield everybody("rbac", other)
    yield everybody("--strict rbac", other, 1)
    (folder / "rbac/notes.md").unlink()
    yield everybody("--strict rbac")
    for name, text, case in (
        ("more/c.yml", "kind: Role\n", Case("risks rbac", 1, YAML.replace("policy:", "rbac/more/c.yml:"), "")),
        ("more/c.YAML", "kind: Role\n", Case("risks rbac --strict", 1, "not read: rbac/more/c.YAML", "")),
        ("d.json", "{", Case("who rbac/ get secrets", 1, f"rbac/d.json:1: {OPEN}", "")),
    ):
        write(folder / "rbac", {name: text})
        yield case
        (folder / "rbac" / name).unlink()
    os.mkfifo(folder / "rbac/e.json")
    yield Case("risks rbac", 1, "rbac/e.json: it is no plain file", "")
    (folder / "rbac/e.json").unlink()
    os.symlink(".", folder / "rbac/circle")
    yield everybody("--strict rbac")


# Where faults are that stand below lines of the converter.
MARKED = f'#line 7 "a b/c.yaml"\n{lines(READER)}\n{lines(READER)}#line x "d"\n#line 3 "e.yaml"\n{{"kind":\n"Role"}}\n'
PLACED = [refused(MARKED, "e.yaml:3: apiVersion and kind: required, each a text"),
          refused(MARKED.split("#line x")[0], "a b/c.yaml:9: roles reader already exists")]
# A folder as projects ship it: lists, several documents, other kinds, objects without a namespace, bindings before their roles, CRLF, and a byte order mark.
SHIPPED = {
    "10-bindings.json": pretty(listed({**READERS, "metadata": {"name": "readers"}}, *OTHERS[:1])).replace("\n", "\r\n"),
    "20-roles.json": "\xef\xbb\xbf" + pretty({**READER, "metadata": {"name": "reader"}}) + pretty(SEER),
    "30-crd.json": pretty(OTHERS[3]) + pretty(OTHERS[4]), "40-more.jsonl": "# bindings of everybody\n" + lines(SEERS),
}
LEFT_OUT = "skipped: 1 ConfigMap, 1 CustomResourceDefinition, 1 NetworkPolicy"
AS_SHIPPED = [
    Case("who shipped get secrets --namespace shop --strict", 0, LEFT_OUT, table(EVERY, ANN), files={f"shipped/{name}": text for name, text in SHIPPED.items()}),
    Case("compare shipped shipped --namespace shop --strict", 0, re.compile(f"({LEFT_OUT}\n){{2}}(shipped: roles: 2, bindings: 2\n?){{2}}"), "Nobody gains.\n"),
]


def of_yaml(folder):
    """What tools/policy.py makes of YAML is the policy of the same objects, and the recipe of docs/COMPARE.md finds what a pull request gives everybody."""
    import yaml

    def made(name, text):
        write(folder, {name: text})
        return subprocess.run([sys.executable, pathlib.Path("tools/policy.py").resolve(), name.partition("/")[0]], cwd=folder, stdout=subprocess.PIPE, stderr=subprocess.STDOUT, check=True, text=True).stdout

    yield who(made("policy.yaml", "---\n".join([yaml.safe_dump(listed(READER)), "# nothing\n", yaml.safe_dump(READERS)])), ANN)
    everybody = thing("ClusterRoleBinding", "everybody", **bound("ClusterRole cluster-admin", "Group system:authenticated"))
    base, head = (made(f"{name}/rbac.yaml", yaml.safe_dump_all(objects)) for name, objects in (("base", [READER, READERS]), ("head", [READER, READERS, everybody])))
    yield Case("compare --strict base.jsonl head.jsonl", 3, None, re.compile("SUBJECT.*\nGroup system:authenticated .*\n(.*\n)*"), files={"base.jsonl": base, "head.jsonl": head})
    yield Case("compare --strict base head", 1, re.compile("base/rbac.yaml:1: it begins like YAML.*\nhead/rbac.yaml:1: it begins like YAML.*"), "")


def main(program):
    with room() as folder:
        yield from commands(program, [*FORMS, *OPENED, *PLACED, *DUMPS, *FAULTS, *COMPARED, *TOGETHER, *AS_SHIPPED], folder)
        for check in (in_folder, *[of_yaml] * (importlib.util.find_spec("yaml") is not None)):
            yield from commands(program, check(folder), folder)
