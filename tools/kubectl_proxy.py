#!/usr/bin/env python3
"""A discovery proxy for kubectl: answers what it asks about the kinds of objects first, and passes on everything else to a port of Kapi.

usage: kubectl_proxy.py PORT SERVED [KINDS..]     it listens on PORT of 127.0.0.1; SERVED is a port of `kapi serve`, and KINDS are the files
                                                  of its --kinds

It answers GET of /api, /apis, their groups, /version and /openapi/v2 by tools/kinds.txt and the files, reads `watch=True`, as Python's
client writes it, as `watch=true`, and passes on a strategic merge patch as a merge patch if both mean the same, and an object in protobuf, as
kubectl from 1.32 on sends some, as JSON if the packages are there that tools/bodies.py needs. All other requests, answers and watches
pass unchanged. Whoever asks is the user of the port SERVED.
"""
import asyncio
import contextlib
import json
import pathlib
import re
import sys
from dataclasses import dataclass

FOLDER = pathlib.Path(__file__).parent
KINDS = FOLDER / "kinds.txt"
COMMON = FOLDER.parent / "examples/kinds/kubernetes.jsonl"
OBJECT_VERBS = ["create", "delete", "deletecollection", "get", "list", "patch", "update", "watch"]
HEAD_BYTES = 65536
JSON, MERGE = b"application/json", b"application/merge-patch+json"
STRATEGIC, PROTOBUF = b"application/strategic-merge-patch+json", b"application/vnd.kubernetes.protobuf"
# What lines of KINDS do not say: the short names of Kubernetes' own kinds, and which kinds `kubectl get all` means.
SHORT = dict(it.split(":") for it in """services:svc endpoints:ep events:ev persistentvolumes:pv persistentvolumeclaims:pvc limitranges:limits resourcequotas:quota
replicasets:rs statefulsets:sts daemonsets:ds cronjobs:cj ingresses:ing networkpolicies:netpol storageclasses:sc horizontalpodautoscalers:hpa
poddisruptionbudgets:pdb priorityclasses:pc customresourcedefinitions:crd,crds""".split())
ALL = "pods services deployments replicasets statefulsets daemonsets jobs cronjobs horizontalpodautoscalers".split()
# An OpenAPI document without definitions, as protobuf (gnostic's openapi.v2): swagger 2.0, and the title and version of its info.
OPENAPI = b"\x0a\x032.0\x12\x0c\x0a\x04kapi\x12\x04v1.0"


class Refused(Exception):
    """What the proxy does not pass on."""


@dataclass
class Row:
    """A kind, as `kubectl api-resources` shows it."""

    group: str
    version: str
    plural: str
    kind: str
    namespaced: bool
    status: bool
    short: str = ""
    is_review: bool = False


def own_rows():
    """The kinds that each server has."""
    lines = [["" if word == "-" else word for word in it.split()] for it in KINDS.read_text().splitlines() if it and not it.startswith("#")]
    return [Row(group, "v1", plural, kind, scope == "namespaced", status == "status", short, status == "review")
            for group, plural, kind, scope, status, short in lines]


def objects_in(text):
    """The objects of a file: lines, documents, and the items of lists."""
    decoder, text = json.JSONDecoder(), text.lstrip("\ufeff").strip()
    while text:
        item, end = decoder.raw_decode(text)
        yield from item["items"] if str(item.get("kind", "")).endswith("List") else [item]
        text = text[end:].lstrip()


def row_of(item):
    """The kind of a line, or of a CustomResourceDefinition: its first version that is served."""
    if "spec" not in item:
        group, plural = item.get("group", ""), item["resource"]
        short = SHORT.get(plural, "") if "." not in group or group.endswith(".k8s.io") else ""
        return Row(group, item["version"], plural, item["kind"], item["namespaced"], item.get("status", False), short)
    spec = item["spec"]
    names, version = spec["names"], next(it for it in spec["versions"] if it["served"])
    has_status = isinstance((version.get("subresources") or {}).get("status"), dict)
    return Row(spec["group"], version["name"], names["plural"], names["kind"], spec["scope"] == "Namespaced", has_status, ",".join(names.get("shortNames", [])))


def added_rows(name):
    place = COMMON if name == "kubernetes" else pathlib.Path(name)
    files = sorted(it for it in place.iterdir() if it.suffix in (".json", ".jsonl")) if place.is_dir() else [place]
    return [row_of(item) for file in files for item in objects_in(file.read_text())]


def resources(row):
    """A resource of discovery, and the one of its status if it has one."""
    whole = {
        "name": row.plural,
        "singularName": row.kind.lower(),
        "namespaced": row.namespaced,
        "kind": row.kind,
        "verbs": ["create"] if row.is_review else OBJECT_VERBS,
    }
    if row.short:
        whole["shortNames"] = row.short.split(",")
    part = {**whole, "name": f"{row.plural}/status", "singularName": "", "verbs": ["get", "patch", "update"]}
    part.pop("shortNames", None)
    if row.plural in ALL and "." not in row.group:
        whole["categories"] = ["all"]
    return [whole, part] if row.status else [whole]


def group_version(group, version):
    return f"{group}/{version}" if group else version


def group_of(name, versions):
    told = [{"groupVersion": group_version(name, it), "version": it} for it in versions]
    return {"name": name, "versions": told, "preferredVersion": told[0]}


def discovery(rows):
    """What is answered, by its path."""
    places = list(dict.fromkeys((row.group, row.version) for row in rows))
    versions = {group: [version for other, version in places if other == group] for group, _version in places if group}
    told = {
        "/api": {"kind": "APIVersions", "versions": ["v1"], "serverAddressByClientCIDRs": []},
        "/apis": {"kind": "APIGroupList", "apiVersion": "v1", "groups": [group_of(it, versions[it]) for it in sorted(versions)]},
        "/version": {"major": "1", "minor": "20", "gitVersion": "v1.20.0", "platform": "kapi"},
    }
    for group, version in places:
        found = [it for row in rows if (row.group, row.version) == (group, version) for it in resources(row)]
        listed = {"kind": "APIResourceList", "apiVersion": "v1", "groupVersion": group_version(group, version), "resources": found}
        told[f"/apis/{group}/{version}" if group else f"/api/{version}"] = listed
    return {path: json.dumps(it).encode() for path, it in told.items()}


TOLD = {}


def told_for(head):
    """The media type and the document that a request asks for, or nothing."""
    method, target, _version = head.split(b"\r\n", 1)[0].decode("latin-1").split(" ", 2)
    path = target.split("?", 1)[0].rstrip("/")
    if method != "GET":
        return None
    if path == "/openapi/v2":
        return b"application/com.github.proto-openapi.spec.v2.v1.0+protobuf", OPENAPI
    return (JSON, TOLD[path]) if path in TOLD else None


def with_true(head):
    """The head with `watch=True` in its target as `watch=true`."""
    line, rest = head.split(b"\r\n", 1)
    return re.sub(rb"([?&]watch=)True(?=[& ])", rb"\1true", line) + b"\r\n" + rest


def field(head, name):
    found = re.search(rb"(?im)^" + name + rb":[ \t]*([^\r\n]*)", head)
    return found[1].strip().lower() if found else b""


def why_strategic(target, patch):
    """Why a strategic merge patch may mean something else than a merge patch; nothing if it does not. Both merge objects and replace all other
    values; lists of some kinds are merged by key (Kubernetes, 'Update API Objects in Place Using kubectl patch'), taints of nodes are not."""
    if any(key.startswith("$") for key in keys_in(patch)):
        return "it has directives"
    metadata = patch.get("metadata") or {}
    if re.search(r"/nodes/[^/]+$", target):
        patch.get("spec", {}).pop("taints", None)
    atomic = re.search(r"/(configmaps|secrets|roles|clusterroles|rolebindings|clusterrolebindings)/", target)
    lists = lists_in({key: value for key, value in patch.items() if key != "metadata"})
    if lists_in(metadata) or lists and not atomic:
        return "it has lists, which are merged by their keys"
    return None


def keys_in(tree):
    if isinstance(tree, dict):
        return [*tree, *(key for it in tree.values() for key in keys_in(it))]
    return [key for it in tree for key in keys_in(it)] if isinstance(tree, list) else []


def lists_in(tree):
    return isinstance(tree, list) or isinstance(tree, dict) and any(lists_in(it) for it in tree.values())


def as_merge(target, body):
    """A strategic merge patch as a merge patch."""
    try:
        why = why_strategic(target.split("?", 1)[0], json.loads(body))
    except (ValueError, AttributeError):
        why = "it is no JSON object"
    if why:
        raise Refused(f"no such strategic merge patch: {why}; use --type=merge or replace")
    return MERGE, body


def as_plain(_target, body):
    """An object in protobuf as JSON."""
    try:
        return JSON, bodies.as_json(body)
    except bodies.Unread as why:
        raise Refused(f"no such protobuf: {why}; use -o yaml --dry-run=client, and create or apply that") from None


# How bodies are read of which the server would read none, by their media types.
READ = {STRATEGIC: as_merge}


def refusal(why):
    status = {"kind": "Status", "apiVersion": "v1", "metadata": {}, "status": "Failure", "reason": "UnsupportedMediaType", "code": 415,
              "message": f"the discovery proxy passes on {why}"}
    return answer(b"415 Unsupported Media Type", JSON, json.dumps(status).encode())


def answer(code, media, body):
    return b"HTTP/1.1 %s\r\nContent-Type: %s\r\nContent-Length: %d\r\n\r\n%s" % (code, media, len(body), body)


def with_body(head, media, body):
    """A request with a body of this media type in place of its own."""
    kept = [it for it in head[:-4].split(b"\r\n") if not re.match(rb"(?i)(content-type|content-length|transfer-encoding):", it)]
    return b"\r\n".join([*kept, b"Content-Type: " + media, b"Content-Length: %d" % len(body), b"", body])


async def body_of(head, reader):
    """The pieces of the body of a request, each with what frames it: its whole length, or a chunk."""
    if field(head, b"transfer-encoding") != b"chunked":
        yield b"", await reader.readexactly(int(field(head, b"content-length") or 0)), b""
        return
    size = 1
    while size:
        line = await reader.readuntil(b"\r\n")
        size = int(line.split(b";")[0], 16)
        yield line, await reader.readexactly(size), await reader.readexactly(2)


async def hand_back(reader, writer):
    """Answers and watches, as they come."""
    with contextlib.suppress(ConnectionError):
        while data := await reader.read(HEAD_BYTES):
            writer.write(data)
            await writer.drain()
    writer.close()


async def hand_on(reader, client, writer):
    """The requests of a client, one after the other; an answer of the proxy itself takes its place in the order, since a client waits for each."""
    while True:
        head = await reader.readuntil(b"\r\n\r\n")
        told, read = told_for(head), READ.get(field(head, b"content-type"))
        if told:
            client.write(answer(b"200 OK", *told))
        elif read:
            body = b"".join([it async for _before, it, _behind in body_of(head, reader)])
            try:
                writer.write(with_body(head, *read(head.split(b" ", 2)[1].decode("latin-1"), body)))
            except Refused as why:
                client.write(refusal(why))
        else:
            writer.write(with_true(head))
            async for piece in body_of(head, reader):
                writer.write(b"".join(piece))
        await client.drain()
        await writer.drain()


async def meet(served, reader, client):
    with contextlib.suppress(asyncio.IncompleteReadError, asyncio.LimitOverrunError, ConnectionError, ValueError):
        behind, writer = await asyncio.open_connection("127.0.0.1", served, limit=HEAD_BYTES)
        back = asyncio.create_task(hand_back(behind, client))
        try:
            await hand_on(reader, client, writer)
        finally:
            writer.close()
            back.cancel()
    client.close()


async def main(port, served):
    server = await asyncio.start_server(lambda reader, client: meet(served, reader, client), "127.0.0.1", port, limit=HEAD_BYTES)
    print(f"listening {port}", flush=True)
    async with server:
        await server.serve_forever()


if __name__ == "__main__":
    if len(sys.argv) < 3:
        sys.exit(__doc__)
    import bodies  # Of this folder, which checks that read this file as a module have not on their path.

    if bodies.sources():
        READ[PROTOBUF] = as_plain
    TOLD.update(discovery([*own_rows(), *(row for name in sys.argv[3:] for row in added_rows(name))]))
    asyncio.run(main(int(sys.argv[1]), int(sys.argv[2])))
