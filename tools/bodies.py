"""Bodies of requests in Kubernetes' protobuf as the JSON that Go writes of them: exactly, or not at all.

It needs Debian's python3-protobuf and protobuf-compiler, and Kubernetes' messages and types (generated.proto and types.go): those of 2019 in Debian's
golang-github-openshift-api-dev, or others below a folder that the variable KUBERNETES_SOURCES names, as staging/src of `apt-get source kubernetes`.
"""
import base64
import datetime
import functools
import json
import os
import pathlib
import re
import subprocess
from collections.abc import Mapping, Sequence

try:
    from google.protobuf import descriptor_pb2, descriptor_pool, message_factory
    from google.protobuf.message import DecodeError, Message
except ImportError:
    descriptor_pb2 = None

GO = "/usr/share/gocode/src"
PLACES = [os.environ.get("KUBERNETES_SOURCES", GO), GO, f"{GO}/github.com/openshift/api/vendor"]
MACHINERY = "k8s.io.apimachinery.pkg"
MAGIC = b"k8s\0"
STRUCT = re.compile(r"^type (\w+) struct \{\n(.*?)^\}", re.M | re.S)
FIELD = re.compile(r'^\t(?:\w+ +)?(\S+) +`json:"(\w*)([^"]*)"[^`]*protobuf:"\w+,(\d+),', re.M)


class Unread(Exception):
    """Why a body is not read."""


@functools.lru_cache(None)
def sources():
    """The folder of the messages and types, and the pool of the messages; nothing if a package is not there."""
    place = next((pathlib.Path(it) for it in PLACES if pathlib.Path(it, "k8s.io/api/core/v1/generated.proto").exists()), None)
    if not descriptor_pb2 or not place:
        return None
    files = [str(it.relative_to(place)) for it in place.glob("k8s.io/api/*/*/generated.proto")]
    try:
        words = ["protoc", f"-I{place}", "--include_imports", "--descriptor_set_out=/dev/stdout", *files]
        described = subprocess.run(words, stdout=subprocess.PIPE, stderr=subprocess.DEVNULL, check=True).stdout
    except (OSError, subprocess.CalledProcessError):
        return None
    pool = descriptor_pool.DescriptorPool()
    for file in descriptor_pb2.FileDescriptorSet.FromString(described).file:
        pool.Add(file)
    return place, pool


@functools.lru_cache(None)
def fields_of(file, name):
    """The fields of a Go type by their numbers: the type of each, its name in JSON, and the options behind that."""
    structs = dict(STRUCT.findall((sources()[0] / file).with_name("types.go").read_text()))
    if name not in structs:
        raise Unread(f"it has values of {name}")
    return {int(number): words for *words, number in FIELD.findall(structs[name])}


def message_of(name, raw):
    """A message of bytes, each of which is a part of it."""
    pool = sources()[1]
    try:
        found = pool.FindMessageTypeByName(name)
        made = message_factory.GetMessageClass(found) if hasattr(message_factory, "GetMessageClass") else message_factory.MessageFactory(pool).GetPrototype(found)
        message = made.FromString(raw)
    except KeyError:
        raise Unread(f"there is no message {name}") from None
    except DecodeError:
        raise Unread(f"it is no {name}") from None
    message.DiscardUnknownFields()
    if message.ByteSize() != len(raw):
        raise Unread(f"it has fields that {name} has not")
    return message


def time_of(message, precision):
    instant = datetime.datetime(1970, 1, 1) + datetime.timedelta(seconds=message.seconds, microseconds=message.nanos // 1000)
    if message.nanos % 1000 or precision == "seconds" and message.nanos:
        raise Unread("it has a part of a second")
    return instant.isoformat(timespec=precision) + "Z" if message.ByteSize() and instant > datetime.datetime.min else None


# Messages whose JSON is of a form of its own.
OWN = {
    f"{MACHINERY}.apis.meta.v1.Time": lambda it: time_of(it, "seconds"),
    f"{MACHINERY}.apis.meta.v1.MicroTime": lambda it: time_of(it, "microseconds"),
    f"{MACHINERY}.apis.meta.v1.FieldsV1": lambda it: json.loads(it.Raw),
    f"{MACHINERY}.runtime.RawExtension": lambda it: json.loads(it.raw),
    f"{MACHINERY}.api.resource.Quantity": lambda it: it.string,
    f"{MACHINERY}.util.intstr.IntOrString": lambda it: {0: it.intVal, 1: it.strVal}[it.type],
}


def object_of(message):
    """Go's types say what the messages do not: a value that is no pointer is written even if it is empty, and JSON leaves it out then."""
    fields, found = fields_of(message.DESCRIPTOR.file.name, message.DESCRIPTOR.name), {}
    for field, value in message.ListFields():
        if field.number not in fields:
            raise Unread(f"it has the field {field.full_name}")
        go, key, options = fields[field.number]
        if "inline" in options:
            found.update(plain(value))
        elif go.startswith("*") or "omitempty" not in options or value:
            found[key] = plain(value, "[]byte" in go)
    return found


def plain(value, is_binary=False):
    """A value as JSON has it. A text that is no UTF-8 stays bytes, of which JSON has none."""
    if isinstance(value, Message):
        return OWN.get(value.DESCRIPTOR.full_name, object_of)(value)
    if isinstance(value, Mapping):
        return {key: plain(it, is_binary) for key, it in value.items()}
    if isinstance(value, Sequence) and not isinstance(value, (str, bytes)):
        return [plain(it, is_binary) for it in value]
    return base64.b64encode(value).decode() if is_binary else value


def as_json(body):
    """The object of a body as JSON."""
    if not body.startswith(MAGIC):
        raise Unread("it does not begin as Kubernetes' does")
    whole = message_of(f"{MACHINERY}.runtime.Unknown", body[len(MAGIC):])
    version, kind = whole.typeMeta.apiVersion, whole.typeMeta.kind
    group = version.rpartition("/")[0]
    if whole.contentEncoding or whole.contentType or "." in group and not group.endswith(".k8s.io"):
        raise Unread(f"it is encoded in another way, or of the group {group}")
    place = f"{MACHINERY}.apis.meta.v1" if kind.endswith("Options") else f"k8s.io.api.{group.split('.')[0] or 'core'}.{version.rpartition('/')[2]}"
    try:
        found = {"kind": kind, "apiVersion": version, **plain(message_of(f"{place}.{kind}", whole.raw))}
        return json.dumps(found, separators=(",", ":"), allow_nan=False).encode()
    except (ValueError, TypeError, LookupError, OverflowError, RecursionError) as fault:
        raise Unread(f"it has a value that JSON has not: {fault}") from None
