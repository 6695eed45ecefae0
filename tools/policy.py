#!/usr/bin/env python3
"""Makes JSON of files of YAML, as kapi compare, who and risks read it: each document below a line that says where it stands, by which they name it.

usage: python3 tools/policy.py [--strict] FILE..     needs PyYAML (python3-yaml); - is standard input, and a folder is all of its files, those of
folders in it too

YAML is read as kubectl reads it (sigs.k8s.io/yaml, k8s.io/apimachinery/pkg/util/yaml), or nothing is printed and the status is 1: merge keys, keys
that are there twice, tags, aliases that make much of a file, a second document that no line --- of its own begins, and line breaks that few readers
know. A text that begins with { is JSON. What a folder holds besides .yaml, .yml, .json and .jsonl is named on standard error; with --strict that is
status 1 too.
"""
import json
import os
import pathlib
import re
import stat
import sys

import yaml

READ = (".yaml", ".yml", ".json", ".jsonl")
# How many values aliases may add to a document, and how deep it may be.
ADDED, DEEP = 10_000, 100
WORDS = {it: value for value, words in (
    (None, "~ null Null NULL"), (True, "y Y yes Yes YES true True TRUE on On ON"), (False, "n N no No NO false False FALSE off Off OFF"),
) for it in words.split()} | {"": None}
WHOLE = re.compile(r"[-+]?(0x[0-9a-fA-F]+|0b[01]+|0o?[0-7]+|0|[1-9][0-9]*)")
FLOAT = re.compile(r"[-+]?(\.[0-9]+|[0-9]+(\.[0-9]*)?)([eE][-+]?[0-9]+)?|[-+]?\.(inf|Inf|INF)|\.(nan|NaN|NAN)")
SEPARATOR = re.compile(r"^---([^\S\n]+#.*|[^\S\n]*)$", re.M)
BREAKS = re.compile("\r(?!\n)|[\x85\u2028\u2029\ufeff]")


class Refused(Exception):
    """The line of the text at fault, and what is wrong."""


class Loader(getattr(yaml, "CLoader", yaml.Loader)):
    """Nodes whose tags say what they are; those that the text gives of its own are others."""

    def resolve(self, kind, value, implicit):
        return kind if kind is not yaml.ScalarNode else "plain" if implicit[0] else "quoted"


def plain(text):
    """What a scalar without quotes is (go-yaml, resolve.go): dates, and numbers with colons, are texts."""
    if text in WORDS:
        return WORDS[text]
    digits = text.replace("_", "") if text[0] in "+-0123456789" else text
    if WHOLE.fullmatch(digits):
        number = digits.lstrip("+-")
        whole = int(f"0o{number[1:]}" if re.fullmatch("0[0-7]+", number) else number, 0) * (-1 if digits[0] == "-" else 1)
        return whole if -(1 << 63) <= whole < 1 << 64 else float(whole)
    return float(re.sub(r"\.(?=[in])", "", digits.lower())) if FLOAT.fullmatch(digits) else text


class Maker:
    """Makes values of the nodes of one document."""

    def __init__(self):
        self.made, self.added = set(), 0

    def value(self, node, depth=0, is_again=False):
        is_again = is_again or id(node) in self.made
        self.made.add(id(node))
        self.added += is_again
        if depth > DEEP or self.added > ADDED:
            raise Refused(node.start_mark.line, "it nests too deep, or its aliases make too much of it")
        if node.tag == "plain":
            return plain(node.value)
        if node.tag == "quoted":
            return node.value
        if node.tag is yaml.SequenceNode:
            return [self.value(it, depth + 1, is_again) for it in node.value]
        if node.tag is yaml.MappingNode:
            return self.mapping(node, depth + 1, is_again)
        raise Refused(node.start_mark.line, f"it has the tag {node.tag}")

    def mapping(self, node, depth, is_again):
        members = {}
        for key, value in node.value:
            name = self.value(key, depth, is_again)
            name = json.dumps(name) if isinstance(name, int) else name
            wrong = "a merge key, <<" if key.value == "<<" and key.tag == "plain" else "" if isinstance(name, str) else "a key that is no text"
            wrong = wrong or (f"the key {json.dumps(name)} twice" if name in members else "")
            if wrong:
                raise Refused(key.start_mark.line, f"it has {wrong}")
            members[name] = self.value(value, depth, is_again)
        return members


def text_of(node):
    """The JSON of a document, with its items in lines as far apart as in the YAML."""
    value = Maker().value(node)
    items = next((it for key, it in node.value if key.value == "items" and it.tag is yaml.SequenceNode), None) if isinstance(value, dict) else None
    if items is None:
        return json.dumps(value, allow_nan=False)
    listed, at, text = value.pop("items"), node.start_mark.line, json.dumps(value, allow_nan=False)[:-1] + (", " if value else "")
    parts = []
    for item, one in zip(items.value, listed):
        parts.append("\n" * max(item.start_mark.line - at, 0) + json.dumps(one, allow_nan=False))
        at = max(item.start_mark.line, at)
    return f'{text}"items": [{", ".join(parts)}]}}'


def of_part(text):
    """The line and the JSON of the document of a text of YAML, if there is one: kubectl reads the first alone."""
    loader = Loader(text)
    try:
        node = loader.get_node() if loader.check_node() else None
        found = [] if node is None else [(node.start_mark.line, text_of(node))]
        if loader.check_node():
            raise Refused(loader.get_node().start_mark.line, "a document begins, and no line --- of its own stands above it")
        return found
    except yaml.MarkedYAMLError as error:
        raise Refused(error.problem_mark.line if error.problem_mark else 0, error.problem) from None
    finally:
        loader.dispose()


def of_yaml(text):
    """The documents of a text of YAML: kubectl splits it at lines ---."""
    at = line = 0
    for end in [*SEPARATOR.finditer(text), None]:
        part = text[at:end.start() if end else len(text)]
        try:
            for below, made in of_part(part):
                yield line + below, made
        except Refused as fault:
            raise Refused(line + fault.args[0], fault.args[1]) from None
        at, line = end.end() if end else at, line + part.count("\n")


def once(pairs):
    if len(dict(pairs)) != len(pairs):
        raise ValueError("it has a key twice")
    return dict(pairs)


def no_number(word):
    raise ValueError(f"{word} is no number of JSON")


def of_json(text):
    """The documents of a text of JSON, one behind the other, between lines that begin with #."""
    decoder, between, at = json.JSONDecoder(object_pairs_hook=once, parse_constant=no_number), re.compile(r"\s*(#.*\s*)*"), 0
    while (begin := between.match(text, at).end()) < len(text):
        try:
            _value, at = decoder.raw_decode(text, begin)
        except ValueError as error:
            raise Refused(text.count("\n", 0, getattr(error, "pos", begin)), getattr(error, "msg", error)) from None
        yield text.count("\n", 0, begin), text[begin:at]


def documents(data, is_json):
    text = data.decode("utf-8-sig")
    found = BREAKS.search(text)
    if found:
        raise Refused(text.count("\n", 0, found.start()), f"it has the character U+{ord(found[0]):04X}, at which some readers end a line")
    return of_json(text) if is_json or text.lstrip().startswith("{") else of_yaml(text)


def files(path, above=()):
    """A file, or the files of a folder and of those in it, in the order of their names."""
    if not path.is_dir():
        return [path]
    if path.resolve() in above:
        raise OSError(f"{path} links to a folder that it is in")
    return [it for each in sorted(path.iterdir()) for it in files(each, (*above, path.resolve()))]


def printable(text):
    """The text in one line, without characters that a terminal obeys, or ##[, which a CI system does."""
    return "".join(it if it.isprintable() else f"\\u{ord(it):04x}" for it in str(text)).replace("##[", "#\\u0023[")


def refuse(text):
    sys.exit(printable(text))


def lines(path, name):
    """The documents of a file, each below the line that it stands in; none of a file that is passed over, which is named."""
    if path and path != pathlib.Path(name) and path.suffix not in READ:
        if not any(it.startswith(".") for it in path.relative_to(name).parts):
            print(printable(f"not read: {path}"), file=sys.stderr)
            return None
        return []
    if path and not stat.S_ISREG(os.stat(path).st_mode):
        raise OSError("it is no plain file")
    data = path.read_bytes() if path else sys.stdin.buffer.read()
    found = documents(data, path and path.suffix in (".json", ".jsonl"))
    return [f"#line {line + 1} {json.dumps(str(path or name))}\n{made}" for line, made in found if made != "null"]


def main(words):
    names = [it for it in words if it != "--strict"]
    if not names or any(it.startswith("--") for it in names):
        sys.exit(__doc__)
    made, path = [], None
    for name in names:
        path = None if name == "-" else pathlib.Path(name)
        try:
            for path in files(path) if path else [None]:
                made.append(lines(path, name))
        except Refused as fault:
            refuse(f"{path or name}:{fault.args[0] + 1}: {fault.args[1]}")
        except RecursionError:
            refuse(f"{path or name}: it nests too deep")
        except (OSError, ValueError, yaml.YAMLError) as error:
            refuse(f"{path or name}: {' '.join(str(error).split())}")
    print("".join(f"{it}\n" for each in made for it in each or []), end="")
    sys.exit(1 if None in made and "--strict" in words else 0)


if __name__ == "__main__":
    main(sys.argv[1:])
