"""Checks the C library and the packages over it, and compares it with `kapi audit`.

usage: python3 -m checks PROGRAM library [FOLDER [QUESTIONS [SEED]]]     the folder that `make library PREFIX=..` wrote, out/library
if left out, 10,000 questions and the seed 1; needs cc, and runs what valgrind, c++, cargo and go are there

C: each export, each fault, each allocation refused in turn; with valgrind once more. What the shared object shows, and its size.
Python: its tests; random questions over the policies of examples/ with the answers of the program, and lists; 8 threads with a handle each.
C, Rust and Go: the same questions. Rust and Go: their tests. What is not there is named.
"""
import importlib.util
import itertools
import json
import os
import pathlib
import random
import shutil
import subprocess
import sys
import tempfile
import threading

from checks.harness import bound, rule, thing

ROOT = pathlib.Path(__file__).resolve().parent.parent
POLICIES = ["examples/audit/policy.jsonl", "examples/replay/policy.jsonl", "examples/compare/before.jsonl", "examples/compare/after.jsonl", "examples/serve/objects.jsonl"]
LARGEST = 1_200_000
THREADS = 8

# What a server, and so an audit, begins with (docs/AUDIT.md).
OPENING = [
    thing("Namespace", "default"),
    thing("ClusterRole", "cluster-admin", rules=[rule("*", "*", "*"), {"nonResourceURLs": ["*"], "verbs": ["*"]}]),
    thing("ClusterRole", "system:basic-user", rules=[rule("create", "selfsubjectaccessreviews selfsubjectrulesreviews", "authorization.k8s.io")]),
    thing("ClusterRoleBinding", "cluster-admin", **bound("ClusterRole cluster-admin", "Group system:masters")),
    thing("ClusterRoleBinding", "system:basic-user", **bound("ClusterRole system:basic-user", "Group system:authenticated")),
]


def run(*words, **how):
    print("  $", *words, flush=True)
    return subprocess.run([str(word) for word in words], check=True, **how)


def is_there(tool, what):
    if shutil.which(tool):
        return True
    print(f"  {tool} is not there: {what} not run")
    return False


def check_c(folder, room):
    objects = room / "objects.jsonl"
    objects.write_text(example().OBJECTS)
    program = room / "library"
    wraps = "-Wl,--wrap=malloc,--wrap=realloc,--wrap=free"
    run("cc", "-std=c11", "-Wall", "-Wextra", "-Werror", "-O1", "-g", f"-I{folder}/include", ROOT / "checks/library.c", folder / "lib/libkapi.a", wraps, "-o", program)
    run(program, objects)
    if is_there("valgrind", "the same under valgrind"):
        run("valgrind", "-q", "--error-exitcode=9", "--leak-check=full", program, objects)
    if is_there("c++", "the header as C++"):
        run("c++", "-std=c++11", "-Wall", "-Wextra", "-Werror", "-fsyntax-only", "-x", "c++", folder / "include/kapi.h")


def check_shared(folder):
    shared = folder / "lib/libkapi.so"
    lines = subprocess.run(["nm", "-D", "--defined-only", shared], check=True, capture_output=True, text=True).stdout.split("\n")
    shown = sorted(it.split()[-1].split("@")[0] for it in lines if it and " A " not in it)
    print(f"  libkapi.so has {shared.stat().st_size:,} bytes and shows {', '.join(shown)}")
    assert all(it.startswith("kapi_") for it in shown) and shared.stat().st_size < LARGEST


def example():
    import example as module

    return module


def words_of(lines):
    """The users, groups, namespaces, verbs, API groups, resources, names and paths that the objects name."""
    found = {it: {""} for it in ("user", "group", "namespace", "verb", "apiGroup", "resource", "name", "path")}
    found["user"] |= {"nobody"}
    for it in map(json.loads, lines):
        if "metadata" in it:
            found["namespace"] |= {it["metadata"].get("namespace", ""), it["metadata"]["name"] if it["kind"] == "Namespace" else ""}
        for rule in it.get("rules") or []:
            found["verb"] |= set(rule["verbs"])
            found["apiGroup"] |= set(rule.get("apiGroups", []))
            found["resource"] |= set(rule.get("resources", []))
            found["name"] |= set(rule.get("resourceNames", []))
            found["path"] |= {path.replace("*", "x") for path in rule.get("nonResourceURLs", [])}
        for subject in it.get("subjects") or []:
            name = subject["name"]
            account = subject["kind"] == "ServiceAccount"
            found["group" if subject["kind"] == "Group" else "user"] |= {f"system:serviceaccount:{subject.get('namespace', '')}:{name}" if account else name}
    return {key: sorted(words) for key, words in found.items()}


def question(rng, words, kapi):
    """A random question: as the library takes it, and as a line of an audit."""
    one = lambda key: rng.choice(words[key])
    groups = rng.sample(words["group"], rng.randint(0, min(3, len(words["group"]))))
    user, verb = one("user"), one("verb") or "get"
    if rng.random() < 0.1 and one("path"):
        path = rng.choice([it for it in words["path"] if it])
        spec = {"user": user, "groups": groups, "nonResourceAttributes": {"verb": verb, "path": path}}
        return kapi.Question(user, verb, groups=groups, path=path), spec
    resource, _, below = (one("resource") or "pods").partition("/")
    fields = {"namespace": one("namespace"), "group": one("apiGroup"), "subresource": rng.choice(["", below]), "name": one("name")}
    if rng.random() < 0.1 and not fields["subresource"]:
        resource += "/log"
    spec = {"user": user, "groups": groups, "resourceAttributes": {"verb": verb, "resource": resource, **fields}}
    return kapi.Question(user, verb, resource, groups=groups, **fields), spec


def loaded(name):
    """The lines of an example's policy that an audit loads, and those with what an audit begins with."""
    lines = [it for it in (ROOT / name).read_text().splitlines() if it and not it.startswith("#")]
    return lines, "\n".join([*map(json.dumps, OPENING), *lines])


def row(question):
    """A question as bench/library.c and the tests of Go and Rust read it."""
    return "\t".join([question.user, ",".join(question.groups), question.namespace, question.verb, question.group, question.resource, question.subresource, question.name, question.path])


def compare(program, kapi, count, seed, room):
    """Asks random questions in Python, and leaves them in a folder for the other languages, with the answers of the program."""
    rng, each = random.Random(seed), count // len(POLICIES)
    folder = room / "asked"
    folder.mkdir()
    for number, name in enumerate(POLICIES):
        lines, objects = loaded(name)
        words = words_of(lines)
        drawn = (question(rng, words, kapi) for _ in itertools.count())
        pairs = list(itertools.islice((it for it in drawn if it[0].user or it[0].groups), each))
        questions = [ours for ours, _ in pairs]
        file = room / "questions.jsonl"
        file.write_text("".join(json.dumps(spec) + "\n" for _, spec in pairs))
        ran = subprocess.run([program, "audit", ROOT / name, file], check=True, capture_output=True, text=True)
        answers = ran.stdout.splitlines()
        with kapi.Policy.load(objects) as policy:
            ours = [policy.why(it) for it in questions]
        differ = [(it, want, got) for it, want, got in zip(questions, answers, ours, strict=True) if want != got]
        for it, want, got in differ[:5]:
            print(f"  {name}: {it}: audit says {want}, the library {got}")
        assert not differ
        (folder / f"{number}.objects").write_text(objects)
        (folder / f"{number}.questions").write_text("".join(row(it) + "\n" for it in questions))
        (folder / f"{number}.answers").write_text("".join("0" if it == "denied" else "1" for it in answers))
        print(f"  {name}: {len(ours)} questions, {sum(it != 'denied' for it in ours)} allowed, none differs from kapi audit")
    return folder


def compare_in_c(library, asked, room):
    """Asks the same questions in C."""
    made = room / "asking"
    run("cc", "-O2", "-std=c11", f"-I{library}/include", ROOT / "bench/library.c", library / "lib/libkapi.a", "-o", made)
    for objects in sorted(asked.glob("*.objects")):
        ran = subprocess.run([made, objects, objects.with_suffix(".questions"), "0"], check=True, capture_output=True, text=True)
        assert ran.stdout.splitlines()[1] == objects.with_suffix(".answers").read_text()


def compare_lists(program, kapi, room):
    """How many lists are those that the commands print."""
    lists, file, later = 0, room / "policy.jsonl", room / "later.jsonl"

    def printed(*words):
        return [json.loads(it) for it in subprocess.run([program, *words], capture_output=True, text=True).stdout.splitlines()]

    def alike(ours, *words):
        theirs = printed(*words)
        assert ours == theirs, (words, ours, theirs)
        return 1

    later.write_text("\n".join(loaded(POLICIES[-1])[0]))
    for name in POLICIES:
        lines, objects = loaded(name)
        file.write_text("\n".join(lines))
        words = words_of(lines)
        with kapi.Policy.load(objects) as policy:
            lists += alike(policy.risks(), "risks", "--json", file)
            lists += alike(policy.paths(without=["escalate"]), "paths", "--json", "--without", "escalate", file)
            lists += alike(policy.gains(loaded(POLICIES[-1])[1])[1], "compare", "--json", file, later)
            for resource, space in [(one, space) for one in words["resource"] if one and "*" not in one for space in words["namespace"]]:
                asked = kapi.Question("", "get", resource, namespace=space)
                where = ["--namespace", space] if space else ["--cluster"]
                lists += alike(policy.who(asked), "who", "--json", *where, file, "get", resource)
                lists += alike(policy.who(asked, anywhere=True), "who", "--json", file, "get", resource) if not space else 0
            for user in words["user"]:
                if user and not user.startswith("system:"):
                    lists += alike(policy.what(user, ["system:authenticated"]), "what", "--json", file, user)
    print(f"  {lists} lists are those of kapi who, what, risks, paths and compare")


def ask_in_threads(kapi):
    _, objects = loaded(POLICIES[0])
    rng = random.Random(8)
    questions = [question(rng, words_of(objects.splitlines()), kapi)[0] for _ in range(500)]
    found = [None] * THREADS

    def work(at, policy):
        with policy:
            found[at] = [policy.why(it) for it in questions]

    # Half of the threads load a policy, half have a handle of one that is closed then.
    with kapi.Policy.load(objects) as first:
        policies = [first.share() if at % 2 else kapi.Policy.load(objects) for at in range(THREADS)]
    threads = [threading.Thread(target=work, args=it) for it in enumerate(policies)]
    for it in threads:
        it.start()
    for it in threads:
        it.join()
    assert found[0] and all(it == found[0] for it in found)
    print(f"  {THREADS} threads with a handle each answer {len(questions)} questions alike")


def install(room):
    """Installs the package by pip, as a wheel, and loads it."""
    if any(importlib.util.find_spec(it) is None for it in ("pip", "setuptools", "wheel")):
        print("  pip, setuptools or wheel is not there: the package not installed")
        return
    shutil.copytree(ROOT / "bindings/python", room / "package")
    run(sys.executable, "-m", "pip", "install", "-q", "--no-deps", "--no-index", "--no-build-isolation", "--target", room / "site", room / "package")
    run(sys.executable, "-c", "import kapi; kapi.Policy.load('').close()", cwd=room, env=os.environ | {"PYTHONPATH": str(room / "site")})


def main(program, folder="out/library", questions="10000", seed="1"):
    folder = pathlib.Path(folder).resolve()
    os.environ |= {"KAPI_LIBRARY": str(folder / "lib/libkapi.so"), "PKG_CONFIG_PATH": str(folder / "lib/pkgconfig"), "LD_LIBRARY_PATH": str(folder / "lib")}
    sys.path.insert(0, str(ROOT / "bindings/python"))
    import kapi

    with tempfile.TemporaryDirectory() as name:
        room = pathlib.Path(name)
        print("C")
        check_c(folder, room)
        check_shared(folder)
        print("Python")
        run(sys.executable, "-m", "unittest", "-q", "tests.test_kapi", cwd=ROOT / "bindings/python")
        asked = compare(program, kapi, int(questions), int(seed), room)
        compare_in_c(folder, asked, room)
        compare_lists(program, kapi, room)
        ask_in_threads(kapi)
        install(room)
        print("Rust")
        if is_there("cargo", "the tests of the crate"):
            run("cargo", "test", "-q", "--offline", cwd=ROOT / "bindings/rust", env=os.environ | {"KAPI_LIB": str(folder / "lib"), "KAPI_ASKED": str(asked), "CARGO_TARGET_DIR": str(room / "target")})
        print("Go")
        if is_there("go", "the tests of the module"):
            run("go", "test", "./...", cwd=ROOT / "bindings/go", env=os.environ | {"KAPI_ASKED": str(asked)})
        decided = sum(len(it.read_text()) for it in asked.glob("*.answers"))
    print(f"library: {decided:,} decisions are those of kapi audit, in each language that is there")
