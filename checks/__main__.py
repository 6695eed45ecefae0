"""Runs the checks of a program. usage: python3 -m checks PROGRAM [NAME,NAME.. [WORD..]]     the quick ones that need python3 alone if none is named"""
import importlib.util
import pathlib
import shutil
import sys

from tools.chosen import Module, main

CHECKS = {
    "transcripts": Module(words=()),
    "statuses": Module(words=()),
    "commands": Module(words=()),
    "manifests": Module(words=()),
    "reporting": Module(words=()),
    "kinds": Module(words=()),
    "live": Module(words=()),
    "sockets": Module(words=()),
    "mishaps": Module("cc", () if shutil.which("cc") else None),
    "hostile": Module(words=("window",)),
    "converter": Module("python3-yaml", () if importlib.util.find_spec("yaml") else None),
    "crafted": Module(),
    "growths": Module("cc"),
    "library": Module("make library PREFIX=out/library", () if pathlib.Path("out/library/lib/libkapi.so").exists() else None),
    "edits": Module("rt, and what make test left"),
    "pages": Module("curl and jq"),
    "kubectl": Module("kubectl"),
    "controller": Module("python3-kubernetes"),
    "restart": Module("python3-kubernetes"),
    "cluster": Module("python3-kubernetes", ("80",) if importlib.util.find_spec("kubernetes") else None),
}

if __name__ == "__main__":
    sys.exit(main("checks", CHECKS, 4, *sys.argv[1:]))
