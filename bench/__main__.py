"""Measures a program. usage: python3 -m bench PROGRAM [NAME,NAME.. [WORD..]]     those that need python3 alone if none is named"""
import sys

from tools.chosen import Module, main

MEASURES = {
    "events": Module(words=()),
    "policies": Module(words=()),
    "load": Module("cc and wrk"),
    "library": Module("make library PREFIX=out/library"),
    "kubernetes_authorizer": Module("make library PREFIX=out/library, golang-go, dpkg-dev and golang-github-modern-go-reflect2-dev"),
    "instructions": Module("valgrind"),
    "samples": Module("perf and wrk"),
    "cluster": Module("wrk, python3-kubernetes, KUBE_APISERVER and ETCD"),
}

if __name__ == "__main__":
    sys.exit(main("bench", MEASURES, 1, *sys.argv[1:]))
