#!/usr/bin/env python3
"""Asks `kapi audit` what an API server decided, by its audit log (docs/CLUSTER.md).

usage: shadow.py [--kapi PROGRAM] [--before POLICY] [--policy AFTER] LOG

LOG has an event of audit.k8s.io/v1 a line. --before prints each request on which POLICY and the API server differ, and ends with status 1 if there
is one; --policy prints what AFTER would have refused of the requests that were allowed, in a table by user and permission. Policies have the form
that `kapi audit` reads.
"""
import argparse
import collections
import json
import subprocess
import sys
import tempfile
import urllib.parse

DECISION = "authorization.k8s.io/decision"
# Verbs of a collection: the log may name the object that was made, which the decision did not know.
NAMELESS = ("create", "deletecollection")


def resource_of(event):
    """What a request was about, as the decision knew it."""
    place, verb = event["objectRef"], event["verb"]
    names = {"namespace": "namespace", "apiGroup": "group", "resource": "resource", "subresource": "subresource", "name": "name"}
    found = {to: place[of] for of, to in names.items() if place.get(of)}
    if verb in NAMELESS and "subresource" not in found:
        found.pop("name", None)
    return {"verb": verb, **found}


def question(event):
    """An event as a question of `kapi audit`."""
    user = event.get("impersonatedUser") or event["user"]
    asker = {"user": user.get("username", ""), "groups": user.get("groups", [])}
    if "objectRef" in event:
        return {**asker, "resourceAttributes": resource_of(event)}
    path = urllib.parse.unquote(event["requestURI"].partition("?")[0])
    return {**asker, "nonResourceAttributes": {"verb": event["verb"], "path": path}}


def read(file):
    """The decided events of a log, each once, and how many others have none: of other stages, or refused before a decision."""
    decided, others = {}, 0
    for line in file:
        event = json.loads(line) if line.strip() else {}
        if DECISION in event.get("annotations", {}):
            decided[event["auditID"]] = event
        else:
            others += 1
    return list(decided.values()), others


def say(text):
    """Prints a text without characters that a terminal obeys: names of the log are in it."""
    print("".join(it if it.isprintable() else f"\\u{ord(it):04x}" for it in text))


def ask(program, policy, events):
    """Whether the policy allows each."""
    with tempfile.NamedTemporaryFile("w", suffix=".jsonl") as file:
        file.writelines(json.dumps(question(it)) + "\n" for it in events)
        file.flush()
        ran = subprocess.run([program, "audit", policy, file.name], stdout=subprocess.PIPE, stderr=subprocess.PIPE, text=True)
    if ran.returncode:
        sys.exit(f"kapi audit {policy}: {ran.stderr.strip()}")
    return [line.startswith("allowed") for line in ran.stdout.splitlines()]


def was_allowed(event):
    return event["annotations"][DECISION] == "allow"


def show_differences(events, answers):
    """Prints each event that is answered otherwise; how many there are."""
    differ = [(event, answer) for event, answer in zip(events, answers) if answer != was_allowed(event)]
    for event, answer in differ:
        decided = f"API server {event['annotations'][DECISION]}, policy {'allow' if answer else 'forbid'}"
        say(f"{decided}: {event['requestReceivedTimestamp']} {event['requestURI']} {json.dumps(question(event))}")
    print(f"{len(events)} decisions, {len(events) - len(differ)} alike, {len(differ)} that differ")
    return len(differ)


def permission(event):
    """User, namespace, verb, and what it is about."""
    asked = question(event)
    found = asked.get("resourceAttributes")
    if not found:
        return asked["user"], "", event["verb"], asked["nonResourceAttributes"]["path"]
    what = "/".join(filter(None, (found.get("group"), found.get("resource"), found.get("subresource"))))
    return asked["user"], found.get("namespace", ""), event["verb"], what + (f" {found['name']}" if "name" in found else "")


def show_refusals(events, answers):
    """Prints how often what was allowed would be refused, by user and permission."""
    counts = collections.Counter(permission(event) for event, answer in zip(events, answers) if was_allowed(event) and not answer)
    rows = [("REQUESTS", "USER", "NAMESPACE", "VERB", "RESOURCE AND NAME, OR PATH")] + [(str(number), *row) for row, number in sorted(counts.items())]
    widths = [max(len(row[at]) for row in rows) for at in range(5)]
    for row in rows if counts else []:
        say("  ".join(word.ljust(width) for word, width in zip(row, widths)).rstrip())
    gained = sum(answer and not was_allowed(event) for event, answer in zip(events, answers))
    print(f"of {sum(map(was_allowed, events))} allowed requests {sum(counts.values())} would be refused; of the refused {gained} would be allowed")


def main():
    reader = argparse.ArgumentParser(description=__doc__, formatter_class=argparse.RawDescriptionHelpFormatter)
    reader.add_argument("--kapi", default="kapi")
    reader.add_argument("--before", metavar="POLICY")
    reader.add_argument("--policy", metavar="AFTER")
    reader.add_argument("log", type=argparse.FileType())
    words = reader.parse_args()
    events, others = read(words.log)
    print(f"{len(events)} decisions in the log; {others} lines have none")
    differ = show_differences(events, ask(words.kapi, words.before, events)) if words.before else 0
    if words.policy:
        show_refusals(events, ask(words.kapi, words.policy, events))
    return 1 if differ else 0


if __name__ == "__main__":
    sys.exit(main())
