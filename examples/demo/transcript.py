#!/usr/bin/env python3
"""Shows a script as a transcript: each event with its answer, from standard input, under it, wrapped to be read. usage: transcript.py SCRIPT"""
import re
import sys

WIDTH = 100


def pieces(text):
    """The pieces of a line of a script: the lines of the head of a request or a reply, and its body, with single backslashes."""
    head, _, body = text.partition("\\r\\n\\r\\n")
    return [part.replace("\\\\", "\\") for part in head.split("\\r\\n") + ([body] if body else [])]


def wrapped(part, first, later):
    """A piece in lines of at most WIDTH, broken between words and, of JSON, behind a comma that stands in no text."""
    spaced = re.sub(r',(?=["{\[])', ",\u200b", part) if part.startswith("{") else part
    lines, line = [], ""
    for word in spaced.replace(" ", " \u200b").split("\u200b"):
        if line and len(later) + len((line + word).rstrip()) > WIDTH:
            lines.append(line.rstrip())
            line = ""
        line += word
    lines.append(line)
    return "\n".join((first if number == 0 else later) + line for number, line in enumerate(lines))


def shown(first, text):
    for number, part in enumerate(pieces(text)):
        print(wrapped(part, first if number == 0 else " " * len(first), " " * (len(first) + 2)))


def main():
    events = open(sys.argv[1], encoding="utf-8").read().splitlines()
    answers = iter(sys.stdin.read().splitlines())
    for event in events:
        if not event:
            continue
        if event.startswith("#"):
            print("\n" + event)
            continue
        shown("> ", event)
        answer = next(answers, None)
        if answer is None:
            sys.exit("an event has no answer")
        shown("  ", answer)


main()
