#!/usr/bin/env python3
"""Draws docs/request.svg: the way of a request through the server. usage: picture.py [FILE]"""
import sys

WIDTH, LEFT, BOX, HEIGHT, GAP = 860, 30, 500, 46, 20
FONT = "font-family='Helvetica, Arial, sans-serif'"
BLUE, RED, BLACK = "#4a6a8a", "#aa3333", "#16293d"

# What a step does, where its code is, and what a request is answered that fails there.
STEPS = [
    ("Cut the next whole request from the bytes", "kapi_http", "400, 405, 413, 417, 431, 501, 505"),
    ("Read what it asks for: verb, resource, namespace, name", "kapi_request_info", "400"),
    ("May the caller act as whom the request names?", "kapi_escalation", "403, each missing permission"),
    ("Does a rule that is bound allow it?", "kapi_policy, kapi_index", "403, the missing permission"),
    ("Find the resource and action; read the query", "kapi_answer", "400, 404, 405, 410, 415, 504"),
    ("Check the body, existence, version, validity", "kapi_object, kapi_answer", "400, 404, 409, 422, each fault"),
    ("Does the caller hold what a role or binding gives?", "kapi_escalation, kapi_missing", "403, each missing permission"),
    ("Prepare the write, with all its memory", "kapi_store", "503, where revisions are used up"),
    ("Write the reply, and then commit", "kapi_reply, kapi_core", ""),
]


def text(x, y, words, size, color, weight="normal", anchor="start"):
    words = words.replace("&", "&amp;").replace("<", "&lt;")
    return f"<text x='{x}' y='{y}' {FONT} font-size='{size}' font-weight='{weight}' fill='{color}' text-anchor='{anchor}'>{words}</text>"


def head(name, color):
    """The head of an arrow."""
    path = f"<path d='M0,0 L10,5 L0,10 z' fill='{color}'/>"
    return f"<marker id='{name}' viewBox='0 0 10 10' refX='9' refY='5' markerWidth='7' markerHeight='7' orient='auto'>{path}</marker>"


def arrow(x1, y1, x2, y2, color):
    name = {BLUE: "blue", RED: "red"}[color]
    return f"<line x1='{x1}' y1='{y1}' x2='{x2}' y2='{y2}' stroke='{color}' stroke-width='1.5' marker-end='url(#{name})'/>"


def step(number, what, where, refusal, y):
    parts = [
        f"<rect x='{LEFT}' y='{y}' width='{BOX}' height='{HEIGHT}' rx='5' fill='#f2f6fb' stroke='{BLUE}'/>",
        text(LEFT + 14, y + 20, f"{number}. {what}", 14, BLACK, "bold"),
        text(LEFT + 14, y + 37, where, 12, BLUE),
    ]
    if refusal:
        parts += [arrow(LEFT + BOX, y + HEIGHT / 2, LEFT + BOX + 34, y + HEIGHT / 2, RED), text(LEFT + BOX + 44, y + HEIGHT / 2 + 5, refusal, 13, RED)]
    return parts


def picture():
    top = 56
    height = top + len(STEPS) * (HEIGHT + GAP) + 34
    parts = [
        f"<svg xmlns='http://www.w3.org/2000/svg' viewBox='0 0 {WIDTH} {height}' width='{WIDTH}' height='{height}'>",
        "<defs>" + head("blue", BLUE) + head("red", RED) + "</defs>",
        f"<rect width='{WIDTH}' height='{height}' fill='white'/>",
        text(LEFT, 30, "The way of a request", 18, BLACK, "bold"),
        text(LEFT + BOX + 44, 30, "answered where it fails", 13, RED),
    ]
    for number, (what, where, refusal) in enumerate(STEPS, 1):
        y = top + (number - 1) * (HEIGHT + GAP)
        parts += step(number, what, where, refusal, y)
        if number < len(STEPS):
            parts.append(arrow(LEFT + 30, y + HEIGHT, LEFT + 30, y + HEIGHT + GAP, BLUE))
    parts.append(text(LEFT, height - 18, "Nothing is changed before step 9, where nothing can fail any more.", 13, BLACK))
    return "\n".join([*parts, "</svg>"]) + "\n"


def main():
    with open(sys.argv[1] if len(sys.argv) > 1 else "docs/request.svg", "w", encoding="utf-8") as file:
        file.write(picture())


if __name__ == "__main__":
    main()
