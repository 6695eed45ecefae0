#!/usr/bin/env python3
"""Draws docs/bindings.svg and docs/memory.svg from the figures that docs/CLUSTER.md and docs/BENCHMARKS.md have. usage: plots.py"""
import re
from pathlib import Path

from picture import BLACK, BLUE, RED, text

DOCS = Path(__file__).parent.parent / "docs"
WIDTH, HEIGHT, LEFT, RIGHT, TOP, BOTTOM = 620, 330, 70, 170, 56, 60


def found(page, pattern):
    """The numbers that the pattern's groups find on a page."""
    match = re.search(pattern, (DOCS / page).read_text(encoding="utf-8"))
    return [float(it.replace(",", "")) for it in match.groups()]


def plot(title, across, up, lines, marks, most):
    """Lines, each a name, a color and its points, in a frame with marks below it and five on its left."""
    def place(x, y):
        return round(LEFT + x / marks[-1] * (WIDTH - LEFT - RIGHT), 1), round(HEIGHT - BOTTOM - y / most * (HEIGHT - TOP - BOTTOM), 1)

    (left, bottom), (right, top) = place(0, 0), place(marks[-1], most)
    parts = [
        f"<svg xmlns='http://www.w3.org/2000/svg' viewBox='0 0 {WIDTH} {HEIGHT}' width='{WIDTH}' height='{HEIGHT}'>",
        f"<rect width='{WIDTH}' height='{HEIGHT}' fill='white'/>",
        text(20, 24, title, 15, BLACK, "bold"), text(20, 44, up, 12, BLACK), text((left + right) / 2, HEIGHT - 14, across, 12, BLACK, anchor="middle"),
        f"<path d='M{left},{top} V{bottom} H{right}' fill='none' stroke='{BLACK}'/>",
        *[text(place(it, 0)[0], bottom + 18, f"{it:,}", 11, BLACK, anchor="middle") for it in marks],
        *[text(left - 8, place(0, most * it / 4)[1] + 4, f"{most * it / 4:g}", 11, BLACK, anchor="end") for it in range(5)],
    ]
    for name, color, points in lines:
        spots = [place(*it) for it in points]
        parts.append(f"<polyline points='{' '.join(f'{x},{y}' for x, y in spots)}' fill='none' stroke='{color}' stroke-width='2'/>")
        parts += [f"<circle cx='{x}' cy='{y}' r='4' fill='{color}'/>" for x, y in spots]
        parts.append(text(spots[-1][0] + 10, spots[-1][1] + 4, name, 12, color))
    return "\n".join([*parts, "</svg>"]) + "\n"


def bindings():
    none = found("CLUSTER.md", r"processor time of the API server for each, default roles \| ([\d.]+) ms \| ([\d.]+) ms")
    many = found("CLUSTER.md", r"processor time of the API server for each, .*\n\| the same with 5,000 ClusterRoleBindings \| ([\d.]+) ms \| ([\d.]+) ms")
    (kapi,) = found("CLUSTER.md", r"processor time of Kapi for each \| ([\d.]+) ms")
    lines = [("RBAC", RED, [(0, none[1]), (5000, many[1])]), ("Webhook: server and Kapi", BLUE, [(0, none[0] + kapi), (5000, many[0] + kapi)])]
    return plot("Processor time of a GET", "ClusterRoleBindings of other users, more than the default ones", "ms", lines, [0, 5000], 2)


def memory():
    few, many = found("BENCHMARKS.md", r"(?s)policy of 10,000 bindings takes (\d+) MB.*?one of 100,000 takes (\d+) MB")
    rows = [("ConfigMaps of 100 bytes", r"\|ConfigMap of 100 bytes\|([\d,]+) bytes"), ("role bindings of a server", r"three copies of the policy\|([\d,]+) bytes")]
    lines = [("a policy's bindings", RED, [(10_000, few), (100_000, many)])]
    lines += [(name, BLUE, [(100_000, found("BENCHMARKS.md", pattern)[0] / 10)]) for name, pattern in rows]
    return plot("Resident memory", "objects", "MB", lines, [0, 10_000, 50_000, 100_000], 800)


if __name__ == "__main__":
    (DOCS / "bindings.svg").write_text(bindings(), encoding="utf-8")
    (DOCS / "memory.svg").write_text(memory(), encoding="utf-8")
