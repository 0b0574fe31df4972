#!/usr/bin/env python3
"""Draws a table that table.c printed: draw.py FOLDER < TABLE. One picture each of the plain tree, the stored tree, the compressed tree and the spans."""
import sys
from collections import namedtuple

NONE = 65535
STEP, DROP, RADIUS, MARGIN = 46, 58, 15, 30

Row = namedtuple("Row", "parent first last next upper path size set_size depth label start next_free level")


def read():
    count, root = map(int, sys.stdin.readline().split())
    rows = [Row(*map(int, sys.stdin.readline().split())) for _ in range(count)]
    return root, rows


def children(parents):
    below = [[] for _ in parents]
    for x, p in enumerate(parents):
        if p != NONE:
            below[p].append(x)
    return below


def layout(parents, root):
    """Leaves side by side, each other node above the middle of its children."""
    below, place, leaves = children(parents), {}, 0

    def visit(x, depth):
        nonlocal leaves
        for c in below[x]:
            visit(c, depth + 1)
        if below[x]:
            across = (place[below[x][0]][0] + place[below[x][-1]][0]) / 2
        else:
            across, leaves = leaves, leaves + 1
        place[x] = (across, depth)

    visit(root, 0)
    return {x: (MARGIN + 10 + a * STEP, MARGIN + 20 + d * DROP) for x, (a, d) in place.items()}


def svg(width, height, lines):
    head = f'<svg xmlns="http://www.w3.org/2000/svg" viewBox="0 0 {width:.0f} {height:.0f}" width="{width:.0f}" font-family="sans-serif" font-size="12">'
    return "\n".join([head, f'<rect width="{width:.0f}" height="{height:.0f}" fill="white"/>', *lines, "</svg>"]) + "\n"


def tree(title, parents, root, fill, note, thick):
    place, lines = layout(parents, root), [f'<text x="{MARGIN - 15}" y="18" font-weight="bold">{title}</text>']
    for x, p in enumerate(parents):
        if p != NONE:
            (ax, ay), (bx, by) = place[p], place[x]
            width = 4 if thick(x) else 1.2
            lines.append(f'<line x1="{ax:.0f}" y1="{ay:.0f}" x2="{bx:.0f}" y2="{by:.0f}" stroke="#333333" stroke-width="{width}"/>')
    for x, (ax, ay) in place.items():
        lines.append(f'<circle cx="{ax:.0f}" cy="{ay:.0f}" r="{RADIUS}" fill="{fill(x)}" stroke="#333333"/>')
        lines.append(f'<text x="{ax:.0f}" y="{ay + 4:.0f}" text-anchor="middle">{x}</text>')
        lines.append(f'<text x="{ax + RADIUS + 2:.0f}" y="{ay - 8:.0f}" font-size="10" fill="#666666">{note(x)}</text>')
    width = max(max(a for a, _ in place.values()) + MARGIN + 40, 7.5 * len(title))
    return svg(width, max(b for _, b in place.values()) + MARGIN, lines)


def plain_parents(root, rows):
    """The stored tree hung up at the root: links along the line from node 0 to the root are turned."""
    parents, x, above = [r.parent for r in rows], root, NONE
    while x != NONE:
        parents[x], above, x = above, x, rows[x].parent
    return parents


def spans(rows):
    """Nested boxes, not to scale: each span holds those of its compressed children, in the order of their starts."""
    below, lines, high = children([r.upper for r in rows]), [], 46

    def height(x):
        return high + sum(height(c) + 6 for c in below[x])

    def box(x, left, top, width):
        r = rows[x]
        fourth = r.set_size**4
        tall = height(x)
        lines.append(f'<rect x="{left}" y="{top}" width="{width}" height="{tall}" fill="{"#e8f3ee" if below[x] else "#ffffff"}" stroke="#0b6e4f"/>')
        text = f"row {x}: s {r.size}, σ {r.set_size}; start {r.start:,}, end {r.start + 5 * fourth:,}"
        more = f"p {r.start + fourth:,}, q {r.start + 4 * fourth:,}; next free {r.next_free:,}"
        lines.append(f'<text x="{left + 8}" y="{top + 17}" font-weight="bold">{text}</text>')
        lines.append(f'<text x="{left + 8}" y="{top + 34}" fill="#555555">{more}</text>')
        at = top + high
        for c in sorted(below[x], key=lambda c: rows[c].start):
            box(c, left + 14, at, width - 24)
            at += height(c) + 6

    lines.append(f'<text x="{MARGIN - 15}" y="18" font-weight="bold">spans, each inside that of its compressed parent (not to scale)</text>')
    box(0, 15, 28, 480)
    return svg(510, height(0) + 40, lines)


def main(folder):
    root, rows = read()
    stored, upper = [r.parent for r in rows], [r.upper for r in rows]

    def apex(x):
        return stored[x] == NONE or rows[stored[x]].path != x

    def colour(x):
        return "#bfe3d3" if apex(x) else "#ffffff"

    def on_path(x):
        return not apex(x)

    pictures = {
        "plain": tree("plain tree, with levels", plain_parents(root, rows), root, lambda x: "#f5d6a8" if x == root else "#ffffff", lambda x: rows[x].level, lambda x: False),
        "stored": tree("stored tree: heavy paths thick, apexes filled", stored, 0, colour, lambda x: "", on_path),
        "compressed": tree("compressed tree, with sizes s", upper, 0, colour, lambda x: rows[x].size, lambda x: False),
        "spans": spans(rows),
    }
    for name, text in pictures.items():
        with open(f"{folder}/{name}.svg", "w") as file:
            file.write(text)


main(sys.argv[1])
