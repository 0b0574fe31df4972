#!/usr/bin/env python3
"""Draws the crates from crates.txt and crates/: crates.py FOLDER. Each stands above all that it names; an edge that others imply is left out."""
import os
import sys

GAP, DROP, HIGH, LETTER, PAD, MARGIN, TOP = 16, 64, 26, 7.2, 9, 20, 92
SWEEPS = 40

# Fill by room and kind.
FILL = {
    "base": {"code": "#d9d9d9", "laws": "#f5f5f5"},
    "layer": {"code": "#8fcdb3", "laws": "#e8f3ee"},
    "table": {"code": "#f2c37f", "laws": "#fdf1de", "program": "#d9822b"},
}
STROKE = {"base": "#777777", "layer": "#0b6e4f", "table": "#a8651a"}


def read():
    """For each crate those of ours that it names."""
    ours, names = set(os.listdir("crates")), {}
    with open("crates.txt") as file:
        for line in file:
            if not line.startswith("#"):
                name, rest = line.split(":")
                name = name.split()[0]
                names[name] = [n for n in rest.split() if n in ours]
    return names


def kind(crate):
    files = sorted(os.listdir(f"crates/{crate}/src"))
    if "main.rt" in files:
        return "program"
    for name in files:
        with open(f"crates/{crate}/src/{name}") as file:
            if any(line.strip() and not line.startswith("//") for line in file):
                return "code"
    return "laws"


def closure(names):
    """All crates that a crate stands on."""
    below = {}

    def visit(c):
        if c not in below:
            below[c] = set(names[c]).union(*(visit(d) for d in names[c]))
        return below[c]

    for c in names:
        visit(c)
    return below


def room(crate, below):
    for name in ("table", "layer"):
        if crate == name or name in below[crate]:
            return name
    return "base"


def floors(edges, users):
    """Above all that it names, and as near to the crates that it is joined with as that allows."""
    floor = {}

    def visit(c):
        if c not in floor:
            floor[c] = 1 + max((visit(d) for d in edges[c]), default=-1)
        return floor[c]

    for c in edges:
        visit(c)
    moved = True
    while moved:
        moved = False
        for c in edges:
            if users[c] and len(users[c]) > len(edges[c]):
                high = min(floor[u] for u in users[c]) - 1
                moved |= high != floor[c]
                floor[c] = high
    return floor


def spread(wanted, widths):
    """Places nearest to those wanted, in this order, that keep the gaps."""
    shift = [0.0]
    for a, b in zip(widths, widths[1:]):
        shift.append(shift[-1] + (a + b) / 2 + GAP)
    blocks = []
    for w, s in zip(wanted, shift):
        blocks.append([w - s, 1])
        while len(blocks) > 1 and blocks[-2][0] > blocks[-1][0]:
            (b, n), (a, m) = blocks.pop(), blocks.pop()
            blocks.append([(a * m + b * n) / (m + n), m + n])
    return [v + s for v, s in zip((v for v, n in blocks for _ in range(n)), shift)]


def crossings(rows, up):
    total = 0
    for row, above in zip(rows, rows[1:]):
        at = {v: i for i, v in enumerate(above)}
        ends = [at[u] for v in row for u in sorted(up[v], key=at.get)]
        total += sum(1 for i, a in enumerate(ends) for b in ends[i + 1:] if b < a)
    return total


def ordered(rows, up, down):
    """By turns from below and from above, each row by the middle of its neighbours; the order with the fewest crossings stays."""
    best, rows = None, [list(row) for row in rows]
    for sweep in range(SWEEPS):
        near = down if sweep % 2 == 0 else up
        for k in range(len(rows)) if sweep % 2 == 0 else reversed(range(len(rows))):
            at = {v: i for row in rows for i, v in enumerate(row)}
            own = {v: i for i, v in enumerate(rows[k])}
            rows[k].sort(key=lambda v: (sum(at[n] for n in near[v]) / len(near[v]) if near[v] else own[v], own[v]))
        count = crossings(rows, up)
        if best is None or count < best[0]:
            best = (count, [list(row) for row in rows])
    return best[1]


def layout(edges, users):
    """A place for each crate, and the bends of each edge that passes rows by."""
    floor = floors(edges, users)
    rows = [[] for _ in range(max(floor.values()) + 1)]
    up, down, bends = {}, {}, {}
    for c in edges:
        rows[floor[c]].append(c)
        up[c], down[c] = [], []
    for c in edges:
        for d in edges[c]:
            way = [d]
            for f in range(floor[d] + 1, floor[c]):
                bend = (d, c, f)
                rows[f].append(bend)
                up[bend], down[bend] = [], []
                way.append(bend)
            way.append(c)
            for a, b in zip(way, way[1:]):
                up[a].append(b)
                down[b].append(a)
            bends[d, c] = way
    rows = ordered(rows, up, down)
    wide = {v: 2 * PAD + LETTER * len(v) if isinstance(v, str) else 4 for row in rows for v in row}
    across = {}
    for row in rows:
        across.update(zip(row, spread([0.0] * len(row), [wide[v] for v in row])))
    for sweep in range(SWEEPS):
        for row in rows if sweep % 2 else reversed(rows):
            wanted = [sum(across[n] for n in up[v] + down[v]) / len(up[v] + down[v]) if up[v] + down[v] else across[v] for v in row]
            across.update(zip(row, spread(wanted, [wide[v] for v in row])))
    left = min(across[v] - wide[v] / 2 for v in across)
    right = max(across[v] + wide[v] / 2 for v in across)
    place = {v: (MARGIN + across[v] - left, TOP + (len(rows) - 1 - k) * DROP) for k, row in enumerate(rows) for v in row}
    return place, wide, bends, right - left + 2 * MARGIN, TOP + (len(rows) - 1) * DROP + HIGH + MARGIN


def curve(points):
    """From point to point, upright at each."""
    (x, y), text = points[0], f"M{points[0][0]:.0f} {points[0][1]:.0f}"
    for a, b in points[1:]:
        middle = (y + b) / 2
        text += f" C{x:.0f} {middle:.0f} {a:.0f} {middle:.0f} {a:.0f} {b:.0f}"
        x, y = a, b
    return text


def box(x, y, width, fill, stroke, text):
    return [
        f'<rect x="{x - width / 2:.0f}" y="{y:.0f}" width="{width:.0f}" height="{HIGH}" rx="4" fill="{fill}" stroke="{stroke}"/>',
        f'<text x="{x:.0f}" y="{y + 17:.0f}" text-anchor="middle">{text}</text>',
    ]


def legend():
    lines, rooms = [], [("base", "stands on neither layer nor table"), ("layer", "the layer's rooms: no table below them"), ("table", "the table's rooms")]
    at = MARGIN
    for name, text in rooms:
        for k in FILL[name]:
            lines += box(at + 36, 30, 72, FILL[name][k], STROKE[name], k)
            at += 78
        lines.append(f'<text x="{at + 2 - 78 * len(FILL[name])}" y="72" fill="#555555">{text}</text>')
        at += max(30, LETTER * len(text) - 78 * len(FILL[name]) + 24)
    return lines


def main(folder):
    names = read()
    below = closure(names)
    edges = {c: [d for d in names[c] if not any(d in below[e] for e in names[c])] for c in names}
    users = {c: [u for u in names if c in edges[u]] for c in names}
    place, wide, bends, width, height = layout(edges, users)
    lines = [f'<text x="{MARGIN}" y="18" font-weight="bold">crates, each above all that it names (edges that others imply are left out)</text>', *legend()]
    for (d, c), way in bends.items():
        points = [p for x, y in (place[v] for v in way) for p in ((x, y + HIGH), (x, y))][1:-1]
        lines.append(f'<path d="{curve(points)}" fill="none" stroke="{STROKE[room(c, below)]}" stroke-width="1.2" stroke-opacity="0.6"/>')
    for c in names:
        r = room(c, below)
        lines += box(*place[c], wide[c], FILL[r][kind(c)], STROKE[r], c)
    head = f'<svg xmlns="http://www.w3.org/2000/svg" viewBox="0 0 {width:.0f} {height:.0f}" width="{width:.0f}" font-family="sans-serif" font-size="12">'
    with open(f"{folder}/crates.svg", "w") as file:
        file.write("\n".join([head, f'<rect width="{width:.0f}" height="{height:.0f}" fill="white"/>', *lines, "</svg>"]) + "\n")


main(sys.argv[1])
