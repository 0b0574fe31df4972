#!/usr/bin/env python3
"""Draws cost against depth from the benchmark's figures: picture.py FIGURES.csv PICTURE.svg"""
import csv
import math
import sys

WIDTH, HEIGHT, LEFT, TOP, RIGHT, BOTTOM = 660, 400, 90, 30, 35, 60
COLOURS = ["#0b6e4f", "#555555", "#c0392b", "#2a6fb0"]


def main(source, target):
    with open(source, newline="") as file:
        rows = list(csv.reader(file))
    names, points = rows[0][1:], [[float(c) for c in row] for row in rows[1:]]
    low = math.floor(math.log10(min(min(p[1:]) for p in points)))
    high = math.ceil(math.log10(max(max(p[1:]) for p in points)))
    first, last = math.log2(points[0][0]), math.log2(points[-1][0])

    def x(depth):
        return LEFT + (math.log2(depth) - first) / (last - first) * (WIDTH - LEFT - RIGHT)

    def y(cost):
        return HEIGHT - BOTTOM - (math.log10(cost) - low) / (high - low) * (HEIGHT - TOP - BOTTOM)

    out = [
        f'<svg xmlns="http://www.w3.org/2000/svg" viewBox="0 0 {WIDTH} {HEIGHT}" font-family="sans-serif" font-size="12">',
        f'<rect width="{WIDTH}" height="{HEIGHT}" fill="white"/>',
    ]
    for power in range(low, high + 1):
        at = y(10.0**power)
        out.append(f'<line x1="{LEFT}" y1="{at:.1f}" x2="{WIDTH - RIGHT}" y2="{at:.1f}" stroke="#dddddd"/>')
        out.append(f'<text x="{LEFT - 8}" y="{at + 4:.1f}" text-anchor="end">{10**power:,} ns</text>')
    for point in points:
        at = x(point[0])
        out.append(f'<text x="{at:.1f}" y="{HEIGHT - BOTTOM + 18}" text-anchor="middle">{int(point[0]):,}</text>')
    out.append(f'<text x="{(LEFT + WIDTH - RIGHT) / 2}" y="{HEIGHT - BOTTOM + 36}" text-anchor="middle">depth of the tree (32,768 nodes)</text>')
    for k, name in enumerate(names):
        line = " ".join(f"{x(p[0]):.1f},{y(p[k + 1]):.1f}" for p in points)
        out.append(f'<polyline points="{line}" fill="none" stroke="{COLOURS[k]}" stroke-width="2"/>')
        place = LEFT + 10 + k * 150
        out.append(f'<line x1="{place}" y1="15" x2="{place + 18}" y2="15" stroke="{COLOURS[k]}" stroke-width="2"/>')
        out.append(f'<text x="{place + 23}" y="19">{name}</text>')
    out.append("</svg>")
    with open(target, "w") as file:
        file.write("\n".join(out) + "\n")


main(*sys.argv[1:])
