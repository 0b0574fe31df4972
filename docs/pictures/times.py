#!/usr/bin/env python3
"""Prints the table of check times of the tour from a log of `rt prove`: times.py LOG. Crates under FEW seconds are summed in one line."""
import re
import sys

FEW = 5


def main(path):
    with open(path) as log:
        found = dict(re.findall(r"^rt: (\w+) proved \((\d+(?:\.\d+)?) s\)", log.read(), re.MULTILINE))
    times = sorted(((float(t), name) for name, t in found.items()), key=lambda c: (-c[0], c[1]))
    long, short = [c for c in times if FEW <= c[0]], [c for c in times if c[0] < FEW]
    print("| crate | seconds |")
    print("|---|---|")
    for t, name in long:
        print(f"| `{name}` | {t:.0f} |")
    if short:
        print(f"| {len(short)} more, under {FEW} s each | {sum(t for t, _ in short):.0f} |")
    print(f"| all {len(times)} | {sum(t for t, _ in times):.0f} |")


main(sys.argv[1])
