#!/usr/bin/env python3
"""Looks for MIR texts whose cost grows faster than the text and its report.

    bench/run growth [--nllc PATH] [--pairs] [--most BYTES] [--seconds S] [--only WORD ..]

Grows each dimension of a text (`growth_mir.py`) by twos, alone, and with `--pairs` also each two of them
together, up to texts of so many bytes (262,144), and runs `values` of the program on them. Prints a Markdown
table of those whose user time or memory at the end takes more than 60 ms or 30 MiB above a small text's, and
grew by more than 1.5 times what text and report grew by. It finds what to look at: it decides nothing.
"""

import argparse
import itertools
import os
import sys
import tempfile

from growth_mir import DIMENSIONS, grown
from timing import head, row, run

# The most that a dimension can be.
MOST = {"universals": 255, "structs": 1_000, "references": 2_040, "regions": 60_000,
        "variables": 60_000, "parameters": 60_000, "fields": 60_000}


def measured(args, folder, sizes):
    """The bytes of the text and its report, and the user time and memory of a run; None past the limits."""
    path, out = os.path.join(folder, "text.mir"), os.path.join(folder, "out")
    text = grown(**sizes)
    if len(text) > args.most:
        return None
    with open(path, "wb") as file:
        file.write(text)
    found = run([args.nllc, *args.words, "values", path], args.seconds, out)
    if found.status not in (0, 2):
        return len(text), found.wall, found.peak, found.err or "past the time"
    return len(text) + os.path.getsize(out), found.user, found.peak, found.err


def grow(args, folder, names):
    """Doubles these dimensions until the text is too large: what was measured at each step."""
    steps = []
    for power in range(1, 24):
        sizes = {name: min(DIMENSIONS[name] << power, MOST.get(name, 1 << 30)) for name in names}
        if steps and sizes == steps[-1][0]:
            break
        found = measured(args, folder, sizes)
        if found is None:
            break
        steps.append((sizes, *found))
        if found[1] > args.seconds:
            break
    return steps


def is_costly(small, steps):
    """Whether the last step costs much, and grew faster than text and report; small is what a small text costs."""
    if len(steps) < 3:
        return False
    first, last = steps[-3], steps[-1]
    by = last[1] / first[1]
    time, memory = last[2] - small[1], last[3] - small[2]
    before = max(first[2] - small[1], 0.004), max(first[3] - small[2], 2.0)
    return (time > 0.06 and time / before[0] > 1.5 * by) or (memory > 30 and memory / before[1] > 1.5 * by)


def main():
    parser = argparse.ArgumentParser(description=__doc__.split("\n", maxsplit=1)[0])
    parser.add_argument("--nllc", required=True, help="the program")
    parser.add_argument("--words", nargs="*", default=[], help="arguments in front of the command, as +runs for --runs")
    parser.add_argument("--pairs", action="store_true", help="also grow each two dimensions together")
    parser.add_argument("--most", type=int, default=1 << 18, help="bytes of the largest text")
    parser.add_argument("--seconds", type=float, default=20.0, help="time limit of a run")
    parser.add_argument("--only", nargs="*", help="dimensions of which one at least is grown")
    args = parser.parse_args()
    args.words = [word.replace("+", "--") for word in args.words]
    groups = [(name,) for name in DIMENSIONS]
    if args.pairs:
        groups += itertools.combinations(DIMENSIONS, 2)
    if args.only:
        groups = [names for names in groups if set(names) & set(args.only)]
    found = 0
    head("dimensions | sizes | text and report, bytes | user s | peak MiB | told")
    with tempfile.TemporaryDirectory() as folder:
        small = measured(args, folder, {})
        for names in groups:
            steps = grow(args, folder, names)
            if is_costly(small, steps):
                found += 1
                for sizes, size, time, peak, told in steps[-3:]:
                    listed = ", ".join(f"{name} {number}" for name, number in sizes.items())
                    row(" and ".join(names), listed, size, f"{time:.3f}", f"{peak:.1f}", told)
    print(f"\n{len(groups)} groups of dimensions, {found} to look at")
    return 0


if __name__ == "__main__":
    sys.exit(main())
