#!/usr/bin/env python3
"""Counts the growths of memory that runs of a program ask for.

    asked_memory.py --program PATH 'KIND COUNT' ..

Runs `PATH KIND COUNT` for each of these with `refuse.c` preloaded, which refuses none and counts. Prints a line for
each; status 1 where the counts differ or a run fails.
"""

import argparse
import os
import sys
import tempfile

from allocator import Allocator


def main():
    parser = argparse.ArgumentParser(description=__doc__.split("\n", maxsplit=1)[0])
    parser.add_argument("--program", required=True)
    parser.add_argument("--seconds", type=float, default=60.0)
    parser.add_argument("runs", nargs="+", metavar="'KIND COUNT'")
    args = parser.parse_args()
    asked = set()
    with tempfile.TemporaryDirectory() as folder:
        allocator = Allocator(folder)
        for words in args.runs:
            command = [os.path.abspath(args.program), *words.split()]
            (status, out, _), growths, _ = allocator.run(command, 0, args.seconds)
            print(f"{words}: status {status}, {growths} growths of memory, {out.decode().strip()}")
            asked.add((status, growths))
    return 0 if len(asked) == 1 and next(iter(asked))[0] == 0 else 1


if __name__ == "__main__":
    sys.exit(main())
