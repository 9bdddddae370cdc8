#!/usr/bin/env python3
"""Refuses each growth of memory of nllc in turn.

    check/run memory [--nllc PATH] [--options WORDS].. [--count N] [FILE..]
    check/run memory [--nllc PATH] [--count N] --command WORDS..

Runs `PATH values FILE`, `PATH check FILE` and `PATH --help` again and again, on the examples
where no FILE is given, and has `refuse.c` refuse the first growth of memory, then the second, to
the last one that the run asks for. Each run is to end by itself, either as ever, or with status
3, nothing on standard output and the line `nllc: memory` on standard error. Where owners are
asked for, it may be the line `nllc: thread`: the C library asks for memory to start a thread.

With `--options` the arguments in each of them come before FILE; with `--command`
these arguments are run alone, `replay FILE --schedule FILE` say. With `--count` so many growths are
refused, spread over the run.

No run may keep more blocks of memory to its end than the one that is refused nothing.

Prints each run that ends otherwise, a line for each command, and last `N runs, M refused, W
wrong`; status 1 where W isn't 0 or a command has no run that is refused.
"""

import argparse
import shlex
import sys
import tempfile

from allocator import Allocator
from paths import ROOT
from running import MEMORY, UNSTARTED

OWNERS = ("--owners", "--cut")


def tried(growths, most):
    """The numbers of the growths that are refused, spread over all of them."""
    if most is None or growths <= most:
        return list(range(1, growths + 1))
    return sorted({1 + step * (growths - 1) // (most - 1) for step in range(most)})


def refuse_each(allocator, command, seconds, most):
    """How many runs there were, how many were refused, and how many ended wrongly."""
    has_owners = any(word in OWNERS for word in command)
    refusals = (MEMORY, UNSTARTED) if has_owners else (MEMORY,)
    usual, growths, left = allocator.run(command, 0, seconds)
    refused = wrong = 0
    numbers = tried(growths, most)
    for at in numbers:
        answer, asked, kept = allocator.run(command, at, seconds)
        if answer in refusals:
            refused += 1
        elif answer != usual or (asked < at and not has_owners):
            wrong += 1
            print(f"growth {at} of {' '.join(command)}: {answer!r}")
        if kept > left:
            wrong += 1
            print(f"growth {at} of {' '.join(command)}: {kept - left} blocks left")
    print(f"{' '.join(command[1:])}: {growths} growths, {refused} refused, {wrong} wrong",
          flush=True)
    return len(numbers), refused, wrong


def words():
    parser = argparse.ArgumentParser(description=__doc__.split("\n")[0])
    parser.add_argument("--nllc", required=True, help="the program to try")
    parser.add_argument("--seconds", type=float, default=10.0, help="time limit of a run")
    parser.add_argument("--options", action="append", help="arguments in front of FILE")
    parser.add_argument("--count", type=int, help="how many growths of a run are refused")
    parser.add_argument("--command", action="append", help="a command line that is run without FILE")
    parser.add_argument("files", metavar="FILE", nargs="*")
    args = parser.parse_args()
    if args.count is not None and args.count < 2:
        parser.error("--count is at least 2")
    args.files = args.files or sorted(map(str, [*ROOT.glob("examples/*.facts"), *ROOT.glob("examples/*.mir")]))
    return args


def commands_of(args):
    """What is run."""
    if args.command:
        return [shlex.split(command) for command in args.command]
    options = [shlex.split(words) for words in args.options or [""]]
    return [["--help"], *([task, *words, file] for words in options for file in args.files
                          for task in ("values", "check"))]


def main():
    args = words()
    with tempfile.TemporaryDirectory() as folder:
        allocator = Allocator(folder)
        rows = [refuse_each(allocator, [args.nllc, *command], args.seconds, args.count)
                for command in commands_of(args)]
    runs, refused, wrong = (sum(column) for column in zip(*rows))
    print(f"{runs} runs, {refused} refused, {wrong} wrong")
    return 1 if wrong or any(row[1] == 0 for row in rows) else 0


if __name__ == "__main__":
    sys.exit(main())
