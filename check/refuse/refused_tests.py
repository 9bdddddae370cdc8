#!/usr/bin/env python3
"""Refuses each growth of memory of tests in turn.

    check/run tests --tests FILE [--passing] NAME..

FILE is the program of a crate's tests, as `rt test` leaves it (crates/CRATE/out/CRATE_tests), and
each NAME the full name of one of them, as MODULE::TEST. Runs the test again and again, and has
`refuse.c` refuse the first growth of memory, then the second, to the last one that it asks for.
Each run is to pass, or to answer that memory was refused; with `--passing` each is to pass, which
is for tests that try again what is refused to them. Prints each run that ends otherwise, a line
for each test, and last `N runs, M said so, W wrong`; status 1 where W isn't 0 or a test asks for
no memory.
"""

import argparse
import os
import sys
import tempfile

from allocator import Allocator

PASSED = "test result: ok"


def outcome(answer):
    """Whether a run passed, said that memory was refused, or neither."""
    status, out, err = answer
    text = (out + err).decode(errors="replace")
    if status == 0 and PASSED in text:
        return "passed"
    return "refused" if "Memory" in text else "wrong"


def refuse_each(allocator, command, seconds, is_passing):
    """How many runs there were, how many said that memory was refused, how many were wrong."""
    usual, growths, _ = allocator.run(command, 0, seconds)
    said, wrong = 0, int(outcome(usual) != "passed")
    for at in range(1, growths + 1):
        answer = allocator.run(command, at, seconds).answer
        told = outcome(answer)
        is_wrong = told == "wrong" or (is_passing and told != "passed")
        said += told == "refused"
        wrong += is_wrong
        if is_wrong:
            print(" ".join(command), "with growth", at, "refused:", answer, file=sys.stderr)
    return growths, said, wrong


def main():
    parser = argparse.ArgumentParser(description=__doc__.splitlines()[0])
    parser.add_argument("--tests", required=True)
    parser.add_argument("--passing", action="store_true")
    parser.add_argument("--seconds", type=float, default=60)
    parser.add_argument("names", nargs="+")
    args = parser.parse_args()
    runs = said = wrong = 0
    empty = False
    with tempfile.TemporaryDirectory() as folder:
        allocator = Allocator(folder)
        for name in args.names:
            told = refuse_each(allocator, [os.path.abspath(args.tests), name], args.seconds,
                               args.passing)
            print(f"{name}: {told[0]} runs, {told[1]} said so, {told[2]} wrong")
            runs, said, wrong = runs + told[0], said + told[1], wrong + told[2]
            empty |= told[0] == 0
    print(f"{runs} runs, {said} said so, {wrong} wrong")
    return 1 if wrong or empty else 0


if __name__ == "__main__":
    sys.exit(main())
