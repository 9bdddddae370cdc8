#!/usr/bin/env python3
"""Runs nllc where no thread can be started, which shows where owners are at work and where none are.

    check/run threads [--seconds S] [--nllc PATH]

PATH is the program that was proved and built here, where none is given. With `--owners` or `--cut` the report is
that of owners in threads, so there is none where no thread can be started, but `nllc: thread`; without them it comes.
No clause of the program can say so, since the report is the same by whoever finds it. A thread gets a stack of the
size that the limit of the process's stack says; here that is more than a processor can address.

Each run is made twice, with threads and without. Prints each that ends otherwise than it should, and last
`N runs, W wrong`; status 1 where W isn't 0.
"""

import argparse
import pathlib
import sys
import tempfile

from paths import PROGRAM
from running import STACK, UNSTARTED, Tally, run
from text_tables import lines_of, text_of

NO_STACK = ((STACK, 1 << 60),)
TEXTS = {name: text_of("runs", name) for name in ("chain", "fault", "one", "two", "short", "load")}
# What the program ends with and says on standard error, beside what it prints.
ANSWERS = {"values of chain": (0, ""), "a fault": (1, ""), "a replay of chain": (0, ""), "three checks": (1, ""),
           "values of chain beside a syntax error": (2, "syntax: nllc: line 3: syntax\n")}


def runs_in(name):
    """The words of each run of a list, what its standard input gives, and what it answers."""
    for line in lines_of("runs", name):
        asked, _, answer = line.decode().partition(" => ")
        words, _, given = asked.partition(" < ")
        status, err = ANSWERS.get(answer, (2, f"{answer}\n"))
        out = text_of("runs", answer).decode() if answer in ANSWERS else ""
        yield words, TEXTS.get(given, b""), (status, out, err)


def outcome(program, words, folder, seconds, limits=(), given=b""):
    """Status, standard output and standard error of a run in a folder."""
    status, out, err = run([program, *words.split()], seconds, limits, given=given, folder=folder)
    return status, out.decode(errors="replace"), err.decode(errors="replace")


def main():
    parser = argparse.ArgumentParser(description=__doc__.splitlines()[0])
    parser.add_argument("--seconds", type=float, default=20.0, help="time limit of a run")
    parser.add_argument("--nllc", metavar="PATH", default=PROGRAM, type=pathlib.Path)
    args = parser.parse_args()
    program = args.nllc.resolve()
    tally, unstarted = Tally(), (3, "", UNSTARTED[2].decode())
    with tempfile.TemporaryDirectory() as folder:
        for name, text in TEXTS.items():
            pathlib.Path(folder, name).write_bytes(text)
        for limits, how in (((), "threads"), (NO_STACK, "no threads")):
            for name in ("by one", "by owners", "refused"):
                for words, _, wanted in runs_in(name):
                    wanted = unstarted if limits and name == "by owners" else wanted
                    tally.compare(f"{words}, with {how}", outcome(program, words, folder, args.seconds, limits), wanted)
    return tally.tell()


if __name__ == "__main__":
    sys.exit(main())
