#!/usr/bin/env python3
"""Runs nllc on texts that can be read once, as those of pipes, and on files that are longer than a text may be.

    check/run inputs [--seconds S] [--nllc PATH]

PATH is the program that was proved and built here, where none is given. A pipe gives its bytes once: so each of FILE, a
cut file and a schedule is read once. Nobody writes to the pipe `never`: who opens it waits for ever. So a run that
ends shows that it is opened after what was refused. A file past the limit is refused by its length: a run has too
little memory for the whole of it. No clause of the program says any of this.

Prints each run that ends otherwise than it should, and last `N runs, W wrong`; status 1 where W isn't 0.
"""

import argparse
import os
import pathlib
import sys
import tempfile

from paths import PROGRAM, ROOT
from running import ADDRESSES, Tally
from text_tables import text_of
from unstarted_threads import TEXTS, outcome, runs_in

MOST_BYTES = 1 << 26      # of a text
LITTLE_MEMORY = ((ADDRESSES, 1 << 29),)
JSON = '"name": "\'1", "is_universal": false'


def write_files(folder):
    """Writes the texts, files of zeros, and a pipe."""
    texts = {**TEXTS, "syntax": text_of("runs", "syntax"), "many": text_of("mir_limits", "constraints_past_limit")}
    for name, text in texts.items():
        (folder / name).write_bytes(text)
    for name, length in (("long", MOST_BYTES), ("longer", MOST_BYTES + 1), ("vast", 1 << 32)):
        (folder / name).touch()
        os.truncate(folder / name, length)
    os.mkfifo(folder / "never")


def runs_of(program, folder, seconds):
    """Words, what came of each run, and what should."""
    script = ROOT / "nllc.sh"
    for words, given, wanted in runs_in("piped"):
        yield words, outcome(program, words, folder, seconds, given=given), wanted
    for words, given, wanted in runs_in("script"):
        yield f"nllc.sh {words}", outcome(script, words, folder, seconds, given=given), wanted
    for path in ("-", "/dev/stdin"):
        status, out, err = outcome(script, f"json {path}", folder, seconds, given=TEXTS["chain"])
        yield f"nllc.sh json {path}", (status, JSON in out, err), (0, True, "")
    for name, limits in (("unopened", ()), ("long", LITTLE_MEMORY)):
        for words, _, wanted in runs_in(name):
            yield words, outcome(program, words, folder, seconds, limits), wanted


def main():
    parser = argparse.ArgumentParser(description=__doc__.splitlines()[0])
    parser.add_argument("--seconds", type=float, default=60.0, help="time limit of a run")
    parser.add_argument("--nllc", metavar="PATH", default=PROGRAM, type=pathlib.Path)
    args = parser.parse_args()
    program = args.nllc.resolve()
    os.environ["NLLC"] = str(program)    # nllc.sh runs it
    tally = Tally()
    with tempfile.TemporaryDirectory() as folder:
        write_files(pathlib.Path(folder))
        for words, told, wanted in runs_of(program, folder, args.seconds):
            tally.compare(words, told, wanted)
    return tally.tell()


if __name__ == "__main__":
    sys.exit(main())
