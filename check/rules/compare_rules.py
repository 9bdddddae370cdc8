#!/usr/bin/env python3
"""Compares what nllc's rules make of MIR texts with rustc's facts, for all functions of a crate or a file.

    check/run rules --crate FOLDER ..    [--values] [-- OPTIONS OF CARGO CHECK]
    check/run rules FILE.rs              [--values] [-- OPTIONS OF RUSTC]

Of each function: base elements, constraints and values of the regions that both have. It prints a table of the classes
of differences, and each difference that is in none. Status 1 where there is one. What a MIR text's problem is, the program
of frontend/world_program.sh says, or that of the variable WORLD_PROGRAM. The folder debian/ next to this file is a project
that depends on crates of Debian's packages; `-p NAME` chooses one.
"""

import argparse
import os
import resource
import subprocess
import sys
import tempfile
from collections import Counter
from concurrent.futures import ProcessPoolExecutor
from dataclasses import dataclass, field

from nllc_tools.base.refusal import Refusal
from nllc_tools.base.workers import keep_silent
from nllc_tools.base.world_program import find as find_world
from nllc_tools.commands.inputs import split_words
from nllc_tools.commands.mir import dumps_of_crate, dumps_of_file
from nllc_tools.commands.texts import problem_of
from nllc_tools.rustc.unsaid import NotSaid
from nllc_tools.texts.mir.functions import texts_of

from classes import UNEXPLAINED, differences
from sides import Answering, Reading, both_of, differing


@dataclass
class Row:
    """What came of a function: whether it borrows anything, why it has no text, how much is the same, what isn't."""

    name: str
    borrows: bool = False
    reason: str = ""
    failure: str = ""
    same: Counter = field(default_factory=Counter)
    found: list = field(default_factory=list)


def main(words):
    own, options = split_words(words)
    parser = argparse.ArgumentParser(prog="check/run rules", description=__doc__,
                                     formatter_class=argparse.RawDescriptionHelpFormatter)
    parser.add_argument("file", nargs="?")
    parser.add_argument("--crate", action="append", default=[], metavar="FOLDER")
    parser.add_argument("--nllc", required=True)
    parser.add_argument("--values", action="store_true",
                        help="values alone, and the rest of functions in which a value differs: quicker")
    parser.add_argument("--processes", type=int, help="how many; else one for each processor")
    asked = parser.parse_args(own)
    rows, seconds = [], 0
    try:
        for name, dumps, room in all_dumps(asked, options):
            begun = seconds_so_far()
            found = compared(dumps, room, asked)
            seconds += seconds_so_far() - begun
            tell(name, found)
            rows += found
    except Refusal as refusal:
        print(f"check/run rules: {refusal}", file=sys.stderr)
        return 2
    tell("all", rows)
    print(f"  {seconds:.0f} s of a processor, rustc's time aside")
    return tell_unexplained(rows)


def all_dumps(asked, options):
    """The name and the functions of each crate, and of the file, with the folder in which they are."""
    for folder in asked.crate:
        with tempfile.TemporaryDirectory(prefix="nll-rules.") as room:
            # A crate that a build script needs, too, is checked twice; once is enough.
            for name, dumps in dict(dumps_of_crate(folder, room, options)).items():
                yield name, dumps, room
    if asked.file:
        with tempfile.TemporaryDirectory(prefix="nll-rules.") as room:
            yield asked.file, dumps_of_file(asked.file, room, options or ["--edition=2021"])[0], room


def seconds_so_far():
    """The time that a processor was at work for this process and those that have ended below it."""
    used = [resource.getrusage(who) for who in (resource.RUSAGE_SELF, resource.RUSAGE_CHILDREN)]
    return sum(one.ru_utime + one.ru_stime for one in used)


answering: Answering
values_first: bool


def begin(found, is_quick):
    global answering, values_first
    keep_silent()
    answering, values_first = found, is_quick


def compared(dumps, room, asked):
    """A row for each function of one run of rustc."""
    made = texts_of(dumps, asked.processes)
    os.environ["WORLD_PROGRAM"] = find_world()[0]
    own = (Answering(asked.nllc, room), asked.values)
    with ProcessPoolExecutor(asked.processes, initializer=begin, initargs=own) as pool:
        return list(pool.map(row_of, made, chunksize=4))


def row_of(made):
    row = Row(made.dump.name, borrows=borrows(made.dump), reason=made.reason)
    if made.text:
        try:
            compare(made, row)
        except (ValueError, KeyError, Refusal, NotSaid, subprocess.TimeoutExpired) as failure:
            row.failure = f"{type(failure).__name__} {failure}"
    return row


def compare(made, row):
    reading = Reading(made.dump)
    values = reading.add_values(made.text, answering)
    different = differing(values, reading.facts.values)
    row.same["value"] = len(values) - len(different)
    if values_first and not different:
        return
    said, _ = problem_of("a MIR text", made.text.encode())
    both = both_of(reading, said)
    both.rules.values = values
    row.found = differences(both)
    row.same["base"] = len(both.rules.bases & both.facts.bases)
    row.same["constraint"] = len(both.rules.constraints & both.facts.constraints)


def borrows(dump):
    """Whether a statement of the function borrows."""
    with open(dump.mir, encoding="utf-8") as file:
        return " = &'?" in file.read()


def tell(name, rows):
    """A crate's lines: texts and why there is none, what is the same, and the classes of what isn't."""
    texts = [row for row in rows if not row.reason]
    borrowing = [row for row in rows if row.borrows]
    told = sum(not row.reason for row in borrowing)
    print(f"{name}: {len(rows)} functions, {len(texts)} with a text; of {len(borrowing)} that borrow, {told}")
    for reason, count in Counter(row.reason for row in rows if row.reason).most_common():
        print(f"  {count} without a text: {reason}")
    same = sum((row.same for row in texts), Counter())
    equal = sum(not row.found and not row.failure for row in texts)
    print(f"  {equal} functions the same in all; the same: {same['base']} base elements, "
          f"{same['constraint']} constraints, {same['value']} values")
    for kind in ("base", "constraint", "value"):
        by_class = Counter(one.class_of for row in texts for one in row.found if one.kind == kind)
        for class_of, count in sorted(by_class.items()):
            functions = sum(any((one.kind, one.class_of) == (kind, class_of) for one in row.found) for row in texts)
            print(f"  {kind}: {count} in {functions} functions: {class_of}")
    sys.stdout.flush()


def tell_unexplained(rows):
    status = 0
    for row in rows:
        if row.failure:
            status = 1
            print(f"{row.name}: {row.failure}")
        found = [one for one in row.found if UNEXPLAINED in one.class_of]
        for one in found[:5]:
            status = 1
            print(f"{row.name}: {one.kind} of '?{one.region}: {one.what}: {one.class_of}")
    return status


if __name__ == "__main__":
    sys.exit(main(sys.argv[1:]))
