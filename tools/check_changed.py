#!/usr/bin/env python3
"""Checks what a change can have broken: tools/check_changed.py [--since COMMIT] [--jobs N]

These are the crates that aren't as they were at the commit (HEAD, where none is named), those that depend on
one which says something else since (tools/changes.py finds them), and the tests that depend on a changed
one. It works in place, by `rt fmt` in the changed crates, since the gate refuses another layout, then by
`rt all check` in the highest of them and by `rt test`, so that what it proves is kept; libraries between are
built too, which over kept work takes little. Each crate has a line as it ends, with its seconds of processor
time. At the end it says what else the gate does. Ends with 0 where all is proved and passed.
"""

import argparse
import collections
import pathlib
import subprocess
import sys
import tempfile

from changes import changes_since
from crates import above, below, edits_in, has_tests, uses_of
from processes import Watch, crate_of, seconds_of
from proving import most_at_once, prove, started

ROOT = pathlib.Path(__file__).resolve().parents[1]


class Told:
    """A line for each crate that is checked now, with what its checks have taken so far."""

    def __init__(self):
        self.checked, self.failed, self.seconds = set(), set(), collections.Counter()
        self.watch = None

    def watching(self, pid):
        self.watch = Watch(pid, pause=0.2)
        return self.watch

    def taken(self, crate):
        return sum(seconds_of(sample) for sample in self.watch.samples() if crate_of(sample) == crate)

    def told(self, crate, is_proved, is_new):
        (self.checked if is_proved else self.failed).add(crate)
        if is_new:
            said = "proved" if is_proved else "NOT PROVED"
            print(f"{crate}: {said}, {self.taken(crate):.0f} s", flush=True)


def format_crates(root, crates):
    """Puts the files of these crates into the layout that the gate wants, and tells which weren't in it."""
    for crate in crates:
        done = subprocess.run(["rt", "fmt"], cwd=root / "crates" / crate, capture_output=True, text=True)
        for line in (done.stdout + done.stderr).splitlines():
            print(f"{crate}: {line}", flush=True)


def tops_of(uses, crates):
    """Those of the crates on which no other of them stands."""
    under = {library for crate in crates for library in below(uses, crate)}
    return [crate for crate in uses if crate in crates and crate not in under]


def check(root, uses, crates, number, told, log):
    """Proves these crates, and those that they stand on."""
    for top in tops_of(uses, crates):
        if not told.failed & {top, *below(uses, top)}:
            status = prove(root / "crates" / top, number, told.told, log, told.watching)
            if status:
                told.failed.add(top)


def test(root, crate, told, log):
    """Proves and runs the tests of a crate."""
    with started(["rt", "test"], root / "crates" / crate, log) as running, told.watching(running.pid):
        status = running.wait()
    said = "FAILED" if status else "passed"
    print(f"{crate}: tests {said}, {told.taken(crate):.0f} s", flush=True)
    if status:
        told.failed.add(crate)


def what_the_gate_adds(root, uses, told):
    """What `rt ci` would do that wasn't done here."""
    edits = {crate: len(edits_in(root, crate, "must-fail")) for crate in uses}
    others = [crate for crate in uses if crate not in told.checked]
    untried = [f"{crate} {number}" for crate, number in edits.items() if number and crate in told.checked]
    print(f"the gate also tries the edits of these: {', '.join(untried) or 'none'}")
    print(f"the gate also checks, with their edits: {', '.join(others) or 'none'}")


def main(words, root=ROOT):
    parser = argparse.ArgumentParser(description="Checks what a change can have broken.")
    parser.add_argument("--since", metavar="COMMIT", default="HEAD")
    parser.add_argument("--jobs", type=int, metavar="N", help="how many crates at a time")
    asked = parser.parse_args(words)
    try:
        changes = changes_since(root, asked.since)
    except ValueError as error:
        print(error, file=sys.stderr)
        return 2
    uses, told = uses_of(root), Told()
    changed = changes.crates & set(uses)
    crates = changed | set(above(uses, changes.saying))
    tested = [crate for crate in uses if has_tests(root, crate) and changed & {crate, *below(uses, crate)}]
    format_crates(root, [crate for crate in uses if crate in changed])
    with tempfile.NamedTemporaryFile("w", prefix="check-changed-", suffix=".log", delete=False) as log:
        check(root, uses, crates | set(tested), asked.jobs or most_at_once(), told, log)
        for crate in tested:
            if not told.failed & {crate, *below(uses, crate)}:
                test(root, crate, told, log)
    what_the_gate_adds(root, uses, told)
    if told.failed:
        print(f"FAILED: {' '.join(sorted(told.failed))}; what rt printed: {log.name}")
        return 1
    pathlib.Path(log.name).unlink()
    return 0


if __name__ == "__main__":
    sys.exit(main(sys.argv[1:]))
