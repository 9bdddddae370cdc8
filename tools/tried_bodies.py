#!/usr/bin/env python3
"""Tries the wrong bodies that no clause refuses: the compiler refuses them, or a test fails with them.

    tools/tried_bodies.py [--jobs N] [--seconds N] [CRATE | CRATE/EDIT ..]

They are in crates/*/tried-bodies, and each is an edit as those of must-fail/ are: lines `file: PATH`, `old: TEXT` and
`new: TEXT`. A text may go on in lines that begin with `| `. Above them are two remarks: what is wrong, and what must
come of it, with the crate of tests that shows it:

    # wrong: a stop sets no flag that others see
    # fails: nll_run_tests ledger_rows::all_stop

    # wrong: a post waits for a lock
    # refused: nll_run_tests: the trait bound `Global: Wait` is not satisfied

That crate and those below it are copied, and the edit is made in the copy. `rt try --test` then compiles the tests and
runs them; it proves nothing, and needs no proof of anything. Of its tests the copy has the named one alone. It must
fail, or not end within the limit (`--seconds`, 20 by default; more where the machine is busy). Where an edit must be
refused, the crate may be any that sees it, and each error that the compiler prints must have the message. Each edit
takes about a minute of processor time where it's compiled, and a few seconds where it's refused.

Where crates or edits are named, no others are tried. Ends with 0 where each came to what it must.
"""

import argparse
import collections
import concurrent.futures
import os
import pathlib
import re
import shutil
import sys
import tempfile
import time

from crates import below, edits_in, uses_of
from proving import most_at_once, started
from rooms import copy_crates, folder_of
from rounds import applied, pairs_in

ROOT = pathlib.Path(__file__).resolve().parents[1]
FOLDER = "tried-bodies"
# A test without which `rt` compiles no library.
NO_TEST = "\n#[cfg(test)]\nmod tried {\n    #[test]\n    fn tried(_rt: HostRuntime) {}\n}\n"
# One test, as `rt fmt` lays it out.
TEST = re.compile(r"^#\[test\]\nfn (\w+)\(.*?^\}\n", re.M | re.S)
ERROR = re.compile(r"^\S+:\d+:\d+: error(?:\[[\w-]+\])?: (.*)$", re.M)

Edit = collections.namedtuple("Edit", "crate name tests test message pairs")
Tried = collections.namedtuple("Tried", "edit seconds is_right text")


def read_edit(path):
    """The edit that stands in a file."""
    text = pathlib.Path(path).read_text(encoding="utf-8")
    fails = re.search(r"^# fails: (\w+) (\S+)$", text, re.M)
    refused = re.search(r"^# refused: (\w+): (.+)$", text, re.M)
    if bool(fails) == bool(refused):
        raise ValueError(f"{path}: no single line `# fails: TESTS TEST` or `# refused: TESTS: MESSAGE`")
    path = pathlib.Path(path)
    return Edit(path.parents[1].name, path.stem, (fails or refused)[1], fails and fails[2], refused and refused[2],
                pairs_in(text))


def edits_of(root):
    """All edits, by their names as CRATE/EDIT."""
    folders = sorted(pathlib.Path(root).glob(f"crates/*/{FOLDER}"))
    found = [read_edit(path) for folder in folders for path in edits_in(root, folder.parent.name, FOLDER)]
    return {f"{edit.crate}/{edit.name}": edit for edit in found}


def apply(edit, folder):
    """Makes the changes of an edit in its crate's folder; says whether each text stands there once."""
    made = applied(edit, {}, folder)
    for file, text in made[0].items() if made else ():
        (pathlib.Path(folder) / file).write_text(text, encoding="utf-8")
    return made is not None


def leave_one(folder, test):
    """Leaves of the tests of a crate the one of this name alone; says whether it's there."""
    found = 0
    for path in sorted((pathlib.Path(folder) / "src").glob("**/*.rt")):
        module = ".".join(path.relative_to(pathlib.Path(folder) / "src").with_suffix("").parts)

        def kept(match, module=module):
            nonlocal found
            is_named = f"{module.replace('.', '::')}::{match[1]}" == test
            found += is_named
            return match[0] if is_named else ""

        text = path.read_text(encoding="utf-8")
        path.write_text(TEST.sub(kept, text), encoding="utf-8")
    return found == 1


def add_test(folder):
    """Gives a library a test, so that `rt` compiles it."""
    path = pathlib.Path(folder) / "src" / "lib.rt"
    path.write_text(path.read_text(encoding="utf-8") + NO_TEST, encoding="utf-8")


def copied(root, room, tests):
    """Copies what a crate of tests stands on, as it is in the tree."""
    crates = [*below(uses_of(root), tests), tests]
    copy_crates(root, room, crates)
    shutil.copy(os.path.join(root, "HANDLES"), room)


def judged(edit, printed):
    """Whether what `rt try` printed is what must come of an edit, and what came of it."""
    errors = ERROR.findall(printed)
    last = (printed.strip().splitlines() or ["rt says nothing"])[-1]
    if edit.message:
        if errors and all(edit.message in error for error in errors):
            return True, f"refused, as it must be: {errors[0]}"
        return False, "NOT REFUSED as it must be: " + (errors[0] if errors else last)
    said = re.search(rf"^test {re.escape(edit.test)} \.\.\. (\w+)((?:\n +.*)*)", printed, re.M)
    if not said:
        return False, f"NOT TRIED: {errors[0] if errors else last}"
    if said[1] == "ok":
        return False, f"NOT FAILED: {edit.test} passes"
    is_over = "no-answer" in said[2]
    return True, f"{edit.test} {'does not end' if is_over else 'fails'}, as it must"


def try_edit(root, edit, seconds):
    began = time.monotonic()
    with tempfile.TemporaryDirectory(prefix="nllc-") as room:
        copied(root, room, edit.tests)
        if not apply(edit, folder_of(room, edit.crate)):
            return Tried(edit, 0, False, "BAD EDIT: a text doesn't stand there once")
        if edit.test is None:
            add_test(folder_of(room, edit.tests))
        elif not leave_one(folder_of(room, edit.tests), edit.test):
            return Tried(edit, 0, False, f"BAD EDIT: {edit.tests} has no test {edit.test}")
        words = ["rt", "try", "--test", "--seconds", str(seconds)]
        with started(words, folder_of(room, edit.tests)) as running:
            printed = running.stdout.read()
    return Tried(edit, time.monotonic() - began, *judged(edit, printed))


def try_all(root, edits, jobs, seconds):
    tried = []
    with concurrent.futures.ThreadPoolExecutor(jobs) as pool:
        for one in concurrent.futures.as_completed([pool.submit(try_edit, root, edit, seconds) for edit in edits]):
            tried.append(one.result())
            told = tried[-1]
            print(f"{told.edit.crate}/{told.edit.name}: {told.seconds:.0f} s, {told.text}", flush=True)
    return tried


def read_words(words):
    parser = argparse.ArgumentParser(description=__doc__.split("\n", maxsplit=1)[0])
    parser.add_argument("--jobs", type=int, metavar="N", help="how many edits at a time")
    parser.add_argument("--seconds", type=int, default=20, metavar="N", help="how long a test may run")
    parser.add_argument("names", nargs="*", metavar="CRATE | CRATE/EDIT")
    return parser.parse_args(words)


def main(words, root=ROOT):
    asked, edits = read_words(words), edits_of(root)
    known = {*edits, *(edit.crate for edit in edits.values())}
    unknown = [name for name in asked.names if name not in known]
    if unknown:
        print(f"{unknown[0]} is neither a tried body nor a crate that has some; there are: {' '.join(edits)}",
              file=sys.stderr)
        return 2
    wanted = [edit for name, edit in edits.items() if not asked.names or {name, edit.crate} & set(asked.names)]
    tried = try_all(root, wanted, asked.jobs or most_at_once(), asked.seconds)
    refused = sum(one.is_right and one.edit.message is not None for one in tried)
    failed = sum(one.is_right and one.edit.test is not None for one in tried)
    print(f"{len(tried)} tried, {refused} refused by the compiler, {failed} failed by their tests, "
          f"{len(tried) - refused - failed} neither")
    return 0 if refused + failed == len(tried) else 1


if __name__ == "__main__":
    sys.exit(main(sys.argv[1:]))
