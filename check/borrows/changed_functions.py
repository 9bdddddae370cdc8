#!/usr/bin/env python3
"""Compares what `nllc.sh rust` says of changed functions of Debian's crates with what rustc says.

    check/run errors [--seeds N] [--seed S] [--crates NAME ..] [--save FOLDER]

Each function of a crate is changed at random so that its types are as before: a borrow is held over what follows, a
`.clone()` is taken out, a statement moved after others, a lifetime dropped, .. (changes.py). Changes that rustc refuses
before it checks borrows are drawn anew. Then one run of the command answers all changed functions of the crate,
and each of rustc's errors has to be reported as the suite of frontend/tests/errors has it. Needs rustc 1.95, and packages
(`apt-get install librust-NAME-dev`; sources.py has the names). A crate on which answers differ is kept in FOLDER.
"""

import argparse
import collections
import glob
import os
import random
import re
import shutil
import sys
import tempfile
from dataclasses import dataclass, field
from functools import partial

import errors_support as support
from changes import NAMED, Edit, changed, edited
from rust_text import functions_of
from nllc_tools.rustc import functions
from sources import CRATES, Missing, crate_of

MOST_TRIES = 8              # of changes of one function
MOST_ROUNDS = 20            # of rustc on one crate, until it refuses no change early
MOST_DRAWN = 2              # how often changes that rustc takes are drawn anew
RIGHT_SHARE = 3             # of the changed functions that rustc takes each such one is compared
# What rustc's borrow checker says beside what `nllc` judges.
BORROW_CHECKER = {"E0381", "E0382", "E0384", "E0507", "E0508", "E0509", "E0594", "E0596", "E0309", "E0310", "E0311",
                  "E0700", "E0712", "E0626"}
NAMELESS = ("lifetime may not live long enough", "captured variable cannot escape")
Key = tuple[str, int]       # a file, and the number of a function in it


@dataclass
class Change:
    """A change of one function: its name and its edits, and how often one was drawn."""

    function: str
    name: str
    edits: list[Edit]
    tries: int = 1


@dataclass
class Result:
    """What became of one crate: how many functions were compared, and how the answers differ."""

    crate: str
    seed: int
    functions: int = 0
    wrong: int = 0
    errors: int = 0
    codes: collections.Counter = field(default_factory=collections.Counter)
    differences: list[tuple[str, str, str]] = field(default_factory=list)
    failure: str = ""


class Changed:
    """A crate's copy in a folder, with a change of each function."""

    def __init__(self, crate, folder, seed):
        self.crate, self.folder, self.draw = crate, folder, random.Random(f"{crate.name} {seed}")
        shutil.copytree(os.path.join(crate.folder, "src"), os.path.join(folder, "src"))
        for text in glob.glob(os.path.join(crate.folder, "*.md")):
            shutil.copy(text, folder)
        self.texts = {file: self.read(file) for file in self.files()}
        self.functions = {(file, number): function for file, text in self.texts.items()
                          for number, function in enumerate(functions_of(text))}
        self.changes = {}
        for key in self.functions:
            self.change(key)

    def files(self):
        return sorted(os.path.relpath(os.path.join(place, name), self.folder)
                      for place, _, names in os.walk(self.folder) for name in names if name.endswith(".rs"))

    def read(self, file):
        with open(os.path.join(self.folder, file), encoding="utf-8") as opened:
            return opened.read()

    def change(self, key):
        """Draws a change of a function; none any more where several were refused."""
        before = self.changes.pop(key, None)
        tries = before.tries + 1 if before else 1
        name, edits = changed(self.functions[key], self.texts[key[0]], self.draw)
        if edits and tries <= MOST_TRIES:
            self.changes[key] = Change(self.functions[key].name, name, edits, tries)

    def write(self):
        """Puts the changes into the files; remembers the lines of each function."""
        self.lines = {}
        for file, text in self.texts.items():
            text = edited(text, [edit for key, change in self.changes.items() if key[0] == file
                                 for edit in change.edits])
            if file == self.crate.root:
                text += NAMED
            with open(os.path.join(self.folder, file), "w", encoding="utf-8") as opened:
                opened.write(text)
            for number, function in enumerate(functions_of(text)):
                lines = (text.count("\n", 0, at) + 1 for at in (function.begin, function.body.end))
                self.lines[file, number] = tuple(lines)

    def at(self, file, line):
        """The changed function that has a line, or None."""
        return next((key for key in self.changes if key[0] == file
                     and self.lines[key][0] <= line <= self.lines[key][1]), None)

    def messages(self):
        """rustc's errors of the changes. Those of functions that it takes are drawn anew, but for the last time."""
        for _ in range(MOST_DRAWN):
            errors = self.checked()
            wrong = self.wrong(errors)
            for key in sorted(self.changes.keys() - wrong):
                self.change(key)
        return self.checked()

    def wrong(self, errors):
        """The changed functions that an error is of."""
        return {self.at(span["file_name"], span["line_start"]) for one in errors for span in places_of(one)} - {None}

    def checked(self):
        """rustc's errors, when no change is left that it refuses before it checks borrows."""
        for _ in range(MOST_ROUNDS):
            self.write()
            said = support.rustc_says(self.crate.root, self.folder,
                                      [f"--edition={self.crate.edition}", *self.crate.options])
            errors = [one for one in said if one["level"] == "error" and one["spans"]]
            early = [one for one in errors if not is_of_borrow_checker(one)]
            if not early:
                return errors
            refused = {self.at(span["file_name"], span["line_start"]) for one in early for span in places_of(one)}
            if refused <= {None}:
                raise Missing(f"{self.crate.name}: {early[0]['message']}")
            for key in sorted(refused - {None}):
                self.change(key)
        raise Missing(f"{self.crate.name}: rustc refuses changes again and again")


def is_of_borrow_checker(said):
    code = (said["code"] or {}).get("code", "")
    return code in BORROW_CHECKER or code in (*support.LOANS, *support.LIFETIMES) \
        or not code and said["message"].startswith(NAMELESS)


def places_of(said):
    """The places that an error points at, those of macros' uses, too."""
    for span in said["spans"]:
        while span:
            yield span
            span = span["expansion"] and span["expansion"]["span"]


def compare(task, built, save):
    """One crate, changed by a seed."""
    name, seed = task
    result = Result(name, seed)
    with tempfile.TemporaryDirectory(prefix="nllc-changed.") as folder:
        try:
            its = Changed(crate_of(name, built), folder, seed)
            compare_changed(its, result)
        except Missing as missing:
            result.failure = str(missing)
        if result.differences and save:
            keep(its, result, os.path.join(save, f"{name}-{seed}"))
    return result


def compare_changed(its, result):
    messages = its.messages()
    rows = {file: support.rows_of(messages, file) for file in its.texts}
    wrong = its.wrong(messages)
    right = [key for key in sorted(its.changes) if key not in wrong]
    chosen = wrong | set(right[::RIGHT_SHARE])
    answered = set()
    text = printed(its, chosen, answered)
    if not answered:
        raise Missing(f"{its.crate.name}: rustc compiles none of its changed functions")
    result.functions, result.wrong = len(chosen & answered), len(wrong)
    for file, found in rows.items():
        result.errors += len(found)
        result.codes.update(row.code for row in found)
        for difference in support.differences(found, support.read_answer(0, text, file)):
            key = its.at(file, int(re.search(r"(\d+):\d+", difference)[1]))
            change = its.changes.get(key)
            result.differences.append((file, f"{change.function} ({change.name})" if change else "?", difference))


def printed(its, chosen, answered):
    """What the command prints of the chosen functions, which are found in one run."""
    known = functions.has_answer

    def is_wanted(dump, errors):
        key = its.at(dump.span.file, dump.span.first) if dump.span and known(dump, errors) else None
        answered.update({key} & chosen)
        return key in chosen

    before = os.getcwd()
    functions.has_answer = is_wanted
    try:
        os.chdir(its.folder)
        support.in_one_process()
        return support.answer_of(its.crate.root, its.crate.edition, ["--cap-lints=allow", *its.crate.options])[1]
    finally:
        os.chdir(before)
        functions.has_answer = known


def keep(its, result, folder):
    """Leaves the changed crate, with the differences and the words that run the command on it."""
    shutil.rmtree(folder, ignore_errors=True)
    shutil.copytree(its.folder, folder)
    with open(os.path.join(folder, "differences"), "w", encoding="utf-8") as file:
        words = " ".join(f"'{word}'" for word in its.crate.options)
        file.write(f"nllc.sh rust {its.crate.root} --edition {its.crate.edition} -- {words}\n")
        file.writelines("\t".join(one) + "\n" for one in result.differences)


def tell(results):
    """The sums, and how often each kind of difference comes."""
    kinds = collections.Counter(kind_of(one[2]) for result in results for one in result.differences)
    errors = sum(result.errors for result in results)
    print(f"{sum(one.functions for one in results)} changed functions of {len({one.crate for one in results})} crates, "
          f"{sum(one.wrong for one in results)} of them with {errors} errors")
    codes = sum((result.codes for result in results), collections.Counter())
    print("  " + ", ".join(f"{count} {code or 'lifetime'}" for code, count in codes.most_common()))
    for kind, count in kinds.most_common():
        print(f"  {count:5} {kind}")


def kind_of(difference):
    """A difference without its numbers."""
    return re.sub(r"\b(\d+:\d+|\d+(, \d+)*|None)\b", "..", difference)


def main(words):
    asked = read_words(words)
    results = []
    with tempfile.TemporaryDirectory(prefix="nllc-built.") as built:
        work = partial(compare, built=built, save=asked.save)
        for result in support.side_by_side(work, tasks(asked), 1, asked.jobs):
            results.append(result)
            became = result.failure or f"{result.functions} functions, {result.errors} errors"
            print(f"{result.crate}, seed {result.seed}: {became}", flush=True)
            for one in result.differences:
                print("  " + "  ".join(one), flush=True)
    tell(results)
    return 1 if any(result.differences for result in results) else 0


def tasks(asked):
    """Each crate by one seed, then by the next one."""
    for seed in range(asked.seed, asked.seed + asked.seeds):
        yield from ((name, seed) for name in asked.crates)


def read_words(words):
    parser = argparse.ArgumentParser(prog="check/run errors", description=__doc__.split("\n")[0])
    parser.add_argument("--seeds", type=int, default=1, help="how often each crate is changed; once")
    parser.add_argument("--seed", type=int, default=1, help="the first seed; 1")
    parser.add_argument("--jobs", type=int, default=2, help="how many crates are compared side by side; 2")
    parser.add_argument("--crates", nargs="+", default=list(CRATES), metavar="NAME")
    parser.add_argument("--save", default="/tmp/nllc-differences", metavar="FOLDER")
    return parser.parse_args(words)


if __name__ == "__main__":
    sys.exit(main(sys.argv[1:]))
