#!/usr/bin/env python3
"""Tries the wrong bodies that the gate doesn't, or lists all of them.

    tools/wrong_bodies.py [--all] [--since COMMIT] [--jobs N] [CRATE ..]
    tools/wrong_bodies.py --list [CRATE ..]

They are in crates/*/wrong-bodies, and each is an edit as those of must-fail/ are. They are tried in a copy of the
repository, several crates side by side, and of one crate those that change different functions in one check
(tools/rounds.py); the libraries below are proved first, where the working tree keeps no proof of them. The copy takes
next to no disk: its libraries are second names of the tree's.
`--all` tries the edits of must-fail/ too, before a release. `--since` leaves out the crates that are as they
were at that commit and depend on none that says something else since; tools/changes.py finds them. Where
crates are named, no others are tried.

For each edit it prints what refused it:

- a clause's goal: no search answers it any more, or its written answer (in Answers.antt) isn't one any more;
- a step of a proof file: a lemma or an invariant that the changed text makes wrong;
- a missing name: a proof file names what the edit took away, which says little of the contract.

Ends with 0 where the prover refused each.

`--list` tries nothing. It prints what the first lines of each edit say, those of must-fail/ too: what is wrong,
and the function and clause that refuse it.
"""

import argparse
import collections
import concurrent.futures
import pathlib
import re
import shutil
import signal
import sys
import tempfile

from changes import changes_since
from crates import above, below, edits_in, uses_of
from proving import most_at_once, prove
from rooms import Room, copy, library_of, link
from rounds import GOAL, NAME, NONE, STEP, read_edit, try_edits

ROOT = pathlib.Path(__file__).resolve().parents[1]
FOLDERS = ("wrong-bodies", "must-fail")
# The crate of the copy that stands on each library which a tried crate uses.
LIBRARIES = "libraries_to_prove"
# The two lines with which each edit begins.
HEADER = re.compile(r"# wrong: (?P<wrong>.+)\n# refused by: (?P<by>.+)\n")


def crates_with(root, folders):
    """The names of the crates that have edits in one of these folders."""
    return sorted({folder.parent.name for name in folders for folder in root.glob(f"crates/*/{name}")
                   if edits_in(root, folder.parent.name, name)})


def header_of(text):
    """What an edit says is wrong, and what refuses it; or None where it doesn't begin with these two lines."""
    found = HEADER.match(text)
    return found and (found["wrong"], found["by"])


def listed(root, crates):
    """Two lines for each edit of these crates, in the order of crates.txt."""
    for crate in uses_of(root):
        for folder in reversed(FOLDERS) if crate in crates else ():
            for path in edits_in(root, crate, folder):
                wrong, by = header_of(pathlib.Path(path).read_text()) or ("(it doesn't say)", "(it doesn't say)")
                yield f"{crate}/{folder}/{pathlib.Path(path).stem}: {wrong}\n    refused by {by}"


def changed_since(root, commit):
    """The crates whose edits may have another answer than at the commit."""
    changes, uses = changes_since(root, commit), uses_of(root)
    return changes.crates | changes.edits | set(above(uses, changes.saying))


def libraries_of(root, crates):
    """The libraries below these crates."""
    uses = uses_of(root)
    return sorted({library for crate in crates for library in below(uses, crate)})


def copied(root, room, libraries):
    """Copies the repository, and of what its checks kept the libraries alone, by second names."""
    shutil.copytree(root, room, symlinks=True, ignore=shutil.ignore_patterns(".git", "out"))
    for library in libraries:
        copy(library_of(root, library), library_of(room, library), link)


def prove_libraries(room, libraries, jobs):
    """Proves the libraries in the copy, and says which isn't."""
    if not libraries:
        return True
    source = room / "crates" / LIBRARIES / "src"
    source.mkdir(parents=True)
    (source / "lib.rt").write_text("#![tactic(auto)]\n")
    with open(room / "crates.txt", "a") as file:
        file.write(f"{LIBRARIES}: {' '.join(libraries)}\n")
    log = room / "libraries.log"

    def told(crate, is_proved, is_new):
        if crate != LIBRARIES and (is_new or not is_proved):
            print(f"library {crate}: {'proved' if is_proved else 'NOT PROVED'}", flush=True)

    with open(log, "w") as file:
        status = prove(source.parent, jobs, told, file)
    if status:
        print(*log.read_text().splitlines()[-30:], sep="\n")
    return status == 0


def edits_of(root, crate, folders):
    """The edits of a crate in these folders."""
    return [read_edit(crate, path) for folder in folders for path in edits_in(root, crate, folder)]


def show(tried):
    """A line for each edit that says what came of it."""
    for one in tried:
        said = one.text if one.by == NONE else f"refused by {one.by}: {one.text}"
        print(f"{one.crate}/{one.edit}: {said}", flush=True)


def try_crate(root, crate, folders):
    """Tries the edits of one crate; gives what came of each."""
    room = Room(root, crate, libraries_of(root, [crate]))
    try:
        room.open()
        return try_edits(edits_of(root, crate, folders), room.folder, show)
    finally:
        room.remove()


def try_all(root, crates, folders, jobs):
    """Tries the edits of these crates, so many crates at a time, those with the most edits first."""
    crates = sorted(crates, key=lambda crate: -len(edits_of(root, crate, folders)))
    with concurrent.futures.ThreadPoolExecutor(jobs) as pool:
        running = [pool.submit(try_crate, root, crate, folders) for crate in crates]
        return [one for ended in running for one in ended.result()]


def count(tried):
    by = collections.Counter(one.by for one in tried)
    return (f"{len(tried)} tried, {by[GOAL]} refused by {GOAL}, {by[STEP]} by {STEP}, {by[NAME]} by {NAME}, "
            f"{by[NONE]} not refused")


def read_words(words):
    parser = argparse.ArgumentParser(description="Tries the wrong bodies that the gate doesn't.")
    parser.add_argument("--all", action="store_true", help="try those of must-fail/ too")
    parser.add_argument("--list", action="store_true", help="print what each edit says, and try nothing")
    parser.add_argument("--since", metavar="COMMIT", help="leave out what hasn't changed since then")
    parser.add_argument("--jobs", type=int, metavar="N", help="how many checks at a time")
    parser.add_argument("crates", nargs="*", metavar="CRATE")
    return parser.parse_args(words)


def main(words, root=ROOT):
    asked = read_words(words)
    folders = FOLDERS if asked.all or asked.list else FOLDERS[:1]
    known = crates_with(root, folders)
    unknown = [word for word in asked.crates if word not in known]
    if unknown:
        print(f"{unknown[0]} has no wrong bodies; these have: {' '.join(known)}", file=sys.stderr)
        return 2
    crates = set(asked.crates or known)
    if asked.list:
        print(*listed(root, crates), sep="\n")
        return 0
    try:
        crates &= changed_since(root, asked.since) if asked.since else crates
    except ValueError as error:
        print(error, file=sys.stderr)
        return 2
    if not crates:
        print(count([]))
        return 0
    libraries, jobs = libraries_of(root, crates), asked.jobs or most_at_once()
    with tempfile.TemporaryDirectory(prefix="nllc-") as folder:
        room = pathlib.Path(folder) / "copy"
        copied(root, room, libraries)
        if not prove_libraries(room, libraries, jobs):
            return 1
        tried = try_all(room, crates, folders, jobs)
    print(count(tried))
    return 0 if all(one.by != NONE for one in tried) else 1


if __name__ == "__main__":
    signal.signal(signal.SIGPIPE, signal.SIG_DFL)    # a reader such as `head` may stop early
    sys.exit(main(sys.argv[1:]))
