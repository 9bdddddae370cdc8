#!/usr/bin/env python3
"""Runs nllc with owners for as long as asked, as its users might, and worse.

    check/run soak [--nllc PATH] --minutes M [--jobs N] [--seed S] [--save FOLDER] [FILE..]

Of small random texts, and of each FILE, the program answers `values` and `check` with 1 to 16 owners, assigned
round-robin, in blocks or by a random cut file, over queues or rings; as many runs at once as `--jobs`, by default
three times the processors. One run in three has a growth of memory refused (`refuse.c`), one in six little
memory to address. Each run is to end by itself as a run on one thread does, byte by byte; where memory is
refused it may also answer `nllc: memory` or `nllc: thread`, with status 3 and nothing on standard output. None
may leave a process behind, or more blocks of memory than another run of the same owners that isn't refused
anything. Prints each run that ends otherwise, and saves its text; a line each minute; and last
`N runs, M refused, W wrong`, with status 1 where W isn't 0.
"""

import argparse
import concurrent.futures
import os
import pathlib
import random
import subprocess
import sys
import tempfile
import threading
import time

import paths  # noqa: F401 (it says where the others stand)
import small_facts
import small_mir
from allocator import KEPT_BY_THREADS, Allocator
from comparing import write
from running import ADDRESSES, KIB, MEMORY, UNSTARTED



class Soak:
    """What is run, and what came of it so far."""

    def __init__(self, args, folder):
        self.args, self.folder = args, folder
        self.lock = threading.Lock()
        self.runs = self.refused = self.wrong = 0
        self.allocator = Allocator(folder)

    def run(self, words, at=0, kib=None):
        """The answer of a run, how many growths it asked for, and how many blocks it left."""
        limits = [(ADDRESSES, kib * KIB)] if kib else []
        return self.allocator.run([self.args.nllc, *words], at, self.args.seconds, limits)

    def note(self, is_right, is_refused, words, answer, texts):
        """Counts a run, and keeps the texts of one that is wrong."""
        with self.lock:
            self.runs += 1
            self.refused += is_refused
            self.wrong += not is_right
            number = self.wrong
        if is_right:
            return
        os.makedirs(self.args.save, exist_ok=True)
        for name, text in texts.items():
            write(os.path.join(self.args.save, f"{number}-{name}"), text)
        print(" ".join(words), repr(answer)[:300], flush=True)


def words_of_owners(rng, regions, folder, name):
    """Options of random owners, and the text of their cut file, if they have one."""
    owners = rng.randint(1, 16)
    words = ["--owners", str(owners), "--mail", rng.choice(["queue", "ring"])]
    deal = rng.choice(["round", "blocks", "cut"])
    if deal != "cut" or regions is None:
        return [*words, "--deal", "round" if deal == "cut" else deal], None
    path = os.path.join(folder, f"{name}.cut")
    cut = b"nll-cut 1\n" + b"".join(b"%d\n" % rng.randrange(owners) for _ in range(regions))
    write(path, cut)
    return [*words, "--cut", path], cut


def text_of(soak, rng):
    """A small text of either format, or a file's."""
    is_mir = rng.random() < 0.3
    if soak.args.files and rng.random() < 0.2:
        return pathlib.Path(rng.choice(soak.args.files)).read_bytes()
    return (small_mir if is_mir else small_facts).small(rng)


def one_round(soak, seed):
    """One text, and some runs of it."""
    rng = random.Random(seed)
    name = f"text-{seed}"
    path = os.path.join(soak.folder, name)
    text = text_of(soak, rng)
    write(path, text)
    task = rng.choice(["values", "check"])
    usual = soak.run([task, path]).answer
    values = usual if task == "values" else soak.run(["values", path]).answer
    regions = values[1].count(b"\n") if values[0] == 0 else None
    for _ in range(4):
        options, cut = words_of_owners(rng, regions, soak.folder, name)
        words = [task, *options, path]
        answer, growths, kept = soak.run(words)
        texts = {name: text, **({f"{name}.cut": cut} if cut else {})}
        soak.note(answer == usual, False, words, answer, texts)
        if rng.random() < 0.33 and growths:
            at = rng.randint(1, growths)
            answer, _, left = soak.run(words, at)
            is_refused = answer in (MEMORY, UNSTARTED)
            is_right = (is_refused or answer == usual) and left <= max(kept, KEPT_BY_THREADS * 16)
            soak.note(is_right, is_refused, [*words, f"refused {at}", f"left {left}"], answer, texts)
        if rng.random() < 0.17:
            kib = rng.randint(3 * KIB, 200 * KIB)
            answer = soak.run(words, kib=kib).answer
            is_refused = answer in (MEMORY, UNSTARTED)
            is_right = is_refused or answer == usual or answer[0] == 127
            soak.note(is_right, is_refused, [*words, f"{kib} KiB"], answer, texts)
    for left in (path, f"{path}.cut"):
        write(left, None)


def soak_for(soak, minutes, jobs, seed):
    """Rounds until the time is over."""
    begun = said = time.monotonic()
    with concurrent.futures.ThreadPoolExecutor(jobs) as pool:
        waiting = set()
        while time.monotonic() < begun + 60 * minutes:
            while len(waiting) < 2 * jobs:
                waiting.add(pool.submit(one_round, soak, seed))
                seed += 1
            done, waiting = concurrent.futures.wait(waiting, 1.0, concurrent.futures.FIRST_COMPLETED)
            for each in done:
                each.result()
            if time.monotonic() > said + 60:
                said = time.monotonic()
                print(f"{soak.runs} runs so far, {soak.refused} refused, {soak.wrong} wrong", flush=True)


def main():
    parser = argparse.ArgumentParser(description=__doc__.splitlines()[0])
    parser.add_argument("--nllc", required=True, help="the program to try")
    parser.add_argument("--minutes", type=float, required=True)
    parser.add_argument("--jobs", type=int, default=3 * (os.cpu_count() or 1), help="runs at once")
    parser.add_argument("--seed", type=int, default=1)
    parser.add_argument("--seconds", type=float, default=60.0, help="time limit of a run")
    parser.add_argument("--save", default="/tmp/nllc-soak", help="folder for texts that went wrong")
    parser.add_argument("files", metavar="FILE", nargs="*")
    args = parser.parse_args()
    with tempfile.TemporaryDirectory() as folder:
        soak = Soak(args, folder)
        soak_for(soak, args.minutes, args.jobs, args.seed)
        left = subprocess.run(["pgrep", "-f", folder], capture_output=True, check=False).stdout
    if left:
        print("processes left behind:", left.decode().split())
    print(f"{soak.runs} runs, {soak.refused} refused, {soak.wrong} wrong")
    return 1 if soak.wrong or left else 0


if __name__ == "__main__":
    sys.exit(main())
