#!/usr/bin/env python3
"""Refuses each growth of memory of runs of five worked problems, as the last part of the gate.

    check/run rows [--seconds N] [--nllc PATH] [--tests PATH] [--before LINE]

Of each problem the program answers `values` on one thread, and by two owners over queues and over rings. The tests
`repeated_runs` run each of them by one owner and by two, over both kinds of mailboxes and of ledgers. The program and
the tests are those that `rt ci` built, by default. `refuse.c` refuses the first growth of memory of a run, then the
second, and so on, until a run meets no refusal.

A run of the program is to give the whole right answer, or status 3, nothing on standard output and `nllc: memory`, or
with owners `nllc: thread`: the C library asks for memory to start a thread. It may keep no more blocks of memory to
its end than runs that are refused nothing. A run of a test is to pass: where a run in it is refused, the test runs the
same problem, cut, mailboxes, ledger and gate again, and compares what comes of it.

Prints each run that ends otherwise, and a line for each problem and test. What isn't tried after `--seconds` (100 by
default) is skipped, spread over all growths, and the line says how many. The last line is as `rt ci` prints one,
with what that passed and failed (`--before`) added; status 1 where anything failed.
"""

import argparse
import collections
import concurrent.futures
import os
import pathlib
import re
import sys
import tempfile
import time

sys.path.insert(0, str(pathlib.Path(__file__).resolve().parents[1]))

from paths import PROGRAM, ROOT  # noqa: E402 (it stands in check/)
from allocator import KEPT_BY_THREADS, Allocator  # noqa: E402
from running import MEMORY, UNSTARTED  # noqa: E402
from text_tables import cases, filled  # noqa: E402

ONE_THREAD, OWNERS = ([],), (["--owners", "2"], ["--owners", "2", "--mail", "ring"])
# So many runs behind those of the first one's growths, where all were refused, are one too many.
MOST_MORE = 200
SECONDS_EACH = 60.0

# What a run of one command may end as, where no growth or one is refused. A test has no answer, but passes.
Job = collections.namedtuple("Job", "name command answer refusals")
Count = collections.namedtuple("Count", "growths tried refused wrong")


def worked(table, name):
    """A worked text, and what `values` prints of it."""
    case = next(one for one in cases(table) if one.name == name)
    return case.text.decode(), "".join(f"{line}\n" for line in case.lines)


MANY = filled(b"nll-facts 1\npoints 300\nregion '1\nregion '2\n{299 p*next $p $[p + 1]\n}return 299\n{300 p*base '1 $p\n}"
              b"constraint '2 '1 0\nend\n").decode()
EACH_POINT = " ".join(map(str, range(300)))

# A facts text or a MIR text, and what `values` prints of it.
PROBLEMS = {
    "reached": worked("facts_worked", "region_takes_path"),
    "by turns": worked("facts_worked", "regions_feed_each_other"),
    "filled hole": worked("facts_worked", "hole_is_filled"),
    "running body": worked("mir_worked", "running"),
    "many": (MANY, f"'static: {EACH_POINT} end('static)\n'1: {EACH_POINT}\n'2: {EACH_POINT}\n"),
}
TESTS = ["queues_and_words", "queues_and_lock", "rings_and_words", "rings_and_lock", "a_body_over_queues",
         "a_body_over_rings", "full_queues", "full_rings"]


def jobs_of(nllc, tests, folder):
    """What is run; the texts are written into the folder."""
    jobs = []
    for name, (text, values) in PROBLEMS.items():
        path = os.path.join(folder, name.replace(" ", "_"))
        pathlib.Path(path).write_text(text)
        for ways, refusals in ((ONE_THREAD, {MEMORY}), (OWNERS, {MEMORY, UNSTARTED})):
            for way in ways:
                told = " ".join([f"values of {name}", *way])
                jobs.append(Job(told, [nllc, "values", *way, path], (0, values.encode(), b""), refusals))
    return jobs + [Job(f"repeated_runs::{test}", [tests, f"repeated_runs::{test}"], None, set()) for test in TESTS]


def is_right(job, run):
    """Whether a run gave the whole right answer, or passed."""
    if job.answer:
        return run.answer == job.answer
    return run.answer[0] == 0 and b"test result: ok" in run.answer[1] + run.answer[2]


def spread(growths):
    """The numbers of the growths in an order of which each beginning is spread over all of them."""
    return sorted(range(1, growths + 1), key=lambda at: f"{at:032b}"[::-1])


class Refuser:
    """Has runs refused, several at a time."""

    def __init__(self, allocator, pool):
        self.allocator, self.pool = allocator, pool

    def fault_of(self, job, run, most_left):
        """What is wrong with a run that was refused a growth, or nothing."""
        if not is_right(job, run) and run.answer not in job.refusals:
            return f"{run.answer!r}"
        if job.answer and run.left > most_left:
            return f"{run.left - most_left} blocks of memory left"
        return None

    def judge(self, job, at, most_left, until):
        """The run whose growth of this number was refused, and what is wrong with it; nothing once time is up."""
        if time.monotonic() > until:
            return None
        run = self.allocator.run(job.command, at, SECONDS_EACH)
        fault = self.fault_of(job, run, most_left)
        if fault:
            print(f"{job.name}, growth {at} refused: {fault}")
        return run, fault

    def refuse_each(self, job, until):
        """Refuses each growth of a job, as long as there is time; prints what went wrong."""
        usual = [self.allocator.run(job.command, 0, SECONDS_EACH) for _ in range(3)]
        growths, most_left = usual[0].growths, max(run.left for run in usual)
        most_left += KEPT_BY_THREADS if UNSTARTED in job.refusals else 0
        wrong = sum(not is_right(job, run) for run in usual)
        if wrong or not growths:
            print(f"{job.name}, nothing refused: {usual[0].answer!r}, {growths} growths of memory")
            return Count(growths, 0, 0, wrong or 1)
        judged = self.pool.map(lambda at: self.judge(job, at, most_left, until), spread(growths))
        judged = [one for one in judged if one]
        if len(judged) == growths:
            judged += self.refuse_behind(job, growths, most_left, until)
        refused = sum(run.answer in job.refusals for run, _ in judged)
        return Count(growths, len(judged), refused, sum(fault is not None for _, fault in judged))

    def refuse_behind(self, job, growths, most_left, until):
        """Goes on behind the growths of the usual run, until a run meets no refusal."""
        judged = []
        for at in range(growths + 1, growths + MOST_MORE):
            one = self.judge(job, at, most_left, until)
            judged += [one] if one else []
            if not one or one[0].growths < at:
                return judged
        return [*judged, (judged[-1][0], f"still refused at growth {growths + MOST_MORE}")]


def refuse_all(jobs, allocator, number, seconds):
    """Refuses each growth of each job, and prints a line for each; gives their counts."""
    counts, end = [], time.monotonic() + seconds
    with concurrent.futures.ThreadPoolExecutor(number) as pool:
        refuser = Refuser(allocator, pool)
        for place, job in enumerate(jobs):
            now = time.monotonic()
            count = refuser.refuse_each(job, now + max(0, end - now) / (len(jobs) - place))
            if job.answer and not count.refused:
                count = count._replace(wrong=count.wrong or 1)
            counts.append(count)
            print(f"{job.name}: {count.growths} growths of memory, {count.tried} runs with one refused, "
                  f"{max(0, count.growths - count.tried)} skipped, {count.wrong} wrong", flush=True)
    return counts


def read_words(words):
    parser = argparse.ArgumentParser(description=__doc__.split("\n", maxsplit=1)[0])
    parser.add_argument("--seconds", type=float, default=100.0, help="what isn't tried after this time is skipped")
    parser.add_argument("--nllc", default=str(PROGRAM))
    parser.add_argument("--tests", default=str(ROOT / "crates/nll_run_tests/out/nll_run_tests_tests"))
    parser.add_argument("--before", default="0 passed, 0 failed", help="the last line of `rt ci`")
    return parser.parse_args(words)


def main(words):
    asked = read_words(words)
    before = re.fullmatch(r"(\d+) passed, (\d+) failed", asked.before)
    if not before:
        print(f"--before {asked.before}: no line as `rt ci` ends with", file=sys.stderr)
        return 2
    missing = [path for path in (asked.nllc, asked.tests) if not os.access(path, os.X_OK)]
    if missing:
        print(f"no program at {missing[0]}: `rt ci` builds it")
        print(f"{before[1]} passed, {int(before[2]) + 1} failed")
        return 1
    with tempfile.TemporaryDirectory() as folder:
        jobs = jobs_of(asked.nllc, asked.tests, folder)
        counts = refuse_all(jobs, Allocator(folder), len(os.sched_getaffinity(0)), asked.seconds)
    growths, tried, _, wrong = (sum(column) for column in zip(*counts))
    failed = sum(count.wrong > 0 for count in counts)
    skipped = sum(max(0, count.growths - count.tried) for count in counts)
    print(f"memory refused: {growths} growths of {len(jobs)} commands, {tried} runs, {skipped} skipped, {wrong} wrong")
    print(f"{int(before[1]) + len(jobs) - failed} passed, {int(before[2]) + failed} failed")
    return 1 if failed or int(before[2]) else 0


if __name__ == "__main__":
    sys.exit(main(sys.argv[1:]))
