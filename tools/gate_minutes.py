#!/usr/bin/env python3
"""What the gate takes, crate by crate: tools/gate_minutes.py [--log FILE] | --read FILE | --budget

Runs `rt ci` at the top of the repository, with the environment as it is (RT_JOBS ..), and passes on what it
prints. Then comes a table: for each crate the seconds of processor time of its check, its tests and its
edits, and how many these are; a crate of several edits has one more check in them, of the crate as it is.
Below it is what the whole run took. `--log` writes what was measured, and `--read` prints the table of
such a file again; where it has units, it ends with the crates that are above their budgets. `--budget` prints these
budgets, of each layer of crates.txt and of each crate (tools/gate_budget.csv). Ends with the status of `rt ci`; with
`--read` and `--budget` with 0.

A unit is a minute of a processor of the machine on which the first rows of docs/dev/GATE.md were measured. How
much slower this one is, the checks of three crates that hardly change, the yardstick, show in the same run.
"""

import argparse
import collections
import csv
import json
import os
import pathlib
import resource
import shutil
import signal
import subprocess
import sys
import time

from crates import layers_of
from processes import Watch, crate_of, is_edit, seconds_of

ROOT = pathlib.Path(__file__).resolve().parents[1]

# Seconds of their checks on that machine: those of a run of e0f91879, 59 and 28, beside one of 9bc15cf9, whose units are known
# (docs/dev/GATE.md).
YARDSTICK = {"nll_sets": 28.5, "nll_cut": 13.6}
BUDGET = ROOT / "tools" / "gate_budget.csv"
# Beyond this the yardstick's crates tell of different machines, so one of them isn't what it was.
MOST_APART = 2.0


class Row:
    """Seconds of one crate, and the number of its checks in folders of edits."""

    def __init__(self):
        self.seconds = {"check": 0.0, "tests": 0.0, "edits": 0.0}
        self.tries = 0

    def add(self, sample):
        kind = "edits" if is_edit(sample) else "tests" if "--test" in sample["words"] else "check"
        self.seconds[kind] += seconds_of(sample)
        self.tries += kind == "edits"

    def edits(self):
        return self.tries - 1 if self.tries > 1 else self.tries

    def all(self):
        return sum(self.seconds.values())


def rows_of(samples):
    """A row for each crate, of the checks that `rt` itself started."""
    parents = collections.Counter(sample["parent"] for sample in samples)
    rows = collections.defaultdict(Row)
    for sample in samples:
        if sample["parent"] == parents.most_common(1)[0][0] and crate_of(sample):
            rows[crate_of(sample)].add(sample)
    return rows


def slowness(rows):
    """How many times slower this machine is than that of the first rows, or None, and why in words."""
    here = {crate: rows[crate].seconds["check"] if crate in rows else 0 for crate in YARDSTICK}
    missing = [crate for crate, seconds in here.items() if not seconds]
    if missing:
        return None, f"no units: the yardstick's {missing[0]} has no check in this run"
    told = ", ".join(f"{crate} {seconds:.0f} s" for crate, seconds in here.items())
    times = {crate: seconds / YARDSTICK[crate] for crate, seconds in here.items()}
    if max(times.values()) > MOST_APART * min(times.values()):
        apart = ", ".join(f"{crate} {time:.2f}" for crate, time in times.items())
        return None, f"no units: the yardstick's crates don't agree how many times slower it is: {apart}"
    factor = sum(here.values()) / sum(YARDSTICK.values())
    return factor, f"{factor:.2f} times as slow as the machine of the first rows, by the yardstick: {told}"


def line(name, row, edits, factor):
    units = f"{row.all() / 60 / factor:.1f}" if factor else "-"
    seconds = " | ".join(f"{seconds:.0f}" for seconds in row.seconds.values())
    return f"| {name} | {units} | {seconds} | {edits} |"


def budgets(path=BUDGET):
    """The rows of the budget by crate, with numbers for figures."""
    lines = [line for line in path.read_text().splitlines() if not line.startswith("#")]
    return {row.pop("crate"): {name: float(figure or 0) for name, figure in row.items()} for row in csv.DictReader(lines)}


def budget_table():
    """The budget as two tables: by layer, and by crate."""
    rows, figures = budgets(), ("check", "tests", "edits", "units", "budget")
    sums = {layer: {name: sum(rows[crate][name] for crate in crates) for name in figures}
            for layer, _, crates in layers_of(ROOT)}
    sums["all"] = {name: sum(row[name] for row in rows.values()) for name in figures}
    lines = ["| Layer | units | budget |", "|---|---|---|"]
    lines += [f"| {layer} | {row['units']:.1f} | {row['budget']:.1f} |" for layer, row in sums.items()]
    lines += ["", f"| Crate | {' | '.join(figures)} |", "|---|" + "---|" * len(figures)]
    lines += [f"| `{crate}` | " + " | ".join(f"{row[name]:.1f}" if row[name] else "" for name in figures) + " |"
              for crate, row in rows.items()]
    return "\n".join(lines)


def above_budget(rows, factor):
    """A line for each crate that takes more than its budget."""
    for crate, row in budgets().items():
        units = rows[crate].all() / 60 / factor if crate in rows else 0
        if units > row["budget"]:
            yield f"above its budget: `{crate}`, {units:.1f} of {row['budget']:.1f}"


def clock(seconds):
    minutes, seconds = divmod(round(seconds), 60)
    return f"{minutes // 60}:{minutes % 60:02}:{seconds:02}" if minutes >= 60 else f"{minutes}:{seconds:02}"


def table(samples, whole):
    """The table's text; `whole` has user, system and wall seconds of the run, or is None."""
    rows, every = rows_of(samples), Row()
    factor, why = slowness(rows)
    lines = ["| Crate | units | check, s | tests, s | edits, s | edits |", "|---|---|---|---|---|---|"]
    for crate in sorted(rows):
        row = rows[crate]
        lines.append(line(f"`{crate}`", row, row.edits(), factor))
        for kind, seconds in row.seconds.items():
            every.seconds[kind] += seconds
    lines.append(line("all", every, sum(row.edits() for row in rows.values()), factor))
    taken = every.all() / 60
    if whole:
        taken, wall = (whole["user"] + whole["system"]) / 60, clock(whole["wall"])
        user, system, beside = clock(whole["user"]), clock(whole["system"]), taken - every.all() / 60
        lines.append(f"{taken:.1f} core-minutes, user {user}, system {system}, wall {wall}; "
                     f"{beside:.1f} of them not in checks")
    else:
        lines.append(f"{taken:.1f} core-minutes in checks; what the whole run took isn't known")
    if not factor:
        return "\n".join([*lines, why])
    return "\n".join([*lines, why, *above_budget(rows, factor), f"{taken / factor:.1f} units"])


def wait_for(gate):
    """The status of the gate; at Ctrl-C it puts back what it set aside, and ends by itself."""
    before = signal.signal(signal.SIGTERM, lambda *_: gate.terminate())
    while True:
        try:
            status = gate.wait()
            signal.signal(signal.SIGTERM, before)
            return status if status >= 0 else 128 - status
        except KeyboardInterrupt:
            pass


def measure(root, log, pause=0.5):
    """Runs the gate; gives its status, the samples and what the whole run took."""
    began, before = time.monotonic(), resource.getrusage(resource.RUSAGE_CHILDREN)
    gate = subprocess.Popen(["rt", "ci"], cwd=root)
    with Watch(gate.pid, lambda sample: write(log, sample), pause) as watch:
        status = wait_for(gate)
    after = resource.getrusage(resource.RUSAGE_CHILDREN)
    whole = {"user": after.ru_utime - before.ru_utime, "system": after.ru_stime - before.ru_stime,
             "wall": time.monotonic() - began}
    write(log, {"whole": whole})
    return status, watch.gone, whole


def write(log, what):
    print(json.dumps(what), file=log, flush=True)


def read_log(path):
    lines = [json.loads(text) for text in path.read_text().splitlines()]
    whole = [found["whole"] for found in lines if "whole" in found]
    return [found for found in lines if "whole" not in found], whole[0] if whole else None


def main(words, root=ROOT, pause=0.5):
    parser = argparse.ArgumentParser(description="What the gate takes, crate by crate.")
    one = parser.add_mutually_exclusive_group()
    one.add_argument("--log", default=os.devnull, help="write what was measured to this file")
    one.add_argument("--read", type=pathlib.Path, help="print the table of such a file, and run nothing")
    one.add_argument("--budget", action="store_true", help="print what each layer and each crate may take")
    asked = parser.parse_args(words)
    if asked.budget:
        print(budget_table())
        return 0
    if asked.read:
        print(table(*read_log(asked.read)))
        return 0
    if not shutil.which("rt"):
        print("rt, the command of the Rattle kit, isn't on the PATH", file=sys.stderr)
        return 127
    with open(asked.log, "w") as log:
        status, samples, whole = measure(root, log, pause)
    print(table(samples, whole))
    return status


if __name__ == "__main__":
    sys.exit(main(sys.argv[1:]))
