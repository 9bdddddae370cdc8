#!/usr/bin/env python3
"""Times `replay` of long schedules over one text, compared with the partner's, and prints Markdown tables.

    measure_replays.py --nllc PATH --baseline PATH --text FILE --schedules FOLDER [--owners "COUNT .."]
                       [--events "COUNT .."] [--deal DEAL] [--runs N]

replays.sh calls it. The folder has for each number of owners and of events a schedule, and the same one with a last
line that is refused; outputs go there too. Times are best wall times of some runs, for which all schedules and
programs take turns. Arguments may follow PATH.
"""

import collections
import filecmp
import math
import os
import shlex

from timing import Failed, end, ended, head, machine, options, row, run

# What is wanted of the longest schedule: seconds, and MiB.
MOST_SECONDS = 3.0
MOST_MEMORY = 1024

COLUMNS = ("owners | events | done | `nllc` s | reading s | events s | ns an event | partner s | partner's events s "
           "| ratio | `nllc` MiB | partner MiB")


class Row:
    """The best times and the peaks of a schedule, by program and by whether it is refused."""

    def __init__(self, args, owners, events):
        self.args = args
        self.owners = owners
        self.events = events
        self.best = collections.defaultdict(lambda: math.inf)
        self.peak = collections.Counter()

    def path(self, suffix):
        return os.path.join(self.args.schedules, f"{self.owners}-{self.events}.{suffix}")

    def take(self, who, suffix):
        """One run of a program. Its output is kept."""
        dealt = ["--owners", str(self.owners), "--deal", self.args.deal]
        command = [*self.args.programs[who], "replay", self.args.text, "--schedule", self.path(suffix), *dealt]
        found = run(command, self.args.seconds, self.path(f"{suffix}-{who}"))
        line = f"nllc: schedule line {self.events + 2}: range"
        wanted = (0, "") if suffix == "schedule" else (2, line)
        if (found.status, found.err) != wanted:
            raise Failed(f"{' '.join(command)}: status {found.status} {found.err}")
        self.best[who, suffix] = min(self.best[who, suffix], found.wall)
        self.peak[who] = max(self.peak[who], found.peak)

    def check(self):
        """Raises where the outputs of the programs differ; else lets them go. Counts the events that were done."""
        first, *others = [self.path(f"schedule-{who}") for who in self.args.programs]
        if not all(filecmp.cmp(first, other, shallow=False) for other in others):
            raise Failed(f"UNLIKE outputs {first}")
        with open(first, "rb") as file:
            self.done = sum(line.endswith(b" done\n") for line in file)
        for path in (first, *others):
            os.remove(path)

    def print(self):
        whole = {who: self.best[who, "schedule"] for who in self.args.programs}
        beyond = {who: whole[who] - self.best[who, "refused"] for who in whole}
        each = f"{beyond['nllc'] / self.events * 1e9:.0f}" if self.events else ""
        ratio = f"{beyond['nllc'] / beyond['partner']:.2f}" if self.events and beyond["partner"] > 0 else ""
        row(self.owners, f"{self.events:,}", f"{self.done:,}", f"{whole['nllc']:.3f}", f"{self.best['nllc', 'refused']:.3f}",
            f"{beyond['nllc']:.3f}", each, f"{whole['partner']:.3f}", f"{beyond['partner']:.3f}", ratio,
            f"{self.peak['nllc']:.1f}", f"{self.peak['partner']:.1f}")


def print_values(args):
    """Prints what `values` of the text takes."""
    command = [*args.programs["nllc"], "values", args.text]
    found = [ended(command, args.seconds, (0,)) for _ in range(args.runs)]
    print(f"\n`values` of the same text: {min(one.wall for one in found):.3f} s, "
          f"{max(one.peak for one in found):.1f} MiB.")


def print_wanted(rows):
    """Prints whether the longest schedules take no more than is wanted."""
    most = max(row.events for row in rows)
    rows = [row for row in rows if row.events == most]
    seconds = all(row.best["nllc", "schedule"] < MOST_SECONDS for row in rows)
    memory = all(row.peak["nllc"] < MOST_MEMORY for row in rows)
    print(f"{most:,} events below {MOST_SECONDS:.0f} s: {'yes' if seconds else 'no'}; below {MOST_MEMORY} MiB: "
          f"{'yes' if memory else 'no'}.")


def tables(args):
    """Prints all rows, and whether what is wanted is met; raises where a run goes wrong."""
    rows = [Row(args, int(owners), int(events)) for owners in args.owners.split() for events in args.events.split()]
    for _ in range(args.runs):
        for one in rows:
            for suffix in ("schedule", "refused"):
                for who in args.programs:
                    one.take(who, suffix)
    head(COLUMNS)
    for one in rows:
        one.check()
        one.print()
    print_values(args)
    print_wanted(rows)
    print(f"Load at the end {os.getloadavg()[0]:.1f}.")
    return True


def main():
    parser = options(__doc__, "nllc baseline owners deal", owners="2 16")
    parser.add_argument("--text", required=True)
    parser.add_argument("--schedules", required=True, help="folder of the schedules, and for outputs")
    parser.add_argument("--events", default="0 250000 500000 1000000")
    args = parser.parse_args()
    args.programs = {"nllc": shlex.split(args.nllc), "partner": shlex.split(args.baseline)}
    print(f"`replay` of `{os.path.basename(args.text)}`, {os.path.getsize(args.text) / (1 << 20):.2f} MiB, best wall "
          f"seconds of {args.runs} runs of each program in turn; {machine(args)}")
    end(lambda: tables(args))


if __name__ == "__main__":
    main()
