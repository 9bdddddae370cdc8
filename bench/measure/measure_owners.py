#!/usr/bin/env python3
"""Times solving by owners, compared with the solver and the partner's owners, and prints a Markdown table.

    measure_owners.py --program PATH --baseline PATH --texts FOLDER [--inputs FOLDER]

owners.sh calls it. The seconds are the processor time that the programs report of themselves: of
owners, to make them, to load them, and all of their turns. The bar is twice the solver's seconds, 60
nanoseconds for each growth that is grown and 250 for each that is received.
"""

import os
import sys
import tempfile
from collections import Counter

from timing import Failed, end, ended, groups_of, head, machine, numbers_in, options, row

# The most seconds, and MiB of the whole process, for 64 owners of the family `full`.
LIMITS = ("full", 64, 3.0, 400.0)

COLUMNS = "text | owners | solver s | grown | received | owners s | bar s | met | partner s | ratio | peak MiB"


def told(args, command):
    """What a run tells, as numbers by their names, and its peak."""
    found = ended(command, args.seconds, (0,), args.out)
    return {"peak": found.peak, **numbers_in(args.out)}


def seconds_of(numbers):
    """The seconds of a solver, or those of owners."""
    parts = ("make", "load", "turns") if "make" in numbers else ("solve",)
    return sum(numbers[part] for part in parts) / 1e6


def add_text(args, sums, text, owners):
    """Adds what one text takes to a row, by the quickest of some runs. Answers why it can't, or nothing."""
    commands = {
        "solver": [args.program, text, "solve"],
        "owners": [args.program, text, args.order, args.deal, str(owners)],
        "partner": [args.baseline, "owners", str(owners), text],
    }
    found = {}
    for who, command in commands.items():
        try:
            found[who] = min((told(args, command) for _ in range(args.runs)), key=seconds_of)
        except Failed as failed:
            print(failed, file=sys.stderr)
            return f"{who} past {args.seconds:.0f} s or its memory"
        sums[who] += seconds_of(found[who])
    sums["grown"] += found["owners"]["elements"]
    sums["received"] += found["owners"]["received"]
    sums["peak"] = max(sums["peak"], found["owners"]["peak"])
    values = {(numbers["elements"], numbers["digest"]) for numbers in found.values()}
    return "" if len(values) == 1 else "UNLIKE"


def print_row(args, name, texts, owners):
    """Prints a row. Answers its figures, and whether all of it ended with the same values."""
    sums = Counter()
    for text in texts:
        wrong = add_text(args, sums, text, owners)
        if wrong:
            row(name, owners, *[""] * 5, f"{wrong} ({os.path.basename(text)})", "", "", "")
            return sums, False
    bar = 2 * sums["solver"] + 60e-9 * sums["grown"] + 250e-9 * sums["received"]
    row(name, owners, f"{sums['solver']:.4f}", sums["grown"], sums["received"], f"{sums['owners']:.4f}", f"{bar:.4f}",
        "yes" if sums["owners"] <= bar else "no", f"{sums['partner']:.4f}", f"{sums['owners'] / sums['partner']:.2f}",
        f"{sums['peak']:.1f}")
    return sums, True


def print_rows(args):
    """Prints all rows. Answers whether each ended with the same values."""
    fine, last = True, ""
    for name, texts in groups_of(args):
        for owners in map(int, args.owners.split()):
            sums, ended = print_row(args, name, texts, owners)
            fine = fine and ended
            if (name, owners) == LIMITS[:2] and ended:
                last = (f"\n{owners} owners of `{name}`: {sums['owners']:.2f} s (at most "
                        f"{LIMITS[2]}), {sums['peak']:.0f} MiB (at most {LIMITS[3]:.0f}).")
    print(last)
    return fine


def main():
    parser = options(__doc__, "program baseline texts inputs owners", owners="1 2 4 16 64")
    parser.add_argument("--order", choices=["owners", "turns"], default="owners",
                        help="whether an owner posts after it received all, or after each growth")
    parser.add_argument("--deal", default="round",
                        help="how the program assigns regions; the partner does so round-robin")
    args = parser.parse_args()
    print(f"Owners on one thread, best of {args.runs} runs of each program; {machine(args)}")
    head(COLUMNS)
    with tempfile.NamedTemporaryFile() as out:
        args.out = out.name
        end(lambda: print_rows(args))


if __name__ == "__main__":
    main()
