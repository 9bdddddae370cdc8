#!/usr/bin/env python3
"""Times owners in threads, compared with one thread and with the partner's owners, and prints Markdown tables.

    measure_threads.py --nllc PATH --baseline PATH --texts FOLDER --outputs FOLDER [--inputs FOLDER]

threads.sh calls it. Next to each text the folder `refused` has the same one with a last line that is
refused. The seconds are those of `check`, less those of the refused text: best wall times of some runs, for
which the programs take turns. Arguments may follow PATH.
"""

import filecmp
import math
import os
import shlex
from collections import Counter, namedtuple

from timing import Failed, end, ended, groups_of, head, machine, numbers_in, options, row

# Stands among numbers of owners for one thread that has no owners.
ONE = 0

# Stands among numbers of owners for reading a text that is refused.
READING = "reading"

# The families that aren't dealt as the others are.
DEALS = {"islands": "blocks"}

# What is wanted.
MOST_TIME = 1.5
MOST_MEMORY = 1.5
SOLVER_TIMES = 2
GROWN_SECONDS = 100e-9
RECEIVED_SECONDS = 250e-9
ISLANDS = ("islands", 4, 0.4)
MANY = (16, 3, 32)

# A difference of times of which reading is a part may be off by this share of reading.
NOISE = 0.03

MIB = 1 << 20

COLUMNS = ("text | owners | grown | received | `nllc` s | bar s | partner s | ratio | growths a second "
           "| `nllc` MiB | partner MiB | ratio | not met")

# The sums and the peaks of one number of owners.
Figures = namedtuple("Figures", "seconds peaks counts")


def command_of(program, command, text, owners, deal):
    options = ["--owners", str(owners), "--deal", deal] if owners != ONE else []
    return [*program, command, text, *options]


def refused_of(text):
    return os.path.join(os.path.dirname(text), "refused", os.path.basename(text))


def time_of(args, program, text, kind, deal):
    """The time of a program to read and refuse a text, or to answer `check` by so many owners."""
    if kind == READING:
        return ended(command_of(program, "check", refused_of(text), ONE, deal), args.seconds, (2,)).wall
    return ended(command_of(program, "check", text, kind, deal), args.seconds, (0, 1)).wall


def best_times(args, text, deal):
    """The best times of each program: to read and refuse a text, and to answer by each number of owners."""
    best = {kind: dict.fromkeys(args.programs, math.inf) for kind in [READING, *args.counts]}
    for _ in range(args.runs):
        for kind, times in best.items():
            for who, program in args.programs.items():
                times[who] = min(times[who], time_of(args, program, text, kind, deal))
    return best


def values_peaks(args, text, owners, deal):
    """The peak of each program on `values`. Its output must be that of `nllc` on one thread."""
    want = os.path.join(args.outputs, "one")
    peaks = {}
    for who, program in args.programs.items():
        is_first = owners == ONE and who == "nllc"
        out = want if is_first else os.path.join(args.outputs, who)
        peaks[who] = ended(command_of(program, "values", text, owners, deal), args.seconds, (0,), out).peak
        if not filecmp.cmp(want, out, shallow=False):
            raise Failed(f"UNLIKE values of {who}, {owners} owners, {text}")
    return peaks


def counts_of(args, text, owners, deal):
    """How much grew and was received, as the partner tells."""
    if owners == ONE:
        return {"grown": 0, "received": 0}
    out = os.path.join(args.outputs, "counts")
    ended(command_of(args.programs["partner"], "counts", text, owners, deal), args.seconds, (0,), out)
    return numbers_in(out)


def add_text(args, found, text, deal):
    """Adds what one text takes, for each number of owners, and what reading it takes."""
    best = best_times(args, text, deal)
    reading = best[READING]
    found[READING].update(reading)
    for owners in args.counts:
        peaks = values_peaks(args, text, owners, deal)
        counts = counts_of(args, text, owners, deal)
        figures = found.setdefault(owners, Figures(Counter(), [], Counter()))
        figures.seconds.update({who: best[owners][who] - reading[who] for who in reading})
        figures.peaks.append((peaks, counts["received"]))
        figures.counts.update(counts)


def bar_of(found, owners):
    """The most seconds for so many owners, from those of one thread and from what grew."""
    counts = found[owners].counts
    return (SOLVER_TIMES * found[ONE].seconds["nllc"] + GROWN_SECONDS * counts["grown"]
            + RECEIVED_SECONDS * counts["received"])


def judged(seconds, most, noise):
    """Whether seconds are at most so many; nothing where they are too close to tell. Differences of times may
    come to less than nothing."""
    if seconds <= most and most > 0:
        return True
    return None if seconds <= max(most, 0) + noise else False


def judge_memory(found, owners):
    """Whether the peak on each text is in proportion to the partner's."""
    peaks = [peaks for peaks, _ in found[owners].peaks]
    return all(peak["nllc"] <= MOST_MEMORY * peak["partner"] for peak in peaks)


def judge_many(found):
    """Whether many owners take, on each text, little more memory than one, but for what they receive."""
    owners, times, each = MANY
    pairs = zip(found[owners].peaks, found[1].peaks)
    return all(peaks["nllc"] <= times * least["nllc"] + each * received / MIB
               for (peaks, received), (least, _) in pairs)


def judge(name, found, owners):
    """What is wanted of these owners, and whether it is met."""
    seconds, noise = found[owners].seconds, NOISE * found[READING]["nllc"]
    wide = noise + MOST_TIME * NOISE * found[READING]["partner"]
    verdicts = {"partner's time": judged(seconds["nllc"], MOST_TIME * seconds["partner"], wide),
                "partner's memory": judge_memory(found, owners)}
    if owners == ONE:
        return verdicts
    verdicts["bar"] = judged(seconds["nllc"], bar_of(found, owners), (1 + SOLVER_TIMES) * noise)
    if (name, owners) == ISLANDS[:2] and 1 in found and (os.cpu_count() or 1) >= owners:
        most = ISLANDS[2] * found[1].seconds["nllc"]
        verdicts["a part of one owner's time"] = judged(seconds["nllc"], most, 2 * noise)
    if owners == MANY[0] and 1 in found:
        verdicts["memory compared with one owner"] = judge_many(found)
    return verdicts


def ratio(number, other):
    return f"{number / other:.2f}" if number > 0 and other > 0 else ""


def rounded(number):
    """A number by its first two digits."""
    return f"{float(f'{number:.2g}'):,.0f}"


def print_row(name, found, owners, verdicts):
    seconds, counts = found[owners].seconds, found[owners].counts
    peak = {who: max(peaks[who] for peaks, _ in found[owners].peaks) for who in seconds}
    growths = counts["grown"] + counts["received"]
    pace = rounded(growths / seconds["nllc"]) if growths and seconds["nllc"] > 0 else ""
    bar = f"{bar_of(found, owners):.4f}" if owners != ONE else ""
    missed = [what + ("?" if met is None else "") for what, met in verdicts.items() if met is not True]
    row(name, owners if owners != ONE else "one thread", counts["grown"] or "", counts["received"] if owners != ONE else "",
        f"{seconds['nllc']:.4f}", bar, f"{seconds['partner']:.4f}", ratio(seconds["nllc"], seconds["partner"]), pace,
        f"{peak['nllc']:.1f}", f"{peak['partner']:.1f}", ratio(peak["nllc"], peak["partner"]), ", ".join(missed))


def print_group(args, name, texts, verdicts):
    """Prints the rows of some texts together. Answers whether all runs ended with the same answers."""
    found = {READING: Counter()}
    deal = DEALS.get(name, args.deal)
    try:
        for text in texts:
            add_text(args, found, text, deal)
    except Failed as failed:
        row(name, *[""] * 11, failed)
        return False
    for owners in args.counts:
        verdicts[name, owners] = judge(name, found, owners)
        print_row(name, found, owners, verdicts[name, owners])
    return True


WANTED = {
    "partner's time": f"At most {MOST_TIME} times the partner's seconds",
    "partner's memory": f"At most {MOST_MEMORY} times the partner's memory",
    "bar": (f"At most {SOLVER_TIMES} times one thread's seconds, {GROWN_SECONDS * 1e9:.0f} ns for each growth that "
            f"is grown and {RECEIVED_SECONDS * 1e9:.0f} ns for each that is received"),
    "a part of one owner's time": (f"{ISLANDS[1]} owners of `{ISLANDS[0]}` at most {ISLANDS[2]} of the seconds of "
                                   "one owner"),
    "memory compared with one owner": (f"{MANY[0]} owners at most {MANY[1]} times the memory of one, and {MANY[2]} bytes "
                                "for each growth that is received"),
}


def print_wanted(verdicts):
    """Prints of each wanted figure in how many rows it is met, and in which it isn't."""
    print()
    head("wanted | met | not met | too close to tell")
    for what, words in WANTED.items():
        rows = {row: found[what] for row, found in verdicts.items() if what in found}
        named = {met: [f"{name} {owners or 'one thread'}" for (name, owners), told in rows.items() if told is met]
                 for met in (True, False, None)}
        row(words, f"{len(named[True])} of {len(rows)}", ", ".join(named[False]), ", ".join(named[None]))


def tables(args):
    """Prints all tables. Answers whether all runs ended with the same answers."""
    print(f"`check` beyond reading by owners in threads, best wall seconds of {args.runs} runs of each program in "
          f"turn; {machine(args)}")
    head(COLUMNS)
    verdicts = {}
    fine = [print_group(args, name, texts, verdicts) for name, texts in groups_of(args)]
    print_wanted(verdicts)
    print(f"\nLoad at the end {os.getloadavg()[0]:.1f}.")
    return fine and all(fine)


def main():
    args = options(__doc__, "nllc baseline texts inputs outputs owners deal").parse_args()
    args.programs = {"nllc": shlex.split(args.nllc), "partner": [args.baseline, "threads"]}
    args.counts = [ONE, *map(int, args.owners.split())]
    end(lambda: tables(args))


if __name__ == "__main__":
    main()
