#!/usr/bin/env python3
"""Times owners over rings, compared with the same owners over queues, and prints a Markdown table.

    measure_mails.py --nllc PATH --texts FOLDER --outputs FOLDER [--owners "COUNT .."] [--deal DEAL] [--runs N]

mails.sh calls it. Each text is asked for with `check`, over queues and over rings in turn; the table has the
medians of the wall times. The outputs of `values` must be those of one thread, byte by byte.
"""

import filecmp
import os
import shlex

from timing import Failed, end, ended, facts_in, head, machine, median, options, row

# The most that rings may take, in times of queues.
MOST = 1.05

KINDS = ("queue", "ring")

# The families that aren't dealt as the others are.
DEALS = {"islands": "blocks"}


def answered(args, words, out=os.devnull):
    """A run that answers."""
    return ended([*shlex.split(args.nllc), *words], args.seconds, (0, 1), out)


def medians(args, words):
    """The median times by kind of mailbox, which take turns."""
    times = {kind: [] for kind in KINDS}
    for _ in range(args.runs):
        for kind in KINDS:
            times[kind].append(answered(args, ["check", *words, "--mail", kind]).wall)
    return [median(times[kind]) for kind in KINDS]


def peaks(args, words):
    """The peaks on `values` by kind of mailbox, whose outputs must be those of one thread."""
    want, *outs = (os.path.join(args.outputs, name) for name in ("one", *KINDS))
    answered(args, ["values", words[0]], want)
    found = []
    for kind, out in zip(KINDS, outs):
        found.append(answered(args, ["values", *words, "--mail", kind], out).peak)
        if not filecmp.cmp(want, out, shallow=False):
            raise Failed(f"UNLIKE values over {kind}: {' '.join(words)}")
    return found


def table(args):
    """Prints a row for each text and number of owners, and in how many rings take more than is wanted."""
    head("text | owners | queue s | ring s | ratio | queue MiB | ring MiB")
    missed = 0
    for text in facts_in(args.texts):
        name = os.path.basename(text).removesuffix(".facts")
        for owners in args.owners.split():
            words = [text, "--owners", owners, "--deal", DEALS.get(name, args.deal)]
            queue, ring = medians(args, words)
            missed += ring > MOST * queue
            row(name, owners, f"{queue:.3f}", f"{ring:.3f}", f"{ring / queue:.2f}",
                *[f"{peak:.0f}" for peak in peaks(args, words)])
    print(f"{missed} rows above {MOST} times queues")
    return True


def main():
    args = options(__doc__, "nllc texts outputs owners deal", owners="2 4 16", runs=9).parse_args()
    print(machine(args))
    end(lambda: table(args))


if __name__ == "__main__":
    main()
