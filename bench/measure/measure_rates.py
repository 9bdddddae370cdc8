#!/usr/bin/env python3
"""Times calls between threads, compared with plain Rust, and prints a Markdown table.

    measure_rates.py mailboxes --program PATH --baseline PATH --processors 0,1
    measure_rates.py ledgers --program PATH --baseline PATH

mailboxes.sh and ledgers.sh call it. Programs print the work that they did and the microseconds that it took, and
take turns. Rates are millions a second, of median times. A ratio is that of a rate to the rate of the plain program that its
row names. Status 1 where a program doesn't end well.
"""

import os
import tempfile

from timing import Failed, end, ended, head, machine, median, options, row


def rate_of(args, command):
    """The work that a run did in a microsecond."""
    with tempfile.NamedTemporaryFile() as out:
        ended(command, args.seconds, (0,), out.name)
        words = open(out.name, encoding="ascii").read().split()
    if len(words) != 4:
        raise Failed(f"{' '.join(command)}: {' '.join(words)}")
    return int(words[1]) / max(int(words[3]), 1)


def print_rows(args, name, commands, beside):
    """Prints a row for each program: its median rate, the slowest and quickest, and the ratio to the one beside it."""
    runs = {who: [] for who in commands}
    for _ in range(args.runs):
        for who, command in commands.items():
            runs[who].append(rate_of(args, command))
    for who, found in runs.items():
        ratio = f"{median(found) / median(runs[beside[who]]):.2f} of {beside[who]}" if who in beside else ""
        row(name, who, f"{median(found):.1f}", f"{min(found):.1f}", f"{max(found):.1f}", ratio)


def mailboxes(args):
    """Growths from one thread to another, on two processors."""
    commands = {
        "RingMail": [args.program, "ring"],
        "QueueMail": [args.program, "queue"],
        "plain ring": [args.baseline, "ring"],
        "plain ring, one order": [args.baseline, "one-order"],
        "plain channel": [args.baseline, "channel"],
    }
    pinned, count = ["/usr/bin/taskset", "-c", args.processors], str(args.count or 10_000_000)
    print_rows(args, "2", {who: [*pinned, *words, count] for who, words in commands.items()},
               {"RingMail": "plain ring, one order", "QueueMail": "plain channel"})


def ledgers(args):
    """Owe, clear and leave, by each number of threads."""
    commands = {
        "WordLedger": [args.program, "words"],
        "LockLedger": [args.program, "lock"],
        "plain words": [args.baseline, "words"],
        "plain lock": [args.baseline, "lock"],
    }
    for threads in args.threads.split():
        count = str((args.count or 4_000_000) // int(threads))
        print_rows(args, threads, {who: [*words, threads, count] for who, words in commands.items()},
                   {"WordLedger": "plain words", "LockLedger": "plain lock"})


WHAT = {"mailboxes": mailboxes, "ledgers": ledgers}


def table(args):
    """Prints the rows of one of these; raises where a program doesn't end well."""
    print(f"{args.what}, millions a second, medians of {args.runs} runs of each program in turn; {machine(args)}")
    head("threads | program | rate | slowest | quickest | ratio")
    WHAT[args.what](args)
    print(f"\nload at the end {os.getloadavg()[0]:.1f}")
    return True


def main():
    parser = options(__doc__, "program baseline", runs=9)
    parser.add_argument("what", choices=WHAT)
    parser.add_argument("--processors", default="0,1", help="on which mailboxes are measured")
    parser.add_argument("--threads", default="1 2 4", help="by how many ledgers are")
    parser.add_argument("--count", type=int, help="growths, or rounds of all threads together")
    args = parser.parse_args()
    end(lambda: table(args))


if __name__ == "__main__":
    main()
