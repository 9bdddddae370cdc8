"""What all measurements share: runs that are timed, their figures, options, and rows of Markdown tables.

Wall time is from start to end of a process, user time and peak memory are the system's own figures
of it (`wait4`). A process that is started counts the memory of the one that starts it as its own
until its program is loaded, so scripts that time keep small, make no text themselves, and say what peak
a process that does nothing shows: smaller peaks can't be told apart.
"""

import argparse
import os
import signal
import sys
import time
from collections import namedtuple

Run = namedtuple("Run", "wall user peak status err")

# Options of the scripts, and what argparse is told of each; a default may be another one.
OPTIONS = {
    "nllc": {"required": True, "help": "the program"},
    "program": {"required": True, "help": "what a script of bench/programs builds"},
    "baseline": {"required": True, "help": "the program to compare with"},
    "texts": {"help": "folder of the texts to measure on"},
    "inputs": {"help": "folder of real texts; of facts, one row together"},
    "outputs": {"help": "folder for what is printed and compared"},
    "owners": {"default": "1 2 4 16"},
    "deal": {"choices": ["round", "blocks"], "default": "round"},
    "runs": {"type": int, "default": 3},
    "seconds": {"type": float, "default": 60.0, "help": "time limit of a run"},
    "commit": {"default": "none", "help": "recorded with the figures"},
}


def options(doc, names, **defaults):
    """A parser of these options, and of those that all scripts have."""
    parser = argparse.ArgumentParser(description=doc.split("\n", maxsplit=1)[0])
    for name in [*names.split(), "runs", "seconds", "commit"]:
        told = dict(OPTIONS[name])
        if name in defaults:
            told.update(default=defaults[name], required=False)
        parser.add_argument(f"--{name}", **told)
    return parser


def run(command, seconds, out=os.devnull):
    """One run of a command with its output in a file; past the time its status is None."""
    err = os.memfd_create("err")
    target = os.open(out, os.O_WRONLY | os.O_CREAT | os.O_TRUNC, 0o600)
    actions = [(os.POSIX_SPAWN_DUP2, target, 1), (os.POSIX_SPAWN_DUP2, err, 2)]
    began = time.perf_counter()
    pid = os.posix_spawn(command[0], command, os.environ, file_actions=actions)
    signal.signal(signal.SIGALRM, lambda *_: os.kill(pid, signal.SIGKILL))
    signal.setitimer(signal.ITIMER_REAL, seconds)
    _, status, used = os.wait4(pid, 0)
    wall = time.perf_counter() - began
    signal.setitimer(signal.ITIMER_REAL, 0)
    line = os.pread(err, 4096, 0).decode(errors="replace").strip()
    os.close(target)
    os.close(err)
    code = None if wall >= seconds else os.waitstatus_to_exitcode(status)
    return Run(wall, used.ru_utime, used.ru_maxrss / 1024, code, line)


class Failed(Exception):
    """A run that didn't end as it should."""


def ended(command, seconds, statuses, out=os.devnull):
    """A run that ends with one of these statuses."""
    found = run(command, seconds, out)
    if found.status not in statuses:
        told = f"past {seconds:.0f} s" if found.status is None else f"status {found.status}"
        raise Failed(f"{' '.join(command)}: {told} {found.err}")
    return found


def numbers_in(path):
    """The numbers that a run told, by the words before them."""
    with open(path, encoding="ascii") as file:
        words = file.read().split()
    return dict(zip(words[::2], map(int, words[1::2])))


def median(numbers):
    ordered = sorted(numbers)
    return ordered[len(ordered) // 2]


class Figures:
    """What some runs of a command took, and how they ended."""

    def __init__(self, found):
        self.best = min(one.wall for one in found)
        self.wall = median(one.wall for one in found)
        self.user = median(one.user for one in found)
        self.peak = max(one.peak for one in found)
        self.ends = {(one.status, one.err) for one in found}


def in_turn(args, commands, outs=(), warm=0):
    """The figures of each command, which take turns; `warm` runs of each bring files into memory and don't count."""
    runs = {who: [] for who in commands}
    for _ in range(args.runs + warm):
        for who, command in commands.items():
            runs[who].append(run(command, args.seconds, outs[who] if outs else os.devnull))
    return {who: Figures(found[warm:]) for who, found in runs.items()}


def ends_of(found):
    """How the commands ended, and whether all ended alike and in time."""
    ends = set().union(*(figures.ends for figures in found.values()))
    return ends, len(ends) == 1 and None not in next(iter(ends))


def facts_in(folder):
    """The facts texts of a folder."""
    return [os.path.join(folder, name) for name in sorted(os.listdir(folder)) if name.endswith(".facts")]


def groups_of(args):
    """What the rows are about: a name, and its texts."""
    groups = [(os.path.basename(text).removesuffix(".facts"), [text]) for text in facts_in(args.texts)]
    if args.inputs:
        inputs = facts_in(args.inputs)
        groups.append((f"{len(inputs)} real inputs", inputs))
    return groups


def processor():
    """The name of the processor, where the system tells it."""
    try:
        with open("/proc/cpuinfo", encoding="utf-8") as file:
            names = [line.split(":", 1)[1].strip() for line in file if line.startswith("model name")]
    except OSError:
        names = []
    return names[0] if names else "unknown processor"


def machine(args):
    """What the figures were taken on, and of which commit."""
    least = run(["/bin/true"], args.seconds).peak
    return (f"{processor()}, nproc {os.cpu_count()}, load at the start {os.getloadavg()[0]:.1f}, commit "
            f"{args.commit}, peak of a process that does nothing {least:.1f} MiB.\n")


def head(columns):
    """Prints the head of a table, of columns as they stand in its line."""
    print(f"| {columns} |\n|{'---|' * (columns.count(' | ') + 1)}")


def row(*cells):
    """Prints a row."""
    print("| " + " | ".join(map(str, cells)) + " |", flush=True)


def end(work):
    """Ends a script with what it answers, whether all went as it should."""
    try:
        sys.exit(0 if work() else 1)
    except Failed as failed:
        print(failed, file=sys.stderr)
        sys.exit(1)
