"""What all comparisons share: runs of programs on a text, the loop over cases in several processes, what is saved."""

import argparse
import functools
import multiprocessing
import os
import shlex
import tempfile
from typing import NamedTuple

from paths import BASELINE
from running import run

# Stands among words for the path of the text.
FILE = "FILE"


class Difference(NamedTuple):
    """What answers differ on, the answers by the name of who gave them, and the files of the case by their endings."""

    on: str
    answers: dict
    files: dict


def ended(words, seconds):
    """Standard output, status and standard error of a run of these words; one past the time has none."""
    status, out, err = run(words, seconds)
    return out, status, err


def memory_folder():
    """A folder in memory where the system has one."""
    return "/dev/shm" if os.path.isdir("/dev/shm") else None


def write(path, said):
    """Writes a file, or sees to it that there is none."""
    if said is not None:
        with open(path, "wb") as file:
            file.write(said)
    elif os.path.exists(path):
        os.remove(path)


def without_lines(text, differs, size=1, tries=None):
    """A text without those pieces of so many lines that a difference doesn't need, the last tried first."""
    lines = text.split(b"\n")
    at = len(lines) - size
    while at >= 0 and (tries is None or next(tries, None) is not None):
        fewer = lines[:at] + lines[at + size:]
        if differs(b"\n".join(fewer)):
            lines = fewer
        at -= size
    return b"\n".join(lines)


class Comparison:
    """What a worker process needs to compare one case after the other; `difference` gives what one differs in, or None."""

    def __init__(self, args):
        self.args = args
        self.folder = tempfile.TemporaryDirectory(dir=memory_folder())
        self.path = os.path.join(self.folder.name, "text")

    def ask(self, program, command, words=(FILE,)):
        """How a program ends that is asked about the text; words may stand behind its path."""
        words = [self.path if word == FILE else word for word in words]
        return ended([*shlex.split(program), command, *words], self.args.seconds)

    def usage(self, command, words):
        """The words on which a program says anything but a usage line, with what it says; else None."""
        out, status, err = self.ask(self.args.nllc, command, words)
        if out or status != 2 or not err.startswith(b"usage: "):
            return [command, *words], {"nllc": (out, status, err), "wanted": (b"", 2, b"usage: ..")}
        return None


@functools.cache
def comparison(kind, args):
    """The one comparison of this process."""
    return kind(argparse.Namespace(**dict(args)))


def compare(kind, args, case):
    return comparison(kind, args).difference(case)


def shown(who, answer):
    out, status, err = answer
    out = out if len(out) < 400 else out[:200] + b" .. " + out[-200:]
    return f"  {who}: status {status}, out {out!r}, err {err[:300]!r}"


def report(args, name, difference):
    """Saves the files of a case and prints what was answered."""
    os.makedirs(args.save, exist_ok=True)
    path = os.path.join(args.save, name)
    for ending, said in difference.files.items():
        write(path + ending, said)
    print(f"differ on {difference.on} {path}{next(iter(difference.files))}")
    print("\n".join(shown(who, answer) for who, answer in difference.answers.items()), flush=True)


def options(doc, count, seconds=20.0):
    """The options that all comparisons have, and their defaults."""
    parser = argparse.ArgumentParser(description=doc.split("\n", maxsplit=1)[0])
    parser.add_argument("--nllc", help="the program to compare")
    parser.add_argument("--baseline", metavar="PATH", default=BASELINE)
    parser.add_argument("--count", type=int, default=count)
    parser.add_argument("--seed", type=int, default=1)
    parser.add_argument("--most", type=int, default=64, help="the most owners, for a slow program")
    parser.add_argument("--seconds", type=float, default=seconds, help="time limit of a run")
    parser.add_argument("--processes", type=int, default=2)
    parser.add_argument("--save", default=os.path.join(tempfile.gettempdir(), "nllc-differences"))
    parser.add_argument("--first", action="store_true", help="end with the first difference")
    return parser


def compare_all(kind, args, cases, name, chunk=8):
    """Compares on all cases and gives the status; `name` gives what a case that differs is saved as, by its number."""
    compared = differ = 0
    with multiprocessing.Pool(args.processes) as pool:
        work = functools.partial(compare, kind, tuple(vars(args).items()))
        for difference in pool.imap(work, cases, chunksize=chunk):
            if difference is not None:
                differ += 1
                report(args, name(compared), difference)
            compared += 1
            if differ and args.first:
                break
    print(f"{compared} compared, {differ} differ")
    return 1 if differ else 0
