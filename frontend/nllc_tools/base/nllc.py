"""Finds `nllc` and runs it."""

from __future__ import annotations

import os
import shutil
import subprocess
import sys
from contextlib import ExitStack, closing
from functools import cache
from io import FileIO
from typing import NamedTuple

from nllc_tools.base.progress import Progress
from nllc_tools.base.refusal import Refusal, refusing

ROOT = os.path.dirname(os.path.dirname(os.path.dirname(os.path.dirname(os.path.abspath(__file__)))))

PROVED = "proved"
UNPROVED = "not proved"
UNKNOWN = "unknown"
STANDINGS = {"proved": PROVED, "unproved": UNPROVED}    # as `nllc.sh --which` says it
STATUSES = {"values": (0,), "check": (0, 1)}            # with which `nllc` answers


def installed(name: str) -> dict[str, str]:
    """The builds of a program beside the folder frontend/ of an installed copy, and whether they are proved."""
    return {os.path.join(ROOT, name): PROVED, os.path.join(ROOT, f"{name}-unproved"): UNPROVED}


class RefusedText(Refusal):
    """`nllc` refuses a text."""


class FaultLine(NamedTuple):
    """That a region must outlive another one, and doesn't: their names, as `nllc check` prints them."""

    sup: str
    sub: str


class Report(NamedTuple):
    """What `nllc` printed, and which `nllc` that was."""

    values: str
    faults: list[FaultLine]
    program: str
    standing: str


class Program(NamedTuple):
    """The program that answers, and whether it is proved."""

    path: str
    standing: str


def program() -> Program:
    """The program that is found, or that `nllc.sh` runs."""
    found = find()
    if os.path.basename(found) == "nllc.sh":
        return program_of(found)
    return Program(found, installed("nllc").get(found, UNKNOWN))


def find() -> str:
    """The program in the variable NLLC, the repository's `nllc.sh`, that of an installed copy, or the `nllc` on the PATH."""
    named = os.environ.get("NLLC")
    beside = (path for path in (os.path.join(ROOT, "nllc.sh"), *installed("nllc")) if os.access(path, os.X_OK))
    found = shutil.which(named) if named else next(beside, None) or shutil.which("nllc")
    if not found:
        raise Refusal(f"there is no program {named}, which the variable NLLC names" if named else
                      "no nllc is found: neither next to the folder frontend/ nor on the PATH; name one by the variable NLLC")
    return found


@cache
def program_of(script: str) -> Program:
    """The program that `nllc.sh` runs; it is asked once, and compiles that if need be."""
    stderr = None if sys.stderr.isatty() else subprocess.PIPE
    with refusing(f"{script} can't be run"), subprocess.Popen(
            [script, "--which"], stdin=subprocess.DEVNULL, stdout=subprocess.PIPE, stderr=stderr, encoding="utf-8",
            errors="replace") as asked:
        for line in asked.stderr or ():
            print(line, end="", file=sys.stderr, flush=True)
        assert asked.stdout
        standing, _, path = asked.stdout.read().strip().partition(" ")
    if asked.returncode or standing not in STANDINGS:
        raise Refusal(f"{shown(script)} has no program to run, as it says above", 3)
    return Program(path, STANDINGS[standing])


def run(text: bytes) -> Report:
    """Runs `values` and `check` on the text, side by side."""
    path, standing = program()
    (_, values), (_, faults) = answers(path, text, "values", "check")
    return Report(values, fault_lines(faults), shown(path), standing)


def has_faults(text: bytes) -> bool:
    """Whether `check` finds faults in the text."""
    [(status, _)] = answers(program().path, text, "check")
    return status == 1


def answers(path: str, text: bytes, *commands: str) -> list[tuple[int, str]]:
    """The statuses of these commands on the text, which run side by side, and what they print; says so where it takes long."""
    with ExitStack() as started:
        copy = started.enter_context(in_memory())
        copy.write(text)
        runs = [started.enter_context(closing(Run(path, command, copy))) for command in commands]
        with Progress(lambda: "nllc computes the values"):
            for one in runs:
                one.process.wait()
        found = [one.answer() for one in runs]
    return found


def in_memory() -> FileIO:
    """A file without a name, which takes what is written at once."""
    return open(os.memfd_create("nllc"), "w+b", buffering=0)


class Run:
    """One process, and what it writes. The text is its standard input, which it opens by its name, so from the beginning on."""

    def __init__(self, path: str, command: str, text: FileIO):
        self.path, self.statuses = path, STATUSES[command]
        self.out, self.err = in_memory(), in_memory()
        with refusing(f"{path} can't be run"):
            self.process = subprocess.Popen([path, command, "/dev/stdin"], stdin=text, stdout=self.out, stderr=self.err)

    def answer(self) -> tuple[int, str]:
        """Its status, and what it printed; refuses with the line of `nllc` where it didn't answer."""
        status, said = self.process.returncode, content_of(self.err).strip().splitlines()[-1:]
        if status == 2:
            raise RefusedText(f"nllc refuses the text: {said[0] if said else 'it gave no reason'}")
        if status not in self.statuses:
            raise Refusal(f"{shown(self.path)} ended with status {status}: {said[0] if said else 'it said nothing'}", 3)
        return status, content_of(self.out)

    def close(self) -> None:
        """Ends it where it runs still."""
        self.process.terminate()
        self.process.wait()
        self.out.close()
        self.err.close()


def content_of(file: FileIO) -> str:
    file.seek(0)
    return file.read().decode("utf-8", "replace")


def fault_lines(text: str) -> list[FaultLine]:
    """What the lines of `nllc check` say."""
    words = [line.split() for line in text.splitlines()]
    return [FaultLine(w[1][1:], w[4][1:]) for w in words if len(w) == 5 and w[0] == "fault"]


def shown(path: str) -> str:
    """The path of a program, in the repository from its root on."""
    inside = os.path.relpath(path, ROOT)
    return path if inside.startswith("..") else inside
