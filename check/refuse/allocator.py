"""Runs of a program with one growth of memory refused, by refuse.c, which is preloaded before it."""

import itertools
import os
import shutil
import subprocess
from typing import NamedTuple

from running import run

HERE = os.path.dirname(os.path.abspath(__file__))
# The blocks that the C library keeps for the stack of a thread that ended.
KEPT_BY_THREADS = 2


class Run(NamedTuple):
    """Status, standard output and standard error; how many growths were asked for; how many blocks weren't given back."""

    answer: tuple
    growths: int = 0
    left: int = 0


class Allocator:
    """The library that refuses, compiled into a folder. Several runs may go on at once."""

    def __init__(self, folder):
        self.folder, self.numbers = folder, itertools.count()
        self.library = os.path.join(folder, "refuse.so")
        compiler = "cc" if shutil.which("cc") else "gcc"
        subprocess.run([compiler, "-O2", "-Wall", "-Werror", "-shared", "-fPIC", "-o", self.library,
                        os.path.join(HERE, "refuse.c")], check=True)

    def run(self, command, at, seconds, limits=()):
        """A run whose growth of this number is refused, from 1 on; with 0 none is."""
        counts = os.path.join(self.folder, f"count-{next(self.numbers)}")
        answer = run(command, seconds, limits, LD_PRELOAD=self.library, REFUSE_AT=str(at), REFUSE_COUNT=counts)
        if not os.path.exists(counts):
            return Run(answer)
        with open(counts, encoding="ascii") as file:
            growths, left = map(int, file.read().split())
        os.remove(counts)
        return Run(answer, growths, left)
