"""Proves a crate and those below it, those side by side that don't stand on one another.

`rt` keeps others out of the folders in which it works, so two runs of it that have a library in common go
one after the other. `rt all check` in a crate's folder proves that crate and what it stands on, and nothing
else, several at a time within one run; what it keeps of them serves later runs of `rt` in these folders.

Python 3.8 is enough for this module, as for `rt`.
"""

import contextlib
import os
import re
import subprocess
import sys

# A check of the largest crates takes some three; `rt` says nothing of how many fit.
BYTES_EACH = 4 * 2**30
KILLED = re.compile(r"^\w+: failed \(-9\)$")


def say(text):
    print("{}: {}".format(os.environ.get("NLLC_CALLED", "nllc.sh"), text), file=sys.stderr, flush=True)


def processors():
    return len(os.sched_getaffinity(0))


def free_memory():
    """The bytes that `rt` can have, by /proc/meminfo."""
    with open("/proc/meminfo") as file:
        return 1024 * int(re.search(r"MemAvailable:\s+(\d+)", file.read())[1])


def most_at_once():
    """How many checks there are processors and memory for."""
    return max(1, min(processors(), free_memory() // BYTES_EACH))


@contextlib.contextmanager
def started(words, folder, output=subprocess.PIPE):
    """A command that is ended with the block, and takes with it what it started, as `rt` does."""
    running = subprocess.Popen(words, cwd=folder, stdin=subprocess.DEVNULL, stdout=output,
                               stderr=subprocess.STDOUT, encoding="utf-8", errors="replace")
    try:
        yield running
    finally:
        running.terminate()
        running.wait()
        if running.stdout:
            running.stdout.close()


class Reader:
    """Reads what `rt all check` prints, a part for each crate, and calls `told` as each of them ends."""

    def __init__(self, told):
        self.told, self.crate, self.lines = told, None, 0
        self.ended, self.killed = {}, False

    def end(self):
        if self.crate and self.crate not in self.ended:
            self.ended[self.crate] = not self.lines
            self.told(self.crate, self.ended[self.crate], self.lines > 0)

    def read(self, line):
        head = re.match(r"== (\w+)$", line)
        if head:
            self.end()
            self.crate, self.lines = None if head[1] == "summary" else head[1], 0
        elif line.startswith("logic=") and self.crate and self.crate not in self.ended:
            self.ended[self.crate] = line.startswith("logic=proved ")
            self.told(self.crate, self.ended[self.crate], True)
        else:
            self.lines += 1
            self.killed = self.killed or bool(KILLED.match(line))


def prove_once(folder, number, told, log, watching):
    reader = Reader(told)
    with started(["rt", "all", "check", "--jobs", str(number)], folder) as running, watching(running.pid):
        for line in running.stdout:
            log.write(line)
            log.flush()
            reader.read(line.rstrip("\n"))
        return running.wait(), reader.killed


def prove(folder, number, told, log, watching=lambda pid: contextlib.nullcontext()):
    """Proves the crate in this folder and those below it, so many at a time; gives the status of `rt`.

    `told(crate, is_proved, is_new)` is called as each ends; one that isn't new was proved by an earlier run.
    Where a check was killed, most likely for memory, the rest is tried again with half as many at a time.
    """
    while True:
        status, killed = prove_once(folder, number, told, log, watching)
        if not killed or number == 1:
            return status
        number //= 2
        log.write("a check was killed: {} at a time now\n".format(number))
