#!/usr/bin/env python3
"""What `nllc.sh --prove` runs: proves the program and what it stands on, and builds it.

Crates that don't stand on one another are proved side by side, each in a room of its own, with as many processes in
all as there are processors and memory for: 4 GB for each. Which crate begins when, tools/shares.py says, and what a
room is, tools/rooms.py. It says on standard error how far it is; what `rt` prints goes to out/prove.log. What is proved
is kept, so that the next run has only the rest to do. Python 3.8 is enough, as for `rt`.
"""

import contextlib
import os
import signal
import subprocess
import sys
import tempfile
import time

from crates import below, uses_of
from proving import most_at_once, say, started
from rooms import Room, alone_in, folder_of, remove_left
from shares import ahead_of, lines_in, shares

ROOT = os.path.dirname(os.path.dirname(os.path.realpath(__file__)))
PROGRAM = "nllc"
# How `rt` ends where a check was killed, most likely for memory, or where it was killed itself.
KILLED = (256 - signal.SIGKILL, -signal.SIGKILL)
PAUSE = 0.1


class Progress:
    """Says which crates are proved, each once."""

    def __init__(self, total):
        self.total, self.proved = total, []

    def told(self, crate):
        if crate not in self.proved:
            self.proved.append(crate)
            say("{} of {} proved: {}".format(len(self.proved), self.total, crate))


class Check:
    """The check of a library in its room, which ends with the block; what is kept of it is then in the tree."""

    def __init__(self, root, crate, libraries, jobs):
        self.root, self.crate, self.jobs = root, crate, jobs
        self.room = Room(root, crate, libraries)

    def __enter__(self):
        words = ["rt", "lib", "--jobs", str(self.jobs)]
        with contextlib.ExitStack() as ends:
            ends.callback(self.room.remove)
            self.room.open()
            self.printed = ends.enter_context(tempfile.TemporaryFile("w+", encoding="utf-8", errors="replace"))
            self.running = ends.enter_context(started(words, self.room.folder, self.printed))
            self.ends = ends.pop_all()
        return self

    def __exit__(self, *_):
        self.ends.close()

    def end(self, log):
        """Has `rt` take the library into the tree, if it's built; gives the status of `rt`."""
        self.room.close()
        status = self.running.returncode
        if status == 0:
            words = ["rt", "lib", "--jobs", str(self.jobs)]
            with started(words, folder_of(self.root, self.crate), self.printed) as running:
                status = running.wait()
        self.printed.seek(0)
        log.write("== {}\n{}".format(self.crate, self.printed.read()))
        log.flush()
        self.ends.close()
        return status


class Libraries:
    """The libraries that a program stands on, and the checks that are under way."""

    def __init__(self, root, number):
        self.root, self.uses, self.number = root, uses_of(root), number
        self.names, self.proved, self.running = below(self.uses, PROGRAM), set(), {}
        self.ahead = ahead_of(self.uses, {name: lines_in(root, name) for name in self.names})

    def begin(self, checks):
        """Begins the checks that there are processors for."""
        ready = [name for name in self.names if name not in self.proved and name not in self.running
                 and self.proved.issuperset(self.uses[name])]
        jobs = {name: check.jobs for name, check in self.running.items()}
        for name, share in shares(ready, jobs, self.number, self.ahead).items():
            check = Check(self.root, name, below(self.uses, name), share)
            self.running[name] = checks.enter_context(check)

    def wait(self):
        """Waits until a check ends, and gives it."""
        while True:
            for name, check in self.running.items():
                if check.running.poll() is not None:
                    return self.running.pop(name)
            time.sleep(PAUSE)

    def prove(self, progress, log):
        """Proves all; gives the first that isn't proved, or None. Where a check was killed, half as many run at a time."""
        with contextlib.ExitStack() as checks:
            while len(self.proved) < len(self.names):
                self.begin(checks)
                check = self.wait()
                status = check.end(log)
                if status == 0:
                    self.proved.add(check.crate)
                    progress.told(check.crate)
                elif status in KILLED and self.number > 1:
                    self.number //= 2
                    log.write("a check was killed: {} at a time now\n".format(self.number))
                else:
                    return check.crate
        return None


def build(folder, number, progress, log):
    """Has `rt` prove, build and run the program."""
    words = ["rt", "run", "--jobs", str(number), "--", "--help"]
    with started(words, folder) as running:
        for line in running.stdout:
            log.write(line)
            if line.startswith("logic=proved "):
                progress.told(PROGRAM)
                say("building the program")
        return running.wait()


def write_kit(program):
    """Writes beside the program which kit built it."""
    with open(program + ".kit", "w", encoding="utf-8") as kit:
        subprocess.run(["rt", "version"], stdin=subprocess.DEVNULL, stdout=kit, check=False)


def prove_and_build(root):
    folder, out = folder_of(root, PROGRAM), os.path.join(root, "out")
    path, program, began = os.path.join(out, "prove.log"), os.path.join(folder, "out", PROGRAM), time.time()
    os.makedirs(out, exist_ok=True)
    with alone_in(out, lambda: say("waiting for another run to finish here")), open(path, "w", encoding="utf-8") as log:
        remove_left(root)
        libraries = Libraries(root, most_at_once())
        progress = Progress(len(libraries.names) + 1)
        failed = libraries.prove(progress, log)
        if failed is None and build(folder, libraries.number, progress, log):
            failed = "what rt says" if PROGRAM in progress.proved else PROGRAM
    if failed:
        say("not proved: {}; see {}".format(failed, path))
        return 1
    progress.told(PROGRAM)
    write_kit(program)
    os.utime(program, (began, began))  # rt leaves it as it is where no source has other words
    say("proved and built: " + program)
    return 0


def main(root=ROOT):
    for number in (signal.SIGTERM, signal.SIGHUP):
        if signal.getsignal(number) != signal.SIG_IGN:  # as under nohup
            signal.signal(number, lambda number, _: sys.exit(128 + number))
    try:
        return prove_and_build(root)
    except KeyboardInterrupt:
        say("stopped; what is proved is kept")
        return 130
    except OSError as error:
        say("{} can't be used: {}".format(error.filename or root, error.strerror))
        return 3


def refused(words):
    """The status where words are given, of which only those that ask for help are known; else None."""
    if not words:
        return None
    if words in (["--help"], ["-h"]):
        print(__doc__)
        return 0
    print("tools/prove.py takes no arguments but --help", file=sys.stderr)
    return 2


if __name__ == "__main__":
    status = refused(sys.argv[1:])
    sys.exit(main() if status is None else status)
