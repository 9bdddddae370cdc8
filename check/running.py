"""Runs of programs under limits, and what is printed of runs that end otherwise than they should."""

import os
import resource
import subprocess

KIB = 1024
MEMORY, UNSTARTED = (3, b"", b"nllc: memory\n"), (3, b"", b"nllc: thread\n")
PIPE = subprocess.PIPE
ADDRESSES, STACK, PROCESSES, FILE_SIZE = (
    resource.RLIMIT_AS, resource.RLIMIT_STACK, resource.RLIMIT_NPROC, resource.RLIMIT_FSIZE)


def run(command, seconds, limits=(), user=None, given=None, folder=None, out=PIPE, err=PIPE, **variables):
    """Status, standard output and standard error of a run under these limits, with standard input a pipe of what is given."""

    def prepare():
        for kind, amount in limits:
            resource.setrlimit(kind, (amount, amount))
        if user is not None:
            os.setgroups([])
            os.setgid(user)
            os.setuid(user)

    source = {"stdin": subprocess.DEVNULL} if given is None else {"input": given}
    try:
        done = subprocess.run(command, **source, stdout=out, stderr=err, timeout=seconds, check=False, cwd=folder,
                              preexec_fn=prepare if limits or user is not None else None, env={**os.environ, **variables},
                              restore_signals=False)
    except subprocess.TimeoutExpired:
        return "no answer in time", b"", b""
    return done.returncode, done.stdout, done.stderr


class Tally:
    """How many runs there were, and how many of them were wrong, each of which is printed."""

    def __init__(self):
        self.runs = self.wrong = 0

    def judge(self, is_right, what, answer, beside=""):
        self.runs += 1
        if not is_right:
            self.wrong += 1
            print(f"{what}: {answer!r}{beside}", flush=True)

    def compare(self, what, answer, wanted):
        self.judge(answer == wanted, what, answer, f" in place of {wanted!r}")

    def tell(self):
        """Prints the last line, and gives the status."""
        print(f"{self.runs} runs, {self.wrong} wrong")
        return 1 if self.wrong else 0
