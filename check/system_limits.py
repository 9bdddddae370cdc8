#!/usr/bin/env python3
"""Runs nllc where the system gives it little: few processes, small or huge stacks, little memory,
a file or a pipe that takes no more.

    check/run limits [--nllc PATH] [--seconds S] [FILE..]

Each run is of `PATH values FILE`, on the examples where no FILE is given. It is to end by itself:

- owners, with so few processes for the user that some threads can't be started: as ever, or with
  status 3, nothing on standard output and `nllc: thread`. It needs to be root, and takes another
  user for these runs; else the runs are left out, and it says so.
- owners, with so large a stack for each thread that none can be started, or with a small one: the
  same.
- owners, with little memory to address: the same, or `nllc: memory`. A run that the system can't
  even load counts for nothing.
- standard output is a file that takes so many bytes, for each number of bytes: status 3, the first
  bytes, and `nllc: cannot write`; or as ever where it takes all. So it is with a device that takes
  none, and with a pipe that nobody reads. That standard error takes nothing changes no status.

Prints each run that ends otherwise, a line for each kind of runs, and last `N runs, W wrong`;
status 1 where W isn't 0, or where no thread was refused that could have been.
"""

import argparse
import os
import shutil
import sys
import tempfile

from paths import ROOT
from running import ADDRESSES, FILE_SIZE, KIB, MEMORY, PROCESSES, STACK, UNSTARTED, Tally, run

CANNOT_WRITE = b"nllc: cannot write\n"
# A user that has no processes.
USER = 54321
OWNERS = 8


# What there is little of or much, in which unit, how much of it, and for which user.
HELD_BACK = {
    "{} processes": (PROCESSES, 1, range(1, OWNERS + 3), USER),
    "a stack of {} KiB": (STACK, KIB, (256, 512, 1024, 1 << 30, 1 << 36), None),
    "{} KiB to address": (ADDRESSES, KIB, (*range(2048, 16384, 512), *range(16384, 131072, 8192)), None),
}


def held_back(tally, command, usual, seconds):
    """How many runs were refused a thread for want of processes or of room for its stack."""
    refused = 0
    for what, (kind, unit, amounts, user) in HELD_BACK.items():
        right = (usual, UNSTARTED, *[MEMORY] * (kind == ADDRESSES))
        for amount in amounts if user is None or os.geteuid() == 0 else ():
            answer = run(command, seconds, [(kind, amount * unit)], user)
            refused += answer == UNSTARTED and kind != ADDRESSES
            if kind != ADDRESSES or answer[0] != 127:    # else it can't even be loaded
                tally.judge(answer in right, what.format(amount), answer)
    return refused


def full_files(tally, command, usual, seconds, folder):
    """How many runs had a file that takes less than they print."""
    report, path = usual[1], os.path.join(folder, "out")
    cut = 0
    for most in [*range(min(len(report), 300)), len(report) - 1, len(report), len(report) + 1]:
        with open(path, "wb") as out:
            status, _, err = run(command, seconds, [(FILE_SIZE, most)], out=out)
        with open(path, "rb") as out:
            got = out.read()
        right = (3, report[:most], CANNOT_WRITE) if most < len(report) else usual
        cut += most < len(report)
        tally.judge((status, got, err) == right, f"a file of {most} bytes", (status, got, err))
    return cut


def closed_streams(tally, command, usual, seconds):
    """Runs whose standard streams take nothing."""
    with open("/dev/full", "wb") as full:
        status, _, err = run(command, seconds, out=full)
        tally.judge((status, err) == (3, CANNOT_WRITE), "a full device", (status, err))
        answer = run(command, seconds, out=full, err=full)
        tally.judge(answer[0] == 3, "two full devices", answer)
        wrong = run([command[0], "values"], seconds, err=full)
        tally.judge(wrong[:2] == (2, b""), "usage to a full device", wrong)
    ends = os.pipe()
    os.close(ends[0])
    status, _, err = run(command, seconds, out=ends[1])
    os.close(ends[1])
    tally.judge((status, err) == (3, CANNOT_WRITE), "a pipe that nobody reads", (status, err))


def try_file(tally, program, path, seconds, folder):
    """All runs of one file."""
    plain = [program, "values", path]
    usual = run(plain, seconds)
    refused = 0
    for mail in ("queue", "ring"):
        owners = [program, "values", "--owners", str(OWNERS), "--mail", mail, path]
        refused += held_back(tally, owners, usual, seconds)
        full_files(tally, owners, usual, seconds, folder)
    closed_streams(tally, plain, usual, seconds)
    print(f"{os.path.basename(path)}: {tally.runs} runs so far, {refused} threads refused, "
          f"{tally.wrong} wrong", flush=True)
    return refused


def main():
    parser = argparse.ArgumentParser(description=__doc__.splitlines()[0])
    parser.add_argument("--nllc", required=True, help="the program to try")
    parser.add_argument("--seconds", type=float, default=20.0, help="time limit of a run")
    parser.add_argument("files", metavar="FILE", nargs="*")
    args = parser.parse_args()
    files = args.files or sorted(map(str, ROOT.glob("examples/*.facts")))
    tally = Tally()
    refused = 0
    if os.geteuid() != 0:
        print("not root: no runs with few processes")
    with tempfile.TemporaryDirectory() as folder:
        os.chmod(folder, 0o755)
        program = shutil.copy(args.nllc, os.path.join(folder, "nllc"))
        for file in files:
            path = shutil.copy(file, folder)
            os.chmod(path, 0o644)
            refused += try_file(tally, program, path, args.seconds, folder)
    return tally.tell() or int(not refused)


if __name__ == "__main__":
    sys.exit(main())
