#!/usr/bin/env python3
"""Counts the calls that reading one line of a MIR text takes, and how often they change from crate to crate.

    bench/run calls [--nllc PROGRAM] --text FILE --line N [--list]

It runs `PROGRAM check FILE` under gdb with a breakpoint on each function of this repository's crates, and follows what
is called from the start of `read_line` of line N, counted from 1, to its return. It prints how many calls there are, of
how many functions, modules and crates, and how often a call is of another crate than the call before it; with `--list`
also the calls, indented where the crate stays. Functions that the compiler put into others have no breakpoint: a
program that isn't optimised (`out/nllc-unproved`) shows them all.
"""

import argparse
import os
import re
import subprocess
import sys
import tempfile

IN_GDB = r'''
import gdb, os, re, subprocess

PROGRAM, TEXT, OUT = (os.environ["CALLS_" + name] for name in ("PROGRAM", "TEXT", "OUT"))
WANTED = int(os.environ["CALLS_LINE"]) - 1      # the header isn't read by read_line
START = re.compile(r"nll_mir_text::\w+::ReaderLineReaderVersion::read_line(::<.*)?$")
lines_begun, calls, inside = 0, [], False


class Call(gdb.Breakpoint):
    def __init__(self, address, name):
        super().__init__("*" + hex(address), gdb.BP_BREAKPOINT, internal=True)
        self.silent, self.name = True, name

    def stop(self):
        global lines_begun, inside
        if START.match(self.name):
            lines_begun += 1
            inside = lines_begun == WANTED
            if inside:
                Return(int(gdb.parse_and_eval("*(unsigned long *)$rsp")))
        if inside:
            calls.append(self.name)
        return False


class Return(gdb.Breakpoint):
    def __init__(self, address):
        super().__init__("*" + hex(address), gdb.BP_BREAKPOINT, internal=True)
        self.silent = True

    def stop(self):
        global inside
        inside = False
        return False


for setting in ("pagination off", "confirm off", "debuginfod enabled off"):
    gdb.execute("set " + setting)
gdb.execute("file " + PROGRAM)
gdb.execute("set args check " + TEXT)
gdb.execute("starti", to_string=True)
first = int(re.search(r"^\s*(0x[0-9a-f]+)", gdb.execute("info proc mappings", to_string=True), re.MULTILINE)[1], 16)
names = {}
for symbol in subprocess.run(["nm", PROGRAM], capture_output=True, text=True, check=True).stdout.splitlines():
    found = re.match(r"([0-9a-f]+) [tT] (nll_\w+::.*)$", symbol)
    if found and "Destruct" not in found[2].split("::<")[0]:
        names.setdefault(int(found[1], 16) + first, found[2])
for address, name in names.items():
    Call(address, name)
gdb.execute("continue")
with open(OUT, "w") as out:
    out.writelines(name + "\n" for name in calls)
'''


def calls_of(program, text, line):
    """The functions that are called, by their full names, in order."""
    with tempfile.TemporaryDirectory() as folder:
        script, out = os.path.join(folder, "calls.py"), os.path.join(folder, "calls")
        with open(script, "w") as file:
            file.write(IN_GDB)
        given = {"CALLS_PROGRAM": os.path.abspath(program), "CALLS_TEXT": os.path.abspath(text),
                 "CALLS_LINE": str(line), "CALLS_OUT": out}
        told = subprocess.run(["gdb", "-batch", "-nx", "-x", script], env={**os.environ, **given},
                              capture_output=True, text=True)
        if not os.path.exists(out):
            sys.exit("calls.py: gdb didn't end well:\n" + told.stdout + told.stderr)
        with open(out) as file:
            return file.read().splitlines()


def main():
    words = argparse.ArgumentParser(description=__doc__.splitlines()[0])
    words.add_argument("--nllc", required=True)
    words.add_argument("--text", required=True)
    words.add_argument("--line", type=int, required=True)
    words.add_argument("--list", action="store_true")
    given = words.parse_args()
    calls = calls_of(given.nllc, given.text, given.line)
    if not calls:
        sys.exit(f"calls.py: line {given.line} isn't read")
    plain = [re.sub(r"::<.*", "", call) for call in calls]
    crates = [call.split("::")[0] for call in plain]
    modules = {tuple(call.split("::")[:2]) for call in plain}
    changes = sum(one != other for one, other in zip(crates, crates[1:]))
    print(f"{len(calls)} calls of {len(set(plain))} functions in {len(modules)} modules of {len(set(crates))} crates, "
          f"{changes} changes of crate")
    if given.list:
        for before, call in zip([""] + plain, plain):
            indent = "    " if before.split("::")[0] == call.split("::")[0] else ""
            print(indent + call)


if __name__ == "__main__":
    main()
