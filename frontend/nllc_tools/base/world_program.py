"""Finds `world_program`, and runs it."""

import os
import subprocess
from typing import NamedTuple, Sequence

from nllc_tools.base.nllc import PROVED, ROOT, UNKNOWN, UNPROVED, Program, installed, shown
from nllc_tools.base.refusal import Refusal, refusing

SCRIPT = os.path.join(ROOT, "frontend", "world_program.sh")
MOST_BYTES = 64 * 1024 * 1024


class Printed(NamedTuple):
    """What a program printed, which one it was, and whether that is proved."""

    text: str
    program: str
    standing: str


def find() -> Program:
    """The program in the variable WORLD_PROGRAM, that of an installed copy, or that of frontend/world_program.sh."""
    named = os.environ.get("WORLD_PROGRAM")
    if named:
        return Program(named, UNKNOWN)
    for path, standing in installed("world_program").items():
        if os.access(path, os.X_OK):
            return Program(path, standing)
    found = subprocess.run([SCRIPT], stdin=subprocess.DEVNULL, stdout=subprocess.PIPE, check=False)
    path = found.stdout.decode().strip()
    if found.returncode or not path:
        raise Refusal("there is no world_program", 3)
    return Program(path, UNPROVED if path.endswith("-unproved") else PROVED)


def run(words: Sequence[str]) -> Printed:
    """Runs the program on these words."""
    path, standing = find()
    with refusing(f"{path} can't be run", status=3), subprocess.Popen(
            [path, *words], stdin=subprocess.DEVNULL, stdout=subprocess.PIPE, stderr=subprocess.PIPE) as process:
        assert process.stdout and process.stderr
        out = process.stdout.read(MOST_BYTES + 1)
        if len(out) > MOST_BYTES:
            process.kill()
            raise Refusal("the states take more than 64 MiB: too many for a page")
        said = process.stderr.read().decode("utf-8", "replace").strip().splitlines()
    if process.returncode:
        raise Refusal(said[0].removeprefix("Error: ") if said else f"{shown(path)} ended with status {process.returncode}",
                      2 if said else 3)
    return Printed(out.decode("utf-8", "replace"), shown(path), standing)
