#!/usr/bin/env python3
"""Measures `nllc.sh rust` on the files of frontend/tests/errors, with their pages, compared with rustc on the same files.

    bench/run rust --nllc PATH [--every N]

Prints seconds and processor seconds a file, those of all processes that a run starts: the median, and the most of 95
of 100 files.
"""

import argparse
import os
import statistics
import subprocess
import tempfile
import time
from typing import NamedTuple

import errors_support as support
from paths import ROOT
from timing import head

SUITE = ROOT / "frontend" / "tests" / "errors"


class Cost(NamedTuple):
    seconds: float
    processor: float


def cost_of(command, **variables):
    """What a command takes, with all that it starts."""
    begin = time.monotonic()
    process = subprocess.Popen(command, cwd=SUITE, stdin=subprocess.DEVNULL, stdout=subprocess.DEVNULL,
                               stderr=subprocess.DEVNULL, env=os.environ | variables)
    _, status, used = os.wait4(process.pid, 0)
    process.returncode = os.waitstatus_to_exitcode(status)
    return Cost(time.monotonic() - begin, used.ru_utime + used.ru_stime)


def costs_of(file, nllc):
    """Those of rustc and of the command on one file."""
    edition = support.edition_of(SUITE / file)
    with tempfile.TemporaryDirectory(dir=support.MEMORY) as room:
        plain = cost_of(["rustc", "--crate-type=lib", "--emit=metadata", f"--edition={edition}", f"--out-dir={room}", file])
        whole = cost_of([str(ROOT / "nllc.sh"), "rust", file, "--edition", edition, "-o", room], NLLC=nllc)
    return plain, whole


def row(name, costs):
    """The medians, and what 95 of 100 files stay below."""
    parts = [[cost.seconds for cost in costs], [cost.processor for cost in costs]]
    words = [f"{statistics.median(part):.2f} | {sorted(part)[len(part) * 95 // 100]:.2f}" for part in parts]
    return f"| {name} | {len(costs)} | {' | '.join(words)} |"


def main():
    parser = argparse.ArgumentParser(description=__doc__.split("\n")[0])
    parser.add_argument("--nllc", required=True)
    parser.add_argument("--every", type=int, default=1, help="each Nth file; 1")
    asked = parser.parse_args()
    pairs = [costs_of(file, asked.nllc) for file in support.sources()[::asked.every]]
    head("Command | Files | Seconds, median | 95 of 100 | Processor seconds, median | 95 of 100")
    print(row("`rustc`", [plain for plain, _ in pairs]))
    print(row("`./nllc.sh rust`", [whole for _, whole in pairs]))


if __name__ == "__main__":
    main()
