#!/usr/bin/env python3
"""Worked examples of facts and MIR texts, with answers found by hand from the definitions.

    check/run worked [--nllc PATH] [--formats facts mir] [--large]

Runs `PATH values FILE` or `PATH check FILE` on each and compares output, status and the line on
standard error. Arguments may follow PATH, as in `'PATH --runs'`. `--large` adds the texts at the
limits of the formats (up to 64 MiB each). The examples stand in `tables/`.
Prints each example that differs, then `N examples, M differ`; status 1 where M isn't 0.
"""

import argparse
import sys
import time

from comparing import BASELINE, Comparison, shown, write
from limits import HOSTILE, LIMITS
from text_tables import Case, cases


def wanted(case):
    """The command of an example, and what the program must answer."""
    if case.answer in ("values", "check"):
        out = "".join(f"{line}\n" for line in case.lines).encode()
        return case.answer, (out, int(case.answer == "check" and out != b"ok\n"), b"")
    if case.answer == "ok":
        return "check", (b"ok\n", 0, b"")
    return "values", (b"", 2, f"nllc: {case.answer}\n".encode())


def examples(args):
    """All that are asked for."""
    for name in args.formats:
        yield from (one for one in cases(f"{name}_worked") if one.answer)
        more = [HOSTILE] * (name == "mir") + [LIMITS[name]] * args.large
        yield from (Case(called, answer, text, []) for some in more for called, text, answer in some())


def main():
    parser = argparse.ArgumentParser(description=__doc__.split("\n")[0])
    parser.add_argument("--program", default=BASELINE)
    parser.add_argument("--formats", nargs="+", choices=["facts", "mir"], default=["facts", "mir"])
    parser.add_argument("--times", action="store_true", help="print the seconds of each")
    parser.add_argument("--large", action="store_true", help="texts at the limits too")
    parser.add_argument("--seconds", type=float, default=60.0, help="time limit of a run")
    args = parser.parse_args()
    comparison, count, differ = Comparison(args), 0, 0
    for case in examples(args):
        command, answer = wanted(case)
        write(comparison.path, case.text)
        began = time.perf_counter()
        found = comparison.ask(args.program, command)
        if args.times:
            print(f"{case.name}: {time.perf_counter() - began:.3f} s", flush=True)
        count += 1
        if found != answer:
            differ += 1
            print(f"{case.name}: {command}", shown("wanted", answer), shown("found", found), sep="\n")
    print(f"{count} examples, {differ} differ")
    return 1 if differ else 0


if __name__ == "__main__":
    sys.exit(main())
