#!/usr/bin/env python3
"""`nllc values FILE` and `nllc check FILE`, a stand-in for tests: by the quick solver, of MIR texts by the reference."""

import sys

import paths  # noqa: F401 (it puts these on the path)
import reference
from quick_solver import quick_report

from nllc_tools.texts.facts.reader import is_facts_text


def main(command, path):
    with open(path, "rb") as file:
        text = file.read()
    if not is_facts_text(text):
        return reference.main([command, path])
    report = quick_report(text)
    if command == "values":
        print(report.values, end="")
        return 0
    print("\n".join(f"fault '{long} must outlive '{short}" for long, short in report.faults) or "ok")
    return 1 if report.faults else 0


if __name__ == "__main__":
    sys.exit(main(*sys.argv[1:3]) if len(sys.argv) == 3 else 2)
