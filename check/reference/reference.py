#!/usr/bin/env python3
"""A slow reader and solver of facts texts and MIR texts, straight from the definitions.

It is the second reference, next to `baseline/`: it cuts a text into lines, a line into tokens, and
grows sets of integers in whole rounds until a round adds nothing. Only for small texts.

    reference.py read|problem|values|check FILE     prints and ends as the baseline does
    reference.py body FILE                          what each point of a MIR text says

Reading order: `reference_text`, `reference_facts`, `reference_solve`; for MIR texts then
`reference_grammar`, `reference_types`, `reference_mir`, `reference_body`.
"""

import sys

import reference_text
from reference_body import Body
from reference_facts import Facts
from reference_mir import Mir
from reference_solve import faults, reach, solve

COMMANDS = ("read", "problem", "values", "check", "body")


def said_in(text):
    """What a text says, as one of the two formats in one of their versions; raises `Refused`."""
    first = reference_text.lines_of(text)[0] if len(text) <= reference_text.LIMIT_TEXT else b""
    for said in (Mir, Facts):
        for version in said.VERSIONS:
            if reference_text.is_header(first, said.HEADER, version):
                return reference_text.read(text, said(version))
    return reference_text.read(text, Facts())


def body_counts(said):
    return b"points %d edges %d regions %d universals %d structs %d variables %d\n" % (
        len(said.points), said.edges, len(said.regions), len(said.universals), len(said.structs),
        len(said.variables))


def counts(problem):
    return b"points %d edges %d regions %d universals %d bases %d constraints %d\n" % (
        problem.points, len(problem.edges), len(problem.names()), len(problem.universals),
        len(problem.bases), len(problem.constraints))


def printed(problem, e):
    if e < problem.points:
        return b" " + problem.label(e)
    return b" end('%s)" % problem.universals[e - problem.points]


def value_lines(problem, values):
    """A line a region: its name, a colon, then its elements."""
    return [b"'%s:" % name + b"".join(printed(problem, e) for e in sorted(values[name])) + b"\n"
            for name in problem.names()]


def report(command, said):
    """Standard output and status of a command on what a text says; raises `Refused`."""
    is_body = isinstance(said, Mir)
    if command == "read" and is_body:
        return body_counts(said), 0
    problem = Body(said) if is_body else said
    if command == "body":
        return b"".join(problem.table()) if is_body else b"", 0
    if command in ("read", "problem"):
        return counts(problem), 0
    values = solve(problem)
    if command == "values":
        return b"".join(value_lines(problem, values)), 0
    found = faults(problem, values)
    lines = [b"fault '%s must outlive '%s\n" % pair for pair in found]
    return b"".join(lines) or b"ok\n", 1 if found else 0


def answer(command, text):
    """Standard output, status and standard error for a text."""
    try:
        out, status = report(command, said_in(text))
        return out, status, b""
    except reference_text.Refused as refused:
        return b"", 2, f"{refused}\n".encode()


def main(words):
    if len(words) != 2 or words[0] not in COMMANDS:
        sys.stderr.write(f"usage: reference.py {'|'.join(COMMANDS)} FILE\n")
        return 2
    try:
        with open(words[1], "rb") as file:
            text = file.read(reference_text.LIMIT_TEXT + 1)
    except OSError:
        sys.stderr.write(f"nllc: cannot read {words[1]}\n")
        return 2
    out, status, err = answer(words[0], text)
    sys.stdout.buffer.write(out)
    sys.stderr.buffer.write(err)
    return status


if __name__ == "__main__":
    sys.exit(main(sys.argv[1:]))
