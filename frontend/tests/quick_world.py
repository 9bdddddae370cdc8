#!/usr/bin/env python3
"""`world_program 1 round FILE SCHEDULE`, a stand-in for tests: the problem of a MIR text by the reference, and no more."""

import sys

import paths  # noqa: F401 (it puts the reference on the path)
import reference

ALL = -1


def lines(body):
    yield "nll-facts 2"
    yield f"points {body.points}"
    yield from (f"# point {point}: {body.label(point).decode()}" for point in range(body.points))
    names = [name.decode() for name in body.names()]
    yield from (f"universal '{name}" for name in names[1:len(body.universals)])
    yield from (f"outlives '{a.decode()} '{b.decode()}" for a, b in sorted(body.outlives))
    yield from (f"region '{name}" for name in names[len(body.universals):])
    yield from (f"next {point} {following}" for point, following in sorted(body.edges))
    yield from (f"return {point}" for point in sorted(body.returns))
    yield from (f"base '{name.decode()} {point}" for name, point in sorted(body.bases))
    yield from (f"constraint '{a.decode()} '{b.decode()} {'all' if at == ALL else at}"
                for a, b, at in sorted(body.constraints))
    yield "end"


def main(path):
    with open(path, "rb") as file:
        body = reference.Body(reference.said_in(file.read()))
    print("\n".join(lines(body)))
    return 0


if __name__ == "__main__":
    sys.exit(main(sys.argv[3]))
