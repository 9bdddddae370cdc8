#!/usr/bin/env python3
"""Prints the states of a schedule as `frontend/world_program.rattle` does, by the slow model of `reference_world`.

    reference_states.py OWNERS round|blocks|cut FILE SCHEDULE [CUT]

Only for small texts. It may replace the program where pages of schedules are made:

    WORLD_PROGRAM=check/reference/reference_states.py ./nllc.sh schedule FILE SCHEDULE
"""

import sys

import reference
import reference_text
from reference_body import Body
from reference_solve import ALL
from reference_world import Asked, World, bytes_of, events_of


def problem_lines(problem):
    """The facts text of the problem of a body, with the names of its points as remark lines."""
    constraints = sorted(problem.constraints)
    yield b"nll-facts 2" if any(at == ALL for _, _, at in constraints) else b"nll-facts 1"
    yield b"points %d" % problem.points
    yield from (b"# point %d: %s" % (p, problem.label(p)) for p in range(problem.points))
    yield from (b"universal '%s" % name for name in problem.universals[1:])
    yield from (b"outlives '%s '%s" % pair for pair in sorted(problem.outlives))
    yield from (b"region '%s" % name for name in problem.names()[len(problem.universals):])
    yield from (b"next %d %d" % edge for edge in sorted(problem.edges))
    yield from (b"return %d" % p for p in sorted(problem.returns))
    yield from (b"base '%s %d" % base for base in sorted(problem.bases))
    yield from (b"constraint '%s '%s %s" % (sup, sub, b"all" if at == ALL else b"%d" % at)
                for sup, sub, at in constraints)
    yield b"end"


def growths(word, listed):
    """The line of a list of growths, each as region, element and rank; none of an empty list."""
    if listed:
        yield b" ".join([word, *(b"%d/%d/%d" % growth for growth in listed)])


def seat_lines(ground, number, seat):
    owner = seat.owner
    yield b"seat %d %s %s %s" % (number, b"loaded" if owner.loaded else b"new", seat.item.encode(),
                                 b"left" if seat.left else b"here")
    yield from growths(b"log", owner.log)
    for sender, received in enumerate(owner.received):
        yield from growths(b"received %d" % sender, received)
    for region, known in enumerate(owner.has):
        if known:
            yield b"holds %d" % region + b"".join(b" %d" % e for e in sorted(known))
    for to in range(ground.owners):
        lane = seat.lanes[to]
        for part, listed in ((b"fresh", lane.fresh), (b"out", lane.out), (b"box", lane.box)):
            yield from growths(b"%s %d" % (part, to), listed)


def state_lines(world):
    yield b"balance %d" % world.balance
    for number, seat in enumerate(world.seats):
        yield from seat_lines(world.ground, number, seat)


def states(ground, events):
    """The lines of all states of a schedule, and of the values at the end."""
    world = World(ground)
    if isinstance(ground.problem, Body):
        yield from problem_lines(ground.problem)
    yield b"cut" + b"".join(b" %d" % owner for owner in ground.owner_of)
    yield from state_lines(world)
    for number, (word, owners) in enumerate(events, 1):
        yield b"event " + b" ".join([word, *(b"%d" % owner for owner in owners)])
        yield b"%d %s" % (number, world.step(word, *owners).encode())
        yield from state_lines(world)
    yield b"values"
    yield from b"".join(reference.value_lines(ground.problem, world.values())).splitlines()


def printed(asked):
    """What the program prints for what is asked; raises `Refused`."""
    ground = asked.ground()
    lines = states(ground, events_of(asked.schedule, asked.owners))
    return b"".join(line + b"\n" for line in lines)


def main(words):
    owners, deal, file, schedule, *cut = words
    path = cut[0] if deal == "cut" else None
    asked = Asked(bytes_of(file), bytes_of(schedule), int(owners), deal, path,
                  bytes_of(path) if path else None, schedule)
    try:
        out = printed(asked)
    except reference_text.Refused as refused:
        sys.stderr.write(f"{refused}\n")
        return 2
    sys.stdout.buffer.write(out)
    return 0


if __name__ == "__main__":
    sys.exit(main(sys.argv[1:]))
