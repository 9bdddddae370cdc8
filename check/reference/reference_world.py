#!/usr/bin/env python3
"""A slow model of owners at work, one event after another, straight from the definitions.

    reference_world.py FILE --schedule FILE [--owners N] [--deal round|blocks] [--cut FILE] [--shuffled SEED]

Prints and ends as `nllc replay` does; it doesn't know help. Lists stand for the mailboxes, a number for the balance.
The owners grow in the order of the program, or in any with `--shuffled`. What they hold after each load and take,
given what they received, and all once the balance is 0, doesn't rest on it; answers and values before that may.

Reading order: `reference_owner`, this file, `reference_order`. Only for small texts.
"""

import argparse
import functools
import random
import sys
from dataclasses import dataclass

import reference
import reference_cut
import reference_text
from reference_body import Body
from reference_cut import Cut
from reference_mir import Mir
from reference_order import ProgramOrder, RandomOrder
from reference_owner import Ground, Owner, demand
from reference_schedule import Schedule

# What an owner works on.
NOTHING, FRESH, OWED = "nothing", "fresh", "owed"

DONE, QUIET, OPEN, NOT_NOW = "done", "quiet", "open", "not now"


class Lane:
    """What is under way from one owner to another, the oldest first: what isn't owed for yet, what is and isn't
    sent, and what is in the box."""

    def __init__(self):
        self.fresh = []
        self.out = []
        self.box = []


class Seat:
    """An owner, what it works on, whether it has left, and its lane to each owner."""

    def __init__(self, ground, me, order):
        self.owner = Owner(ground, me, order)
        self.item = NOTHING
        self.left = False
        self.lanes = [Lane() for _ in range(ground.owners)]
        # How many growths each owner was given.
        self.given = [0] * ground.owners

    def is_free(self):
        return self.owner.loaded and self.item == NOTHING and not self.left

    def fill(self):
        """All that the owner has for the others and hasn't given out is fresh, and so is its item."""
        for to, lane in enumerate(self.lanes):
            part = self.owner.parts[to]
            lane.fresh += part[self.given[to]:]
            self.given[to] = len(part)
        self.item = FRESH


class World:
    """The owners of a problem, what is under way between them, and the balance."""

    def __init__(self, ground, order=ProgramOrder):
        self.ground = ground
        self.seats = [Seat(ground, me, order) for me in range(ground.owners)]
        self.balance = ground.owners

    # Where an event is possible

    def is_possible(self, word, i, j=None):
        """Whether an event, its word and its owners, is possible; numbers that are no owner are possible nowhere."""
        owners = {i} if j is None else {i, j}
        if max(owners) >= len(self.seats) or (j is not None and i == j):
            return False
        seat = self.seats[i]
        if word == b"load":
            return not seat.owner.loaded
        if word == b"take":
            return seat.is_free() and bool(self.seats[j].lanes[i].box)
        if word == b"owe":
            return seat.item == FRESH
        if word == b"clear":
            return seat.item == OWED
        if word == b"push":
            return bool(seat.lanes[j].out)
        return seat.is_free() and not any(lane.out for lane in seat.lanes)

    # What an event does

    def step(self, word, i, j=None):
        """Does what an event does, and answers it."""
        if not self.is_possible(word, i, j):
            return NOT_NOW
        return getattr(self, word.decode())(*([i] if j is None else [i, j]))

    def load(self, i):
        self.seats[i].owner.load()
        self.seats[i].fill()
        return DONE

    def take(self, i, j):
        growth = self.seats[j].lanes[i].box.pop(0)
        self.seats[i].owner.receive(j, growth)
        self.seats[i].fill()
        return DONE

    def owe(self, i):
        for lane in self.seats[i].lanes:
            self.balance += len(lane.fresh)
            lane.out += lane.fresh
            lane.fresh = []
        self.seats[i].item = OWED
        return DONE

    def clear(self, i):
        self.balance -= 1
        self.seats[i].item = NOTHING
        return DONE

    def push(self, i, j):
        lane = self.seats[i].lanes[j]
        lane.box.append(lane.out.pop(0))
        return DONE

    def leave(self, i):
        if self.balance > 0:
            return OPEN
        self.seats[i].left = True
        return QUIET

    # What is said

    def values(self):
        """The values that the logs say."""
        names = self.ground.problem.names()
        values = {name: set() for name in names}
        for seat in self.seats:
            for growth in seat.owner.log:
                values[names[growth.region]].add(growth.element)
        return values

    # What holds of each state

    def under_way(self):
        """How much is under way: what each owner holds, and what is owed for and not yet taken."""
        held = sum(not seat.owner.loaded or seat.item != NOTHING for seat in self.seats)
        return held + sum(len(lane.out) + len(lane.box) for seat in self.seats for lane in seat.lanes)

    def check(self, least):
        """Raises where the state isn't sound, or says something that the least values haven't."""
        demand(self.balance == self.under_way(), "the balance isn't what is under way")
        for i, seat in enumerate(self.seats):
            for j, lane in enumerate(seat.lanes):
                received = self.seats[j].owner.received[i]
                demand(seat.owner.parts[j] == received + lane.box + lane.out + lane.fresh, f"way {i} {j}")
        values = self.values()
        demand(all(values[name] <= least[name] for name in least), "more than the least values")
        if self.balance == 0:
            demand(values == least, "less than the least values at the balance 0")


# The answer to a text, a cut and a schedule

def dealt(regions, owners, deal, cut):
    """The owner of each region, by a cut file's bytes where there is one, else in turns or in blocks."""
    if cut is not None:
        return reference_text.read(cut, Cut()).said
    size = -(-regions // owners)
    return [region % owners if deal == "round" else region // size for region in range(regions)]


def problem_of(text):
    """The problem that a text means; raises `Refused`."""
    said = reference.said_in(text)
    problem = Body(said) if isinstance(said, Mir) else said
    _ = problem.constraints
    return problem


def events_of(said, owners):
    """The events of a schedule's bytes; raises `Refused`."""
    try:
        return reference_text.read(said, Schedule(owners)).said
    except reference_text.Refused as refused:
        raise reference_text.Refused(str(refused).replace("nllc: line", "nllc: schedule line", 1)) from None


def report(world, events):
    """The lines of a replay: the answer of each event, the balance and the values at the end."""
    lines = [b"%d %s\n" % (number, world.step(word, *owners).encode())
             for number, (word, owners) in enumerate(events, 1)]
    lines.append(b"balance %d\n" % world.balance)
    return b"".join(lines + reference.value_lines(world.ground.problem, world.values()))


@dataclass
class Asked:
    """What is asked: the bytes of a text, of a schedule and of a cut file, each None where it can't be read, with
    the paths that they have, and how the regions are dealt."""

    text: bytes
    schedule: bytes
    owners: int = 1
    deal: str = "round"
    cut_path: str = None
    cut: bytes = None
    schedule_path: str = ""

    def ground(self):
        """The problem and its owners; raises `Refused`."""
        problem = problem_of(self.text)
        regions = len(problem.names())
        if self.cut_path is not None:
            refusal = reference_cut.refusal(self.cut_path, self.cut, regions, self.owners)
            if refusal is not None:
                raise reference_text.Refused(refusal)
        return Ground(problem, self.owners, dealt(regions, self.owners, self.deal, self.cut))

    def world(self, order=ProgramOrder):
        return World(self.ground(), order)

    def answer(self, order=ProgramOrder):
        """Standard output, status and standard error. What is wrong with the text comes before what is wrong with
        the cut file, and that before what is wrong with the schedule."""
        try:
            world = self.world(order)
            if self.schedule is None:
                raise reference_text.Refused(f"nllc: cannot read {self.schedule_path}")
            return report(world, events_of(self.schedule, self.owners)), 0, b""
        except reference_text.Refused as refused:
            return b"", 2, f"{refused}\n".encode()


def bytes_of(path):
    try:
        with open(path, "rb") as file:
            return file.read(reference_text.LIMIT_TEXT + 1)
    except OSError:
        return None


def main():
    parser = argparse.ArgumentParser(description=__doc__.split("\n", maxsplit=1)[0])
    parser.add_argument("file")
    parser.add_argument("--schedule", required=True)
    parser.add_argument("--owners", type=int, default=1)
    parser.add_argument("--deal", choices=["round", "blocks"], default="round")
    parser.add_argument("--cut")
    parser.add_argument("--shuffled", type=int, help="owners grow in an order of this seed")
    args = parser.parse_args()
    text = bytes_of(args.file)
    if text is None:
        sys.stderr.write(f"nllc: cannot read {args.file}\n")
        return 2
    order = ProgramOrder
    if args.shuffled is not None:
        order = functools.partial(RandomOrder, random.Random(args.shuffled))
    cut = bytes_of(args.cut) if args.cut is not None else None
    asked = Asked(text, bytes_of(args.schedule), args.owners, args.deal, args.cut, cut, args.schedule)
    out, status, err = asked.answer(order)
    sys.stdout.buffer.write(out)
    sys.stderr.buffer.write(err)
    return status


if __name__ == "__main__":
    sys.exit(main())
