"""Reads what `world_program` prints: the states of a schedule (frontend/world_program.rattle has the lines).

What holds of every state by the contracts of `nll_model` is looked at again: logs and what was received only
grow, an owner knows of a region what these lists say, and the balance counts what is under way. Where it
doesn't hold, the states aren't those of a world, and there is no page.
"""

import re
from dataclasses import dataclass, field
from typing import Iterator, NamedTuple, Optional

from nllc_tools.base.grouping import grouped
from nllc_tools.base.refusal import Refusal

ANSWERS = ("done", "quiet", "open", "not now")
PARTS = ("fresh", "out", "box")
GROWTH = re.compile(r"(\d+)/(\d+)/(\d+)")


class Growth(NamedTuple):
    """A region got an element, at this rank."""

    region: int
    element: int
    rank: int


class Event(NamedTuple):
    """An event by its word, the owner that does it, and for `take` and `push` the other one."""

    word: str
    owner: int
    other: int = -1


NOTHING = Event("", -1)     # before the first state


@dataclass
class Seat:
    """An owner in one state. A lane stands at its sender, by reader and part."""

    loaded: bool
    item: str
    left: bool
    log: list[Growth] = field(default_factory=list)
    received: dict[int, list[Growth]] = field(default_factory=dict)
    holds: dict[int, set[int]] = field(default_factory=dict)
    lanes: dict[tuple[int, str], list[Growth]] = field(default_factory=dict)

    def lane(self, to: int, part: str) -> list[Growth]:
        return self.lanes.get((to, part), [])

    def waiting(self) -> list[tuple[int, Growth]]:
        """The growths that are owed for and not yet sent, each with its reader."""
        return [(to, growth) for (to, part), growths in sorted(self.lanes.items()) if part == "out" for growth in growths]


@dataclass
class State:
    """The balance and the seats, and of all but the first state the event before it and its answer."""

    event: Event
    answer: str = ""
    balance: int = 0
    seats: list[Seat] = field(default_factory=list)


@dataclass
class Run:
    """The owner of each region, the states, and the lines of the values at the end."""

    cut: list[int]
    states: list[State]
    values: list[str]

    @property
    def owners(self) -> int:
        return len(self.states[0].seats)


class Broken(Exception):
    """Lines that aren't those of a world."""


def read_run(text: str, regions: int, elements: int) -> Run:
    """The run that a program printed, of so many regions and elements."""
    try:
        run = Reader(regions, elements).read(text)
        check(run)
        return run
    except (Broken, ValueError, IndexError) as error:
        raise Refusal(f"world_program printed no states of a world: {error}", 3) from None


class Reader:
    """Adds line after line."""

    def __init__(self, regions: int, elements: int):
        self.regions, self.elements = regions, elements
        self.states = [State(NOTHING)]

    def read(self, text: str) -> Run:
        head, mark, tail = text.partition("\nvalues\n")
        if not mark:
            raise Broken("there are no values")
        first, *lines = head.split("\n")
        word, *numbers = first.split() or [""]
        cut = [int(number) for number in numbers]
        if word != "cut" or len(cut) != self.regions:
            raise Broken("there is no cut of the regions")
        for line in lines:
            self.add(line)
        return Run(cut, self.states, tail.splitlines())

    def add(self, line: str) -> None:
        word, _, rest = line.partition(" ")
        state = self.states[-1]
        if word == "event":
            name, *numbers = rest.split()
            self.states.append(State(Event(name, *map(int, numbers))))
        elif word.isdigit():
            if int(word) != len(self.states) - 1 or rest not in ANSWERS or state.answer:
                raise Broken(f"`{line}` is no answer here")
            state.answer = rest
        elif word == "balance":
            state.balance = int(rest)
        elif word == "seat":
            number, loaded, item, place = rest.split()
            if int(number) != len(state.seats) or item not in ("nothing", "fresh", "owed"):
                raise Broken(f"seat {number} is out of order")
            state.seats.append(Seat(loaded == "loaded", item, place == "left"))
        elif word == "log":
            state.seats[-1].log = self.growths(rest)
        else:
            number, _, rest = rest.partition(" ")
            self.add_list(state.seats[-1], word, int(number), rest)

    def add_list(self, seat: Seat, word: str, number: int, rest: str) -> None:
        if word == "received":
            seat.received[number] = self.growths(rest)
        elif word == "holds":
            seat.holds[number] = {int(element) for element in rest.split()}
        elif word in PARTS:
            seat.lanes[number, word] = self.growths(rest)
        else:
            raise Broken(f"`{word}` begins no line")

    def growths(self, rest: str) -> list[Growth]:
        numbers = [GROWTH.fullmatch(word) for word in rest.split()]
        found = [Growth(int(one[1]), int(one[2]), int(one[3])) for one in numbers if one]
        if len(found) < len(numbers) or any(g.region >= self.regions or g.element >= self.elements for g in found):
            raise Broken("a growth of no region or element")
        return found


# What holds of every state

def check(run: Run) -> None:
    for number, state in enumerate(run.states):
        if len(state.seats) != run.owners or (number > 0) != bool(state.answer):
            raise Broken(f"state {number} isn't whole")
        if number:
            for old, new in zip(run.states[number - 1].seats, state.seats):
                check_growing(old, new, number)
        for owner, seat in enumerate(state.seats):
            check_known(run, owner, seat, number)
        if state.balance != len([*under_way(state)]):
            raise Broken(f"the balance of state {number} doesn't count what is under way")


def check_growing(old: Seat, new: Seat, number: int) -> None:
    lists = [(old.log, new.log)]
    lists += [(growths, new.received.get(other, [])) for other, growths in old.received.items()]
    if any(after[:len(before)] != before for before, after in lists):
        raise Broken(f"a log shrank at event {number}")


def check_known(run: Run, owner: int, seat: Seat, number: int) -> None:
    told = grouped((one.region, one.element) for growths in (seat.log, *seat.received.values()) for one in growths)
    if {region: set(elements) for region, elements in told.items()} != seat.holds \
            or any(run.cut[one.region] != owner for one in seat.log):
        raise Broken(f"owner {owner} knows something else than its lists say in state {number}")


class UnderWay(NamedTuple):
    """What counts in the balance, by its kind: a growth from an owner to a reader, or what an owner loads or works on."""

    kind: str
    owner: int
    reader: int = -1
    growth: Optional[Growth] = None


def under_way(state: State) -> Iterator[UnderWay]:
    """What counts in the balance: a load that isn't cleared, a growth in hand, one owed for, one in a box."""
    for owner, seat in enumerate(state.seats):
        if not seat.loaded or seat.item != "nothing":
            yield UnderWay("item" if seat.loaded else "load", owner)
        for (to, part), growths in sorted(seat.lanes.items()):
            for growth in growths if part != "fresh" else ():
                yield UnderWay(part, owner, to, growth)
