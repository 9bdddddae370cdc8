"""Makes random schedules: wholly random ones, and those that a model of the owners drives towards quiet.

`schedule` gives a schedule's bytes; `compare_replay.py` uses it. What a driven schedule holds is possible where the
owners grow in the order of the program, but for events that are strewn in.
"""

from reference_schedule import FORMS
from reference_world import FRESH, NOTHING

from random_cut import add_remarks, hostile


# Events

def events_at(world, i):
    """The events of an owner that are possible, but for its leaving."""
    seat = world.seats[i]
    if not seat.owner.loaded:
        return [(b"load", [i])]
    events = [(b"owe" if seat.item == FRESH else b"clear", [i])] if seat.item != NOTHING else []
    events += [(b"push", [i, j]) for j, lane in enumerate(seat.lanes) if lane.out]
    if seat.is_free():
        events += [(b"take", [i, j]) for j, other in enumerate(world.seats) if other.lanes[i].box]
    return events


def possible_events(world):
    """The events that are possible, but for the leaving of owners."""
    return [event for i in range(len(world.seats)) for event in events_at(world, i)]


def leaves(world):
    return [(b"leave", [i]) for i in range(len(world.seats)) if world.is_possible(b"leave", i)]


def any_event(rng, owners):
    word = rng.choice(list(FORMS))
    return word, [rng.randrange(owners) for _ in range(FORMS[word])]


def weights_of(rng, owners):
    """How likely each word and each owner is to be chosen: alike, or some of them seldom."""
    seldom = rng.choice([1.0, 1.0, 0.1, 0.01])
    words = {word: rng.choice([1.0, seldom]) for word in FORMS}
    numbers = [rng.choice([1.0, 1.0, seldom]) for _ in range(owners)]
    return lambda event: words[event[0]] * numbers[event[1][0]]


def driven(rng, world, most):
    """Events that are possible one after another, at most so many, and some that needn't be. Once nothing is under
    way the owners leave."""
    owners = len(world.seats)
    weight = weights_of(rng, owners)
    strewn = rng.choice([0.0, 0.0, 0.02, 0.2, 0.6])
    leaving = rng.choice([0.0, 0.05, 0.3])
    while most > 0:
        events = possible_events(world)
        if not events or rng.random() < leaving:
            events += leaves(world)
        if not events:
            return
        event = rng.choices(events, [weight(event) for event in events])[0]
        if rng.random() < strewn:
            event = any_event(rng, owners)
        world.step(event[0], *event[1])
        most -= 1
        yield event


def worked(rng, world, most):
    """What owners in threads might do, each turn in a row: load or take, owe, push all, clear. An owner to which nothing
    was sent looks at the balance, now and then."""
    order = [b"load", b"owe", b"push", b"clear", b"take"]
    while most > 0 and not all(seat.left for seat in world.seats):
        me = rng.randrange(len(world.seats))
        is_begun = False
        while events := events_at(world, me):
            event = min(events, key=lambda event: (order.index(event[0]), rng.random()))
            if event[0] == b"take" and is_begun:
                break
            is_begun = True
            world.step(event[0], *event[1])
            most -= 1
            yield event
        if not is_begun and world.is_possible(b"leave", me) and (world.balance == 0 or rng.random() < 0.1):
            world.step(b"leave", me)
            most -= 1
            yield b"leave", [me]


def events_of(rng, world, most):
    """The events of a schedule, for a world that is used up."""
    owners = len(world.seats)
    kind = rng.choice(["random", "driven", "driven", "driven", "worked", "worked"])
    if kind == "random":
        return [any_event(rng, owners) for _ in range(rng.randrange(rng.choice([1, 10, 100])))]
    events = list((driven if kind == "driven" else worked)(rng, world, most))
    if rng.random() < 0.3:
        events = events[:rng.randrange(len(events) + 1)]
    behind = rng.randrange(4) if rng.random() < 0.3 else 0
    return events + [any_event(rng, owners) for _ in range(behind)]


# Texts

def lines_of(events):
    return [b"nll-schedule 1"] + [b" ".join([word] + [b"%d" % owner for owner in owners]) for word, owners in events]


def schedule(rng, world, most):
    """A schedule's bytes, None for no file. `world` is None where there is none, since something else is refused."""
    events = [any_event(rng, 4) for _ in range(rng.randrange(9))] if world is None else events_of(rng, world, most)
    lines = lines_of(events)
    if rng.random() < 0.2:
        return hostile(rng, lines, "schedule", ["header", "line", "line", "bytes", "bytes", "none", "end"])
    add_remarks(rng, lines, rng.choice([0, 0, 1, 3]), b"# an event")
    if rng.random() < 0.2:
        lines[1:] = [line.replace(b" ", rng.choice([b"  ", b"\t", b" \t "])) for line in lines[1:]]
    return b"\n".join(lines) + rng.choice([b"\n", b"\n", b""])
