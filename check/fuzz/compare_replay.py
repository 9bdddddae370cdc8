#!/usr/bin/env python3
"""Compares `nllc replay` with a plain model of the owners, on random texts, cuts and schedules.

    check/run replay [--nllc PATH] [--count N] [--seed S] [--save FOLDER]
    check/run model [--count N] [--seed S] [--save FOLDER]

Of each text, a small facts or MIR text of which some are changed, the program answers `replay` with random owners,
round-robin, in blocks or by a cut file, and a random schedule: wholly random events, or such as lead to quiet, or
a beginning of these, with events strewn in that are mostly not possible. Some cut files and schedules are hostile.
Standard output, status and standard error must be those of the model (`reference_world.py`), byte by byte, whose
owners grow in the order of the program; and at the balance 0 the value lines must be those of `nllc values`. Each
text is also asked for with arguments that are refused: a usage line.

With `--model` the model is compared with itself: see `Models`. Saves what differs, cut down to the events
and lines that matter, and ends with `N compared, M differ`; status 1 where M isn't 0. Arguments may follow PATH.
"""

import functools
import os
import random
import sys

import reference_text
from reference_order import ProgramOrder, RandomOrder
from reference_owner import Wrong
from reference_schedule import Schedule
from reference_solve import asked_by, solve
from reference_world import Asked

import random_schedule
from comparing import FILE, Comparison, Difference, compare_all, options, without_lines, write
from random_cut import cut_of, region_count, small_text, spread_words
from text_tables import cases, lines_of, text_of

# Options that are refused beside a schedule, whatever the text.
USAGES = [line.decode().split(" ") for line in lines_of("wrong", "replay_options")]

# Words that are refused: a command and its options.
REFUSED = [("replay", []), ("replay", ["--schedule"]), ("replay", ["--owners", "2"]), ("values", ["--schedule", "x"]),
           ("check", ["--owners", "2", "--schedule=x"])]

MOST_EVENTS = [20, 200, 2_000, 4_000]


class Case:
    """A text, how it is dealt, and a schedule."""

    def __init__(self, seed, folder, most):
        rng = random.Random(seed)
        self.text = small_text(rng, 0.1)
        self.owners = min(most, rng.choice([1, 2, 2, 3, 4, 5, rng.randint(1, 16), 16, rng.choice([16, 64])]))
        self.deal = rng.choice(["round", "round", "blocks"])
        self.cut = self.cut_path = self.schedule = None
        self.schedule_path = os.path.join(folder, "events.schedule")
        regions = region_count(self.text)
        if rng.random() < 0.4:
            self.cut_path = os.path.join(folder, "owners.cut")
            self.cut = cut_of(rng, regions or rng.randrange(1, 9), self.owners)
        self.schedule = random_schedule.schedule(rng, self.world(), rng.choice(MOST_EVENTS))
        self.words = self.chosen_words(rng)
        self.refused = rng.choice(REFUSED)
        if rng.random() < 0.8:
            self.refused = "replay", ["--schedule", self.schedule_path, *rng.choice(USAGES)]

    def asked(self):
        return Asked(self.text, self.schedule, self.owners, self.deal, self.cut_path, self.cut, self.schedule_path)

    def world(self, order=ProgramOrder):
        """The owners before the first event; None where the text or the cut file is refused."""
        try:
            return self.asked().world(order)
        except reference_text.Refused:
            return None

    def chosen_words(self, rng):
        """The words behind the command. Some that say what is meant anyway are left out."""
        pairs = [["--schedule", self.schedule_path]]
        if self.cut_path is not None:
            pairs.append(["--cut", self.cut_path])
        elif self.deal == "blocks" or rng.random() < 0.5:
            pairs.append(["--deal", self.deal])
        if self.owners > 1 or rng.random() < 0.5:
            pairs.append(["--owners", str(self.owners)])
        return spread_words(rng, pairs)

    def shrunk(self, differs):
        """Takes out lines that a difference doesn't need, ever smaller pieces of the schedule and of the text. How often
        it is tried is limited."""
        for name in ("schedule", "text", "schedule", "text"):
            tries = iter(range(300))
            size = 0 if getattr(self, name) is None else getattr(self, name).count(b"\n")
            while size and next(tries, None) is not None:
                self.without(name, size, differs, tries)
                size //= 2

    def without(self, name, size, differs, tries):
        """Takes out pieces of so many lines, the last first, where the rest differs too."""
        def still_differs(fewer):
            setattr(self, name, fewer)
            return bool(fewer) and differs(self)

        setattr(self, name, without_lines(getattr(self, name), still_differs, size, tries))

    def write(self, text_path):
        """Writes the files, and gives what is saved of them."""
        write(text_path, self.text)
        write(self.schedule_path, self.schedule)
        if self.cut_path is not None:
            write(self.cut_path, self.cut)
        return {".text": self.text, ".cut": self.cut, ".schedule": self.schedule}


class Replays(Comparison):
    """The answers by the program and by the model."""

    def answers(self, case):
        """The answers to a case by the name of who gave them."""
        case.write(self.path)
        found = {"nllc": self.ask(self.args.nllc, "replay", case.words), "model": case.asked().answer()}
        lines, parting, _ = (b"\n" + found["nllc"][0]).partition(b"\nbalance 0\n")
        if parting:
            found["nllc values"] = (lines + parting)[1:] + self.ask(self.args.nllc, "values")[0], 0, b""
        return found

    def differs(self, case):
        return len(set(self.answers(case).values())) > 1

    def differing(self, case):
        """The words on which answers differ and these answers, or None."""
        if self.differs(case):
            case.shrunk(self.differs)
            return ["replay", *case.words], self.answers(case)
        command, words = case.refused
        return self.usage(command, [FILE, *words])

    def difference(self, seed):
        case = Case(seed, self.folder.name, self.args.most)
        found = self.differing(case)
        on = found and f"{' '.join(found[0])}, {case.owners} owners,"
        return found and Difference(on, found[1], case.write(self.path))


class Models(Comparison):
    """Compares the model with the definitions, and with itself in other orders.

    At random moments the state must be sound: the balance is what is under way, what one owner grew for another is
    what this one received and what is on its lane, and the logs say nothing but the least values, and all of them at
    the balance 0. After a load and a take what an owner holds must be what follows from what it received, whichever
    the order in which owners grow.
    """

    def run(self, case, order, seed):
        """Raises where a run in an order is wrong. A text, a cut file or a schedule that is refused has no run."""
        rng = random.Random(seed)
        world = case.world(order)
        if world is None or case.schedule is None:
            return
        try:
            events = reference_text.read(case.schedule, Schedule(case.owners)).said
        except reference_text.Refused:
            return
        least = solve(world.ground.problem)
        often = min(1.0, 8 / (len(events) + 1))
        for word, owners in events:
            answer = world.step(word, *owners)
            if answer == "done" and word in (b"load", b"take") and rng.random() < max(often, 0.1):
                check_held(world, owners[0])
            if rng.random() < often:
                world.check(least)
        world.check(least)

    def difference(self, seed):
        """The order by which the model is wrong and what it says, or None."""
        case = Case(seed, self.folder.name, self.args.most)
        for order, name in ((ProgramOrder, "program"), (functools.partial(RandomOrder, random.Random(7)), "random")):
            try:
                self.run(case, order, name)
            except Wrong as wrong:
                return Difference(name, {"model": (b"", 1, str(wrong).encode())}, case.write(self.path))
        return None


def check_held(world, i):
    """Raises where what an owner holds isn't what follows from what it received."""
    owner, ground = world.seats[i].owner, world.ground
    held = [set(value) if owner.owns(region) else set() for region, value in enumerate(ground.bases)]
    for growths in owner.received:
        for growth in growths:
            held[growth.region].add(growth.element)
    while True:
        before = sum(map(len, held))
        for sup, sub, at in owner.constraints:
            held[sup] |= asked_by(ground.steps, at, held[sub])
        if sum(map(len, held)) == before:
            break
    if held != owner.has:
        raise Wrong(f"what owner {i} holds doesn't follow from what it received")


def check_worked():
    """Raises where the model answers worked schedules otherwise than they are by hand."""
    for case in cases("replays"):
        world = Asked(text_of("replays", "each_other.facts"), None, 2).world()
        for line in case.text.decode().splitlines():
            event, answer, balance = line.split(", ")
            word, *owners = event.split()
            told = world.step(word.encode(), *map(int, owners))
            if (told, world.balance) != (answer.strip(), int(balance)):
                raise Wrong(f"{line}, in the worked schedule {case.name}: {told}, balance {world.balance}")


def main():
    parser = options(__doc__, 5_000)
    parser.add_argument("--model", action="store_true", help="compares the model with itself")
    args = parser.parse_args()
    if bool(args.nllc) == args.model:
        parser.error("either --nllc PATH or --model")
    check_worked()
    seeds = (f"replay {args.seed} {number}" for number in range(args.count))
    return compare_all(Models if args.model else Replays, args, seeds, lambda number: f"replay-{args.seed}-{number}")


if __name__ == "__main__":
    sys.exit(main())
