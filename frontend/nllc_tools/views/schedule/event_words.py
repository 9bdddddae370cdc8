"""Events in sentences. A sentence is a list of strings; those that are `Code` are shown as code."""

from typing import Iterable

from nllc_tools.base.sentences import Code, joined, plural
from nllc_tools.model.facts import Facts
from nllc_tools.model.region_names import tick
from nllc_tools.texts.schedule_states import Event, Growth, Run, UnderWay

# What counts in the balance.
WAYS = {"load": "the load of owner {0.owner}", "item": "what owner {0.owner} works on",
        "out": ", which owner {0.owner} still has to send to owner {0.reader}",
        "box": ", in the box from owner {0.owner} to owner {0.reader}"}


def element_name(facts: Facts, element: int) -> str:
    if element < facts.points:
        return facts.point_name(element)
    return f"end('{facts.names[element - facts.points]})"


def elements_name(facts: Facts, elements: Iterable[int], between: str = " ") -> Code:
    return Code(between.join(element_name(facts, element) for element in elements))


def walk_name(facts: Facts, walk: Iterable[int]) -> Code:
    return elements_name(facts, walk, " → ")


def growth(facts: Facts, one: Growth) -> Code:
    return Code(f"'{facts.names[one.region]} gets {element_name(facts, one.element)}")


def constraint_name(facts: Facts, number: int) -> str:
    sup, sub, at = facts.constraints[number]
    return f"('{facts.names[sup]}: '{facts.names[sub]}) @ {facts.place_name(at)}"


def words_of(event: Event) -> str:
    numbers = [event.owner] if event.other < 0 else [event.owner, event.other]
    return " ".join([event.word, *map(str, numbers)])


def way_words(facts: Facts, one: UnderWay) -> list[str]:
    """One thing that counts in the balance."""
    said = WAYS[one.kind].format(one)
    return [growth(facts, one.growth), said] if one.growth else [said]


class Happening:
    """What an event did, or why it did nothing."""

    def __init__(self, facts: Facts, run: Run, number: int):
        self.facts, self.run, self.number = facts, run, number
        self.before, self.after = run.states[number - 1:number + 1]
        self.event = self.after.event
        self.owner = f"Owner {self.event.owner}"
        self.seat = self.before.seats[self.event.owner]     # the owner's, before the event

    def told(self) -> list[str]:
        if self.after.answer == "not now":
            return [*self.why_not(), " Nothing changes."]
        return {"load": self.load, "take": self.take, "owe": self.owe, "clear": self.clear, "push": self.push,
                "leave": self.leave}[self.event.word]()

    def load(self) -> list[str]:
        return [f"{self.owner} loads: it enters the base elements of its regions, and grows until nothing is left to do. ",
                self.turn()]

    def take(self) -> list[str]:
        taken = self.before.seats[self.event.other].lane(self.event.owner, "box")[0]
        return [f"{self.owner} takes ", growth(self.facts, taken), f" out of the box from owner {self.event.other}, enters "
                "it into its copy of ", tick(self.facts, taken.region), ", and grows until nothing is left to do. ", self.turn()]

    def turn(self) -> str:
        """How the owner grew in a turn, and how much of it is for others."""
        seat = self.after.seats[self.event.owner]
        grown = len(seat.log) - len(self.seat.log)
        if not grown:
            return "None of its regions grows."
        times = {1: "once", 2: "twice"}.get(grown, f"{grown} times")
        for_others = sum(len(growths) for (_, part), growths in seat.lanes.items() if part == "fresh")
        if not for_others:
            return f"It grows {times}, and no other owner reads that."
        isnt = "message for another owner isn’t" if for_others == 1 else "messages for other owners aren’t"
        return f"It grows {times}; {for_others} {isnt} owed for yet."

    def owe(self) -> list[str]:
        count = self.after.balance - self.before.balance
        if not count:
            return [f"{self.owner} owes for nothing, since this turn has no message for another owner. The "
                    f"balance stays at {self.after.balance}."]
        return [f"{self.owner} owes for {plural(count, 'message')}: the balance rises from {self.before.balance} to "
                f"{self.after.balance}. From now on it may send {'it' if count == 1 else 'them'}."]

    def clear(self) -> list[str]:
        return [f"{self.owner} clears {self.item()}: the balance falls from {self.before.balance} to {self.after.balance}."]

    def item(self) -> str:
        """What the owner works on before the event: its load, or what it took last."""
        turns = [state.event.word for state in self.run.states[1:self.number] if state.answer == "done"
                 and state.event.owner == self.event.owner and state.event.word in ("load", "take")]
        return "its load" if turns[-1:] == ["load"] else "the growth that it took"

    def push(self) -> list[str]:
        pushed = self.seat.lane(self.event.other, "out")[0]
        return [f"{self.owner} puts ", growth(self.facts, pushed), f" into the box for owner {self.event.other}. It counts "
                f"there as it did before, so the balance stays at {self.after.balance}."]

    def leave(self) -> list[str]:
        if self.after.answer == "quiet":
            return [f"The balance is 0, so nothing is under way: owner {self.event.owner} leaves."]
        return [f"{self.owner} has nothing to do. But the balance is {self.after.balance}: something is under way, "
                "which may still lead to a growth for this owner. So it stays, and nothing changes."]

    def why_not(self) -> list[str]:
        """Why the event isn't possible."""
        if self.event.owner == self.event.other:
            return [f"{self.owner} has no mailbox to itself."]
        said = {
            "load": f"{self.owner} is loaded already.",
            "owe": f"{self.owner} has owed for this turn already." if self.seat.item == "owed" else
                   f"{self.owner} works on nothing that it could owe for.",
            "clear": f"{self.owner} has to owe for this turn’s messages first." if self.seat.item == "fresh" else
                     f"{self.owner} works on nothing that it could clear.",
            "push": f"Nothing that owner {self.event.owner} owes for waits to be sent to owner {self.event.other}.",
        }.get(self.event.word) or self.why_not_free()
        if said:
            return [said]
        if self.event.word == "take":
            return [f"The box from owner {self.event.other} to owner {self.event.owner} is empty."]
        waiting = [[growth(self.facts, one), f" to owner {reader}"] for reader, one in self.seat.waiting()]
        return [f"{self.owner} still has to send ", *joined(waiting), "."]

    def why_not_free(self) -> str:
        """Why the owner can neither take nor leave, if it is for what it works on."""
        if not self.seat.loaded:
            return f"{self.owner} isn’t loaded yet."
        if self.seat.left:
            return f"{self.owner} has left."
        return f"{self.owner} hasn’t cleared {self.item()}." if self.seat.item != "nothing" else ""
