"""All that a page shows: the problem, the states, and why each growth came."""

from dataclasses import dataclass, field
from functools import cached_property
from typing import NamedTuple, Sequence

from nllc_tools.base.grouping import grouped
from nllc_tools.model.facts import Facts
from nllc_tools.texts.schedule_states import Growth, Run
from nllc_tools.views.schedule.reasons import Asked, reasons


class Came(NamedTuple):
    """At which event a growth came, and the constraints that ask for it, each with its walk."""

    event: int
    asked: list[Asked]


@dataclass
class Content:
    """A problem and the states of a schedule; where they come from, and whether that is proved."""

    facts: Facts
    run: Run
    facts_path: str
    schedule_path: str
    origin: str
    standing: str
    came: dict[tuple[int, Growth], Came] = field(default_factory=dict)     # each growth by its owner

    def __post_init__(self) -> None:
        for number, state in enumerate(self.run.states[1:], 1):
            for one in self.grown(number):
                self.came[state.event.owner, one] = Came(number, reasons(self.facts, state.seats[state.event.owner], one))

    def grown(self, number: int) -> Sequence[Growth]:
        """The growths of the owner that did event `number`, of this event."""
        before, after = self.run.states[number - 1:number + 1]
        owner = after.event.owner
        return after.seats[owner].log[len(before.seats[owner].log):]

    @cached_property
    def asking(self) -> dict[int, list[int]]:
        """The events at which constraints asked for something."""
        return grouped(sorted({(asked.constraint, came.event) for came in self.came.values() for asked in came.asked}))

    @cached_property
    def asked_for_taken(self) -> dict[int, list[int]]:
        """The events that took what constraints had asked for."""
        return grouped((asked.constraint, number) for number, state in enumerate(self.run.states)
                       if number and state.event.word == "take" and state.answer == "done"
                       for asked in self.came[state.event.other, self.taken(number)].asked)

    def taken(self, number: int) -> Growth:
        """The growth that an event took."""
        state = self.run.states[number]
        return state.seats[state.event.owner].received[state.event.other][-1]

    def reads(self, owner: int, region: int) -> bool:
        """Whether an owner keeps a copy of a region of another one."""
        cut = self.run.cut
        return cut[region] != owner and any(c.sub == region and cut[c.sup] == owner for c in self.facts.constraints)

    def tells(self, sender: int, reader: int) -> bool:
        """Whether an owner has a region that another one reads."""
        return sender != reader and any(of == sender and self.reads(reader, region)
                                        for region, of in enumerate(self.run.cut))
