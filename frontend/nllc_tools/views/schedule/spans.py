"""From which event to which a thing is shown.

Each thing of a page stands in it once, with the number of the state from which on it is there, and of the
state in which it is gone. So the script only shows and hides.
"""

from typing import Callable, Iterable, NamedTuple, Optional, Sequence, TypeVar

State = TypeVar("State")
Thing = TypeVar("Thing")


class Span(NamedTuple):
    """The states from `first` on, up to the one before `end`; without an end, to the last."""

    first: int
    end: Optional[int] = None

    def attributes(self) -> str:
        """The span as attributes of an HTML element."""
        end = "" if self.end is None else f' data-to="{self.end}"'
        return f'data-from="{self.first}"{end}'


def values(states: Sequence[State], value_of: Callable[[State], Thing]) -> list[tuple[Thing, Span]]:
    """The values that a thing has one after another, each with its span."""
    found = [value_of(state) for state in states]
    firsts = [number for number, value in enumerate(found) if number == 0 or value != found[number - 1]]
    return [(found[first], Span(first, end)) for first, end in zip(firsts, [*firsts[1:], None])]


def members(states: Iterable[State], list_of: Callable[[State], Iterable[Thing]]) -> list[tuple[Thing, Span]]:
    """The members of a list of different things, each with its span, in the order in which they come."""
    here: dict[Thing, int] = {}
    ends: dict[tuple[Thing, int], Optional[int]] = {}
    for number, state in enumerate(states):
        before, here = here, {one: here.get(one, number) for one in list_of(state)}
        ends |= {since: None for since in here.items()}
        ends |= {(one, first): number for one, first in before.items() if one not in here}
    return [(one, Span(first, end)) for (one, first), end in ends.items()]
