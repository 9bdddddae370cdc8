"""What a text says of a function beside its problem: loans, why constraints are asked, uses, needs, errors of rustc."""

import re
from dataclasses import dataclass, field
from typing import NamedTuple, Optional

from nllc_tools.model.blame import rank_of
from nllc_tools.rustc import error_kinds

NAMED = re.compile(r"`([^`]+)`")


class Place(NamedTuple):
    """The first character in the source, and the one behind the last."""

    line: int
    column: int
    last: int
    end: int


class Loan(NamedTuple):
    """A borrow: its region, where it is made, what is borrowed and how."""

    region: str
    at: int
    place: Optional[Place]
    kind: str
    what: str
    by_closure: bool
    home: Optional[Place]

    def is_of_temporary(self) -> bool:
        return self.what.endswith("a temporary")


class Against(NamedTuple):
    """A point that goes against loans, how and by what; of a borrow in two phases the first one's point."""

    point: int
    place: Optional[Place]
    way: str
    begun: Optional[int]
    loans: list[int]
    what: str = ""      # `list.*.0`: a variable, and the steps from it; with a `'` where a field's type has lifetimes


class Asked(NamedTuple):
    """Why a constraint is asked: at a point, or everywhere; where; rustc's category."""

    point: Optional[int]
    place: Optional[Place]
    word: str


class Gone(NamedTuple):
    """What is accessed that was moved or has no value, or is assigned again: since when, and the walk to there.

    `turn` says how many of that code and place come before.
    """

    point: int
    place: Place
    code: str
    what: str
    walk: list[int]
    since: list[int]
    turn: int = 0


class Label(NamedTuple):
    """A place that an error of rustc names, and what it says of it."""

    place: Place
    words: str


class Within(NamedTuple):
    """A place in a macro of another file, which the function uses."""

    path: str
    place: Optional[Place]


class Error(NamedTuple):
    """An error of rustc in the function, with what it says at places, on variance, and as help.

    Of what a macro of another file makes the place is that of the macro's use, and rustc names the one within the macro.
    Of a function that such a macro makes the place is the latter, and `invoked` is the macro's use.
    """

    line: int
    column: int
    words: str
    labels: list[Label]
    notes: list[str]
    helps: list[str]
    within: Optional[Within] = None
    invoked: Optional[Within] = None

    def code(self) -> str:
        """`E0499`; nothing of an error that has none."""
        return self.words.split(":")[0] if self.words.startswith("E0") else ""

    def named(self) -> str:
        """What it speaks of first; nothing where it names nothing."""
        found = NAMED.search(self.words)
        return found[1] if found else ""

    def place(self) -> Place:
        """Its own place, with its end where a label says it."""
        begin = (self.line, self.column)
        return next((label.place for label in self.labels if label.place[:2] == begin), Place(*begin, *begin))

    def is_of_lifetimes(self) -> bool:
        return error_kinds.is_of_lifetimes(self.code(), self.words)

    def is_judged(self) -> bool:
        return error_kinds.is_judged(self.code(), self.words)


class Blamed(NamedTuple):
    """A constraint that rustc names, or may name: where, its category, whether the body of a closure asks for it."""

    place: Optional[Place]
    word: str
    is_of_closure: bool = False

    def rank(self) -> int:
        return rank_of(self.word)


@dataclass
class Beside:
    """All that is said. The count of loans is None where a text says nothing of loans."""

    count: Optional[int] = None
    loans: dict[int, Loan] = field(default_factory=dict)
    killed: dict[int, set[int]] = field(default_factory=dict)
    against: list[Against] = field(default_factory=list)
    asked: dict[tuple[str, str], list[Asked]] = field(default_factory=dict)
    blamed: dict[tuple[str, str], Blamed] = field(default_factory=dict)
    uses: dict[str, set[int]] = field(default_factory=dict)
    drops: dict[str, set[int]] = field(default_factory=dict)
    used: dict[int, Optional[Place]] = field(default_factory=dict)
    called: dict[tuple[int, Optional[int]], Optional[Place]] = field(default_factory=dict)
    captured: dict[tuple[int, str], Optional[Place]] = field(default_factory=dict)
    needs: set[tuple[str, str]] = field(default_factory=set)
    gone: list[Gone] = field(default_factory=list)
    rustc: list[Error] = field(default_factory=list)

    def error_of(self, gone: Gone) -> Optional[Error]:
        """The error of rustc that an error of a move or an assignment is; None where the text lacks it."""
        found = [error for error in self.rustc if (error.line, error.column, error.code()) == (*gone.place[:2], gone.code)]
        return found[min(gone.turn, len(found) - 1)] if found else None
