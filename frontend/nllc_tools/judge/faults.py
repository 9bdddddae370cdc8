"""What is wrong in a function: lifetimes that would have to outlive others, and loans that something goes against."""

from typing import NamedTuple, Optional, Union

from nllc_tools.model.chains import Step
from nllc_tools.model.facts import Facts
from nllc_tools.model.said import Against, Beside, Error, Gone, Loan, Place

ENDING = ("ends", "drops", "leaves", "destroys")


class Fault(NamedTuple):
    """A pair of universal regions, and the steps that bring the second one's end to the first."""

    sup: int
    sub: int
    steps: list[Step]


class Cause(NamedTuple):
    """Why the loan's region holds the point, and the steps from there to the loan.

    `region` is live at the point since a variable of it is used (or dropped) at `use`; or it is a
    universal one, which outlives the function. `place` is that of the use, where the statement's line doesn't tell it: of a
    macro of another file, of a function that is called, of a use in a closure, or in the line of what goes against the loan.
    """

    region: int
    use: Optional[int]
    is_drop: bool
    steps: list[Step]       # the first one's constraint has `region` at its smaller side
    place: Optional[Place] = None

    def line(self, facts: Facts) -> Optional[int]:
        """The line of the use, where it is known."""
        return self.place.line if self.place else None if self.use is None else facts.remarks.point(self.use).line


class LoanFault(NamedTuple):
    """A loan that something goes against while it is in force; rustc's code and place of it.

    `turn` says how many of that code and place come before: a macro that is used often has several.
    """

    code: str
    place: Optional[Place]
    number: int
    loan: Loan
    against: Against
    cause: Cause
    turn: int = 0

    def is_end(self) -> bool:
        """Whether what is borrowed goes away."""
        return self.against.way in ENDING

    def errors_in(self, beside: Beside) -> list[Error]:
        """rustc's errors of that code and place."""
        return [error for error in beside.rustc
                if self.place and (error.line, error.column, error.code()) == (*self.place[:2], self.code)]


AnyFault = Union[Fault, LoanFault, Gone]
