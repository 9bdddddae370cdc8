"""Places, operands, statements and terminators of MIR."""

from __future__ import annotations

from typing import Iterator, NamedTuple, Optional, Union

from nllc_tools.rustc.mir.types import Region, Type
from nllc_tools.rustc.unsaid import NotSaid


class Step(NamedTuple):
    """A step of a place: its kind (deref, field, index, part, variant), and of a field its variant, number and written type."""

    kind: str
    variant: str = ""
    field: int = 0
    type: Optional[Type] = None

    def words(self) -> Iterator[str]:
        """`*`, the number of a field, `as V`, `[]`."""
        if self.variant:
            yield f"as {self.variant}"
        if self.kind != "variant":
            yield {"deref": "*", "field": str(self.field)}.get(self.kind, "[]")


class Place(NamedTuple):
    """A variable and steps from it; an operand says whether it is moved."""

    local: int
    steps: tuple[Step, ...] = ()
    is_moved: bool = False

    def onward(self, step: Step) -> Place:
        """The place one step on."""
        return Place(self.local, (*self.steps, step))

    @property
    def words(self) -> tuple[str, ...]:
        """The variable and the steps in words."""
        return (f"_{self.local}", *(word for step in self.steps for word in step.words()))

    @property
    def has_lifetimes(self) -> bool:
        """Whether a field's type has some: such a place is to rustc another one wherever it is written."""
        return any(step.type is not None and step.type.has_lifetimes for step in self.steps)

    def overlaps(self, other: Place) -> bool:
        """Whether the places may share memory: they do unless they part at two fields."""
        return self.local == other.local and not any(a != b and a.isdigit() and b.isdigit()
                                                     for a, b in zip(self.words, other.words))

    def is_same(self, other: Place) -> bool:
        """Whether both are one place, however they are used."""
        return self.words == other.words


class Constant(NamedTuple):
    """A constant: what rustc writes, and its type where that has parts."""

    text: str
    type: Optional[Type] = None


Operand = Union[Place, Constant]


class Assign(NamedTuple):
    """`PLACE = ..`: the kind of value, its operands, and what else the kind has.

    The kinds: use, ref, mut, fake, raw, cast, pair (operators, discriminants, metadata), tuple, array, make (a struct, enum or
    closure, whose word is how rustc calls it), repeat and static (a reference to one of each thread). `operands` has the places
    with how they are read: `copy`, `move`. A borrow's region is `^` where the dump doesn't print it.
    """

    place: Place
    kind: str
    operands: tuple[Operand, ...] = ()
    type: Optional[Type] = None
    word: str = ""
    region: Region = 0

    def is_borrow(self) -> bool:
        return self.kind in ("ref", "mut", "fake")

    @property
    def source(self) -> Place:
        """The place that is borrowed, or looked at."""
        return next(operand for operand in self.operands if isinstance(operand, Place))


class Read(NamedTuple):
    place: Place


class Storage(NamedTuple):
    is_live: bool
    local: int


class Nothing(NamedTuple):
    pass


class Jump(NamedTuple):
    """To one of the blocks; the first operand, if there is one, decides."""

    blocks: tuple[int, ...]
    operands: tuple[Operand, ...] = ()


class Drop(NamedTuple):
    """A drop; one that a coroutine waits in may go on to a block of its own."""

    place: Place
    blocks: tuple[int, ...]
    is_of_coroutine: bool = False


class Call(NamedTuple):
    """A call of a constant function or of an operand; the blocks are where it returns and unwinds, or None."""

    place: Place
    function: Operand
    operands: tuple[Operand, ...]
    returns: Optional[int]
    unwinds: Optional[int]


class Leave(NamedTuple):
    """`return`, `resume`, or an end without a way out."""

    is_return: bool


class Foreign(NamedTuple):
    """What no MIR text says, and why: an assembler's operands, a coroutine's `yield` with the block where it goes on."""

    reason: NotSaid
    operands: tuple[Operand, ...] = ()
    place: Optional[Place] = None
    resumes: Optional[int] = None


Statement = Union[Assign, Read, Storage, Nothing]
Terminator = Union[Jump, Drop, Call, Leave, Foreign]
Line = Union[Statement, Terminator]


def operands_of(line: Line) -> Iterator[Operand]:
    """What a line reads, in the order of the text; of a call the function first."""
    if isinstance(line, Call):
        yield line.function
    if isinstance(line, (Assign, Call, Jump, Foreign)):
        yield from line.operands


def target_of(line: Line) -> Optional[Place]:
    """What a line gives a value."""
    return line.place if isinstance(line, (Assign, Call, Foreign)) else None


def places_of(line: Line) -> Iterator[Place]:
    """The places of a line, its target first."""
    first = line.place if isinstance(line, (Read, Drop)) else target_of(line)
    yield from (first,) if first is not None else ()
    yield from (operand for operand in operands_of(line) if isinstance(operand, Place))


def behind(base: Type, step: Step) -> Optional[Type]:
    """The type of a place one step further, of a field as it is written; None where it isn't known."""
    if step.kind == "field":
        return step.type
    if step.kind == "deref":
        return base.types[0] if base.is_pointer() or base.is_box() else None
    if step.kind == "index":
        return base.types[0] if base.form == "slice" else None
    return base
