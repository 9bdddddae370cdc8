"""What a line of MIR does to places: moves, reads, borrows, assigns to them, ends them."""

from typing import Iterator, NamedTuple, Optional

from nllc_tools.rustc.mir.statements import Assign, Drop, Leave, Line, Place, Read, Storage, operands_of, target_of

# Which accesses disturb a loan: of one that may write, reads too.
WRITES = ("moves", "mut", "assigns", "ends", "drops", "leaves")
BORROWS = {"ref": "shared", "mut": "mut", "fake": "looks"}
POINTERS = {"const": "shared", "mut": "mut", "fake": "reads"}


class Access(NamedTuple):
    """How a line accesses a place; all that the function owns, where it leaves it."""

    way: str
    place: Optional[Place]

    def disturbs(self, kind: str, place: Place) -> bool:
        """Whether the access may go against a loan of this kind (`mut`, `shared`) of a place."""
        if self.way not in WRITES and kind != "mut":
            return False
        return self.place is None or self.place.overlaps(place)


def accesses(line: Line) -> Iterator[Access]:
    """The accesses of a line, in the order in which they take effect: what is read, moved and borrowed, then the assignment."""
    if isinstance(line, Leave) and line.is_return:
        yield Access("leaves", None)
    elif isinstance(line, Storage) and not line.is_live:
        yield Access("ends", Place(line.local))
    elif isinstance(line, (Drop, Read)):
        yield Access("drops" if isinstance(line, Drop) else "reads", line.place)
    for operand in operands_of(line):
        if isinstance(operand, Place):
            yield Access(way_of(line, operand), operand)
    target = target_of(line)
    if target is not None:
        yield Access("assigns", target)


def way_of(line: Line, operand: Place) -> str:
    """How a line uses an operand."""
    if isinstance(line, Assign) and line.is_borrow():
        return BORROWS[line.kind]
    if isinstance(line, Assign) and line.kind == "raw":
        return POINTERS[line.word]
    return "moves" if operand.is_moved else "reads"
