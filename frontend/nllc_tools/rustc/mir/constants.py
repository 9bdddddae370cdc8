"""What rustc writes in remarks below a statement: the types of constants that have a name, and what closures capture."""

import re
from typing import Iterable, NamedTuple, Optional, Sequence

from nllc_tools.rustc.mir.statements import Assign, Call, Constant, Line, Operand
from nllc_tools.rustc.mir.type_reader import Reader, read_type
from nllc_tools.rustc.mir.types import Type

CONSTANT = "+ const_: Const { ty: "
VALUE = ", val: Unevaluated("


class NamedConstant(NamedTuple):
    """A constant that has a name, and its type."""

    name: str
    type: Type


def named_constants(remarks: Iterable[str]) -> list[NamedConstant]:
    """The names and types of a statement's constants that have both."""
    said = (remark.removeprefix(CONSTANT).partition(VALUE) for remark in remarks if remark.startswith(CONSTANT))
    return [NamedConstant(last_word(name), read_type(type)) for type, is_named, name in said if is_named]


def captures(remarks: Sequence[str]) -> Optional[int]:
    """How many captures the closure or coroutine has that a statement makes, if it makes one.

    The statement itself has no more of them than variables that they are parts of.
    """
    if not {"closure", "coroutine"}.intersection(remarks):
        return None
    last = remarks[remarks.index("]") - 1]
    return parts_in(last.strip()) if last.startswith("    (") else 0


def parts_in(text: str) -> int:
    """How many parts a tuple has that is written like this: `()`, `(A,)`, `(A, B)`."""
    reader, count = Reader(text, 1), 0
    while not reader.takes(")"):
        reader.skip(",)")
        count += 1
        reader.takes(", ") or reader.takes(",")
    return count


def last_word(text: str) -> str:
    """The name of `a::B::<T>::NAME, [..], Some(promoted[0]))`."""
    promoted = re.search(r"Some\((promoted\[\d+\])\)\) \}$", text)
    return promoted[1] if promoted else re.split(r", \[", text)[0].rpartition("::")[2].rstrip(">")


def with_types(line: Line, known: list[NamedConstant]) -> Line:
    """The line with the types of its constants; one whose name isn't known stays without."""
    if not known or not isinstance(line, (Assign, Call)):
        return line
    left = list(known)

    def typed(operand: Operand) -> Operand:
        if isinstance(operand, Constant) and operand.type is None:
            for one in left:
                if operand.text.endswith(one.name):
                    left.remove(one)
                    return Constant(operand.text, one.type)
        return operand

    return line._replace(operands=tuple(map(typed, line.operands)))
