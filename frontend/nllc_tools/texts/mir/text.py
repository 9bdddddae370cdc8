"""The parts of a MIR text, before it is written."""

import re
from dataclasses import dataclass, field
from typing import NamedTuple, Optional

from nllc_tools.rustc.mir.function import Function
from nllc_tools.rustc.mir.types import STATIC, Type
from nllc_tools.rustc.tables import Location

NEXT, STOP = -1, -2


class Point(NamedTuple):
    """A line of the text, with a `%s` for each block; what it goes on to, or None for a statement."""

    text: str
    exits: Optional[tuple[int, ...]]
    location: Location


class Walked(NamedTuple):
    """A place: its type, its words if the text has any, and the longest place before it that has words.

    `derefs` are the references and pointers that it goes through; where a pointer is among those that the words leave out
    the place is crossed.
    """

    type: Type
    text: Optional[str]
    prefix: str
    prefix_type: Type
    derefs: list[Type]
    is_crossed: bool


class Used(NamedTuple):
    """An operand: its type, its words, which constants with regions and some places don't have, and its place if it is one."""

    type: Type
    words: Optional[str]
    place: Optional[Walked] = None


@dataclass
class Text:
    """The parts of a text."""

    function: Function
    structs: list[str]
    lets: list[str]
    points: list[Point]
    universals: dict[int, str]
    regions: list[str]
    asserts: list[tuple[str, str]]
    has_functions: bool = False
    nearest: list[str] = field(default_factory=list)


def names_of(function: Function) -> dict[int, str]:
    """The names of regions that the signature names; other regions are called by their numbers."""
    names: dict[int, str] = {}
    for region, name in sorted(function.body.names.items()):
        is_free = name not in names.values() and not re.fullmatch(r"r\d+|new\d+|static", name)
        if is_free and region in function.universals and region != STATIC:
            names[region] = name
    return names
