"""Which destructors look at a borrowed place: those of the types whose fields the place goes through.

rustc has a code of its own for a borrow that is in force when such a destructor runs (E0713).
"""

import re
from typing import Iterable, NamedTuple, Optional

from nllc_tools.rustc.mir.body import Body
from nllc_tools.rustc.mir.statements import Place, Step, behind
from nllc_tools.rustc.mir.types import Type

DROP_FUNCTION = re.compile(r"(.*?)<impl at .*>::drop")
DROP_HEADER = re.compile(r"\bDrop\s+for\b")


class Path(NamedTuple):
    """The type of a place, the names of the types whose fields it goes through, whether it goes through a reference."""

    type: Type
    owners: tuple[str, ...]
    is_behind: bool

    def is_seen_by(self, destructors: Iterable[str]) -> bool:
        """Whether one of the types has a destructor, of those that are named."""
        return not set(self.owners).isdisjoint(destructors)


def path_to(place: Place, root: Type) -> Path:
    """The path to a place from a variable of this type."""
    type, owners, is_behind = root, [], False
    for step in place.steps:
        if step.kind == "field":
            owners.append(type.name)
        is_behind |= step.kind == "deref" and type.is_pointer()
        type = behind(type, step) or type
    return Path(type, tuple(owners), is_behind)


def destroyed_by(body: Body, header: Optional[str]) -> set[str]:
    """The names of the type of which this function is the destructor, by the header of its `impl`.

    A type that is declared inside a function is named there without the function.
    """
    found = DROP_FUNCTION.fullmatch(body.path)
    if not found or 1 not in body.locals or not DROP_HEADER.search(header or ""):
        return set()
    own = body.type_of(1)
    name = (behind(own, Step("deref")) or own).name
    return {name, found[1] + name}
