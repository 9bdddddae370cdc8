"""Reads the tables of facts that `rustc -Znll-facts` writes for one function.

Each table is a file `NAME.facts`; a row is a line of quoted fields with tabs between them. rustc
has two points for each location of MIR, `Start(bb2[0])` and `Mid(bb2[0])`: before the statement
runs, and when it takes effect. Here such a point is a `Spot`.
"""

from __future__ import annotations

import os
import re
from dataclasses import dataclass
from functools import partial
from typing import Callable, NamedTuple, TypeVar

from nllc_tools.base.refusal import Refusal

FIRST = '"Start(bb0[0])"'
STRANGE = "this rustc's facts have another form than is known here; rustc 1.95 is known to work"
SPOT = re.compile(r'"(Start|Mid)\(bb(\d+)\[(\d+)\]\)"')

A = TypeVar("A")
B = TypeVar("B")
C = TypeVar("C")


class Location(NamedTuple):
    """A statement or terminator of MIR: its block and its place there."""

    block: int
    index: int  # type: ignore[assignment]  # it hides the method of tuples

    def __str__(self) -> str:
        return f"bb{self.block}[{self.index}]"


class Spot(NamedTuple):
    """One of rustc's two points of a location."""

    location: Location
    is_mid: bool


@dataclass(frozen=True)
class Subsets:
    """The rows of `subset_base`: pairs `('a: 'b)` that hold everywhere, and those of one statement.

    What a statement asks for stands at its `Mid`; what holds everywhere at each `Start` too.
    """

    everywhere: set[tuple[int, int]]
    located: set[tuple[int, int, Spot]]


@dataclass(frozen=True)
class Tables:
    """The tables of a function that are used here, with rustc's names.

    Regions and variables are numbers: `'?5` is 5, `_3` is 3. So are move paths (`mp4`) and loans
    (`bw2`).
    """

    cfg_edge: list[tuple[Spot, Spot]]
    universal_region: list[int]
    known_placeholder_subset: list[tuple[int, int]]
    subset_base: Subsets
    loan_issued_at: list[tuple[int, int, Spot]]
    loan_killed_at: list[tuple[int, Spot]]
    loan_invalidated_at: list[tuple[Spot, int]]
    use_of_var_derefs_origin: list[tuple[int, int]]
    drop_of_var_derefs_origin: list[tuple[int, int]]
    var_used_at: list[tuple[int, Spot]]
    var_defined_at: list[tuple[int, Spot]]
    var_dropped_at: list[tuple[int, Spot]]
    path_is_var: list[tuple[int, int]]
    child_path: list[tuple[int, int]]
    path_assigned_at_base: list[tuple[int, Spot]]
    path_moved_at_base: list[tuple[int, Spot]]
    path_accessed_at_base: list[tuple[int, Spot]]


def read_tables(folder: str) -> Tables:
    """The tables of one function."""
    try:
        return Reader(folder).tables()
    except ValueError:
        raise Refusal(f"{folder}: {STRANGE}") from None


class Known(dict[str, A]):
    """What fields mean; each is read once."""

    def __init__(self, read: Callable[[str], A]):
        super().__init__()
        self.read = read

    def __missing__(self, field: str) -> A:
        value = self[field] = self.read(field)
        return value


class Reader:
    """Reads the tables of one folder; raises ValueError where a row isn't understood."""

    def __init__(self, folder: str):
        self.folder = folder
        self.spot = Known(spot)
        self.region, self.variable, self.loan, self.path = (Known(partial(number, prefix)) for prefix in ("'?", "_", "bw", "mp"))

    def tables(self) -> Tables:
        spots, regions, variables, loans, paths = self.spot, self.region, self.variable, self.loan, self.path
        return Tables(
            cfg_edge=self.pairs("cfg_edge", spots, spots),
            universal_region=self.column("universal_region", regions),
            known_placeholder_subset=self.pairs("known_placeholder_subset", regions, regions),
            subset_base=self.subsets(),
            loan_issued_at=self.triples("loan_issued_at", regions, loans, spots),
            loan_killed_at=self.pairs("loan_killed_at", loans, spots),
            loan_invalidated_at=self.pairs("loan_invalidated_at", spots, loans),
            use_of_var_derefs_origin=self.pairs("use_of_var_derefs_origin", variables, regions),
            drop_of_var_derefs_origin=self.pairs("drop_of_var_derefs_origin", variables, regions),
            var_used_at=self.pairs("var_used_at", variables, spots),
            var_defined_at=self.pairs("var_defined_at", variables, spots),
            var_dropped_at=self.pairs("var_dropped_at", variables, spots),
            path_is_var=self.pairs("path_is_var", paths, variables),
            child_path=self.pairs("child_path", paths, paths),
            path_assigned_at_base=self.pairs("path_assigned_at_base", paths, spots),
            path_moved_at_base=self.pairs("path_moved_at_base", paths, spots),
            path_accessed_at_base=self.pairs("path_accessed_at_base", paths, spots),
        )

    def text(self, table: str) -> str:
        name = os.path.join(self.folder, f"{table}.facts")
        try:
            with open(name, "rb", buffering=0) as file:
                return file.read().decode()
        except OSError:
            raise Refusal(f"{name} isn't there: {STRANGE}") from None

    def column(self, table: str, known: Known[A]) -> list[A]:
        """The rows of a table, by what its field means."""
        fields, = self.fields(table, 1)
        return list(map(known.__getitem__, fields))

    def pairs(self, table: str, first: Known[A], second: Known[B]) -> list[tuple[A, B]]:
        """The rows of a table, by what the fields of its columns mean."""
        firsts, seconds = self.fields(table, 2)
        return list(zip(map(first.__getitem__, firsts), map(second.__getitem__, seconds)))

    def triples(self, table: str, first: Known[A], second: Known[B], third: Known[C]) -> list[tuple[A, B, C]]:
        firsts, seconds, thirds = self.fields(table, 3)
        return list(zip(map(first.__getitem__, firsts), map(second.__getitem__, seconds), map(third.__getitem__, thirds)))

    def fields(self, table: str, width: int) -> list[list[str]]:
        """The fields of a table, column by column."""
        text = self.text(table)
        if text.count("\t") != text.count("\n") * (width - 1):
            raise ValueError(table)
        fields = text.replace("\t", "\n").split("\n")
        return [fields[at:-1:width] for at in range(width)]

    def subsets(self) -> Subsets:
        """Reads millions of rows, nearly all of pairs that hold everywhere: the rows of such a pair follow one another."""
        lines = self.text("subset_base").split("\n")[:-1]
        everywhere: set[str] = set()
        located: set[tuple[str, str]] = set()
        at, length = 0, 1
        while at < len(lines):
            pair, _, field = lines[at].rpartition("\t")
            if field == FIRST:
                everywhere.add(pair)
                length = run_of(lines, at, pair, length)
                at += length
            else:
                located.add((pair, field))
                at += 1
        said = {(*self.pair(pair), self.spot[field]) for pair, field in located if pair not in everywhere}
        if not all(spot.is_mid for _, _, spot in said):
            raise ValueError("subset_base")
        return Subsets(set(map(self.pair, everywhere)), said)

    def pair(self, pair: str) -> tuple[int, int]:
        sup, sub = pair.split("\t")
        return self.region[sup], self.region[sub]


def run_of(lines: list[str], at: int, pair: str, length: int) -> int:
    """How many lines from this one on are of the pair: nearly always as many as of the pair before."""
    begin, end = f"{pair}\t", at + length
    if length == 1 or end > len(lines) or not lines[end - 1].startswith(begin):
        end = next((number for number in range(at, len(lines)) if not lines[number].startswith(begin)), len(lines))
    return end - at


def spot(field: str) -> Spot:
    found = SPOT.fullmatch(field)
    if not found:
        raise ValueError(field)
    return Spot(Location(int(found[2]), int(found[3])), found[1] == "Mid")


def number(prefix: str, field: str) -> int:
    """The number in a field: 5 of `'?5`, 3 of `_3`, 4 of `mp4`, 2 of `bw2`, which stand in quotes."""
    return int(field.removeprefix(f'"{prefix}').removesuffix('"'))
