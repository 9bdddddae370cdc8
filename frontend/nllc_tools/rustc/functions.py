"""The one list of functions: those of a file, or of all crates of a project; their names, and where texts go."""

import os
import re
from dataclasses import dataclass, field, replace
from typing import NamedTuple

from nllc_tools.base.files import free_path
from nllc_tools.base.refusal import Refusal
from nllc_tools.base.workers import side_by_side
from nllc_tools.rustc.dumps import Dump, find_dumps
from nllc_tools.rustc.error_owners import has_answer, own_errors
from nllc_tools.rustc.errors import Error
from nllc_tools.rustc.units import Unit

LINE = re.compile(r"(?:(.+):)?(\d+)")
MOST_KNOWN = 12     # of more functions that there are in place of one that isn't the first are named


class Found(NamedTuple):
    """A function of a unit, by the name that a person sees."""

    name: str
    unit: Unit
    dump: Dump

    def path(self) -> str:
        """The file in which it stands."""
        return os.path.join(self.unit.root, self.dump.span.file) if self.dump.span else ""

    def place(self) -> str:
        return f"line {self.dump.span.first}" if self.dump.span else "line ?"

    def length(self) -> int:
        """By how many lines its last one is below its first one."""
        return self.dump.span.last - self.dump.span.first if self.dump.span else 0

    def has(self, path: str, line: int) -> bool:
        """Whether a line of a file is one of the function's; without a path, of whichever file."""
        span = self.dump.span
        return span is not None and span.first <= line <= span.last \
            and (not path or os.path.normpath(path) == os.path.normpath(self.path()))


@dataclass(frozen=True)
class Function:
    """A function, the folder to which rustc's paths are relative, the path of its text, rustc's errors of its own."""

    dump: Dump
    root: str
    path: str
    errors: list[Error]

    @property
    def name(self) -> str:
        return self.dump.name


@dataclass
class Checked:
    """The functions of a file or a project, or those that are asked for, and rustc's errors of them.

    Of some errors no function that rustc has checked has a line: those stand apart.
    """

    functions: list[Function]
    units: list[Unit]
    is_part: bool = False
    errors: list[Error] = field(default_factory=list)
    unanswered: list[Error] = field(default_factory=list)


def checked(units: list[Unit], wanted: list[str], folder: str) -> Checked:
    """The functions of the units, or those that are wanted, with texts in the folder."""
    by_unit = [all_of(unit, len(units) > 1) for unit in units]
    units = [its[0].unit if its else unit for unit, its in zip(units, by_unit)]
    found = [one for its in by_unit for one in its]
    chosen = choose(found, wanted) if wanted and found else \
        [one for one in found if has_answer(one.dump, one.unit.errors)]
    result = Checked(functions_of(chosen, by_unit, folder), units, bool(wanted))
    for unit, its in zip(units, by_unit):
        own = [one for one in its if one in chosen] if wanted else its
        apart = [error for error in unit.errors if error.places and not wanted and not has_some_line(its, error)]
        result.errors += [error for error in unit.errors if has_some_line(own, error)]
        result.errors += [error for error in apart if error.is_of_lint()]
        result.unanswered += [error for error in apart if not error.is_of_lint()]
    return result


def all_of(unit: Unit, is_one_of_many: bool) -> list[Found]:
    """All of a unit; of several crates each name begins with the crate's."""
    dumps = find_dumps(unit.facts, unit.mir, unit.crate, unit.root, side_by_side)
    unit = replace(unit, errors=[at_function(error, dumps) for error in unit.errors])
    return [Found(f"{unit.crate}::{dump.name}" if is_one_of_many else dump.name, unit, dump) for dump in dumps]


def at_function(error: Error, dumps: list[Dump]) -> Error:
    """The error where it is inside a function that a macro of another file makes; else as it is, at the macro's use."""
    inside = error.inside
    if inside is not None and any(one.is_inside(*inside.places[0], inside.column) for one in dumps):
        return inside
    return error


def has_some_line(functions: list[Found], error: Error) -> bool:
    """Whether one of the functions has one of the lines that an error is about."""
    return any(any(map(one.dump.has, error.places)) for one in functions)


def functions_of(chosen: list[Found], by_unit: list[list[Found]], folder: str) -> list[Function]:
    """The functions with the names of their texts, which begin with the crate's where there are several."""
    dumps = {id(its[0].unit): [one.dump for one in its] for its in by_unit if its}
    functions: list[Function] = []
    taken: set[str] = set()
    for name, unit, dump in chosen:
        file_name = dump.file_name if len(by_unit) == 1 else f"{unit.crate}-{dump.file_name}"
        path = free_path(folder, file_name, taken)
        taken.add(path)
        errors = own_errors(dump, dumps[id(unit)], unit.errors)
        functions.append(Function(replace(dump, name=name), unit.root, path, errors))
    return functions


def choose(found: list[Found], wanted: list[str]) -> list[Found]:
    """The functions that names or lines mean, each once."""
    chosen: list[Found] = []
    for word in wanted:
        chosen += [one for one in chosen_by(found, word) if one not in chosen]
    return chosen


def chosen_by(found: list[Found], word: str) -> list[Found]:
    """The one function that a name or a line means; more than one where a crate is checked in several ways."""
    line = LINE.fullmatch(word)
    if line:
        return at_line(found, line[1] or "", int(line[2]))
    fitting = [one for one in found if word in (one.name, one.dump.name)] \
        or [one for one in found if one.name.endswith(f"::{word}")]
    if not fitting:
        known = ", ".join(one.name for one in found[:MOST_KNOWN]) + (", .." if len(found) > MOST_KNOWN else "")
        raise Refusal(f"no function `{word}` has facts (one without a body has none, nor one "
                      f"whose types rustc refuses); these do: {known or 'none'}")
    return the_one(fitting, word)


def at_line(found: list[Found], path: str, line: int) -> list[Found]:
    """The smallest function around a line."""
    fitting = [one for one in found if one.has(path, line)]
    if not fitting:
        raise Refusal(f"no function with facts has line {line}{f' of {path}' if path else ''}")
    if len({one.path() for one in fitting}) > 1:
        raise Refusal(f"several files have a function at line {line}: give FILE:{line}")
    least = min(map(Found.length, fitting))
    return [one for one in fitting if one.length() == least]


def the_one(fitting: list[Found], word: str) -> list[Found]:
    if len({(one.dump.name, one.path(), one.place()) for one in fitting}) > 1:
        places = ", ".join(f"{one.name} ({one.place()})" for one in fitting)
        raise Refusal(f"`{word}` fits several functions: {places}; "
                      f"give one of these names in full, or the line in place of a name")
    return fitting
