"""Reads the remark lines by which a facts text says what its points and regions are, and what there is beside its problem.

    # function: NAME                      # source: PATH             # way: WORDS
    # point N: line L: TEXT               # region 'NAME: line L: TEXT
    # loans: COUNT
    # loan N: 'R at P, PLACE, KIND of WHAT, by a closure, PLACE
    # killed N: P ..                      # against P, PLACE, WAY of WHAT after P: N ..
    # asked 'R 'R at P, PLACE: WORD       # uses 'R: P ..      # drops 'R: P ..
    # blamed 'R 'R, PLACE: WORD           # blamed N 'R, PLACE: WORD of a closure
    # used P, PLACE                       # called P by N .., PLACE   # captured P 'R, PLACE
    # needs 'R 'R                         # gone P, L:C, CODE of WHAT, by P ..: P ..
    # rustc LINE:COLUMN: WORDS            # label PLACE: WORDS
    # within PATH, PLACE                  # invoked PATH, PLACE
    # note: WORDS                         # help: WORDS

A place is `L:C-L:C` or `elsewhere`; `line L: ` is left out where the line isn't known. `nllc` skips all of them, and any may be
missing; a remark of another form is for the reader of the text alone. docs/FROM-RUST.md says what each means.
"""

import re
from typing import Callable, Optional

from nllc_tools.model.remarks import Remark, Remarks
from nllc_tools.model.said import Against, Asked, Blamed, Error, Gone, Label, Loan, Place, Within
from nllc_tools.rustc.error_kinds import MOVES

WORD = re.compile(r"#\s*(\w+:?)", re.ASCII)
PLACE = r"(\d+:\d+-\d+:\d+|elsewhere)"
FORMS = {
    "function:": re.compile(r"#\s*function:\s*(\S.*)", re.ASCII),
    "source:": re.compile(r"#\s*source:\s*(\S.*)", re.ASCII),
    "way:": re.compile(r"#\s*way:\s*(\S.*)", re.ASCII),
    "point": re.compile(r"#\s*point (\d{1,9}):\s*(?:line (\d{1,9}):\s*)?(.*)", re.ASCII),
    "region": re.compile(r"#\s*region '(\w+):\s*(?:line (\d{1,9}):\s*)?(.*)", re.ASCII),
    "loans:": re.compile(r"# loans: (\d+)"),
    "loan": re.compile(rf"# loan (\d+): '(\w+) at (\d+), {PLACE}, (mut|unique|shared|fake) of (.*?)"
                       rf"(, by a closure)?(?:, {PLACE})?"),
    "killed": re.compile(r"# killed (\d+): ([\d ]+)"),
    "against": re.compile(rf"# against (\d+), {PLACE}, (\w+)(?: of (\S+))?(?: after (\d+))?: ([\d ]+)"),
    "asked": re.compile(rf"# asked '(\w+) '(\w+)(?: at (\d+))?, {PLACE}: (\w+)"),
    "blamed": re.compile(rf"# blamed ('\w+|\d+) '(\w+), {PLACE}: (\w+)( of a closure)?"),
    "uses": re.compile(r"# uses '(\w+): ([\d ]+)"),
    "drops": re.compile(r"# drops '(\w+): ([\d ]+)"),
    "used": re.compile(rf"# used (\d+), {PLACE}"),
    "called": re.compile(rf"# called (\d+)(?: by ([\d ]+))?, {PLACE}"),
    "captured": re.compile(rf"# captured (\d+) '(\w+), {PLACE}"),
    "needs": re.compile(r"# needs '(\w+) '(\w+)"),
    "gone": re.compile(rf"# gone (\d+), (\d+):(\d+), ({'|'.join(MOVES)}) of (\w+), by ([\d ]+):([\d ]*)"),
    "rustc": re.compile(r"# rustc (\d+):(\d+): (.*)"),
    "help:": re.compile(r"# help: (.*)"),
    "note:": re.compile(r"# note: (.*)"),
    "within": re.compile(rf"# within (.*), {PLACE}"),
    "invoked": re.compile(rf"# invoked (.*), {PLACE}"),
    "label": re.compile(rf"# label {PLACE}(?:: (.*))?"),
}


class RemarkReader:
    """Takes the lines in, and gives the remarks; of some that are said twice the first counts."""

    def __init__(self) -> None:
        self.remarks = Remarks()
        self.beside = self.remarks.beside

    def read(self, line: str) -> None:
        """Takes a remark line in, if it has one of the forms."""
        line = line.strip(" \t\r")
        word = WORD.match(line)
        found = FORMS[word[1]].fullmatch(line) if word and word[1] in FORMS else None
        if word and found:
            getattr(self, f"take_{word[1].rstrip(':')}")(*found.groups())

    def take_function(self, name: str) -> None:
        self.remarks.function = self.remarks.function or name

    def take_source(self, path: str) -> None:
        self.remarks.source = self.remarks.source or path

    def take_way(self, words: str) -> None:
        self.remarks.way = self.remarks.way or words

    def take_point(self, number: str, line: Optional[str], text: str) -> None:
        self.remarks.points.setdefault(int(number), Remark(int(line) if line else None, text.strip()))

    def take_region(self, name: str, line: Optional[str], text: str) -> None:
        self.remarks.regions.setdefault(name, Remark(int(line) if line else None, text.strip()))

    def take_loans(self, count: str) -> None:
        self.beside.count = int(count)

    def take_loan(self, number: str, region: str, at: str, place: str, kind: str, what: str, closure: Optional[str],
                  home: Optional[str]) -> None:
        self.beside.loans[int(number)] = Loan(region, int(at), place_of(place), kind, what,
                                              closure is not None, place_of(home))

    def take_killed(self, number: str, points: str) -> None:
        self.beside.killed[int(number)] = set(numbers(points))

    def take_against(self, point: str, place: str, way: str, what: Optional[str], begun: Optional[str], loans: str) -> None:
        first = int(begun) if begun else None
        self.beside.against.append(Against(int(point), place_of(place), way, first, numbers(loans), what or ""))

    def take_asked(self, sup: str, sub: str, point: Optional[str], place: str, word: str) -> None:
        self.beside.asked.setdefault((sup, sub), []).append(Asked(int(point) if point else None, place_of(place), word))

    def take_blamed(self, begin: str, goal: str, place: str, word: str, closure: Optional[str]) -> None:
        self.beside.blamed[begin.lstrip("'"), goal] = Blamed(place_of(place), word, closure is not None)

    def take_uses(self, region: str, points: str) -> None:
        self.beside.uses[region] = set(numbers(points))

    def take_drops(self, region: str, points: str) -> None:
        self.beside.drops[region] = set(numbers(points))

    def take_used(self, point: str, place: str) -> None:
        self.beside.used[int(point)] = place_of(place)

    def take_called(self, point: str, loans: Optional[str], place: str) -> None:
        by: list[Optional[int]] = [*numbers(loans)] if loans else [None]
        for loan in by:
            self.beside.called[int(point), loan] = place_of(place)

    def take_captured(self, point: str, region: str, place: str) -> None:
        self.beside.captured[int(point), region] = place_of(place)

    def take_needs(self, sup: str, sub: str) -> None:
        self.beside.needs.add((sup, sub))

    def take_gone(self, point: str, line: str, column: str, code: str, what: str, walk: str, since: str) -> None:
        place = Place(int(line), int(column), int(line), int(column))
        there = [known.point for known in self.beside.gone if known.place == place]
        if int(point) not in there:
            self.beside.gone.append(Gone(int(point), place, code, what, numbers(walk), numbers(since), len(there)))

    def take_rustc(self, line: str, column: str, words: str) -> None:
        self.beside.rustc.append(Error(int(line), int(column), words, [], [], []))

    def change_error(self, change: Callable[[Error], Error]) -> None:
        """Changes the last error, if there is one."""
        self.beside.rustc[-1:] = map(change, self.beside.rustc[-1:])

    def take_within(self, path: str, place: str) -> None:
        self.change_error(lambda error: error._replace(within=Within(path, place_of(place))))

    def take_invoked(self, path: str, place: str) -> None:
        self.change_error(lambda error: error._replace(invoked=Within(path, place_of(place))))

    def take_note(self, words: str) -> None:
        self.change_error(lambda error: error._replace(notes=[*error.notes, words]))

    def take_help(self, words: str) -> None:
        self.change_error(lambda error: error._replace(helps=[*error.helps, words]))

    def take_label(self, place: str, words: Optional[str]) -> None:
        if found := place_of(place):
            label = Label(found, words or "")
            self.change_error(lambda error: error._replace(labels=[*error.labels, label]))


def numbers(text: str) -> list[int]:
    return [int(word) for word in text.split()]


def place_of(text: Optional[str]) -> Optional[Place]:
    """The place; none for `elsewhere`, or where nothing is said."""
    return Place(*map(int, re.findall(r"\d+", text))) if text and text != "elsewhere" else None


def is_remark(line: str) -> bool:
    return line.lstrip(" \t\r").startswith("#")
