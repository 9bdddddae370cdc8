"""Reads a facts text, version 1 or 2 (docs/FORMATS.md).

`nllc` is the judge of texts. This reader follows those that `nllc` accepts; it stops at a line that
it can't follow, but doesn't look for every fault that a line can have.
"""

import re
from typing import Iterator, NoReturn, Sequence, Union

from nllc_tools.base.command_line import called
from nllc_tools.base.refusal import Refusal
from nllc_tools.model.facts import ALL, Constraint, Facts
from nllc_tools.texts.facts.remark_reader import RemarkReader, is_remark

TOKEN = re.compile(r"'[A-Za-z0-9_]+|[A-Za-z0-9_]+")
PLAIN = re.compile(r"[a-z]+(?: '?[A-Za-z0-9_]+)*")     # a line as nearly all are written
NUMBER = re.compile(r"0|[1-9][0-9]{0,8}")

# What stands behind each keyword: names of regions (r), numbers (n), and a place (p): a number or `all`.
FORMS = {"points": "n", "universal": "r", "outlives": "rr", "region": "r", "next": "nn",
         "return": "n", "base": "rn", "constraint": "rrp", "end": ""}

VERSIONS = ([b"nll-facts", b"1"], [b"nll-facts", b"2"])


def is_facts_text(text: bytes) -> bool:
    """Whether the first line is the header of a facts text, version 1 or 2."""
    return text.split(b"\n", 1)[0].split() in VERSIONS


def read_facts(text: bytes, path: str) -> Facts:
    """The problem that the bytes of a text say."""
    if not is_facts_text(text):
        raise Refusal(f"{path} isn't a facts text or a MIR text: its first line is none of `nll-facts 1`, `nll-facts 2`, `nll-mir 1` "
                      f"and `nll-mir 2`; {called('facts')} FILE.rs makes facts texts of Rust files")
    reader = Reader(path, text.split(b"\n", 1)[0].split() == VERSIONS[1])
    for number, line in enumerate(decoded(text, path).split("\n"), 1):
        if number > 1:
            reader.read(number, line)
    if not reader.ended:
        raise Refusal(f"{path} stops before its `end` line: is it cut off?")
    return reader.facts


def decoded(text: bytes, path: str) -> str:
    try:
        return text.decode("utf-8")
    except UnicodeDecodeError as error:
        line = text.count(b"\n", 0, error.start) + 1
        raise Refusal(f"{path}, line {line}: not UTF-8") from None


Argument = Union[int, str]      # a number or a place, or the name of a region


class Reader:
    """Adds line after line to the facts."""

    def __init__(self, path: str, may_be_everywhere: bool) -> None:
        self.path = path
        self.may_be_everywhere = may_be_everywhere
        self.remarks = RemarkReader()
        self.facts = Facts(remarks=self.remarks.remarks)
        self.known: dict[str, int] = {}         # the numbers of a text come again and again
        self.numbers = {"static": 0}
        self.seen: set[tuple[Argument, ...]] = set()
        self.ended = False

    def read(self, number: int, line: str) -> None:
        if is_remark(line):
            self.remarks.read(line)
            return
        words = line.split(" ") if PLAIN.fullmatch(line) else self.tokens(number, line)
        if not words:
            return
        form = FORMS.get(words[0])
        if form is None or len(words) != len(form) + 1 or self.ended:
            self.stop(number)
        arguments = [self.argument(number, kind, word) for kind, word in zip(form, words[1:])]
        if words[0] in ("universal", "region"):
            self.declare(number, words[0], str(arguments[0]))
        elif (words[0], *arguments) not in self.seen:
            if words[0] != "points":
                self.seen.add((words[0], *arguments))  # what is said again says nothing new
            getattr(self, "add_" + words[0])(number, *self.resolved(number, arguments))

    def stop(self, number: int) -> NoReturn:
        raise Refusal(f"{self.path}, line {number}: no line of a facts text here; "
                      f"`nllc check {self.path}` says what is wrong with it")

    def tokens(self, number: int, line: str) -> list[str]:
        """The tokens of a line however it is written; stops where there is something else."""
        if TOKEN.sub("", line).strip(" \t\r").replace(" ", "").replace("\t", ""):
            self.stop(number)
        return TOKEN.findall(line)

    def argument(self, number: int, kind: str, word: str) -> Argument:
        """The name of a region, or a number."""
        if kind == "r" and word.startswith("'"):
            return word[1:]
        if kind == "p" and word == "all" and self.may_be_everywhere:
            return ALL
        if kind in "np" and (word in self.known or NUMBER.fullmatch(word)):
            return self.known.setdefault(word, int(word))
        return self.stop(number)

    def resolved(self, number: int, arguments: Sequence[Argument]) -> Iterator[int]:
        """The same with regions by number."""
        for argument in arguments:
            if isinstance(argument, int):
                yield argument
            elif argument in self.numbers:
                yield self.numbers[argument]
            else:
                self.stop(number)

    def point(self, number: int, *points: int) -> None:
        if any(point >= self.facts.points for point in points):
            self.stop(number)

    def declare(self, number: int, keyword: str, name: str) -> None:
        facts = self.facts
        late = keyword == "universal" and len(facts.names) > facts.universals
        if name in self.numbers or late or not facts.points:
            self.stop(number)
        self.numbers[name] = len(facts.names)
        facts.names.append(name)
        facts.bases.append(set())
        facts.universals += keyword == "universal"

    def add_points(self, number: int, points: int) -> None:
        if self.facts.points or not 0 < points <= 1_048_576:
            self.stop(number)
        self.facts.points = points
        self.facts.successors = [[] for _ in range(points)]
        self.facts.predecessors = [[] for _ in range(points)]

    def add_outlives(self, number: int, long: int, short: int) -> None:
        if max(long, short) >= self.facts.universals:
            self.stop(number)
        self.facts.outlives.add((long, short))

    def add_next(self, number: int, point: int, successor: int) -> None:
        self.point(number, point, successor)
        self.facts.successors[point].append(successor)
        self.facts.predecessors[successor].append(point)

    def add_return(self, number: int, point: int) -> None:
        self.point(number, point)
        self.facts.returns.add(point)

    def add_base(self, number: int, region: int, point: int) -> None:
        self.point(number, point)
        self.facts.bases[region].add(point)

    def add_constraint(self, number: int, sup: int, sub: int, at: int) -> None:
        if at != ALL:
            self.point(number, at)
        self.facts.constraints.append(Constraint(sup, sub, at))

    def add_end(self, number: int) -> None:
        if not self.facts.points:
            self.stop(number)
        self.ended = True
