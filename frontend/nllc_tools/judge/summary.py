"""What is told of a function: its findings, and rustc's errors beside them."""

from dataclasses import dataclass, field
from typing import NamedTuple

from nllc_tools.base.sentences import visible
from nllc_tools.judge import labels
from nllc_tools.judge.as_rustc.counterparts import counterpart
from nllc_tools.judge.content import Content
from nllc_tools.judge.differences import Difference, differences, further, refused
from nllc_tools.judge.findings import findings
from nllc_tools.judge.findings.finding import Finding
from nllc_tools.judge.labels import Label
from nllc_tools.judge.names import function_words
from nllc_tools.model.facts import Facts
from nllc_tools.model.said import Error
from nllc_tools.rustc.errors import Error as RustcError


class Mark(NamedTuple):
    """By what an error of rustc, or a finding, is known again: its place, and the words of an error."""

    path: str
    line: int
    column: int
    words: str = ""


def mark_of(error: RustcError) -> Mark:
    return Mark(error.path, error.line, error.column, " ".join(error.words().split()))


class Told(NamedTuple):
    """A finding with its labels, and whether rustc has an error of it."""

    finding: Finding
    labels: list[Label]
    is_of_rustc: bool


@dataclass
class Summary:
    """All that is told of a function; `lines` are those in which views tell more, and `path` is where its findings are."""

    name: str
    source: str
    path: str
    faults: int = 0
    loans: int = 0
    moves: int = 0
    findings: list[Told] = field(default_factory=list)
    differences: list[Difference] = field(default_factory=list)
    further: list[Difference] = field(default_factory=list)
    refused: list[Error] = field(default_factory=list)
    errors: list[Error] = field(default_factory=list)       # all of rustc's
    lines: list[str] = field(default_factory=list)
    page: str = ""

    def mark_of(self, error: Error) -> Mark:
        return Mark(self.source, error.line, error.column, error.words)

    def is_told(self) -> bool:
        """Whether it has findings, or rustc another answer."""
        return bool(self.findings or self.differences or self.refused)

    def count(self) -> int:
        """How many faults, loan errors and errors of moves there are."""
        return self.faults + self.loans + self.moves


def summary_of(content: Content) -> Summary:
    facts, beside = content.facts, content.beside
    told = [Told(one, [*labels.of(content, one.fault)], counterpart(facts, one.fault, one.place) is not None)
            for one in findings.all_of(content)]
    return Summary(visible(function_words(facts)), visible(facts.remarks.source), content.path, len(content.faults),
                   len(content.loans), len(beside.gone), told, differences(content), further(content), refused(content),
                   beside.rustc)


def silent(facts: Facts) -> Summary:
    """That of a function of which nothing is told."""
    return Summary(visible(function_words(facts)), visible(facts.remarks.source), facts.remarks.source)
