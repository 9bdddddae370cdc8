"""Errors of moves and assignments: what is used that was moved, or has no value yet, or gets one twice."""

import re
from typing import NamedTuple, Optional

from nllc_tools.base.sentences import Code, Sentence, joined
from nllc_tools.judge.content import Content
from nllc_tools.judge.findings.finding import Finding, notes
from nllc_tools.model.facts import Facts
from nllc_tools.model.said import Error, Gone, Label
from nllc_tools.texts.source import snippet, whole_line

MOST_LINES = 6
BEFORE = r"moved here|moved due to|first assignment"
UNKNOWN = "an earlier statement"    # one whose line no remark says


class Words(NamedTuple):
    """What to do about an error, the label of its own place, and that of the points since which it is one."""

    advice: Sentence
    itself: str
    earlier: str = ""


BY_CODE = {
    "E0382": Words(["borrow it in place of moving it; or ", Code("clone"), " it before; or give it a new value after the move"],
                   "used after the move", "moved here"),
    "E0381": Words(["give it a value on each path that leads here"], "used without a value"),
    "E0384": Words(["declare it ", Code("mut"), "; or declare another variable"], "assigned again here", "has its value from here"),
}


class Earlier(NamedTuple):
    """The line of what was done before; where that is the line of the error itself, rustc's label of it."""

    line: int
    label: Optional[Label]

    def place(self) -> str:
        return f"line {self.line}:{self.label.place.column}" if self.label else f"line {self.line}"

    def with_code(self, content: Content) -> Sentence:
        """The line with what stands there."""
        code = snippet(content.source, self.label.place) if self.label else whole_line(content.source, self.line)
        return [self.place(), *([" (", Code(code), ")"] if code else [])]


def of_gone(content: Content, one: Gone) -> Finding:
    """What is used that was moved or has no value, or is assigned again."""
    error = content.beside.error_of(one)
    earlier = earlier_lines(content.facts, one, error)
    return Finding(one.place, one.code, head(one, error, earlier), cause(content, one, error, earlier), one,
                   notes(content, error, BY_CODE[one.code].advice), error.within if error else None)


def earlier_lines(facts: Facts, one: Gone, error: Optional[Error]) -> list[Earlier]:
    """What was done before; of what a macro of another file does the macro's use, which rustc names."""
    labels = error.labels if error else []
    known = dict.fromkeys(facts.remarks.point(point).line for point in one.since)
    lines = [line for line in known if line is not None] or sorted({label.place.line for label in labels if "moved" in label.words})
    before = next((label for label in labels if label.place.line == one.place.line and re.search(BEFORE, label.words)), None)
    return [Earlier(line, before if line == one.place.line else None) for line in lines]


def head(one: Gone, error: Optional[Error], earlier: list[Earlier]) -> Sentence:
    """What is wrong, with rustc's name of the place where the text has its error."""
    what = Code(error and error.named() or one.what)
    if one.code == "E0381":
        return [what, " is used here, and may have no value yet"]
    if one.code == "E0384":
        return [what, " is assigned to here, may have a value already, and isn't ", Code("mut")]
    part = " a part of it" if error and "partially" in error.words else " it"
    by = ["an earlier iteration of the loop"] if one.since == [one.point] else \
        joined([[line.place()] for line in earlier], " or ") or [UNKNOWN]
    return [what, " is used here, and ", *by, " may have moved", part]


def cause(content: Content, one: Gone, error: Optional[Error], earlier: list[Earlier]) -> Sentence:
    """Since which lines, and the lines of a walk from there."""
    walk = walk_words(content.facts, one)
    made = joined([line.with_code(content) for line in earlier], " or ") or [UNKNOWN]
    if one.code == "E0381":
        return ["a path leads here on which nothing is assigned to it", *walk]
    if one.code == "E0384":
        is_given = "argument" in error.words.partition("`")[0] if error else not one.since
        return [*(["the caller has given it one"] if is_given else ["it has one since ", *made]), *walk]
    return [*made, " moves it, and a path leads from there to here on which it gets no new value", *walk]


def walk_words(facts: Facts, one: Gone) -> Sentence:
    """The lines of the walk, where there are further ones than those of its ends."""
    lines: list[str] = []
    for line in (facts.remarks.point(point).line for point in one.walk):
        if line is not None and lines[-1:] != [str(line)]:
            lines.append(str(line))
    if len(set(lines)) < 3:
        return []
    shown = lines if len(lines) <= MOST_LINES else [*lines[:MOST_LINES - 1], "..", lines[-1]]
    return [" (by lines ", ", ".join(shown), ")"]
