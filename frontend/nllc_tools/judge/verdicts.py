"""What `nllc` says of a function, and what rustc says, as far as the text has it; how the answer with each constraint at all
points differs from that with constraints from points on."""

from typing import NamedTuple, Optional

from nllc_tools.base.sentences import plain, plural
from nllc_tools.judge.content import Content
from nllc_tools.judge.differences import differences, refused
from nllc_tools.judge.findings import findings
from nllc_tools.judge.findings.finding import Finding


class Verdict(NamedTuple):
    """A badge's kind, its words, and rustc's answer in short; None where the text doesn't have it."""

    kind: str
    words: str
    rustc: Optional[str]


def verdict_of(content: Content) -> Verdict:
    """The verdict of a content: `nllc` counts, with rustc's errors beside it."""
    moves = len(content.beside.gone)
    said = counted(len(content.faults), len(content.loans), moves)
    is_refused = bool(content.faults or content.loans or moves)
    other, unjudged = differences(content), refused(content)
    kind = "faulty" if is_refused else "differs" if other or unjudged else "fine"
    if not is_refused and other:
        said = "rustc refuses, nllc doesn’t"
    elif not is_refused and unjudged:
        said = "rustc refuses for a reason that nllc doesn’t check"
    if content.everywhere is not None:
        said += f" · {in_words(content.everywhere)} at all points"
    return Verdict(kind, said, answer_of_rustc(content))


def counted(faults: int, loans: int, moves: int = 0) -> str:
    """How many faults, loan errors, and errors of moves and assignments there are, in words."""
    counts = [plural(count, noun) for count, noun in ((faults, "fault"), (loans, "loan error"), (moves, "move error")) if count]
    return ", ".join(counts) or "no fault"


def in_words(content: Content) -> str:
    """How many faults and loan errors an answer has."""
    return counted(len(content.faults), len(content.loans))


def answer_of_rustc(content: Content) -> Optional[str]:
    """The codes of rustc's errors, each once; an error without a code is of lifetimes."""
    if content.beside.count is None:
        return None
    codes = [error.code() or "lifetime error" for error in content.beside.rustc]
    return ", ".join(dict.fromkeys(codes)) or "no such error"


def alone(content: Content, other: Content) -> list[Finding]:
    """The faults and loan errors of an answer that another one of the same function lacks."""
    known, own = ([(one.place and one.place[:2], one.code, plain(one.head)) for one in findings.all_of(its)]
                  for its in (other, content))
    return [one for one, mark in zip(findings.all_of(content), own) if mark not in known]


def differing(content: Content, other: Content) -> list[int]:
    """The regions that don't hold the same in both answers."""
    return [region for region in range(len(content.facts.names))
            if content.values.elements(region) != other.values.elements(region)]
