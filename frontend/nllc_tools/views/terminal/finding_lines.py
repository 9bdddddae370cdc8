"""Findings as lines of a terminal, and as sentences for programs."""

from typing import NamedTuple

from nllc_tools.base.sentences import plain, visible
from nllc_tools.judge.findings.finding import HELP, Finding, where


class Parts(NamedTuple):
    """The sentences of a finding for programs: what it is, how it comes about and what else is said, what to do."""

    message: str
    notes: list[str]
    helps: list[str]


def parts(finding: Finding) -> Parts:
    below = [visible(plain(one)) for one in (finding.cause, *finding.more)]
    return Parts(visible(plain(finding.head)), [one for one in below if not one.startswith(HELP)],
                 [one.removeprefix(HELP) for one in below if one.startswith(HELP)])


def lines(path: str, finding: Finding) -> list[str]:
    """The lines for a terminal: what it is, how it comes about, what else is said, and what to do about it."""
    used = where(path, finding.place)
    named = where(*finding.within) if finding.within else used
    head = ": ".join(filter(None, (named, finding.code, plain(finding.head))))
    macro = [[f"in this macro invocation: {used}; the lines named here are of {path}"]] if finding.within else []
    return [head, *(f"    {plain(one)}" for one in (finding.cause, *macro, *finding.more))]
