"""All that a view shows of a text: its problem, the values, the faults with their chains."""

from dataclasses import dataclass, field
from typing import Optional

from nllc_tools.base import nllc
from nllc_tools.base.command_line import called
from nllc_tools.base.refusal import Refusal
from nllc_tools.judge.as_rustc.loan_faults import loan_faults
from nllc_tools.judge.faults import Fault, LoanFault
from nllc_tools.model import chains, faults
from nllc_tools.model.facts import Facts
from nllc_tools.model.faults import Pair
from nllc_tools.model.said import Beside
from nllc_tools.model.values import Values
from nllc_tools.texts.facts.reader import is_facts_text, read_facts
from nllc_tools.texts.facts.values import read_values
from nllc_tools.texts.source import Source, source_of

MOST_POINTS = 50_000


@dataclass(frozen=True, eq=False)
class Content:
    """All that a page shows."""

    facts: Facts
    values: Values
    faults: list[Fault]
    facts_path: str
    source: Optional[Source]
    origin: str         # where the values come from
    standing: str       # and whether that is proved
    loans: list[LoanFault] = field(default_factory=list)    # those that something goes against
    needs: list[Pair] = field(default_factory=list)     # what a closure needs of the function around it
    problem: str = ""   # a sentence on where the problem comes from, where the text doesn't say it itself
    everywhere: Optional["Content"] = None  # the answer where each constraint holds at all points, if it's asked for
    index: str = ""     # the page of all pages of the folder, where there is one

    @property
    def beside(self) -> Beside:
        return self.facts.remarks.beside

    @property
    def path(self) -> str:
        """The source's."""
        return self.source.path if self.source else self.facts.remarks.source


def content_of(path: str, text: bytes, most: float = MOST_POINTS, report: Optional[nllc.Report] = None) -> Content:
    """That of a facts text of at most so many points; a report is what `nllc` has printed of it already."""
    if not is_facts_text(text):
        read_facts(text, path)  # refuses it
    report = report or report_of(path, text)
    facts = read_facts(text, path)
    values, found = judged(path, facts, report, most)
    needs = faults.needs(facts, found)
    wrong = faults.distinct(facts, [pair for pair in found if pair not in needs])
    return Content(facts, values, explained(facts, values, wrong, report.program), path,
                   source_of(facts, path), report.program, report.standing,
                   loan_faults(facts, values), needs, facts.remarks.way)


def report_of(path: str, text: bytes) -> nllc.Report:
    """What `nllc` prints of a text; where it refuses the text, which one that is."""
    try:
        return nllc.run(text)
    except nllc.RefusedText as refusal:
        raise Refusal(f"{path}: {refusal}; {called('explain', path)} says why") from None


def judged(path: str, facts: Facts, report: nllc.Report, most: float) -> tuple[Values, list[Pair]]:
    """The values of a report, and the faults by them, which must be those that it has itself."""
    if facts.points > most:
        raise Refusal(f"{path} has {facts.points:,} points, and a page shows at most {most:,}; "
                      "`nllc values` and `nllc check` answer it")
    values = read_values(report.values, facts, report.program)
    found = faults.faults(facts, values)
    if report.faults != [(facts.names[a], facts.names[b]) for a, b in found]:
        raise Refusal(f"the faults of `{report.program} check` aren't those of `{report.program} values`", 3)
    return values, found


def explained(facts: Facts, values: Values, found: list[Pair], origin: str) -> list[Fault]:
    """The faults with their chains, each checked against the values."""
    try:
        steps = {}
        for universal in {sub for _, sub in found}:
            regions = [sup for sup, sub in found if sub == universal]
            for region, its in chains.chains(facts, values, regions, universal).items():
                chains.check(facts, values, region, universal, its)
                steps[region, universal] = its
        return [Fault(sup, sub, steps[sup, sub]) for sup, sub in found]
    except chains.WrongValues as wrong:
        raise Refusal(f"the values of {origin} don't follow from the text: {wrong}") from None
