"""Chains of constraints on a page: a line for each step.

The steps stand as a reader of Rust thinks: from what lives too short a time to where it is wanted, and from where a loan's
region is needed back to the borrow. Steps between regions that the source has no name for are one line, and are seen where
it is opened.
"""

from dataclasses import dataclass
from typing import Callable, Iterable, Optional, Sequence

from nllc_tools.base.sentences import Sentence, joined, plural
from nllc_tools.judge import asking_statements, chain_sentences
from nllc_tools.judge.as_rustc import blame
from nllc_tools.judge.content import Content
from nllc_tools.judge.faults import Fault, LoanFault
from nllc_tools.judge.findings import loan_findings
from nllc_tools.judge.names import is_inner, lifetime_words
from nllc_tools.model.chains import Step
from nllc_tools.model.facts import ALL, Constraint, Facts
from nllc_tools.model.region_names import end, tick
from nllc_tools.texts.source import words_of
from nllc_tools.views.html.writing import sentence, text

MOST_LETTERS = 60   # of a line of the source; what is longer is cut


@dataclass(frozen=True)
class Chain:
    """The steps of a chain as they are shown, and what is said of one where it is opened."""

    content: Content
    steps: Sequence[Step]
    words: Callable[[Step], Sentence]
    lit: str = ""               # what each step lights beside its smaller region and the walk
    is_upwards: bool = False    # whether the larger region of a step is the smaller one of the next

    def items(self) -> str:
        found, before = "", None
        for stretch in stretches(self.content.facts, self.steps, self.is_upwards):
            found += self.item(stretch, before)
            before = stretch[-1]
        return found

    def item(self, stretch: Sequence[Step], before: Optional[Step]) -> str:
        """A step as one line that opens; so are several by way of regions without a name, which are inside it."""
        facts, downwards = self.content.facts, stretch[::-1] if self.is_upwards else stretch
        sup, sub = (sentence(lifetime_words(facts, region))
                    for region in (downwards[0].constraint.sup, downwards[-1].constraint.sub))
        inside = f"<p>{sentence(self.words(stretch[0]))}</p>"
        if len(stretch) > 1:
            inner = "".join(self.item([step], None) for step in stretch)
            inside = f'<p>{sentence(by_way_of(facts, downwards))}</p><ol class="inner">{inner}</ol>'
        return (f'<li class="step" {lights(stretch[-1].constraint.sub, stretch[-1].walk)}{self.lit}><details class="why"><summary><h3>'
                f'<button type="button" class="show">{step_line(self.content, main_step(facts, stretch), before)}</button> '
                f'<span class="what">{sup} must outlive {sub}</span></h3></summary>{inside}</details></li>')


def stretches(facts: Facts, steps: Iterable[Step], is_upwards: bool = False) -> list[list[Step]]:
    """The steps cut where a step's end is a region that the source has a name for."""
    found: list[list[Step]] = [[]]
    for step in steps:
        found[-1].append(step)
        if not is_inner(facts, step.constraint.sup if is_upwards else step.constraint.sub):
            found.append([])
    return [stretch for stretch in found if stretch]


def lights(region: int, walk: Iterable[int]) -> str:
    """The attributes for what the choice of a step lights: a region, and a walk."""
    return f'data-r="{region}" data-walk="{",".join(map(str, walk))}"'


def main_step(facts: Facts, stretch: Iterable[Step]) -> Step:
    """The step whose place is shown for all: the one that rustc would name."""
    return min(stretch, key=lambda step: (named.rank() if (named := blame.of_step(facts, step)) else blame.SILENT))


def by_way_of(facts: Facts, downwards: Sequence[Step]) -> Sentence:
    inner = [[tick(facts, step.constraint.sub)] for step in downwards[:-1]]
    return [plural(len(downwards), "step"), ", by way of ", *joined(inner), "."]


def step_line(content: Content, step: Step, before: Optional[Step]) -> str:
    """Where the step's constraint arises: a line of the source, else the statement, else a point.

    What stands on its line isn't said again where the step before it is of the same line.
    """
    facts = content.facts
    if asking_statements.is_everywhere(facts, step.constraint):
        return "everywhere"
    lines = asking_statements.arising(facts, [step])
    if lines:
        is_said = before is not None and asking_statements.arising(facts, [before])[:1] == lines[:1]
        code = "" if is_said else code_at(content, lines[0])
        return f"line {lines[0]}" + (f" <code>{text(code)}</code>" if code else "")
    points = asking_statements.origins(facts, step.constraint)
    return sentence(asking_statements.statement(facts, points[0]) if len(points) == 1
                    else [f"before point {facts.point_name(step.constraint.at)}"])


def code_at(content: Content, number: int) -> str:
    """The words of a line of the source, without what is indented and said behind them."""
    code = words_of(content.source, number).removesuffix(";")
    return code if len(code) <= MOST_LETTERS else code[:MOST_LETTERS - 1] + "…"


# The chain of a fault, from the smaller lifetime to the larger one

def chain_of_fault(content: Content, fault: Fault) -> str:
    """The stretches of the chain, and behind them where the end comes from."""
    facts = content.facts
    chain = Chain(content, fault.steps[::-1], lambda step: [
        end(facts, fault.sub), " reaches ", tick(facts, step.constraint.sup), ". ",
        *chain_sentences.step_sentence(facts, step, fault.sub)], f' data-end="{fault.sub}"')
    said = sentence(chain_sentences.beginning(facts, fault.sub))
    return f'<ol class="chain">{chain.items()}<li class="step" data-r="{fault.sub}"><p>{said}</p></li></ol>'


# The chain of a loan, from where its region is needed back to the borrow

def chain_of_loan(content: Content, fault: LoanFault) -> str:
    facts, cause, point = content.facts, fault.cause, fault.against.point
    name = sentence(lifetime_words(facts, cause.region))
    since = "it outlives the function" if facts.is_universal(cause.region) else sentence(loan_findings.since(content, fault))
    region = facts.names.index(fault.loan.region)
    made = [tick(facts, region), " is the region of the borrow of ", *loan_findings.where_made(content, fault.loan),
            ", with which ", place_words(facts, fault), " conflicts."]
    chain = Chain(content, cause.steps, lambda step: [
        tick(facts, step.constraint.sup), f" holds point {facts.point_name(point)}, too. ",
        *why_it_holds(facts, step.constraint, step.walk)], is_upwards=True)
    return (f'<ol class="chain"><li class="step" {lights(cause.region, [point])}><p>'
            f"{name[0].upper() + name[1:]} holds {place_words(facts, fault)}: {since}.</p></li>{chain.items()}"
            f'<li class="step" {lights(region, [fault.loan.at])}><p>{sentence(made)}</p></li></ol>')


def why_it_holds(facts: Facts, constraint: Constraint, walk: Sequence[int]) -> Sentence:
    longer, shorter = tick(facts, constraint.sup), tick(facts, constraint.sub)
    asked = [*chain_sentences.reason(facts, constraint), longer]
    if constraint.at == ALL:
        return [*asked, " must hold all that ", shorter, " holds."]
    return [*asked, " must hold all that is reached inside ", shorter, f" from point {facts.point_name(constraint.at)} on, by ",
            chain_sentences.walk_text(facts, walk), "."]


def place_words(facts: Facts, fault: LoanFault) -> str:
    """The line of what goes against the loan, or its point."""
    line = loan_findings.line_of(facts, fault)
    return f"line {line}" if line is not None else f"point {facts.point_name(fault.against.point)}"
