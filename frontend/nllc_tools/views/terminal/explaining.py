"""Faults and loans for a terminal, step by step; how a second answer differs from the first."""

from typing import Iterator

from nllc_tools.base.sentences import Code, Sentence, plain
from nllc_tools.judge import asking_statements, chain_sentences
from nllc_tools.judge.content import Content
from nllc_tools.judge.faults import Cause, LoanFault
from nllc_tools.judge.verdicts import alone, in_words
from nllc_tools.model import region_names
from nllc_tools.model.facts import Facts
from nllc_tools.views.terminal import finding_lines


def lines(content: Content) -> Iterator[str]:
    """A line for each fault, and one for each step of its chain; then the same for each loan."""
    facts = content.facts
    for fault in content.faults:
        yield plain(chain_sentences.fault_head(facts, fault.sup, fault.sub)) + ":"
        yield f"    {plain([region_names.end(facts, fault.sub), ' reaches'])}"
        for step in fault.steps:
            yield f"    {plain(chain_sentences.step_brief(facts, step))}"
    for loan in content.loans:
        yield from loan_lines(facts, loan)


def needs(content: Content) -> list[str]:
    """What a closure needs of the function around it."""
    return [plain(["requires of the enclosing function that ", region_names.tick(content.facts, longer), " outlive ",
                             region_names.tick(content.facts, shorter)]) for longer, shorter in content.needs]


def loan_lines(facts: Facts, fault: LoanFault) -> Iterator[str]:
    point, cause, region = fault.against.point, fault.cause, Code(f"'{fault.loan.region}")
    yield plain(["why ", region, f" holds point {facts.point_name(point)}, ", *asking_statements.statement(facts, point), ":"])
    yield "    " + plain(first_line(facts, cause, point))
    for step in cause.steps:
        sup, sub = region_names.tick(facts, step.constraint.sup), region_names.tick(facts, step.constraint.sub)
        asked = chain_sentences.reason(facts, step.constraint) or ["By the text, "]
        way = [", inside which ", chain_sentences.walk_text(facts, step.walk), " leads there"] if step.walk else \
            [", which holds it"]
        yield "    " + plain([*asked, sup, " must outlive ", sub, *way])


def first_line(facts: Facts, cause: Cause, point: int) -> Sentence:
    name = region_names.tick(facts, cause.region)
    if facts.is_universal(cause.region):
        return [name, " outlives the function, so it holds each point"]
    if cause.use is None:
        return [name, f" is live at point {facts.point_name(point)}"]
    return [name, f" is live at point {facts.point_name(point)}: ", *asking_statements.statement(facts, cause.use),
            " drops it" if cause.is_drop else " uses it"]


def second_answer(content: Content) -> Iterator[str]:
    """How the second answer differs from the first; no line where it doesn't, or there is none."""
    other = content.everywhere or content
    only_second = alone(other, content)
    if only_second or alone(content, other):
        yield f"with each constraint at all points: {in_words(other)}, in place of {in_words(content)}"
    for one in only_second:
        yield from (f"    {line}" for line in finding_lines.lines(other.path, one))
