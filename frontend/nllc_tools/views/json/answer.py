"""A text, its values and its faults as one object of JSON (docs/answer.schema.json)."""

from nllc_tools.base.grouping import spans
from nllc_tools.judge.content import Content
from nllc_tools.judge.faults import Fault, LoanFault
from nllc_tools.judge.findings import lifetime_findings, loan_findings, move_findings
from nllc_tools.judge.findings.finding import Finding
from nllc_tools.model.chains import Step
from nllc_tools.model.facts import ALL, Facts
from nllc_tools.model.region_names import tick
from nllc_tools.model.said import Gone
from nllc_tools.views.terminal import finding_lines

Object = dict[str, object]


def answer(content: Content) -> Object:
    """What the text has, and what it means."""
    facts = content.facts
    names = [facts.point_name(point) for point in range(facts.points)]
    return {
        "text": content.facts_path,
        "function": facts.remarks.function or None,
        "source": facts.remarks.source or None,
        "program": {"path": content.origin, "standing": content.standing},
        "points": facts.points,
        "point_names": names if names != [*map(str, range(facts.points))] else None,
        "regions": [region(content, number) for number in range(len(facts.names))],
        "faults": [fault(content, one) for one in content.faults],
        "needs": [{"longer": tick(facts, long), "shorter": tick(facts, short)} for long, short in content.needs],
        "loans": None if facts.remarks.beside.count is None else [loan(content, one) for one in content.loans],
        "moves": [move(content, one) for one in facts.remarks.beside.gone],
    }


def region(content: Content, number: int) -> Object:
    """A region, with the points that it holds as runs of a first and a last one, and the ends."""
    facts = content.facts
    elements = content.values.elements(number)
    remark = facts.remarks.region(facts.names[number])
    return {
        "name": tick(facts, number), "is_universal": facts.is_universal(number),
        "words": remark.text or None, "line": remark.line,
        "points": spans([element for element in elements if element < facts.points]),
        "ends": [tick(facts, element - facts.points) for element in elements if element >= facts.points],
    }


def fault(content: Content, one: Fault) -> Object:
    """A fault, in words as for a person, and the constraints by which the end comes to the longer one's value."""
    facts = content.facts
    return {"longer": tick(facts, one.sup), "shorter": tick(facts, one.sub),
            **said(lifetime_findings.of_fault(content, one)), "chain": [step(facts, each) for each in one.steps]}


def loan(content: Content, one: LoanFault) -> Object:
    """A loan that something conflicts with, and the constraints by which its region holds that point."""
    facts, cause = content.facts, one.cause
    return {"code": one.code, "region": tick(facts, facts.names.index(one.loan.region)),
            "made": one.loan.at, "point": one.against.point,
            "live": {"region": tick(facts, cause.region), "point": cause.use, "is_drop": cause.is_drop},
            **said(loan_findings.of_loan(content, one)), "chain": [step(facts, each) for each in cause.steps]}


def move(content: Content, one: Gone) -> Object:
    """What is used at a point that was moved or has no value, or is assigned again, and the walk to there."""
    return {"code": one.code, "point": one.point, "since": list(one.since),
            **said(move_findings.of_gone(content, one)), "walk": list(one.walk)}


def said(told: Finding) -> Object:
    """The place, and the words of a telling."""
    place = told.place and dict(zip(("line", "column", "last_line", "end_column"), told.place))
    return {"place": place, **finding_lines.parts(told)._asdict()}


def step(facts: Facts, one: Step) -> Object:
    constraint = one.constraint
    return {"longer": tick(facts, constraint.sup), "shorter": tick(facts, constraint.sub),
            "at": "all" if constraint.at == ALL else constraint.at, "walk": list(one.walk)}
