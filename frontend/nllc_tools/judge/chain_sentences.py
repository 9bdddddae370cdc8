"""Faults, chains and places in sentences."""

from typing import Sequence

from nllc_tools.base.grouping import spans
from nllc_tools.base.sentences import Sentence, joined
from nllc_tools.judge.asking_statements import MOST_ORIGINS, is_everywhere, origins, statement
from nllc_tools.model.chains import Step
from nllc_tools.model.facts import ALL, Constraint, Facts
from nllc_tools.model.region_names import end, tick


def fault_head(facts: Facts, sup: int, sub: int) -> Sentence:
    return [tick(facts, sup), " must outlive ", tick(facts, sub), ", but the signature doesn't declare it"]


def beginning(facts: Facts, universal: int) -> Sentence:
    """The sentence before the first step."""
    name = tick(facts, universal)
    lasts = "lasts for ever" if name == "'static" else "lasts after the return for as long as the caller likes"
    return [name, f" {lasts}: that is the element ", end(facts, universal), ", which ", name, " holds from the start."]


def region_words(facts: Facts, region: int, most: int = 90) -> str:
    """What the region is, by its remark, cut where it is long."""
    words = facts.remarks.region(facts.names[region]).text
    if not words and facts.names[region] == "static":
        return "lasts for ever"
    return words if len(words) <= most else words[:most - 1] + "…"


def step_sentence(facts: Facts, step: Step, universal: int) -> Sentence:
    """Why this constraint, and the walk, bring the end to the larger region."""
    sup, sub, at = tick(facts, step.constraint.sup), tick(facts, step.constraint.sub), step.constraint.at
    asked = [*reason(facts, step.constraint), sup, " must hold all that "]
    if at == ALL:
        return [*asked, sub, " holds, wherever that is, and so ", end(facts, universal), "."]
    return [*asked, "is reached inside ", sub, f" from point {facts.point_name(at)} on. ", *walk_words(facts, step, universal),
            "; so ", sup, " holds it too."]


def step_brief(facts: Facts, step: Step) -> Sentence:
    """The step in one line of a terminal."""
    sup, sub, at = step.constraint
    what = region_words(facts, sup)
    first, *asked = reason(facts, step.constraint)[:-1] or [f"From point {facts.point_name(at)} on"]
    way = [", inside ", tick(facts, sub), f" by {walk_text(facts, step.walk)}"] if step.walk else []
    return ["to ", tick(facts, sup), f", {what}: " if what else ": ", first[0].lower() + first[1:], *asked, *way]


def reason(facts: Facts, constraint: Constraint) -> Sentence:
    """The statements that ask for it, where something is known of them."""
    if is_everywhere(facts, constraint):
        return ["At every point ", tick(facts, constraint.sup), " must outlive ", tick(facts, constraint.sub), ": "]
    points = origins(facts, constraint)
    if not any(any(facts.remarks.point(p)) for p in points):
        return []
    if len(points) > MOST_ORIGINS:
        return [f"By one of the {len(points)} statements before point {facts.point_name(constraint.at)}", ", "]
    return ["After ", *joined([statement(facts, p) for p in points], " or "), ", "]


def walk_words(facts: Facts, step: Step, universal: int) -> Sentence:
    """How the walk comes to a return and to the end."""
    sub, last = tick(facts, step.constraint.sub), step.walk[-1]
    leaves = f"the function {'unwinds' if unwinds(facts, last) else 'returns'}"
    holds = [end(facts, universal), ", which ", sub, " holds"]
    if len(step.walk) == 1:
        return [f"T{leaves[1:]} right there, and the walk goes on to ", *holds]
    return ["Inside ", sub, f" a walk from there ({walk_text(facts, step.walk)}) leads to point {facts.point_name(last)}, where "
            f"{leaves}, and on to ", *holds]


def unwinds(facts: Facts, point: int) -> bool:
    """Whether a panic goes out of the function there; that is a return, too, as far as regions go."""
    return facts.remarks.point(point).statement().rstrip(";") in ("resume", "UnwindResume")


def walk_text(facts: Facts, points: Sequence[int], most: int = 7) -> str:
    """The points with arrows; of long walks the runs of numbers are shortened."""
    name = facts.point_name
    if len(points) <= most:
        return " → ".join(map(name, points))
    return " → ".join(f"{name(a)} → … → {name(b)}" if b - a > 2
                      else " → ".join(map(name, range(a, b + 1))) for a, b in spans(points))


def conclusion(facts: Facts, sup: int, sub: int) -> Sentence:
    """What the end in the value means."""
    return ["So ", tick(facts, sup), " would have to last as long as ", tick(facts, sub), ", whatever the caller chooses."]
