"""Two answers side by side: each constraint from its point on, and each of them at all points."""

from typing import Sequence

from nllc_tools.base.sentences import plural
from nllc_tools.judge.content import Content
from nllc_tools.judge.findings.finding import Finding
from nllc_tools.judge.verdicts import alone, differing, in_words
from nllc_tools.views.html.writing import sentence, text


def both(content: Content) -> str:
    """The part of the page; nothing where there is no second answer."""
    if content.everywhere is None:
        return ""
    rows = [row("answer", text(in_words(content)), text(in_words(content.everywhere)))]
    rows += [row(place_of(one), sentence(one.head), "–") for one in alone(content, content.everywhere)]
    rows += [row(place_of(one), "–", sentence(one.head)) for one in alone(content.everywhere, content)]
    return ('<section class="answers" aria-label="Both answers"><h2>Constraints from points on, or at all points</h2>'
            "<p>On the left each constraint holds from a point on. On the right each one holds at all points, as "
            "rustc’s own solver takes them. Whatever is only on the right is precision gained by points.</p>"
            '<table><thead><tr><td></td><th scope="col">from points on</th><th scope="col">at all points</th></tr>'
            f'</thead><tbody>{"".join(rows)}</tbody></table><p>{regions_words(differing(content, content.everywhere))}</p></section>')


def regions_words(regions: Sequence[int]) -> str:
    """How many regions hold more at all points; the list of regions has a second strip for each."""
    if not regions:
        return "Each region holds the same in both."
    return (f"{plural(len(regions), 'region')} of the list below {'holds' if len(regions) == 1 else 'hold'} more "
            "at all points: the lower strip.")


def row(name: str, left: str, right: str) -> str:
    return f'<tr><th scope="row">{name}</th><td>{left}</td><td>{right}</td></tr>'


def place_of(told: Finding) -> str:
    return f"line {told.place.line}" if told.place else "fault"
