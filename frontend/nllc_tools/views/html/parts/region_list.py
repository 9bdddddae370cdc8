"""The regions of a page, each with a strip of its points and the ends that it holds."""

from typing import Iterable, Sequence

from nllc_tools.base.grouping import spans
from nllc_tools.base.sentences import plural
from nllc_tools.judge import chain_sentences
from nllc_tools.judge.content import Content
from nllc_tools.judge.names import region_text
from nllc_tools.model.facts import Facts
from nllc_tools.views.html.writing import text


def region_list(content: Content) -> str:
    regions, universals = range(len(content.facts.names)), content.facts.universals
    has_foreign = any(foreign_ends(content, region) for region in regions)      # so that the list has a column for ends
    kind = "regions with-ends" if has_foreign else "regions"
    return "".join(f'<h3 class="group">{title}</h3><ul class="{kind}">{"".join(region_item(content, one) for one in its)}</ul>'
                   for title, its in (("Of the signature", regions[:universals]), ("Of the body", regions[universals:])) if its)


def foreign_ends(content: Content, region: int) -> list[str]:
    """The names of the universal regions whose ends the region holds, save its own."""
    facts = content.facts
    ends = [element - facts.points for element in content.values.elements(region) if element >= facts.points]
    return [f"'{facts.names[end]}" for end in ends if end != region]


def region_item(content: Content, region: int) -> str:
    facts, what = content.facts, region_words(content.facts, region)
    name = facts.names[region]
    short = region_text(facts, facts.remarks.region(name).text).partition(";")[0].removeprefix("the ") or what
    return (f'<li><button type="button" class="region{"" if content.values.elements(region) else " empty"}" '
            f'data-r="{region}" aria-pressed="false" tabindex="-1" title="{text(what)}">'
            f'<code class="name">&#x27;{text(name)}</code><span class="what">{text(short)}</span>'
            f"{barcodes(content, region)}{end_marks(foreign_ends(content, region))}</button></li>")


def region_words(facts: Facts, region: int) -> str:
    """What the region is, and the line where it comes from."""
    remark = facts.remarks.region(facts.names[region])
    if not remark.text and remark.line is None:
        return chain_sentences.region_words(facts, region)
    line = f"line {remark.line}" if remark.line is not None else ""
    return ", ".join(part for part in (region_text(facts, remark.text), line) if part)


def barcodes(content: Content, region: int) -> str:
    """The strip of the region's points; with a second answer that one's below it."""
    first = barcode(content.facts, content.values.elements(region))
    if content.everywhere is None:
        return first
    second = barcode(content.facts, content.everywhere.values.elements(region), "at all points it ")
    return f'<span class="barcodes">{first}{second}</span>'


def barcode(facts: Facts, elements: Iterable[int], head: str = "") -> str:
    """A strip as long as all points, dark where the region holds them."""
    points = [element for element in elements if element < facts.points]
    bars = "".join(f"M{a} 0h{b - a + 1}v1h{a - b - 1}z" for a, b in spans(points))
    label = head + (f"holds {plural(len(points), 'point')}" if points else "holds no point")
    return (f'<svg class="barcode" viewBox="0 0 {facts.points} 1" preserveAspectRatio="none" '
            f'role="img" aria-label="{label}"><path d="{bars}"/></svg>')


def end_marks(names: Sequence[str]) -> str:
    """The ends of others that the region holds, by their regions' names."""
    label = f' title="{text("holds " + ", ".join(f"end({name})" for name in names))}"' if names else ""
    return f'<span class="ends"{label}>{text(" ".join(names) if len(names) < 3 else f"{len(names)} ends")}</span>'
