"""The gallery: cards with small functions. A card has a name that leads to the page, one sentence, both verdicts, what is
said, and the source.
"""

import re
from itertools import takewhile
from typing import Iterable, Iterator, Mapping, NamedTuple, Sequence

from nllc_tools.base.grouping import grouped
from nllc_tools.base.sentences import ticked, visible
from nllc_tools.judge.content import Content
from nllc_tools.judge.labels import labels_of
from nllc_tools.judge.verdicts import Verdict, verdict_of
from nllc_tools.rustc.compiler import version
from nllc_tools.texts.source import Source
from nllc_tools.views.html.index_rows import told_of
from nllc_tools.views.html.parts.point_list import code_part
from nllc_tools.views.html.writing import STANDINGS, badge, compact, fill, icon, items, sentence, text

GRAVITY = ("fine", "differs", "faulty")
ACCEPTED = "no such error"      # rustc's answer where it has no error of these kinds
DOC = re.compile(r"\s*///\s?(.*)")
RUST = "#     "     # before the lines of Rust at the head of a MIR text


class Shown(NamedTuple):
    """A page by its file's name, with its content."""

    file: str
    name: str
    content: Content

    def gravity(self) -> int:
        return GRAVITY.index(verdict_of(self.content).kind)


class Card(NamedTuple):
    """What stands on a card; `shown` has the page that the name leads to first."""

    name: str
    sentence: str
    shown: list[Shown]
    code: Source
    lit: str = ""   # the region that its page has lit at first


def whole(sections: Iterable[str], made: Mapping[str, Content]) -> str:
    """The gallery's page; what made the answers is said at its foot."""
    origins = {(content.origin, STANDINGS[content.standing]) for content in made.values()}
    told = "; ".join(f"<code>{text(origin)}</code>, {standing}" for origin, standing in sorted(origins))
    return fill("gallery.html", {
        "css": compact("look.css", "code.css", "gallery.css"), "icon": icon("fine"), "sections": "\n".join(sections),
        "provenance": f"Answers from {told}, and from {text(version())}."})


def section(title: str, cards: str) -> str:
    name = re.sub(r"\W+", "-", title.lower())
    return f'<section id="{name}"><h2>{text(title)}</h2><div class="cards">{cards}</div></section>'


def card_part(card: Card) -> str:
    verdict = verdict_of_card(card)
    address = text(f"./{card.shown[0].file}" + (f"#region={card.lit}" if card.lit else ""))
    others = "".join(f'<a href="./{text(one.file)}">{text(one.name)}</a>' for one in card.shown[1:])
    told = [one.words if one.line is None else f"Line {one.line}: {one.words}"
            for shown in card.shown for one in told_of(shown.content)]
    return (f'<article class="card {verdict.kind}" id="{text(card.name)}">'
            f'<h3><a href="{address}"><code>{text(card.name)}</code></a></h3>'
            f"<p>{sentence(ticked(card.sentence))}</p>{answers(verdict)}"
            f'<pre><code>{code_of(card)}</code></pre>{items(sentence(ticked(one)) for one in told) if told else ""}'
            f'{f"<p class=others>Inside it: {others}</p>" if others else ""}</article>')


def verdict_of_card(card: Card) -> Verdict:
    """The verdict of all its pages."""
    found = [verdict_of(one.content) for one in card.shown]
    grave = max(found, key=lambda verdict: GRAVITY.index(verdict.kind))
    errors = [one.rustc for one in found if one.rustc not in (None, ACCEPTED)]
    return grave._replace(rustc=", ".join(filter(None, dict.fromkeys(errors))) or grave.rustc)


def answers(verdict: Verdict) -> str:
    """`nllc`'s answer and rustc's, and whether they differ."""
    own = badge("fine", "accepts") if verdict.kind != "faulty" else badge("faulty", verdict.words)
    said = f'<span class="who">nllc</span>{own}'
    if verdict.rustc is not None:
        rustc = badge("fine", "accepts") if verdict.rustc == ACCEPTED else badge("faulty", verdict.rustc)
        said += f'<span class="who">rustc</span>{rustc}'
    if verdict.kind == "differs":
        said += badge("differs", "they differ")
    return f'<div class="answers">{said}</div>'


def code_of(card: Card) -> str:
    """The source, with the labels of all its pages."""
    labels = grouped((line, label) for one in card.shown for line, its in labels_of(one.content).items() for label in its)
    return "".join(f'<span class="line"><span class="no">{number}</span>'
                   f"<span>{code_part(card.code, line, list(dict.fromkeys(labels.get(number, ()))))}</span></span>"
                   for number, line in enumerate(card.code.lines, card.code.first))


# The cards of a Rust file, of a MIR text

def of_functions(shown: Iterable[Shown]) -> Iterator[Card]:
    """A card for each function that has a sentence; its closures and async bodies are on the same card."""
    for name, its in grouped((one.content.facts.remarks.function.split("::{closure#")[0], one) for one in shown).items():
        source = max((one.content.source for one in its if one.content.source), key=lambda source: len(source.lines))
        doc = [found[1] for found in takewhile(bool, map(DOC.fullmatch, source.lines)) if found]
        if said := visible(" ".join(doc)):
            code = Source(source.path, source.first + len(doc), source.lines[len(doc):])
            yield Card(name.split("::")[-1], said, gravest(its), code)


def gravest(shown: Sequence[Shown]) -> list[Shown]:
    """The page that says most, and of the others those with a fault or a difference."""
    first, *others = sorted(shown, key=lambda one: (-one.gravity(), place(one.name)))
    return [first, *(one for one in others if one.gravity())]


def place(name: str) -> int:
    """An async body says more than the function that only makes the future, a closure less than the one around it."""
    return 0 if name.startswith("async") else 2 if name.startswith("closure") else 1


def of_text(one: Shown, lit: str, said: str) -> Card:
    """The card of a text: its remarks at the head have the Rust that it stands for."""
    lines = one.content.source.lines[1:] if one.content.source else []
    code = [line.removeprefix(RUST) if line[1:].strip() else ""
            for line in takewhile(lambda line: line.startswith("#"), lines) if line.startswith(RUST)]
    return Card(one.name, said, [one], Source("head.rs", 1, code), lit)
