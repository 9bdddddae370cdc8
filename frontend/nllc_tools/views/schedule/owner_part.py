"""Owners: what they work on, their regions, copies and logs, what they received; and the lanes between them, of messages
that aren't owed for, that are, and of the box."""

from typing import Callable, Iterable, Optional, Sequence

from nllc_tools.base.sentences import visible
from nllc_tools.judge.chain_sentences import region_words
from nllc_tools.model.facts import Facts
from nllc_tools.texts.schedule_states import Growth, State
from nllc_tools.views.html.writing import sentence, text
from nllc_tools.views.schedule.content import Content
from nllc_tools.views.schedule.event_words import constraint_name, element_name, growth, walk_name
from nllc_tools.views.schedule.spans import members, values

# What an owner is marked as, by its kind.
MARKS = {"new": "not loaded", "left": "has left", "nothing": "nothing in hand", "fresh": "in hand, not owed for",
         "owed": "in hand, owed for"}
NO_REGION = '<h3>Its regions</h3><p class="none">No region.</p>'
PARTS = {"fresh": "Not owed for", "out": "Owed for, to be sent", "box": "In the box"}


def owner_part(content: Content, owner: int) -> str:
    cut = content.run.cut
    own = [strip(content, owner, region, "") for region, of in enumerate(cut) if of == owner]
    copies = [strip(content, owner, region, f'<span class="of">of owner {cut[region]}</span>')
              for region in range(len(cut)) if content.reads(owner, region)]
    log = growths(content, "Log", owner, lambda state: state.seats[owner].log)
    received = "".join(
        growths(content, f"Received from owner {sender}", sender, lambda state: state.seats[owner].received.get(sender, []))
        for sender in range(content.run.owners) if content.tells(sender, owner))
    return (f'<section class="owner" id="owner-{owner}" aria-label="Owner {owner}">'
            f'<header><h2>Owner {owner}</h2>{marks(content.run.states, owner)}</header>'
            f'{strips("Its regions", own) or NO_REGION}{strips("Copies", copies)}{log}{received}</section>')


def strips(title: str, shown: Sequence[str]) -> str:
    return f'<h3>{title}</h3><ul class="strips">{"".join(shown)}</ul>' if shown else ""


def marks(states: Sequence[State], owner: int) -> str:
    """Whether the owner is loaded, what it works on, whether it has left."""
    def kind_of(state: State) -> str:
        seat = state.seats[owner]
        return "new" if not seat.loaded else "left" if seat.left else seat.item

    shown = [f'<span class="mark {kind}" {span.attributes()}>{MARKS[kind]}</span>' for kind, span in values(states, kind_of)]
    return f'<p class="marks">{"".join(shown)}</p>'


def strip(content: Content, owner: int, region: int, of: str) -> str:
    """A region with a cell for each element that it may hold, dark from the event on in which it got it."""
    facts = content.facts
    since: dict[int, int] = {}
    for number, state in enumerate(content.run.states):
        for element in state.seats[owner].holds.get(region, ()):
            since.setdefault(element, number)
    ends = [element for element in range(facts.points, facts.points + facts.universals) if element in since]
    cells = "".join(cell(facts, region, element, since.get(element)) for element in [*range(facts.points), *ends])
    what = visible(region_words(facts, region))
    said = f'<span class="what">{text(what)}</span>' if what else ""
    return (f"<li><span class=\"name\"><code>&#x27;{text(facts.names[region])}</code>{of}{said}</span>"
            f'<span class="cells">{cells}</span></li>')


def cell(facts: Facts, region: int, element: int, since: Optional[int]) -> str:
    kind = "cell base" if element in facts.bases[region] or facts.is_universal(region) else "cell"
    held = "" if since is None else f' data-since="{since}"'
    return f'<i class="{kind}"{held}>{text(element_name(facts, element))}</i>'


def lane_parts(content: Content) -> str:
    owners = range(content.run.owners)
    return "".join(lane_part(content, i, j) for i in owners for j in owners if content.tells(i, j)) or \
        '<p class="none">No owner reads a region of another one.</p>'


def lane_part(content: Content, sender: int, reader: int) -> str:
    lanes = ((part, growths(content, title, sender, lambda state: state.seats[sender].lane(reader, part), " data-ghosts"))
             for part, title in PARTS.items())
    parts = "".join(f'<div class="part {part}">{shown}</div>' for part, shown in lanes)
    return (f'<section class="lane" id="lane-{sender}-{reader}"><h2>Owner {sender} '
            f'<span class="arrow">→</span> owner {reader}</h2><div class="parts">{parts}</div></section>')


def growths(content: Content, title: str, owner: int, list_of: Callable[[State], Iterable[Growth]], extra: str = "") -> str:
    """A list of growths of an owner: region, element and rank; the reason of each as a title."""
    shown = "".join(
        f'<li class="growth" {span.attributes()} title="rank {one.rank}; {text(why_words(content, owner, one))}">'
        f"{sentence([growth(content.facts, one)])}<b>{one.rank}</b></li>" for one, span in members(content.run.states, list_of))
    return f'<h3>{title}</h3><ul class="growths"{extra}>{shown}<li class="none">nothing</li></ul>'


def why_words(content: Content, owner: int, one: Growth) -> str:
    """The reason of a growth in one line."""
    came = content.came[owner, one]
    if not came.asked:
        return f"a base element, entered at event {came.event}"
    names = [f"{constraint_name(content.facts, number)} by {walk_name(content.facts, walk)}" for number, walk in came.asked]
    return f"since event {came.event}, required by {' and '.join(names)}"
