"""A drawing of who waits for whom: owners in a ring, messages on their way, and what idle owners wait for."""

from cmath import pi, rect
from typing import Iterator, Sequence

from nllc_tools.base.sentences import plural
from nllc_tools.texts.schedule_states import State
from nllc_tools.views.html.writing import text
from nllc_tools.views.schedule.content import Content
from nllc_tools.views.schedule.spans import values

MOST_OWNERS = 16    # of more owners nobody sees anything
NODE = 19           # the radius of an owner
RING = 62           # of the ring of two or three owners; it grows with more of them
BEND = 0.22         # how far an arrow bends to its side, of its length

STANDINGS = {
    "new": "not loaded", "busy": "works", "ready": "has something to take or to send", "waiting": "waits",
    "left": "has left",
}


def wait_part(content: Content) -> str:
    """The drawing; a sentence where there are too many owners for it."""
    owners = range(content.run.owners)
    if len(owners) > MOST_OWNERS:
        return f'<p class="none">{plural(len(owners), "owner")}, too many for a picture.</p>'
    ring = RING + 9 * max(0, len(owners) - 3)
    places = [place(number, len(owners), ring) for number in owners]
    half = ring + NODE + 16
    low = half if len(owners) > 2 else NODE + 34
    parts = [f'<svg class="waits" viewBox="{-half} {-low} {2 * half} {2 * low}" role="img" aria-label="who waits for whom">']
    for sender in owners:
        for reader in owners:
            if content.tells(sender, reader):
                parts += messages(content, sender, reader, places)
                parts += waits(content, reader, sender, places)
    for owner in owners:
        parts += nodes(content, owner, places[owner])
    said = values(content.run.states, lambda state: said_of(content, state))
    return "".join([*parts, "</svg>", *(f"<p {span.attributes()}>{text(words)}</p>" for words, span in said)])


def said_of(content: Content, state: State) -> str:
    """Which owners wait, and for which."""
    owners = range(content.run.owners)
    said = [f"owner {reader} waits for " + " and ".join(f"owner {one}" for one in senders)
            for reader in owners if is_waiting(state, reader)
            and (senders := [one for one in owners if content.tells(one, reader)])]
    return f"{'; '.join(said) or 'nobody waits'}.".capitalize()


def is_waiting(state: State, reader: int) -> bool:
    return state.balance > 0 and standing(state, reader) == "waiting"


def standing(state: State, owner: int) -> str:
    """What an owner is at: it waits where it has nothing in hand, to send or to take, and hasn't left."""
    seat = state.seats[owner]
    if not seat.loaded or seat.left:
        return "left" if seat.loaded else "new"
    if seat.item != "nothing":
        return "busy"
    is_ready = seat.waiting() or any(other.lane(owner, "box") for other in state.seats)
    return "ready" if is_ready else "waiting"


def nodes(content: Content, owner: int, at: complex) -> Iterator[str]:
    for kind, span in values(content.run.states, lambda state: standing(state, owner)):
        yield (f'<g class="owner-node {kind}" {span.attributes()}><title>owner {owner} {STANDINGS[kind]}</title>'
               f'<circle cx="{at.real:.1f}" cy="{at.imag:.1f}" r="{NODE}"/>'
               f'<text x="{at.real:.1f}" y="{at.imag + 5:.1f}">{owner}</text></g>')


def messages(content: Content, sender: int, reader: int, places: Sequence[complex]) -> Iterator[str]:
    """An arrow with the number of messages on their way, while there are any."""
    for count, span in values(content.run.states, lambda state: sum(
            len(state.seats[sender].lane(reader, part)) for part in ("fresh", "out", "box"))):
        if count:
            yield (f'<g class="message" {span.attributes()}>'
                   f"<title>{plural(count, 'message')} from owner {sender} to owner {reader}</title>"
                   f"{arrow(places[sender], places[reader], str(count))}</g>")


def waits(content: Content, reader: int, sender: int, places: Sequence[complex]) -> Iterator[str]:
    """A dashed arrow from an owner that waits to one that may still tell it something."""
    for is_so, span in values(content.run.states, lambda state: is_waiting(state, reader)):
        if is_so:
            yield (f'<g class="wait" {span.attributes()}><title>owner {reader} waits for owner {sender}</title>'
                   f"{arrow(places[reader], places[sender])}</g>")


# Geometry

def place(number: int, owners: int, ring: int) -> complex:
    """Where an owner stands: two side by side, more from the top on in a ring."""
    return rect(ring, pi * (1 - number) if owners == 2 else 2 * pi * number / owners - pi / 2)


def arrow(begin: complex, end: complex, label: str = "") -> str:
    """A line that bends to its left, so that the one back is another one; at its middle the label."""
    mid = (begin + end) / 2 - BEND * (end - begin) * 1j
    begin, end = begin + far(mid - begin, NODE + 2), end + far(mid - end, NODE + 4)
    at, tip = (begin + 2 * mid + end) / 4, far(end - mid, 8)
    words = f'<circle class="count" cx="{at.real:.1f}" cy="{at.imag:.1f}" r="9"/><text x="{at.real:.1f}" y="{at.imag + 4:.1f}">' \
        f"{label}</text>" if label else ""
    return (f'<path class="way" d="M{spot(begin)}Q{spot(mid)} {spot(end)}"/>'
            f'<path class="tip" d="M{spot(end)}L{spot(end - tip + tip * 1j / 2)}L{spot(end - tip - tip * 1j / 2)}z"/>{words}')


def far(way: complex, length: float) -> complex:
    """So much of the way."""
    return way * length / abs(way)


def spot(at: complex) -> str:
    return f"{at.real:.1f} {at.imag:.1f}"
