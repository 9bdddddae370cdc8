"""The list of events, and what is said of each one; the list of constraints."""

from typing import Sequence

from nllc_tools.base.grouping import grouped
from nllc_tools.base.sentences import Code, joined
from nllc_tools.model.facts import ALL
from nllc_tools.model.region_names import tick
from nllc_tools.texts.schedule_states import Growth, State, under_way
from nllc_tools.views.html.writing import items, sentence, text
from nllc_tools.views.schedule import event_words
from nllc_tools.views.schedule.content import Content
from nllc_tools.views.schedule.reasons import Reading, readings

MOST_ROWS = 12      # of a list of what is under way, or of what grew, no more is written out


def event_list(content: Content) -> str:
    rows = "".join(event_row(content, number) for number in range(len(content.run.states)))
    return f'<ol class="events" id="events" start="0">{rows}</ol>'


def event_row(content: Content, number: int) -> str:
    """An event with its answer; why it did nothing, if it didn't."""
    state = content.run.states[number]
    words = event_words.words_of(state.event) if number else "the first state"
    why = f'<span class="why">{sentence(event_words.Happening(content.facts, content.run, number).why_not())}</span>' \
        if state.answer == "not now" else ""
    return (f'<li><a href="#event={number}" data-event="{number}"><span class="no">{number or ""}</span>'
            f'<code>{text(words)}</code>{answer(state)}<span class="balance">{state.balance}</span>{why}</a></li>')


def answer(state: State) -> str:
    return f'<span class="answer {state.answer.replace(" ", "-") or "first"}">{text(state.answer)}</span>'


def event_part(content: Content, number: int) -> str:
    """What is said of an event, of the growths in it, and of the balance after it."""
    state = content.run.states[number]
    if number:
        head = (f"<h2>{number}. <code>{text(event_words.words_of(state.event))}</code> {answer(state)}</h2>"
                f"<p>{sentence(event_words.Happening(content.facts, content.run, number).told())}</p>")
    else:
        head = ("<h2>Before the first event</h2><p>No owner has done anything yet. Each owes for its load, "
                f"so the balance is {state.balance}.</p>")
    grown = f"{taken_part(content, number)}{grown_part(content, number)}" if state.answer == "done" else ""
    rows = [sentence(event_words.way_words(content.facts, way)) for way in under_way(state)]
    return (f'<article class="said" data-from="{number}" data-to="{number + 1}">{head}{grown}'
            f"<h3>The balance counts {state.balance}</h3>"
            f'{row_list(rows) if rows else "<p>Nothing is under way.</p>"}</article>')


def row_list(rows: Sequence[str]) -> str:
    """A list; of a long one the beginning, and how many rows more there are."""
    if len(rows) > MOST_ROWS:
        rows = [*rows[:MOST_ROWS - 1], f"and {len(rows) - MOST_ROWS + 1} more"]
    return items(rows)


# Why growths came, and what they lead to

def taken_part(content: Content, number: int) -> str:
    """Why the sender has the growth that was taken, and what the reader's constraints make of it."""
    before, after = content.run.states[number - 1:number + 1]
    if after.event.word != "take":
        return ""
    taken, sender = content.taken(number), after.event.other
    why = asked_words(content, sender, taken) or "a base element."
    read = [reading_words(content, one) for one in readings(content.facts, content.run, before, after, taken)]
    return (f"<h3>Why {sentence([event_words.growth(content.facts, taken)])}</h3>"
            f"<p>Owner {sender} has it since event {content.came[sender, taken].event}: {why}</p>"
            f"<h3>What reads it</h3>{row_list(read)}")


def reading_words(content: Content, reading: Reading) -> str:
    """What a constraint makes of a growth that was received."""
    facts = content.facts
    sup, sub, at = facts.constraints[reading.constraint]
    longer, shorter = tick(facts, sup), tick(facts, sub)
    if not reading.reached:
        said = [": it requires nothing yet, since walks begin at ", Code(facts.point_name(at)), ", which ", shorter, " lacks."]
        return link(content, reading.constraint) + sentence(said)
    said = [": ", shorter, " has "] if at == ALL else [": inside ", shorter, " walks reach "]
    said.append(event_words.elements_name(facts, reading.reached))
    said += ["; so ", longer, " gets ", event_words.elements_name(facts, reading.new), "."] if reading.new else \
        [", which ", longer, " has."]
    if reading.hole is not None:
        said += [" They stop at ", Code(facts.point_name(reading.hole)), ", which ", shorter, " lacks."]
    return link(content, reading.constraint) + sentence(said)


def grown_part(content: Content, number: int) -> str:
    """The growths of a turn, each with its reason."""
    facts, owner = content.facts, content.run.states[number].event.owner
    asked = {one: asked_words(content, owner, one) for one in content.grown(number)}
    from_start = grouped((one.region, one.element) for one, words in asked.items() if not words)
    rows = [base_words(content, region, elements) for region, elements in sorted(from_start.items())]
    rows += [f"{sentence([event_words.growth(facts, one)])}: {words}" for one, words in asked.items() if words]
    return f"<h3>What grew</h3>{row_list(rows)}" if rows else ""


def base_words(content: Content, region: int, elements: Sequence[int]) -> str:
    facts = content.facts
    kind = "a universal region, which holds these from the start" if facts.is_universal(region) else \
        "a base element" if len(elements) == 1 else "base elements"
    return sentence([tick(facts, region), " gets ", event_words.elements_name(facts, elements), f": {kind}."])


def asked_words(content: Content, owner: int, one: Growth) -> str:
    """The constraints that ask for a growth, each with its walk; of a base element none."""
    asked = [[link(content, number), way_words(content, number, walk)] for number, walk in content.came[owner, one].asked]
    return "".join([*joined(asked), "."]) if asked else ""


def way_words(content: Content, number: int, walk: Sequence[int]) -> str:
    """By which walk a constraint asks for a growth, or that it requires all that its smaller region has."""
    _, sub, at = content.facts.constraints[number]
    shorter = tick(content.facts, sub)
    if at == ALL:
        return sentence([" requires all that ", shorter, " has"])
    return sentence([" requires it, by the walk ", event_words.walk_name(content.facts, walk), " inside ", shorter])


# Constraints

def link(content: Content, number: int) -> str:
    name = text(event_words.constraint_name(content.facts, number))
    return f'<a class="to" href="#constraint-{number}" data-constraint="{number}"><code>{name}</code></a>'


def constraint_list(content: Content) -> str:
    rows = "".join(constraint_row(content, number) for number in range(len(content.facts.constraints)))
    return f'<ul class="constraints">{rows}</ul>' if rows else '<p class="none">There is none.</p>'


def constraint_row(content: Content, number: int) -> str:
    """A constraint, whose owner works on it, and at which events it asked for something."""
    sup, sub, _ = content.facts.constraints[number]
    owner, other = content.run.cut[sup], content.run.cut[sub]
    reads = "" if owner == other else f", by its copy of {sentence([tick(content.facts, sub)])}"
    asked, taken = (" ".join(map(str, table.get(number, ()))) for table in (content.asking, content.asked_for_taken))
    return (f'<li id="constraint-{number}" data-asks="{asked}" data-taken="{taken}">'
            f"<code>{text(event_words.constraint_name(content.facts, number))}</code> "
            f'<span class="of">owner {owner} works on it{reads}</span></li>')
