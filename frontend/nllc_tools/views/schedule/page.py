"""Puts the page together: templates, and the parts that depend on the schedule."""

import os
from typing import Optional

from nllc_tools.base.nllc import PROVED
from nllc_tools.base.sentences import plural
from nllc_tools.model.facts import Facts
from nllc_tools.texts.schedule_states import State
from nllc_tools.views.html.writing import STANDINGS, about, back, compact, fill, icon, script_data, text
from nllc_tools.views.schedule.content import Content
from nllc_tools.views.schedule.event_part import constraint_list, event_list, event_part
from nllc_tools.views.schedule.owner_part import lane_parts, owner_part
from nllc_tools.views.schedule.spans import values
from nllc_tools.views.schedule.wait_part import wait_part

MOST_EDGES = 60     # of more edges none is written out


def page(content: Content, index: str = "") -> str:
    """The whole page, as one text; with the page of all pages, a link back to it."""
    facts, run = content.facts, content.run
    name = text(os.path.basename(content.schedule_path))
    return fill("schedule.html", {
        "title": name,
        "icon": icon("fine"),
        "css": compact("look.css", "schedule.css"),
        "js": compact("schedule.js"),
        "name": name,
        "about": back(index) + about(content.facts_path, plural(len(run.states) - 1, "event"), plural(run.owners, "owner"),
                                     plural(len(facts.names), "region"), plural(len(facts.constraints), "constraint")),
        "last": str(len(run.states) - 1),
        "balances": "".join(f"<b {span.attributes()}>{balance}</b>"
                            for balance, span in values(run.states, lambda state: state.balance)),
        "events": event_list(content),
        "said": "".join(event_part(content, number) for number in range(len(run.states))),
        "owners": "".join(owner_part(content, owner) for owner in range(run.owners)),
        "kind": "pair" if run.owners == 2 else "many",
        "lanes": lane_parts(content),
        "waits": wait_part(content),
        "constraints": constraint_list(content),
        "graph": graph(facts),
        "values": text("\n".join([f"balance {run.states[-1].balance}", *run.values])),
        "provenance": provenance(content),
        "data": script_data([[state.event.owner, lane_of(state)] if number else [None, None]
                             for number, state in enumerate(run.states)]),
    })


def graph(facts: Facts) -> str:
    """The edges and returns, as far as they are few."""
    edges = [(p, q) for p in range(facts.points) for q in facts.successors[p]]
    if len(edges) > MOST_EDGES:
        return f"<p>{plural(facts.points, 'point')}, {plural(len(edges), 'edge')}.</p>"
    ways = ", ".join(f"{facts.point_name(p)} → {facts.point_name(q)}" for p, q in edges) or "no edge"
    returns = ", ".join(map(facts.point_name, sorted(facts.returns)))
    return f"<p>{text(ways)}; {f'return at {text(returns)}' if returns else 'no return'}.</p>"


def provenance(content: Content) -> str:
    rest = "nothing else of this page is proved" if content.standing == PROVED else \
        "nothing that this page says beyond them is proved"
    return (f"States from <code>{text(content.origin)}</code>, {STANDINGS[content.standing]}. "
            f'<span class="hint">Made by <code>frontend/nllc_tools</code>; {rest}.</span>')


def lane_of(state: State) -> Optional[str]:
    """The lane that an event changes: its sender and reader."""
    event = state.event
    if event.word == "push":
        return f"{event.owner}-{event.other}"
    return f"{event.other}-{event.owner}" if event.word == "take" else None
