"""The command `nllc.sh schedule`: a page of a schedule, event by event."""

import argparse
import re
from typing import Sequence

from nllc_tools.base import world_program
from nllc_tools.base.command_line import Parser
from nllc_tools.base.files import read_bytes, same_file, write
from nllc_tools.base.refusal import Refusal
from nllc_tools.base.streams import command
from nllc_tools.commands.inputs import open_page
from nllc_tools.model.facts import Facts
from nllc_tools.texts.facts.reader import read_facts
from nllc_tools.texts.mir.problem import is_mir_text, problem_in
from nllc_tools.texts.schedule_states import Broken, read_run
from nllc_tools.views.schedule.content import Content
from nllc_tools.views.schedule.page import page

MOST_BYTES = 1024 * 1024     # of FILE
MOST_EVENTS = 2_000
MOST_ELEMENTS = 200
MOST_REGIONS = 64
MOST_OWNERS = 64

ABOUT = """\
Writes one HTML page of a schedule (docs/FORMATS.md): owners side by side with their regions, copies and
logs, the boxes between them and the balance, event by event. Prints the page's path. The states are those
of frontend/world_program.rattle, a program over the proved model of a run; the program in the variable
WORLD_PROGRAM stands in for it."""

STATUSES = """\
status 0: the page was written; 2: the arguments, a file or a text was refused; 3: world_program gave no answer, or
the page couldn't be written; each with one line on standard error, and no page is left half-written"""

EVENT = rb"[ \t\r]*(?:load|take|owe|clear|push|leave)[ \t\r]+([0-9]{1,9})(?:[ \t\r]+([0-9]{1,9}))?[ \t\r]*"


def number_of_owners(word: str) -> int:
    if not word.isdecimal() or not 1 <= int(word) <= MOST_OWNERS:
        raise argparse.ArgumentTypeError(f"a number from 1 to {MOST_OWNERS}, not {word}")
    return int(word)


def words_of(words: Sequence[str]) -> argparse.Namespace:
    parser = Parser("schedule", ABOUT, STATUSES)
    parser.add_argument("facts", metavar="FILE", help="a facts text or a MIR text")
    parser.add_argument("schedule", metavar="SCHEDULE", help="a schedule of its owners")
    parser.add_argument("--owners", metavar="N", type=number_of_owners,
                        help="number of owners (default: as many as the schedule names)")
    dealing = parser.add_mutually_exclusive_group()
    dealing.add_argument("--deal", choices=("round", "blocks"),
                         help="assign regions round-robin (the default), or in blocks")
    dealing.add_argument("--cut", metavar="FILE", help="a cut file, which lists the owner of each region")
    parser.add_argument("-o", metavar="OUT.html", dest="out",
                        help="the page (default: SCHEDULE with .html appended)")
    parser.add_argument("--open", action="store_true", help="open the page in the browser")
    return parser.parse_args(words)


@command("schedule")
def main(words: Sequence[str]) -> int:
    """Runs the program on these words; its status."""
    asked = words_of(words)
    out = asked.out or asked.schedule + ".html"
    for path in (asked.facts, asked.schedule, asked.cut):
        if path and same_file(path, out):
            raise Refusal(f"the page would be written over {path}; name another by -o OUT.html")
    write(out, page(content_of(asked)))
    print(out)
    if asked.open:
        open_page(out)
    return 0


def content_of(asked: argparse.Namespace) -> Content:
    text, events = read_bytes(asked.facts), read_bytes(asked.schedule)
    look_small(asked.facts, len(text), MOST_BYTES, "bytes")
    look_small(asked.schedule, len(events_in(events)), MOST_EVENTS, "events")
    facts = None if is_mir_text(text) else read_facts(text, asked.facts)
    if facts:
        look_small_problem(asked.facts, facts)
    owners = str(asked.owners or named_owners(events))
    printed = world_program.run([owners, "cut", asked.facts, asked.schedule, asked.cut] if asked.cut else
                                [owners, asked.deal or "round", asked.facts, asked.schedule])
    told, rest = (facts, printed.text) if facts else problem_in(printed.text, asked.facts)
    look_small_problem(asked.facts, told)
    states = read_run(rest, len(told.names), told.points + told.universals)
    try:
        return Content(told, states, asked.facts, asked.schedule, printed.program, printed.standing)
    except Broken as wrong:
        raise Refusal(f"the states of {printed.program} don't follow from {asked.facts}: {wrong}", 3) from None


def events_in(schedule: bytes) -> list[list[int]]:
    """The owners in the lines that seem to be events; the program judges the lines."""
    return [[int(number) for number in found.groups() if number is not None]
            for line in schedule.split(b"\n") if (found := re.fullmatch(EVENT, line))]


def named_owners(schedule: bytes) -> int:
    """The least number of owners for which the schedule can be read."""
    highest = max((number for numbers in events_in(schedule) for number in numbers), default=0)
    return min(highest + 1, MOST_OWNERS)


def look_small_problem(path: str, facts: Facts) -> None:
    look_small(path, facts.points + facts.universals, MOST_ELEMENTS, "elements")
    look_small(path, len(facts.names), MOST_REGIONS, "regions")


def look_small(path: str, count: int, most: int, noun: str) -> None:
    """Refuses what is too large for a page."""
    if count > most:
        raise Refusal(f"{path} has {count:,} {noun}, and a page shows at most {most:,}; "
                      "`nllc replay` answers it")
