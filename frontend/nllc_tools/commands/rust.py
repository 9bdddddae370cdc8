"""The one command from a Rust file, or a Cargo project, to its pages: a text, `nllc`'s answer and a page of each."""

from __future__ import annotations

import argparse
import os
import sys
from contextlib import contextmanager
from dataclasses import dataclass
from typing import TYPE_CHECKING, Iterator, Sequence

from nllc_tools.base.command_line import OF_CARGO, Parser
from nllc_tools.base.rooms import guarded_room
from nllc_tools.base.streams import guarded
from nllc_tools.commands.inputs import (Asked, add_words, check, make_ready, open_page, read_words, refuse_nothing, show,
                                        tell_unanswered, without_functions)

if TYPE_CHECKING:
    from nllc_tools.rustc.functions import Checked
    from nllc_tools.texts.mir.functions import Made
    from nllc_tools.views.terminal.answers import Answer

REFUSED = 4     # the status where there is no fault, and rustc refuses all the same
MOST_PAGES = 200

ABOUT = """\
Says why the borrow checker refuses the functions of a Rust file, or of a Cargo project: lifetimes that would have to outlive
others, and loans that something conflicts with while they are live. Makes a facts text and a page of each function. OPTIONS are
those of rustc, or of cargo check. Status 0: no fault, and rustc accepts all of it; 1: faults; 2: refused, all or in part; 3:
failed; 4: no fault, but rustc refuses it, for a reason that nllc doesn't check or because nllc and rustc differ."""


@dataclass
class AskedInFull(Asked):
    """The words, with what is to be told, and how."""

    explain: bool
    everywhere: bool
    from_mir: bool
    all_pages: bool
    open: bool
    format: str


def main(words: Sequence[str]) -> int:
    """Does what the words say; the statuses are those of `nllc`."""
    return guarded("rust", lambda: answer_all(words_of(words)))


def main_of_cargo(words: Sequence[str]) -> int:
    """The same of `cargo nllc`, for the project of the current folder."""
    return guarded(OF_CARGO, lambda: answer_all(words_of(words, is_of_cargo=True)))


def words_of(words: Sequence[str], is_of_cargo: bool = False) -> AskedInFull:
    path, edition, options = ("", "", "cargo check") if is_of_cargo else \
        ("FILE.rs|FOLDER ", "[--edition E] ", "rustc or cargo check")
    parser = Parser(
        OF_CARGO if is_of_cargo else "rust", ABOUT, formatter_class=argparse.HelpFormatter,
        usage=f"{path}[FUNCTION ..] [-o FOLDER] [-p PACKAGE] {edition}[--explain] [--all-points] [--from-mir] [--all-pages] "
        "[--open] [--message-format human|json] [-- OPTIONS]", hint=f"options of {options} go after --")
    add_words(parser, "where texts and pages go", is_of_cargo)
    parser.add_argument("--explain", action="store_true",
                        help="what rustc says, and how each fault comes about, step by step")
    parser.add_argument("--all-points", dest="everywhere", action="store_true",
                        help="also answer with every constraint at all points, as rustc's own solver "
                             "does; it doesn't change the status")
    parser.add_argument("--from-mir", action="store_true",
                        help="by MIR texts and nllc's own rules in place of rustc's constraints")
    parser.add_argument("--all-pages", action="store_true",
                        help=f"a page of each function; without it, of more than {MOST_PAGES:,} functions only those "
                             "with something to report")
    parser.add_argument("--open", action="store_true", help="open the page in the browser")
    parser.add_argument("--message-format", dest="format", choices=("human", "json"), default="human",
                        help="json: faults as rustc's own JSON, a line each, with rustc's other diagnostics; no pages")
    return AskedInFull(**vars(read_words(parser, words)))


def answer_all(asked: AskedInFull) -> int:
    with guarded_room("nll-facts.") as room:
        return answer_in_json(asked, room) if asked.format == "json" else answer_for_people(asked, room)


def answer_for_people(asked: AskedInFull, room: str) -> int:
    folder = asked.folder()
    checked = check(asked, room, folder)
    refuse_nothing(asked.path, checked)
    make_ready(folder)
    answers = answers_of(asked, checked, folder, asked.all_pages or len(checked.functions) <= MOST_PAGES)
    from nllc_tools.views.terminal.answers import tell_all
    tell_all(checked, answers)
    if asked.explain:
        sys.stdout.flush()
        show(checked.errors)
    status = tell_unanswered(asked.path, checked.unanswered)
    tell_pages(asked, folder, [answer.said.page for answer in answers if answer.said and answer.said.page])
    return status_of(checked, answers, status)


def answer_in_json(asked: AskedInFull, room: str) -> int:
    """Lines for programs on standard output, and nothing else there; texts and pages are left with `-o` alone."""
    folder = asked.out or os.path.join(room, "texts")
    checked = check(asked, room, folder, is_for_people=False)
    make_ready(folder)
    answers = answers_of(asked, checked, folder, asked.all_pages and asked.out is not None)
    from nllc_tools.views.json import diagnostics
    for line in diagnostics.lines(checked, [answer.said for answer in answers if answer.said]):
        print(line)
    if not checked.functions:
        raise without_functions(asked.path, checked)
    for function, answer in zip(checked.functions, answers):
        if answer.failure:
            print(f"{function.name}: no answer: {answer.failure}", file=sys.stderr)
    return status_of(checked, answers, 2 if checked.unanswered else 0)


def answers_of(asked: AskedInFull, checked: Checked, folder: str, has_page: bool) -> list[Answer]:
    """Has all functions answered."""
    from nllc_tools.commands import answers     # all that answers is read once rustc has run
    how = answers.How(asked.explain, asked.everywhere, has_page)
    with mir_texts(asked, folder) as by_mir:
        return answers.answer_all([answers.Work(one, by_mir.get(one.path), how) for one in checked.functions])


@contextmanager
def mir_texts(asked: AskedInFull, folder: str) -> Iterator[dict[str, Made]]:
    """By the paths of facts texts the MIR texts of functions, where these are to be answered."""
    if not asked.from_mir:
        yield {}
        return
    from nllc_tools.commands.mir import texts_by_path
    with guarded_room("nll-mir.") as room:
        yield texts_by_path(asked, room, folder)


def status_of(checked: Checked, answers: list[Answer], status: int) -> int:
    """That of several: what failed comes before what is refused, that before faults."""
    statuses = [status, REFUSED if checked.errors else 0, *(answer.status for answer in answers)]
    return max(statuses, key=(0, REFUSED, 1, 2, 3).index)


def tell_pages(asked: AskedInFull, folder: str, pages: list[str]) -> None:
    """Writes the index of the pages, and says where it is; without a page none."""
    if not pages:
        return
    from nllc_tools.views.html.index import write_index
    index = write_index(folder, [os.path.basename(page) for page in pages] if not asked.functions else None)
    print(f"pages: {index}")
    if asked.open:
        open_page(pages[0] if len(pages) == 1 else index)
