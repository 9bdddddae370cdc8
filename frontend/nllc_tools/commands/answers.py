"""Has functions answered: a text of each, what `nllc` says of it, its page, and what `nllc.sh rust` tells of it."""

import os
from dataclasses import replace
from typing import NamedTuple, Optional

from nllc_tools.base import nllc
from nllc_tools.base.files import write, write_whole
from nllc_tools.base.progress import Bar, Progress
from nllc_tools.base.refusal import Refusal
from nllc_tools.base.workers import side_by_side
from nllc_tools.judge.content import Content, content_of
from nllc_tools.judge.silence import Silence, facts_of, silence_of
from nllc_tools.judge.summary import Summary, silent, summary_of
from nllc_tools.rustc.functions import Function
from nllc_tools.texts.facts import widening
from nllc_tools.texts.facts.conversion import convert
from nllc_tools.texts.facts.writer import facts_text
from nllc_tools.texts.mir.functions import Made
from nllc_tools.views.terminal import explaining
from nllc_tools.views.terminal.answers import Answer


class How(NamedTuple):
    """What is told: step by step; with the answer beside it where each constraint holds at all points. Without a page a
    function has one all the same where something is told of it."""

    in_full: bool = False
    everywhere: bool = False
    has_page: bool = True


class Work(NamedTuple):
    """A function, its MIR text if that is to be answered, and how."""

    function: Function
    made: Optional[Made]
    how: How


def answer_all(works: list[Work]) -> list[Answer]:
    """Has all functions answered, side by side, with a bar where somebody looks."""
    find_program()
    bar, answers = Bar(len(works)), []
    with Progress(bar.words):
        for answer in side_by_side(answer_finally, works, few=1):
            answers.append(answer)
            bar.step(answer.said.count() if answer.said else 0)
    return answers


def find_program() -> None:
    """Finds the program once, for all functions."""
    nllc.program()


def answer_finally(work: Work) -> Answer:
    """The answer; rustc's tables are removed: all processes together do that sooner than one of them at the end."""
    answer, folder = answer_one(work), work.function.dump.facts
    for name in os.listdir(folder):
        os.unlink(os.path.join(folder, name))
    os.rmdir(folder)
    return answer


def answer_one(work: Work) -> Answer:
    """Writes a function's text, has `nllc` answer it and its page made; of one with a MIR text that one's problem."""
    function = work.function
    try:
        problem = convert(function.dump, function.root, function.errors)
        if work.made:
            from nllc_tools.commands.rules import problem_by_rules    # read where it is asked for
            problem = problem_by_rules(work.made, problem)
        text = facts_text(problem)
        write_whole(function.path, text)
        said = answered(function.path, text.encode(), work.how)
    except Refusal as refusal:
        return Answer(refusal.status, str(refusal))
    return Answer(1 if said.count() else 0, said=said)


def answered(facts_path: str, text: bytes, how: How = How()) -> Summary:
    """What is told of a text, which stands at the path, and beside it its page."""
    silence = Silence(False) if any(how) else silence_of(text)
    if silence.is_silent:
        return silent(facts_of(text))
    content = content_of(facts_path, text, report=silence.report)
    if how.everywhere:
        content = replace(content, everywhere=content_of(facts_path, widening.at_all_points(text)))
    said = summary_of(content)
    said.lines = [*(explaining.lines(content) if how.in_full else ()), *explaining.second_answer(content),
                  *(explaining.needs(content) if how.in_full else ())]
    if how.has_page or said.is_told():
        said.page = facts_path.removesuffix(".facts") + ".html"
        write_page(said.page, content)
    return said


def write_page(path: str, content: Content) -> None:
    from nllc_tools.views.html.index_rows import NAME   # a page's modules are read where one is made
    from nllc_tools.views.html.page import page
    write(path, page(replace(content, index=NAME)))
