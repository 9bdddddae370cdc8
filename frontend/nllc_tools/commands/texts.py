"""What a page has, of a facts text or a MIR text; the words of commands that take texts."""

import os
import sys
import tempfile
from typing import NamedTuple, Optional

from nllc_tools.base import files, world_program
from nllc_tools.base.command_line import Parser, called
from nllc_tools.base.refusal import Refusal
from nllc_tools.judge import content
from nllc_tools.model.facts import Facts
from nllc_tools.texts import source
from nllc_tools.texts.facts.reader import is_facts_text
from nllc_tools.texts.mir.problem import is_mir_text, problem_in
from nllc_tools.texts.mir.remarks import remarks_of
from nllc_tools.texts.source import Source
from nllc_tools.views.html.writing import STANDINGS


class Text(NamedTuple):
    """What a text is called, and its bytes."""

    path: str
    text: bytes


def parser_of_texts(word: str, about: str, statuses: Optional[str] = None) -> Parser:
    parser = Parser(word, about, statuses)
    parser.add_argument("texts", metavar="FILE", nargs="+", help="a facts text or a MIR text; - is standard input")
    return parser


def read(path: str) -> Text:
    return Text("stdin", sys.stdin.buffer.read()) if path == "-" else Text(path, files.read_bytes(path))


def content_of(path: str, text: bytes, most: float = content.MOST_POINTS) -> content.Content:
    if is_mir_text(text):
        return content_of_mir(path, text, most)
    if path.endswith(".rs") and not is_facts_text(text):
        raise Refusal(f"{path} is a Rust file: {called('rust')} {path} makes its texts and pages")
    return content.content_of(path, text, most)


def content_of_mir(path: str, text: bytes, most: float) -> content.Content:
    """The content of a MIR text's page: its source is the text itself."""
    report = content.report_of(path, text)
    facts, problem = problem_of(path, text)
    facts.remarks = remarks_of(text.decode("utf-8"), facts.point_names)
    values, found = content.judged(path, facts, report, most)
    lines = text.decode("utf-8").removesuffix("\n").split("\n")
    shown = Source(path, 1, lines) if len(text) <= source.MOST_BYTES else None
    return content.Content(facts, values, content.explained(facts, values, found, report.program), path, shown, report.program,
                   report.standing, problem=problem)


class Told(NamedTuple):
    """The problem of a MIR text, and by which program, in words."""

    facts: Facts
    by: str


def problem_of(path: str, text: bytes) -> Told:
    with tempfile.TemporaryDirectory(prefix="nll-page.") as folder:
        schedule, copy = os.path.join(folder, "schedule"), os.path.join(folder, "text")
        with open(schedule, "w", encoding="utf-8") as file:
            file.write("nll-schedule 1\n")
        with open(copy, "wb") as file:
            file.write(text)
        printed = world_program.run(["1", "round", copy, schedule])
    facts, _ = problem_in(printed.text, path)
    return Told(facts, f"The text’s problem from {printed.program}, {STANDINGS[printed.standing]}.")
