"""How pages are written: text from outside made safe to show, sentences, lists, badges, and templates that are filled."""

import html
import json
import os
import re
from functools import cache
from typing import Iterable, Mapping

from nllc_tools.base.nllc import PROVED, UNKNOWN, UNPROVED
from nllc_tools.base.sentences import Code, visible

TEMPLATES = os.path.join(os.path.dirname(os.path.abspath(__file__)), "templates")
PLAIN = re.compile(r"[\w .,:;=()\[\]{}#/+*|!?–‹›-]*", re.ASCII)    # what most texts are of: nothing of it has a code
COMMENT = re.compile(r"/\*.*?\*/|^\s*//.*?$", re.DOTALL | re.MULTILINE)

# What a page says of the program that answered.
STANDINGS = {
    PROVED: "the proved build",
    UNPROVED: "a build that nothing has proved",
    UNKNOWN: "a program of which this page doesn’t know whether it is proved",
}

# A badge's sign by its kind, and the colour of a page's icon.
MARKS = {"fine": "✓", "faulty": "✕", "differs": "◆"}
COLOURS = {"fine": "1d6b3a", "faulty": "b3123a", "differs": "6a3bb5"}
ICON = ("<svg xmlns='http://www.w3.org/2000/svg' viewBox='0 0 16 16'><rect width='16' height='16' rx='3' fill='#{}'/>"
        "<path d='M3 4h7M6 8h7M3 12h4' stroke='#fff' stroke-width='2'/></svg>")
CODES = str.maketrans({"%": "%25", "#": "%23", "<": "%3C", ">": "%3E"})


def text(value: object) -> str:
    """A text as the content of an HTML element or of a quoted attribute."""
    value = str(value)
    return value if PLAIN.fullmatch(value) else html.escape(visible(value))


def sentence(parts: Iterable[str]) -> str:
    """A sentence as HTML, its code in `code`."""
    return "".join(f"<code>{text(part)}</code>" if isinstance(part, Code) else text(part) for part in parts)


def items(rows: Iterable[str]) -> str:
    """A list, of rows that are HTML."""
    return f'<ul>{"".join(f"<li>{row}</li>" for row in rows)}</ul>'


def section(kind: str, title: str, inside: str) -> str:
    """A part of a page, of classes, with its head; nothing where nothing is in it."""
    return f'<section class="{kind}" aria-label="{title}"><h2>{title}</h2>{inside}</section>' if inside else ""


def line_link(line: int) -> str:
    """A link to a line of the page's source."""
    return f'<a href="#line-{line}" data-line="{line}">line {line}</a>'


def back(index: str) -> str:
    """A link to the page of all pages, where there is one."""
    return f'<a class="back" href="./{text(index)}">‹ all pages</a>' if index else ""


def about(path: str, *counts: str) -> str:
    """What a page is of, and how much of each there is."""
    return f'<span class="path">{text(path)}</span> <span>{" · ".join(counts)}</span>'


def badge(kind: str, said: str) -> str:
    """A verdict."""
    return f'<p class="verdict {kind}"><span aria-hidden="true">{MARKS[kind]}</span> {text(said)}</p>'


def icon(kind: str) -> str:
    """An address that holds the whole picture."""
    return f"data:image/svg+xml,{ICON.format(COLOURS[kind]).translate(CODES)}"


def script_data(value: object) -> str:
    """JSON that may stand in a `script` element: it holds no `<`, so it can't end the element."""
    compact_json = json.dumps(value, separators=(",", ":"))
    return compact_json.replace("<", "\\u003c").replace(">", "\\u003e").replace("&", "\\u0026")


@cache
def template(name: str) -> str:
    with open(os.path.join(TEMPLATES, name), encoding="utf-8") as file:
        return file.read()


@cache
def compact(*names: str) -> str:
    """Templates of style or script, without comments and indents, which nobody reads in a page."""
    whole = COMMENT.sub("", "\n".join(map(template, names)))
    return "".join(f"{line.strip()}\n" for line in whole.split("\n") if line.strip())


def fill(name: str, parts: Mapping[str, str]) -> str:
    """The template with each `{{part}}` in place; what is put in isn't looked at again."""
    return re.sub(r"\{\{(\w+)\}\}", lambda found: parts[found[1]], template(name))
