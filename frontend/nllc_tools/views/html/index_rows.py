"""What an index says of each page, which stands in the page itself."""

import html
import json
import os
import re
from typing import NamedTuple, Optional

from nllc_tools.base.sentences import plain, visible
from nllc_tools.judge.content import Content
from nllc_tools.judge.differences import differences, refused
from nllc_tools.judge.findings import findings
from nllc_tools.judge.verdicts import verdict_of

NAME = "index.html"
ROW = re.compile(r'<meta name="nll-row" content="([^"]*)">')
MOST_HEAD = 65536       # characters of a page in which its row stands
MOST_TOLD = 4           # of more faults of a function the first are in its row
MOST_LETTERS = 300      # of a fault
FN = re.compile(r"^[^/]*\bfn\b")


class Told(NamedTuple):
    """A line, where it is known, and what is said of it; code stands between backticks."""

    line: Optional[int]
    words: str


class Row(NamedTuple):
    """What an index says of a page. Loans are None where the page says nothing of them."""

    name: str
    source: str
    line: Optional[int]             # of its `fn`
    points: int
    regions: int
    faults: int
    loans: Optional[int]
    kind: str = "fine"              # of the badge, with its words
    said: str = "no fault"
    rustc: Optional[str] = None
    told: list[Told] = []
    is_function: bool = True


class Entry(NamedTuple):
    """The file of a page, and its row."""

    file: str
    row: Row


def row_of(content: Content, name: str) -> Row:
    """The row of a page's content."""
    facts = content.facts
    loans = None if facts.remarks.beside.count is None else len(content.loans)
    verdict = verdict_of(content)
    source = content.source.path if content.source else facts.remarks.source or content.facts_path
    return Row(name, source, line_of(content), facts.points, len(facts.names), len(content.faults), loans,
               verdict.kind, verdict.words, verdict.rustc, told_of(content), bool(facts.remarks.function))


def line_of(content: Content) -> Optional[int]:
    """The line of the `fn`; of a closure, or without the source, the first that is known; of a text none."""
    remarks, source = content.facts.remarks, content.source
    named = [remark.line for remark in (*remarks.points.values(), *remarks.regions.values()) if remark.line is not None]
    if not remarks.function or not named:
        return None
    first = min(named)
    if source is None or "{closure#" in remarks.function:
        return first
    above = range(first, source.first - 1, -1)
    return next((number for number in above if FN.match(source.lines[number - source.first])), first)


def told_of(content: Content) -> list[Told]:
    """The faults, and where rustc says something else."""
    found = [Told(one.place.line if one.place else None, (f"{one.code}: " if one.code else "") + plain(one.head))
             for one in findings.all_of(content)]
    found += [Told(one.error.line, f"rustc: {one.error.words}; nllc: no fault there") for one in differences(content)]
    found += [Told(one.line, f"rustc: {one.words}") for one in refused(content)]
    more = [Told(None, f"and {len(found) - MOST_TOLD} more")] if len(found) > MOST_TOLD else []
    return [Told(line, visible(said)[:MOST_LETTERS]) for line, said in found[:MOST_TOLD] + more]


def row_mark(row: Row) -> str:
    """The element by which a page's row is found again."""
    return f'<meta name="nll-row" content="{html.escape(json.dumps(row))}">'


def row_in(path: str) -> Optional[Row]:
    """The row of a page, or None where the file is no page."""
    try:
        with open(path, encoding="utf-8", errors="replace") as file:
            found = ROW.search(file.read(MOST_HEAD))
        row = Row(*json.loads(html.unescape(found[1]))) if found else None
        return row._replace(told=[Told(*one) for one in row.told]) if row else None
    except (OSError, ValueError, TypeError):
        return None


def rows_in(folder: str) -> list[Entry]:
    """The pages of a folder with their rows, in the order of their sources."""
    names = sorted(name for name in os.listdir(folder) if name.endswith(".html") and name != NAME)
    found = [Entry(name, row) for name in names if (row := row_in(os.path.join(folder, name)))]
    return sorted(found, key=lambda one: (one.row.source, one.row.line or 0, one.row.name))
