"""The part of a Rust file that a page shows, what stands at a place of it, and its words by kind."""

import os
import re
from functools import lru_cache
from typing import Iterator, NamedTuple, Optional, Sequence

from nllc_tools.base.command_line import called
from nllc_tools.base.refusal import Refusal, refusing
from nllc_tools.model.facts import Facts
from nllc_tools.model.said import Place

MOST_BYTES = 4 * 1024 * 1024
MOST_LETTERS = 50   # of what stands at a place
BORROW = re.compile(r"&\s*(?:mut\b\s*)?")

WORD = re.compile(r"""
    (?P<comment>//.*|/\*.*?(?:\*/|$))
  | (?P<string>b?"(?:[^"\\]|\\.)*"?)
  | (?P<char>b?'(?:[^'\\]|\\.[^']*)')
  | (?P<lifetime>'[A-Za-z_]\w*)
  | (?P<number>\b[0-9][0-9a-fA-Fx_]*\w*)
  | (?P<keyword>\b(?:as|async|await|break|const|continue|crate|dyn|else|enum|extern|false|fn|for|
      if|impl|in|let|loop|match|mod|move|mut|pub|ref|return|self|Self|static|struct|super|trait|
      true|type|unsafe|use|where|while)\b)
""", re.VERBOSE)

# The words of a MIR text. Its regions may have a number for a name.
MIR_WORD = re.compile(r"""
    (?P<comment>^\s*\#.*)
  | (?P<lifetime>'\w+)
  | (?P<keyword>\b(?:universal|outlives|region|assert|struct|let|blocks|block|read|live|dead|nop|goto|switch|drop|call|
      where|unwind|return|stop|end|make|mut|const|copy|move|int|fn|for)\b)
  | (?P<number>\b[0-9]+\b)
""", re.VERBOSE)


class Source(NamedTuple):
    """Some lines of a file: its path, the number of the first line, the lines."""

    path: str
    first: int
    lines: Sequence[str]


def source_of(facts: Facts, facts_path: str) -> Optional[Source]:
    """The lines of the text's remark round those that the points' remarks name, all, where none is named; if the file is there."""
    own = facts.remarks.source
    beside = os.path.join(os.path.dirname(facts_path), own)
    path = next((path for path in (own, beside) if own and os.path.isfile(path)), None)
    if path is None:
        return None
    try:
        with refusing(f"{path} can't be read"):
            found = os.stat(path)
            lines = lines_of(path, found.st_mtime_ns, found.st_size)
    except UnicodeDecodeError:
        raise Refusal(f"{path} isn't UTF-8, so it is no Rust file") from None
    named = [one.line for one in [*facts.remarks.points.values(), *facts.remarks.regions.values()] if one.line]
    if named and max(named) > len(lines):
        raise Refusal(f"{path} has {len(lines)} lines, and the facts text speaks of line {max(named)}: was the file changed? "
                      f"`{called('facts')}` makes a new text")
    first, last = window(lines, named) if named else (1, len(lines))
    return Source(path, first, lines[first - 1:last])


@lru_cache(16)
def lines_of(path: str, _changed: int, _size: int) -> list[str]:
    """The lines of the file as it is since then; it is read once for all of its functions."""
    with open(path, encoding="utf-8") as file:
        text = file.read(MOST_BYTES + 1)
    if len(text) > MOST_BYTES:
        raise Refusal(f"{path} is longer than 4 MiB; leave it out, and the page lists the points instead")
    return text.replace("\r\n", "\n").removesuffix("\n").split("\n")


def window(lines: Sequence[str], named: Sequence[int]) -> tuple[int, int]:
    """From the `fn` above the first line to the end of the last line's block."""
    first, last = min(named), max(named)
    first = next((above for above in range(first, max(first - 40, 0), -1) if re.search(r"\bfn\b", lines[above - 1])), first)
    while first > 1 and re.match(r"\s*(#\[|///)", lines[first - 2]):
        first -= 1
    depth = indent(lines[first - 1])
    while last < len(lines) and last < max(named) + 40 and not closes(lines[last - 1], depth):
        last += 1
    return (first, last) if closes(lines[last - 1], depth) else (first, max(named))


def indent(line: str) -> int:
    return len(line) - len(line.lstrip())


def closes(line: str, depth: int) -> bool:
    return indent(line) <= depth and line.rstrip().endswith("}")


# What stands at a place, on one line

def snippet(source: Optional[Source], place: Optional[Place]) -> str:
    """The words there, cut where they are long; empty where the source isn't at hand."""
    line = line_of(source, place.line) if place else None
    if place is None or line is None:
        return ""
    if place.last == place.line:
        return cut(line[place.column - 1:place.end - 1].strip())
    return cut(line[place.column - 1:].strip(), most=-1)


def cut(words: str, most: int = MOST_LETTERS) -> str:
    """The words, or where they are longer than that their beginning."""
    return words if len(words) <= most else words[:MOST_LETTERS - 3].rstrip() + " .."


def line_of(source: Optional[Source], number: int) -> Optional[str]:
    """A line as it stands there; None where the source isn't at hand."""
    if source is None or not source.first <= number < source.first + len(source.lines):
        return None
    return source.lines[number - source.first]


def words_of(source: Optional[Source], number: int) -> str:
    """A line without its indent and what is said behind it; empty where the source isn't at hand."""
    return (line_of(source, number) or "").partition("//")[0].strip()


def whole_line(source: Optional[Source], number: int) -> str:
    """The same, cut where it is long."""
    return cut(words_of(source, number))


def borrowed(source: Optional[Source], place: Optional[Place]) -> Optional[Place]:
    """The place of what is borrowed, behind the `&` with which the place begins, if it does."""
    line = line_of(source, place.line) if place else None
    found = BORROW.match(line, max(place.column - 1, 0)) if place and line else None
    return place._replace(column=found.end() + 1) if place and found else place


# The words of a line by kind

def is_mir(source: Source) -> bool:
    """Whether these are lines of a MIR text."""
    return source.path.endswith(".mir") or source.first == 1 and source.lines[0].split()[:1] == ["nll-mir"]


def pieces(line: str, of_mir: bool = False) -> Iterator[tuple[str, str]]:
    """The line cut into pairs of a kind ("" for the rest) and text."""
    at = 0
    for found in (MIR_WORD if of_mir else WORD).finditer(line):
        if found.start() > at:
            yield "", line[at:found.start()]
        yield found.lastgroup or "", found[0]
        at = found.end()
    if at < len(line):
        yield "", line[at:]
