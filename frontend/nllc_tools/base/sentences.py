"""Sentences, and text from outside that is safe to show.

A sentence is a list of strings; those that are `Code` are shown as code. So text that comes from
outside is never read as markup.
"""

import re
from typing import Iterable, Sequence

# Characters that show nothing or change how their neighbours are shown.
HIDDEN = re.compile("[\x00-\x08\x0b-\x1f\x7f-\x9f\u061c\u200b-\u200f"
                    "\u2028-\u202e\u2060-\u2069\ufeff\ufff9-\ufffb]")


def visible(text: str) -> str:
    """The text with a code in place of each hidden character, and blanks in place of tabs."""
    return HIDDEN.sub(lambda found: f"‹U+{ord(found[0]):04X}›", text.replace("\t", "    "))


class Code(str):
    """A piece of a sentence that is code."""

    __slots__ = ()


Sentence = list[str]


def plain(parts: Iterable[str]) -> str:
    """The sentence for a terminal."""
    return "".join(f"`{part}`" if isinstance(part, Code) else part for part in parts)


def ticked(text: str) -> list[str]:
    """A sentence of rustc's, in which code stands between ticks."""
    return [Code(part) if number % 2 else part for number, part in enumerate(text.split("`"))]


def joined(pieces: Sequence[Iterable[str]], last: str = " and ", between: str = ", ") -> list[str]:
    """Sentences' pieces, with commas and an `and`."""
    parts: list[str] = []
    for number, piece in enumerate(pieces):
        if number:
            parts.append(last if number == len(pieces) - 1 else between)
        parts.extend(piece)
    return parts


def some(names: Sequence[str], most: int) -> str:
    """The first of the names, and how many more there are."""
    return ", ".join(names[:most]) + (f" and {len(names) - most} more" if len(names) > most else "")


def plural(count: int, noun: str) -> str:
    return f"{count:,} {noun}" if count == 1 else f"{count:,} {noun}s"
