"""What the language itself puts in place of a `for`, a `?` or an `await`: rustc names that only where nothing else is."""

import re
from bisect import bisect_left
from dataclasses import dataclass, field
from functools import lru_cache

from nllc_tools.base.files import text_or_nothing
from nllc_tools.rustc.mir.body import Reason
from nllc_tools.rustc.mir.scanner import closing_of
from nllc_tools.rustc.mir.spans import Span, Spot

MACRO = re.compile(r"\bmacro_rules!\s*\w+\s*[{(]")


@dataclass(frozen=True)
class Desugarings:
    """Tells them from what macros of the same file make: by where macros are declared, from the first to the last character."""

    source: str = ""
    text: list[str] = field(default_factory=list)
    macros: list[tuple[Spot, Spot]] = field(default_factory=list)

    def has(self, reason: Reason) -> bool:
        """Whether a constraint is one that rustc doesn't name; what a `?` returns it names."""
        span = reason.span
        if not reason.is_expanded or span is None or span.file != self.source:
            return False
        return not self.is_of_macro(span) and not (reason.category == "Return" and self.ends(span) == "?")

    def is_of_macro(self, span: Span) -> bool:
        """Whether a place of the file is in a macro's declaration."""
        return any(begin <= span.begin < end for begin, end in self.macros)

    def ends(self, span: Span) -> str:
        """The last character of a place."""
        return self.line(span.last)[span.end - 2:span.end - 1]

    def before(self, span: Span) -> str:
        """The character before a place."""
        return self.line(span.first)[span.column - 2:span.column - 1]

    def line(self, number: int) -> str:
        return self.text[number - 1] if number <= len(self.text) else ""


@lru_cache(16)
def desugarings_of(source: str, path: str) -> Desugarings:
    """Those of a file, by rustc's name of it and by its path; without the file no macro is known."""
    text = text_or_nothing(path)
    return Desugarings(source, text.split("\n"), declarations(text))


def declarations(text: str) -> list[tuple[Spot, Spot]]:
    """Where macros are declared, each up to the bracket that closes it."""
    ends = [found.start() for found in re.finditer("\n", text)]

    def spot(at: int) -> Spot:
        line = bisect_left(ends, at)
        return line + 1, at - (ends[line - 1] if line else -1)

    return [(spot(found.start()), spot(closing_of(text, found.end() - 1))) for found in MACRO.finditer(text)]
