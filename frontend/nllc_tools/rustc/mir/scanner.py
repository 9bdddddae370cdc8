"""Goes through a line that rustc prints."""

from __future__ import annotations

import re
from typing import Optional

from nllc_tools.rustc.unsaid import NotSaid


class Scanner:
    """Goes through a text, from a place on."""

    def __init__(self, text: str, at: int = 0):
        self.text = text
        self.at = at

    def strange(self) -> NotSaid:
        return NotSaid("a type that isn't understood", self.text[self.at:self.at + 60])

    def takes(self, words: str) -> bool:
        """Whether the words stand here; then they are behind."""
        if not self.text.startswith(words, self.at):
            return False
        self.at += len(words)
        return True

    def must(self, words: str) -> None:
        if not self.takes(words):
            raise self.strange()

    def match(self, pattern: re.Pattern[str]) -> Optional[re.Match[str]]:
        found = pattern.match(self.text, self.at)
        if found:
            self.at = found.end()
        return found

    def must_match(self, pattern: re.Pattern[str]) -> re.Match[str]:
        found = self.match(pattern)
        if not found:
            raise self.strange()
        return found

    def end(self) -> None:
        if self.at != len(self.text):
            raise self.strange()

    def sign(self) -> str:
        return self.text[self.at:self.at + 1]

    def skip(self, until: str) -> None:
        """Goes on to the first of the signs that isn't inside brackets."""
        depth = 0
        while self.at < len(self.text):
            sign = self.text[self.at]
            is_arrow = sign == ">" and self.text[self.at - 1] in "-="
            if depth == 0 and sign in until and not is_arrow:
                return
            if sign in "([{<":
                depth += 1
            elif sign in ")]}>" and not is_arrow:
                depth -= 1
            self.at += 1

    def skipped(self, until: str) -> str:
        begin = self.at
        self.skip(until)
        return self.text[begin:self.at]


def closing_of(text: str, begin: int) -> int:
    """Where the bracket that opens there is closed; the text's end if it isn't."""
    depth = 0
    for end in range(begin, len(text)):
        depth += (text[end] in "({[") - (text[end] in ")}]")
        if depth == 0:
            return end
    return len(text)
