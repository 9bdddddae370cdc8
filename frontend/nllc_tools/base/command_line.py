"""What the user calls the command, nllc.sh in the repository and nllc in an installed copy; and its words."""

from __future__ import annotations

import argparse
import os
import sys
from functools import cache
from typing import IO, NoReturn, Optional, Sequence

OF_CARGO = "cargo nllc"


def called(*words: str) -> str:
    """The command with these words, as the wrapper was called; one of cargo's goes by its own name."""
    first = () if words[:1] == (OF_CARGO,) else (os.environ.get("NLLC_CALLED", "nllc.sh"),)
    return " ".join((*first, *words))


@cache
def current() -> list[str]:
    """A list of one: the command that runs, by which a line of its own begins."""
    return [called("rust")]


class Parser(argparse.ArgumentParser):
    """A parser of what follows a word; a usage is what it says after that. Help that can't be written is an error like other output."""

    def __init__(self, word: str, about: str, statuses: Optional[str] = None, usage: Optional[str] = None, hint: str = "",
                 formatter_class: type[argparse.HelpFormatter] = argparse.RawDescriptionHelpFormatter):
        super().__init__(prog=called(word), usage=usage and f"{called(word)} {usage}", description=about, epilog=statuses,
                         allow_abbrev=False, formatter_class=formatter_class)
        self.hint = hint

    def error(self, message: str) -> NoReturn:
        """Says what is wrong; of an option that isn't known also where those of other programs go."""
        super().error(f"{message}; {self.hint}" if self.hint and message.startswith("unrecognized") else message)

    def parse_args(self, args: Optional[Sequence[str]] = None) -> argparse.Namespace:    # type: ignore[override]
        """Takes files and names before and after options."""
        asked, left = self.parse_known_args(args)
        return self.parse_intermixed_args(args) if left else asked

    def _print_message(self, message: str, file: Optional[IO[str]] = None) -> None:
        if file is sys.stdout:
            sys.stdout.write(message)
        else:
            super()._print_message(message, file)
