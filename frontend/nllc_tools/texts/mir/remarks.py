"""What a MIR text says of its points and regions, for a page of it.

The problem of a text, and so all that a page computes with, comes from the program over the proved reader
(base.world_program). Here are its statements, by block and place, and where its regions stand.
"""

import re
from typing import Optional

from nllc_tools.model.remarks import Remark, Remarks

DECLARED = re.compile(r"(universal|region)\s+'(\w+)$")
VARIABLE = re.compile(r"let\s+(_\d+)\s*:\s*(.*)$")
BLOCK = re.compile(r"block\s+bb(\d+)$")
BORROW = re.compile(r"=\s*&\s*'(\w+)\b")
REGION = re.compile(r"'(\w+)")


class MirText:
    """Reads a text that `nllc` accepts, line by line."""

    def __init__(self, text: str) -> None:
        self.lines = text.split("\n")
        self.statements: dict[str, Remark] = {}    # the name of a point, as `bb1/2`, to its line and words
        self.regions: dict[str, Remark] = {}       # the name of a region to its line and words
        self.block: Optional[int] = None
        self.place = 0
        for number, line in enumerate(self.lines, 1):
            words = line.strip(" \t\r")
            if number > 1 and words and not words.startswith("#"):
                self.read(number, words)

    def read(self, number: int, words: str) -> None:
        if found := BLOCK.match(words):
            self.block, self.place = int(found[1]), 0
        elif found := DECLARED.match(words):
            if found[1] == "universal":
                self.tell(found[2], number, f"'{found[2]} of the signature")
        elif found := VARIABLE.match(words):
            for name in REGION.findall(found[2]):
                self.tell(name, number, f"the type of {found[1]}: {found[2]}")
        elif self.block is not None and words != "end":
            self.add_statement(number, words)

    def add_statement(self, number: int, words: str) -> None:
        self.statements[f"bb{self.block}/{self.place}"] = Remark(
            number, f"{words} (bb{self.block}[{self.place}])")
        self.place += 1
        borrow = BORROW.search(words)
        for name in REGION.findall(words):
            what = "the borrow" if borrow and borrow[1] == name else "of the statement"
            self.tell(name, number, f"{what} {words}")

    def tell(self, name: str, number: int, words: str) -> None:
        """The first that is said of a region counts, save that a signature's region is that alone."""
        self.regions.setdefault(name, Remark(number, words))


def remarks_of(text: str, point_names: dict[int, str]) -> Remarks:
    """The remarks of a page: a text's own statements at its points, its regions by name."""
    said = MirText(text)
    points = {point: said.statements[name] for point, name in point_names.items()
              if name in said.statements}
    return Remarks(points=points, regions=said.regions)
