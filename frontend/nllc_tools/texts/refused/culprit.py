"""The token of a refused line that the kind of its fault is about, and what is wrong with it."""

import re
import sys
from collections import Counter
from dataclasses import dataclass
from typing import Callable, Iterable, NamedTuple, Optional, Sequence

from nllc_tools.texts.facts.remark_reader import is_remark
from nllc_tools.texts.refused.forms import FACTS, FACTS_ORDER, KINDS, MIR, MIR_ORDER, PLACE
from nllc_tools.texts.refused.shapes import Misfit, Shapes
from nllc_tools.texts.refused.types import Token

TOKEN = re.compile(r"'?[A-Za-z0-9_]+|->|[=&()<>,:.*+?-]")
NUMBER = re.compile(r"0|[1-9][0-9]{0,8}")
DEEPEST = 20_000    # calls, for types of 4,096 nodes inside one another


class Culprit(NamedTuple):
    """A column of the line, from 1, or none; and what is wrong."""

    column: int
    why: str


class Before:
    """What the lines before the refused one declare: each name with its line, how many lines begin with each word, the numbers of
    points and blocks, and the lines of structs and variables."""

    def __init__(self, lines: Iterable[str]):
        self.names = {"'static": 0}
        self.counts: Counter[str] = Counter()
        self.numbers: dict[str, int] = {}
        self.typed: list[str] = []
        for number, line in enumerate(lines, 1):
            first, second, *_ = [*TOKEN.findall(line), "", ""]
            if number > 1 and first and not is_remark(line):
                self.add(number, first, second)
                self.typed += [line] if first in ("struct", "let") else []

    def add(self, number: int, first: str, second: str) -> None:
        self.counts[first] += 1
        if first in ("universal", "region", "struct"):
            self.names.setdefault(second, number)
        if first in ("points", "blocks"):
            self.numbers[first] = int(second)


@dataclass(frozen=True)
class Line:
    """A refused line by its tokens, the kind of its fault, and what stands before it."""

    kind: str
    text: str
    tokens: list[Token]
    before: Before
    is_mir: bool

    @property
    def first(self) -> str:
        return self.tokens[0][0]


def culprit(kind: str, lines: Sequence[str]) -> Culprit:
    """Of the last of these lines, which the program refuses with a fault of this kind."""
    line = Line(kind, lines[-1], [*TOKEN.finditer(lines[-1])], Before(lines[:-1]), lines[0].split()[:1] == ["nll-mir"])
    found = FINDERS[kind](line) if kind in FINDERS else None
    return found or Culprit(0, KINDS.get(kind, "see docs/FORMATS.md"))


def at(token: Token, why: str) -> Culprit:
    return Culprit(token.start() + 1, f"`{token[0]}` {why}")


def syntax(line: Line) -> Culprit:
    """What is part of no token, else the word with which the line begins."""
    other = re.search(r"[^ \t\r]", TOKEN.sub(lambda found: " " * len(found[0]), line.text))
    if other:
        return Culprit(other.start() + 1, f"`{other[0]}` is part of no token")
    if line.is_mir:
        form = MIR.get(line.first) or (PLACE if re.fullmatch(r"_[0-9]+", line.first) else "")
        why = f"begins a line that isn't written {form}, or is out of order: {MIR_ORDER}"
    else:
        form = FACTS.get(line.first, "")
        why = f"is out of order: {FACTS_ORDER}" if form and fits(line.tokens, form) else f"lines are written {form}"
    known = f"begins no line; a line begins with {', '.join(MIR if line.is_mir else FACTS)}{', or a place' if line.is_mir else ''}"
    return at(line.tokens[0], why if form else known)


def fits(tokens: Sequence[Token], form: str) -> bool:
    """Whether the tokens have the form of a line of a facts text."""
    parts = form.partition(",")[0].split()[1:]
    return len(tokens) == len(parts) + 1 and all(
        token[0].startswith("'") if part.startswith("'") else NUMBER.fullmatch(token[0])
        for part, token in zip(parts, tokens[1:]))


def unknown(line: Line) -> Optional[Culprit]:
    """The first name that nothing declares."""
    tokens, before = line.tokens, line.before
    known = {*before.names, *(own_names(tokens) if line.first == "struct" else ())}
    called = next((word.start() for call, word in zip(tokens, tokens[1:]) if call[0] == "call"), -1)
    for token in tokens[2 if line.first in ("let", "struct") else 0:]:    # a line may name what it declares
        word = token[0]
        if word.startswith("'") and word not in known:
            return at(token, "is no region that an earlier line declares")
        if line.is_mir and re.fullmatch(r"_[0-9]+", word) and int(word[1:]) >= before.counts["let"]:
            return at(token, "is no variable that a `let` line declares")
        if line.is_mir and word[0].isupper() and word not in known and token.start() != called:
            return at(token, "is no struct that an earlier line declares")
    return None


def own_names(tokens: Iterable[Token]) -> set[str]:
    """The parameters of a struct, and its own name."""
    words = [token[0] for token in tokens]
    end = words.index(">") if ">" in words else 2
    return {*words[1:end]}


def duplicate(line: Line) -> Optional[Culprit]:
    """The first name that is declared already."""
    for token in line.tokens[1:]:
        number = line.before.names.get(token[0])
        if number is not None:
            return at(token, f"is declared already{f', in line {number}' if number else ', from the start'}")
    return None


def out_of_range(line: Line) -> Optional[Culprit]:
    """The number, variable or block that isn't allowed there."""
    tokens, counts, numbers = line.tokens, line.before.counts, line.before.numbers
    begun, blocks = counts["block"], numbers.get("blocks", 0)
    if line.first in ("points", "blocks"):
        return at(tokens[1], f"is too few: at least one of the {line.first} is needed")
    if not line.is_mir:
        return first_above(tokens[1:], "", numbers["points"], "point")
    if line.first == "let":
        return at(tokens[1], f"isn't the next variable, which is _{counts['let']}")
    if line.first == "block":
        return at(tokens[1], f"isn't the next block, which is bb{begun}" if begun < blocks
                  else f"is one too many: `blocks` says {blocks}")
    if line.first == "end":
        return at(tokens[0], f"comes too early: of {blocks} blocks there are {begun}")
    return first_above(tokens, "bb", blocks, "block")


def first_above(tokens: Iterable[Token], prefix: str, count: int, noun: str) -> Optional[Culprit]:
    """The first token that is a number, or a block, and isn't below the count."""
    for token in tokens:
        number = token[0].removeprefix(prefix)
        if token[0].startswith(prefix) and NUMBER.fullmatch(number) and int(number) >= count:
            return at(token, f"is no {noun}: {noun}s are {prefix}0 to {prefix}{count - 1}")
    return None


def misfit(line: Line) -> Optional[Culprit]:
    """Where types don't fit, or one is too large."""
    sys.setrecursionlimit(max(sys.getrecursionlimit(), DEEPEST))
    try:
        Shapes([*TOKEN.finditer(typed)] for typed in line.before.typed).judge(line.tokens)
    except Misfit as found:
        return at(found.token, found.why)
    return None


def too_many(line: Line) -> Culprit:
    """What a line adds past a limit."""
    is_count = line.first in ("points", "blocks")
    if is_count or line.first in ("universal", "region", "let", "struct"):
        return at(line.tokens[1], f"is {'too' if is_count else 'one too'} many: {KINDS[line.kind]}")
    return at(line.tokens[0], f"adds one too many: {KINDS[line.kind]}")


FINDERS: dict[str, Callable[[Line], Optional[Culprit]]] = {
    **dict.fromkeys((kind for kind in KINDS if kind.startswith("limit ") and kind != "limit text"), too_many),
    "syntax": syntax, "unknown": unknown, "duplicate": duplicate, "range": out_of_range, "shape": misfit, "type size": misfit}
