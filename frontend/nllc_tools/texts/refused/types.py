"""Types of MIR texts as their lines write them, without regions: what is left of a type is its shape."""

from __future__ import annotations

import re
from typing import Callable, Mapping, NamedTuple, Optional, Sequence, TypeVar

MOST_NODES = 4096
MOST_LETTERS = 60
OPENING, CLOSING = ("(", "<"), (")", ">")

Token = re.Match[str]
Thing = TypeVar("Thing")


class Type(NamedTuple):
    """`int`, `&`, `&mut`, `()` or `fn`, or the name of a struct or a type parameter; a function's result comes last."""

    kind: str
    parts: tuple[Type, ...] = ()


INT = Type("int")


class Named(NamedTuple):
    """A name in a type, and its arguments, each of which is a region or not."""

    token: Token
    are_regions: list[bool]


class Range(NamedTuple):
    """Tokens of a line: the first, and the one behind the last."""

    first: int
    end: int


class Reader:
    """Reads the tokens of a line that has its form, one after the other."""

    def __init__(self, tokens: Sequence[Token], at: int = 0):
        self.tokens, self.at = tokens, at
        self.named: list[Named] = []    # the names in the types that were read

    def here(self) -> Token:
        return self.tokens[self.at]

    def take(self) -> Token:
        self.at += 1
        return self.tokens[self.at - 1]

    def accept(self, word: str) -> bool:
        is_there = self.at < len(self.tokens) and self.here()[0] == word
        self.at += is_there
        return is_there

    def several(self, end: str, read: Callable[[], Thing]) -> list[Thing]:
        """What stands between commas up to a sign, which is read, too."""
        found = []
        while not self.accept(end):
            found.append(read())
            self.accept(",")
        return found

    def type(self) -> Type:
        token = self.take()
        if token[0] == "int":
            return INT
        if token[0] == "&":
            self.take()
            return Type("&mut" if self.accept("mut") else "&", (self.type(),))
        if token[0] == "(":
            return Type("()", tuple(self.several(")", self.type)))
        if token[0] == "fn":
            self.take()
            arguments = self.several(")", self.type)
            self.take()
            return Type("fn", (*arguments, self.type()))
        given = self.several(">", self.argument) if self.accept("<") else []
        self.named.append(Named(token, [one is None for one in given]))
        return Type(token[0], tuple(one for one in given if one))

    def argument(self) -> Optional[Type]:
        """A type; nothing for a region."""
        if not self.here()[0].startswith("'"):
            return self.type()
        self.take()
        return None

    def parameters(self) -> list[str]:
        """The names of a struct's parameters, in their order."""
        words = self.several(">", lambda: self.take()[0]) if self.accept("<") else []
        return [word for word in words if word[0] == "'" or word[0].isalpha()]


def nodes_in(words: Sequence[str]) -> int:
    """How many nodes the type has that these tokens write, however large it is."""
    return sum(word in ("&", "(") or word[0].isalpha() and word not in ("mut", "fn") for word in words)


def types_of(words: Sequence[str]) -> list[Range]:
    """Where each type stands that a line of such tokens writes."""
    if words[0] == "struct":
        return between(words, words.index("(", words.index(">") if words[2] == "<" else 0))
    if words[0] == "let":
        return [Range(3, len(words))]
    begin = words.index("=") + 1 if "=" in words else 0
    if words[begin] == "make":
        return [Range(begin + 1, opening_of(words, len(words) - 1))]
    if words[begin] != "call":
        return []
    operands = between(words, begin + 2)
    own = [Range(words.index(":", first) + 1, end) for first, end in operands]
    result = (own[-1].end if own else begin + 3) + 2
    exits = len(words) - 1 - words[::-1].index("->")
    return [*own, Range(result, words.index("where", result) if "where" in words[result:] else exits)]


def between(words: Sequence[str], begin: int) -> list[Range]:
    """What stands between commas behind an opening bracket."""
    signs, depth, at = [begin], 0, begin + 1
    while depth or words[at] != ")":
        depth += (words[at] in OPENING) - (words[at] in CLOSING)
        if words[at] == "," and depth == 0:
            signs.append(at)
        at += 1
    return [Range(first + 1, end) for first, end in zip(signs, [*signs[1:], at])] if at > begin + 1 else []


def opening_of(words: Sequence[str], at: int) -> int:
    """Where the bracket opens that closes there."""
    depth = 1
    while depth:
        at -= 1
        depth += (words[at] in CLOSING) - (words[at] in OPENING)
    return at


def with_arguments(kind: Type, arguments: Mapping[str, Type]) -> Type:
    """A field's type with these types in place of the parameters."""
    if not kind.parts:
        return arguments.get(kind.kind, kind)
    return Type(kind.kind, tuple(with_arguments(part, arguments) for part in kind.parts))


def nodes(kind: Type, arguments: Mapping[str, int]) -> int:
    """How many nodes that has; `arguments` says how many each of them has."""
    return arguments.get(kind.kind, 1) if not kind.parts else 1 + sum(nodes(part, arguments) for part in kind.parts)


def shown(kind: Type) -> str:
    """A shape as a text writes it, shortened."""
    text = written(kind)
    return text if len(text) <= MOST_LETTERS else text[:MOST_LETTERS - 2] + ".."


def written(kind: Type) -> str:
    parts = [written(part) for part in kind.parts]
    if kind.kind in ("&", "&mut"):
        return f"{kind.kind.replace('mut', 'mut ')}{parts[0]}"
    if kind.kind == "()":
        return f"({', '.join(parts)})"
    if kind.kind == "fn":
        return f"fn({', '.join(parts[:-1])}) -> {parts[-1]}"
    return f"{kind.kind}<{', '.join(parts)}>" if parts else kind.kind
