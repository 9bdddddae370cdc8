"""Where functions, blocks and the ends of statements stand in a Rust file, by its tokens alone."""

import re
from dataclasses import dataclass, field

TOKEN = re.compile(r"""
    (?P<blank>\s+|//[^\n]*|/\*.*?\*/)
  | (?P<text>b?r(?P<hashes>\#*)".*?"(?P=hashes)|b?"(?:\\.|[^"\\])*"|b?'(?:\\(?:x..|u\{[^}]*\}|.)|[^'\\])')
  | (?P<lifetime>'\w+)
  | (?P<word>(?:r\#)?\w+)
  | (?P<sign>->|=>|::|.)
""", re.VERBOSE | re.DOTALL)
CLOSING = {"(": ")", "[": "]", "{": "}"}


@dataclass(frozen=True)
class Token:
    """A word, a sign or a text, and where it begins and ends."""

    kind: str
    text: str
    begin: int
    end: int


@dataclass
class Block:
    """A block of a function: where it begins and ends, and the ends of its statements."""

    begin: int
    end: int = 0
    depth: int = 0
    ends: list[int] = field(default_factory=list)


@dataclass
class Function:
    """A function with a body: `begin` is that of its `fn`, its first block is the body."""

    name: str
    begin: int
    blocks: list[Block]
    tokens: list[Token]

    @property
    def body(self) -> Block:
        return self.blocks[0]

    @property
    def head(self) -> list[Token]:
        """The tokens of the signature."""
        return [token for token in self.tokens if token.begin < self.body.begin]


def tokens_of(text: str) -> list[Token]:
    """All tokens but blanks and comments."""
    return [Token(found.lastgroup if found.lastgroup != "hashes" else "text", found[0], found.start(), found.end())
            for found in TOKEN.finditer(text) if found["blank"] is None]


def functions_of(text: str) -> list[Function]:
    """The functions that stand in no other one and in no definition of a macro."""
    tokens, found, at = tokens_of(text), [], 0
    while at < len(tokens):
        if tokens[at].text == "macro_rules" and tokens[at].kind == "word":
            at = past_braces(tokens, at)
        elif tokens[at].text == "fn" and at + 1 < len(tokens) and tokens[at + 1].kind == "word":
            end = past_braces(tokens, at)
            if tokens[end - 1].text == "}":
                found.append(function_of(tokens[at:end]))
            at = end
        else:
            at += 1
    return found


def past_braces(tokens: list[Token], at: int) -> int:
    """The token behind the first `{ .. }` from here on, or behind the `;` that comes before it."""
    open_signs: list[str] = []
    for here in range(at, len(tokens)):
        sign = tokens[here].text
        if tokens[here].kind != "sign":
            continue
        if sign in CLOSING:
            open_signs.append(sign)
        elif sign in CLOSING.values() and open_signs:
            if open_signs.pop() == "{" and not open_signs:
                return here + 1
        elif sign == ";" and not open_signs:
            return here + 1
    return len(tokens)


def function_of(tokens: list[Token]) -> Function:
    """The function whose tokens these are, from its `fn` to the end of its body."""
    blocks: list[Block] = []
    around: list[object] = []
    for token in tokens:
        if token.kind != "sign":
            continue
        if token.text in CLOSING:
            block = Block(token.end, depth=len(around)) if token.text == "{" else None
            around.append(block)
            blocks += [block] if block else []
        elif token.text in CLOSING.values() and around:
            if isinstance(closed := around.pop(), Block):
                closed.end = token.begin
        elif token.text == ";" and around and isinstance(around[-1], Block):
            around[-1].ends.append(token.end)
    return Function(tokens[1].text, tokens[0].begin, blocks, tokens)
