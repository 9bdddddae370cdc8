"""Changes of a function that its borrow checker may refuse: each gives the edits of a random one, or none.

An edit is where it begins and ends in the file's text, and what stands there instead.
"""

import re
from random import Random
from typing import Callable, Iterator, NamedTuple, Optional

from rust_text import Block, Function

HELD = "held_here"
COPIES = ("clone", "to_owned", "to_vec", "to_string", "cloned", "copied", "into_owned")
MUTABLE = {"iter": "iter_mut", "get": "get_mut", "as_ref": "as_mut", "values": "values_mut", "last": "last_mut",
           "first": "first_mut", "chunks": "chunks_mut", "as_slice": "as_mut_slice", "as_deref": "as_deref_mut"}
LEAVING = re.compile(r"\b(let|return|break|continue|use|fn|const|static|macro_rules|yield|await)\b|\?")
# What changes name: a call of what must live forever, and a type with a destructor. They end the crate's root.
NAMED = """
#[doc(hidden)]
pub fn lives_forever_here<T: 'static>(_: T) {}
#[doc(hidden)]
pub struct DroppedHere<T>(pub T);
impl<T> Drop for DroppedHere<T> {
    fn drop(&mut self) {}
}
"""


class Edit(NamedTuple):
    begin: int
    end: int
    text: str


class Variable(NamedTuple):
    """A variable, where it has its value, and how it can be borrowed as mutable."""

    name: str
    known_from: int
    mutable: str


def edited(text: str, edits: list[Edit]) -> str:
    for edit in sorted(edits, reverse=True):
        text = text[:edit.begin] + edit.text + text[edit.end:]
    return text


def variables(function: Function, block: Block) -> list[Variable]:
    """The parameters, and what `let` gives a name in the block itself."""
    return [one for one in (*parameters(function), *locals_of(function, block)) if one.name != "_"]


def parameters(function: Function) -> Iterator[Variable]:
    """The parameters that are a name, and `self`."""
    head = [token.text for token in function.head] + [""] * 4
    for at, token in enumerate(function.head):
        if token.kind == "word" and head[at + 1] == ":" and head[at - 1] in ("(", ",", "mut"):
            is_reference = head[at + 2] == "&" and "mut" in head[at + 3:at + 5]
            mutable = mutable_of(token.text, head[at - 1] == "mut", is_reference)
            yield Variable(token.text, function.body.begin, mutable)
        elif token.text == "self" and head[at + 1] in (",", ")"):
            is_reference = head[at - 1] == "mut" and "&" in head[max(at - 3, 0):at]
            yield Variable("self", function.body.begin, mutable_of("self", False, is_reference))


def locals_of(function: Function, block: Block) -> Iterator[Variable]:
    """What `let` gives a name in the block itself."""
    for at, token in enumerate(function.tokens[:-3]):
        if token.text != "let" or token.kind != "word" or not block.begin <= token.begin < block.end:
            continue
        is_mutable = function.tokens[at + 1].text == "mut"
        name, sign = function.tokens[at + 1 + is_mutable:at + 3 + is_mutable]
        end = next((end for end in block.ends if end > token.begin), None)
        if end and name.kind == "word" and sign.text in ("=", ":") and innermost(function, token.begin) is block:
            yield Variable(name.text, end, mutable_of(name.text, is_mutable, False))


def mutable_of(name: str, is_mutable: bool, is_reference: bool) -> str:
    return f"&mut *{name}" if is_reference else f"&mut {name}" if is_mutable else ""


def borrow_of(variable: Variable, draw: Random) -> str:
    """A borrow, in two of three times as mutable where it can be."""
    return draw.choice([variable.mutable or f"&{variable.name}"] * 2 + [f"&{variable.name}"])


def innermost(function: Function, at: int) -> Block:
    return max((block for block in function.blocks if block.begin <= at < block.end), key=lambda one: one.begin)


def held(function: Function, text: str, draw: Random) -> list[Edit]:
    """A borrow is held from one statement's end to that of a later one."""
    return between(function, draw, lambda variable: (
        f" let {HELD} = {borrow_of(variable, draw)};", f" let _ = &{HELD};"))


def held_by_closure(function: Function, text: str, draw: Random) -> list[Edit]:
    """A closure that reads or writes a variable is called behind a later statement."""
    return between(function, draw, lambda variable: (
        f" let mut {HELD} = || {{ let _ = {borrow_of(variable, draw)}; }};", f" {HELD}();"))


def held_to_the_end(function: Function, text: str, draw: Random) -> list[Edit]:
    """What has a destructor holds a borrow to the end of the block."""
    return between(function, draw, lambda variable: (
        f" let {HELD} = crate::DroppedHere({borrow_of(variable, draw)});", f" let _ = &{HELD}.0;"))


def given_away(function: Function, text: str, draw: Random) -> list[Edit]:
    """A variable is moved away before its last use."""
    return between(function, draw, lambda variable: (f" drop({variable.name});", ""))


def forever(function: Function, text: str, draw: Random) -> list[Edit]:
    """A borrow, or a closure that borrows, is given to what wants it forever."""
    return between(function, draw, lambda variable: (draw.choice([
        f" crate::lives_forever_here(&{variable.name});", f" crate::lives_forever_here({variable.name});",
        f" crate::lives_forever_here(|| {{ let _ = &{variable.name}; }});",
        f" let _: &'static _ = &{variable.name};"]), ""))


def drawn_variable(function: Function, blocks: list[Block], draw: Random) -> tuple[Block, Optional[Variable]]:
    """One of the blocks, and one of its variables, or None."""
    block = draw.choice(blocks) if blocks else function.body
    found = variables(function, block) if blocks else []
    return block, draw.choice(found) if found else None


def one_of(found: list[Edit], draw: Random) -> list[Edit]:
    return [draw.choice(found)] if found else []


def between(function: Function, draw: Random, make: Callable[[Variable], tuple[str, str]]) -> list[Edit]:
    """Two insertions in one block, made of a variable: at a statement's end, and at that of a later one."""
    block, variable = drawn_variable(function, [block for block in function.blocks if len(block.ends) > 1], draw)
    if variable is None:
        return []
    ends = [end for end in [block.begin, *block.ends] if end >= variable.known_from]
    if len(ends) < 2:
        return []
    first = draw.randrange(len(ends) - 1)
    last = draw.randrange(first + 1, len(ends))
    begin, end = make(variable)
    return [Edit(ends[first], ends[first], begin), Edit(ends[last], ends[last], end)]


def out_of_block(function: Function, text: str, draw: Random) -> list[Edit]:
    """A borrow of an inner block's variable is used behind the block."""
    pairs = [(outer, inner) for outer in function.blocks for inner in function.blocks
             if outer.begin < inner.begin and inner.end < outer.end and inner.ends and outer.ends
             and outer.ends[-1] > inner.end]
    if not pairs:
        return []
    outer, inner = draw.choice(pairs)
    before = max([outer.begin, *(end for end in outer.ends if end <= inner.begin)])
    behind = min(end for end in outer.ends if end > inner.end)
    known = [one for one in variables(function, inner) if one.known_from <= inner.ends[-1]]
    if not known:
        return []
    variable = draw.choice(known)
    spots = [end for end in [inner.begin, *inner.ends] if end >= variable.known_from]
    spot = draw.choice(spots)
    return [Edit(before, before, f" let mut {HELD} = None;"),
            Edit(spot, spot, f" {HELD} = Some({borrow_of(variable, draw)});"),
            Edit(behind, behind, f" let _ = &{HELD};")]


def without_copy(function: Function, text: str, draw: Random) -> list[Edit]:
    """A `.clone()` is taken out."""
    tokens = function.tokens
    return one_of([Edit(tokens[at].begin, tokens[at + 3].end, "") for at in range(len(tokens) - 3)
                   if tokens[at].text == "." and tokens[at + 1].text in COPIES
                   and tokens[at + 2].text == "(" and tokens[at + 3].text == ")"], draw)


def moved_behind(function: Function, text: str, draw: Random) -> list[Edit]:
    """A statement is put behind the following ones."""
    blocks = [block for block in function.blocks if len(block.ends) > 1]
    if not blocks:
        return []
    block = draw.choice(blocks)
    ends = [block.begin, *block.ends]
    at = draw.randrange(len(ends) - 2)
    to = draw.randrange(at + 2, len(ends))
    return [Edit(ends[at], ends[at + 1], ""), Edit(ends[to], ends[to], text[ends[at]:ends[at + 1]])]


def other_lifetime(function: Function, text: str, draw: Random) -> list[Edit]:
    """A lifetime of the signature is dropped, or another one stands in its place."""
    head = function.head
    found = [token for token in head if token.kind == "lifetime"]
    if not found:
        return []
    token = draw.choice(found)
    names = sorted({one.text for one in found} - {token.text})
    return [Edit(token.begin, token.end, draw.choice(["'_", "'static", *names, *names]))]


def without_name(function: Function, text: str, draw: Random) -> list[Edit]:
    """`&'a` loses its name."""
    head = function.head
    return one_of([Edit(two.begin, two.end, "") for one, two in zip(head, head[1:])
                   if one.text == "&" and two.kind == "lifetime"], draw)


def without_bound(function: Function, text: str, draw: Random) -> list[Edit]:
    """A bound by a lifetime is dropped."""
    head = function.head
    return one_of([Edit(one.begin, two.end, "") for one, two in zip(head, head[1:])
                   if one.text in (":", "+") and two.kind == "lifetime"], draw)


def more_mutable(function: Function, text: str, draw: Random) -> list[Edit]:
    """A shared borrow of the body is made a mutable one."""
    inside = [(one, two) for one, two in zip(function.tokens, function.tokens[1:])
              if one.begin > function.body.begin]
    found = [Edit(one.end, one.end, "mut ") for one, two in inside
             if one.text == "&" and two.kind == "word" and two.text != "mut" and text[one.begin - 1] in " (["]
    found += [Edit(two.begin, two.end, MUTABLE[two.text]) for one, two in inside
              if one.text == "." and two.text in MUTABLE]
    return one_of(found, draw)


def less_mutable(function: Function, text: str, draw: Random) -> list[Edit]:
    """A `mut` is taken out."""
    found = [Edit(token.begin, token.end + 1, "") for token in function.tokens
             if token.text == "mut" and token.begin > function.body.begin and text[token.end].isspace()]
    return one_of(found, draw)


def other_move(function: Function, text: str, draw: Random) -> list[Edit]:
    """A closure's `move` is taken out, or a closure gets one."""
    tokens = [token for token in function.tokens if token.begin > function.body.begin]
    found = [Edit(one.begin, two.begin, "") for one, two in zip(tokens, tokens[1:]) if one.text == "move"]
    found += [Edit(two.begin, two.begin, "move ") for one, two in zip(tokens, tokens[1:])
              if two.text == "|" and two.kind == "sign" and one.text in ("(", ",", "=", "return")]
    return one_of(found, draw)


def in_a_loop(function: Function, text: str, draw: Random) -> list[Edit]:
    """A statement that declares nothing is done twice."""
    return around_a_statement(function, text, draw, " for _ in 0..2 {", " }")


def in_a_closure(function: Function, text: str, draw: Random) -> list[Edit]:
    """A closure does a statement that declares nothing, at once or later."""
    begin, end = draw.choice([(" (|| {", " })();"), (f" let mut {HELD} = || {{", f" }}; {HELD}();"),
                              (" (move || {", " })();")])
    return around_a_statement(function, text, draw, begin, end)


def around_a_statement(function: Function, text: str, draw: Random, begin: str, end: str) -> list[Edit]:
    """Puts something around a statement that declares nothing and doesn't leave the function."""
    spans = [(first, last) for block in function.blocks for first, last in zip([block.begin, *block.ends], block.ends)]
    found = [(first, last) for first, last in spans if not LEAVING.search(text[first:last])]
    if not found:
        return []
    first, last = draw.choice(found)
    return [Edit(first, first, begin), Edit(last, last, end)]


def used_again(function: Function, text: str, draw: Random) -> list[Edit]:
    """A variable is looked at once more, behind a statement that may have moved it."""
    block, variable = drawn_variable(function, [block for block in function.blocks if block.ends], draw)
    if variable is None:
        return []
    ends = [end for end in block.ends if end >= variable.known_from]
    return [Edit(ends[-1], ends[-1], f" let _ = &{variable.name};")] if ends else []


def own_result(function: Function, text: str, draw: Random) -> list[Edit]:
    """In place of a borrow of the caller's the function gives back one of its own copy."""
    head = "".join(token.text for token in function.head)
    tail = max([function.body.begin, *function.body.ends])
    value = text[tail:function.body.end].strip()
    if not re.search(r"->&", head) or not value or value.startswith(("for ", "while ", "//")):
        return []
    return [Edit(tail, function.body.end, f" let {HELD} = ({value}).to_owned(); &{HELD} ")]


CHANGES: tuple[Callable[[Function, str, Random], list[Edit]], ...] = (
    *[held] * 4, *[held_by_closure] * 3, held_to_the_end, given_away, forever, *[out_of_block] * 3, *[without_copy] * 2,
    *[moved_behind] * 2, other_move, *[in_a_loop] * 2, *[in_a_closure] * 2, used_again, *[other_lifetime] * 2, *[without_name] * 2, without_bound, more_mutable, less_mutable,
    *[own_result] * 2)


def changed(function: Function, text: str, draw: Random) -> tuple[str, list[Edit]]:
    """The edits of a random change that fits the function, with its name; none where none was found."""
    for change in draw.sample(CHANGES, len(CHANGES)):
        edits = change(function, text, draw)
        if edits:
            return change.__name__, edits
    return "", []
