"""What a page calls a function and its lifetimes: the source's words in place of rustc's names."""

import os
import re

from nllc_tools.base.sentences import Code, Sentence
from nllc_tools.judge.content import Content
from nllc_tools.model.facts import Facts
from nllc_tools.model.region_names import tick

CLOSURE = r"\{closure#(\d+)\}$"
BODY = r"\{(async|gen|async gen) (fn body|block|closure body)\b"
AROUND = r"'(\w+) of the function around this closure"
NUMBERED = r"_*r\d+_*|_*\d+|_+"
# What a region is that no variable of the source has.
INNER = r"(?:region \d+ of \d+ in )?the type of the temporary|in the statement|the borrow "
OF_VARIABLE = r"(?:region \d+ of \d+ in )?the type of (the result|\w+)(?: \(_\d+\))?(?::|;|$)"
ASYNC = r"\s*(?:pub(?:\([^)]*\))?\s+)?async\s+(?:unsafe\s+)?fn\b"
MOST_HEAD = 20      # lines, among which a function's head is looked for


def function_words(facts: Facts, is_async: bool = False) -> str:
    """The function's name; of a closure or the body of an async function, whose it is.

    That the function around a closure is async its source says, where it is at hand.
    """
    *around, last = split_path(facts.remarks.function)
    found = re.match(CLOSURE, last)
    if not found:
        return facts.remarks.function
    body = body_kind(facts) or ("async body" if is_async and found[1] == "0" else "")
    if body and not (around and re.search(CLOSURE, around[-1])):
        return f"{body} of {'::'.join(around)}"
    words = [f"closure {int(found[1]) + 1}"]
    while around and (found := re.match(CLOSURE, around[-1])):
        words.append(f"closure {int(found[1]) + 1}")
        around.pop()
    return " in ".join(words) + (f" of {'::'.join(around)}" if around else "")


def split_path(name: str) -> list[str]:
    """The parts of a path, with types in angle brackets whole."""
    parts, depth, begin = [], 0, 0
    for at, letter in enumerate(name):
        depth += (letter in "<{(") - (letter in ")}>" and name[at - 1:at + 1] != "->")
        if depth == 0 and name.startswith("::", at):
            parts.append(name[begin:at])
            begin = at + 2
    return [*parts, name[begin:]]


def body_kind(facts: Facts) -> str:
    """`async body` and the like, where the type of a variable says that this is one; else nothing."""
    for remark in facts.remarks.regions.values():
        if found := re.search(BODY, remark.text):
            return f"{found[1]} {'block' if found[2] == 'block' else 'body'}"
    return ""


def region_text(facts: Facts, text: str) -> str:
    """What a remark says of a region, with the outer function's name for the function around a closure."""
    outer = "::".join(part for part in split_path(facts.remarks.function) if not re.match(CLOSURE, part))
    whose = f"of {outer}" if outer else "of the function around this closure"
    return re.sub(AROUND, lambda found: f"an unnamed lifetime {whose}" if re.fullmatch(NUMBERED, found[1])
                  else f"'{found[1]} {whose}", text)


def is_inner(facts: Facts, region: int) -> bool:
    """Whether it is the region of a borrow, a statement or a temporary, to which the source gives no name."""
    name = facts.names[region]
    return bool(re.fullmatch(NUMBERED, name) and re.match(INNER, facts.remarks.region(name).text))


def lifetime_words(facts: Facts, region: int) -> Sentence:
    """A region by its name; one that rustc numbers by the variable in whose type it is, or by its borrow."""
    name, own = facts.names[region], tick(facts, region)
    said = facts.remarks.region(name).text
    if facts.is_universal(region) or not re.fullmatch(NUMBERED, name):
        return [own]
    found = re.match(OF_VARIABLE, said)
    if not found:
        return ["the borrow ", own] if said.startswith("the borrow ") else [own]
    return ["the lifetime in ", "the result" if found[1] == "the result" else Code(found[1])]


def name_of(content: Content) -> str:
    lines = content.source.lines if content.source else ()
    named = function_words(content.facts, any(re.match(ASYNC, line) for line in lines[:MOST_HEAD]))
    return named or os.path.basename(content.facts_path).removesuffix(".facts")
