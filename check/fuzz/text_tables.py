"""Reads tables of texts: worked ones, those at the limits, and costly ones, which stand in tables/ next to this file.

    = NAME: ANSWER       a text and what is said of it, `ok` or its refusal; or a command, whose lines begin with `> `
    of NAME              it begins as another text does, of this table or TABLE/NAME, or as a file of examples/ without its remarks
    | TEXT               a line; `. TEXT` has no line feed
    12 i| TEXT           a line twelve times; `$i` is which time it is, from 0 on, `$[i + 1]` what is computed of it
    3: | TEXT            stands in the place of line 3 of the other text, `3+ | TEXT` behind it; what follows comes behind that

In a text `{12 i*TEXT}` stands for it twelve times, and `\\n` or `\\xff` for a byte. A line `# ..` is a remark.
"""

import functools
import pathlib
import re
from typing import NamedTuple

TABLES = pathlib.Path(__file__).resolve().parent / "tables"
EXAMPLES = pathlib.Path(__file__).resolve().parents[2] / "examples"
LINE = re.compile(rb"(?:(\d+)([+:]) )?(?:(\d+) ?(\w?))?([|.])(?: (.*))?")
REPEATED = re.compile(rb"\{(\d+) ?(\w?)\*([^{}]*)\}")


class Case(NamedTuple):
    """A text of a table: its name, the answer, the text, and the lines that are wanted on standard output."""

    name: str
    answer: str
    text: bytes
    lines: list


def repeated(count, counter, form):
    """A form so many times, with what it says of the counter computed each time."""
    if not counter:
        return form * count
    fixed, *rest = re.split(rb"\$(?:\[([^]]*\b%b\b[^]]*)\]|%b\b)" % (counter, counter), form)
    said = [compile((one or counter).decode(), "table", "eval") for one in rest[::2]]
    form, name = b"%d".join([fixed, *rest[1::2]]), counter.decode()
    return b"".join([form % tuple([eval(one, {name: at}) for one in said]) for at in range(count)])


def filled(form):
    """A form with its bytes, and with what it repeats; the innermost first."""
    form = form.decode("unicode_escape").encode("latin-1") if b"\\" in form else form
    while found := REPEATED.search(form):
        form = form[:found.start()] + repeated(int(found[1]), found[2], found[3]) + form[found.end():]
    return form


def made(table, lines):
    """The text of these lines of a table."""
    pieces, at = [b""], 0
    for line in lines:
        if line.startswith(b"of "):
            pieces += re.findall(rb"[^\n]*\n|[^\n]+", text_of(table, line[3:].decode()))
            at = len(pieces) - 1
            continue
        place, change, count, counter, end, form = LINE.fullmatch(line).groups()
        at = int(place) if place else at
        form = filled((form or b"") + b"\n" * (end == b"|"))
        pieces[at] = (b"" if change == b":" else pieces[at]) + repeated(int(count or 1), counter, form)
    return b"".join(pieces)


@functools.lru_cache
def blocks(table):
    """The name, the answer and the lines of each text of a table, in its order."""
    found = []
    for block in re.split(rb"^= ", (TABLES / f"{table}.table").read_bytes(), flags=re.M)[1:]:
        head, *lines = [line for line in block.split(b"\n") if line and not line.startswith(b"#")]
        name, _, answer = head.decode().partition(": ")
        found.append((name, answer, lines))
    return found


@functools.lru_cache(maxsize=2)
def text_of(table, name):
    """The first text of this name in a table, or that of a file of examples/ without its remarks."""
    table, name = name.split("/") if "/" in name else (table, name)
    found = [lines for called, _, lines in blocks(table) if called == name]
    if not found:
        return re.sub(rb"^#.*\n", b"", (EXAMPLES / name).read_bytes(), flags=re.M)
    return made(table, [line for line in found[0] if not line.startswith(b">")])


def lines_of(table, name):
    """The lines of one text of a table."""
    return text_of(table, name).split(b"\n")[:-1]


def cases(table):
    """The texts of a table."""
    for name, answer, lines in blocks(table):
        text = made(table, [line for line in lines if not line.startswith(b">")])
        yield Case(name, answer, text, [line[2:].decode() for line in lines if line.startswith(b">")])


def answered(table):
    """The name, the text and the answer of each text of a table that has one."""
    return ((one.name, one.text, one.answer) for one in cases(table) if one.answer)
