"""Reads rustc's MIR dump of one function (`-Zdump-mir=nll`), and the names of its regions."""

import re
from collections import deque
from functools import lru_cache
from typing import NamedTuple, Optional

from nllc_tools.base.refusal import Refusal
from nllc_tools.rustc.mir.body import Body, Local, Reason, Statement
from nllc_tools.rustc.mir.scanner import closing_of
from nllc_tools.rustc.mir.spans import Span, span_of
from nllc_tools.rustc.mir.statement_reader import read_place
from nllc_tools.rustc.tables import Location
from nllc_tools.rustc.unsaid import NOT_READ, NotSaid

TITLE = re.compile(r"// MIR for `(.*)` 0 nll")
DECLARED = re.compile(r" +(\S.*?)\s+// (?:\S+ )*?in scope \d+ at (.*)")
DONE = re.compile(r" {8}(\S.*);\s+// (?:(bb\S+): )?scope \d+ at (.*)")
# Of the same lines without the code, where what is declared or done stands; names of variables stand elsewhere, too.
SPOT = re.compile(r"^(?!        +debug |    debug \S+ => [^_]).*;\s+// (?:[^/]* )?scope \d+ at (.*)")
RESULT = re.compile(r" +let (?:mut )?_0: .*;\s+// (?:\S+ )*?in scope \d+ at (.*)")
LET = re.compile(r"let (mut )?_(\d+): (.*?)(?: as UserTypeProjection .*)?;")
DEBUG = re.compile(r"debug (\S+) => _(\d+);")
CAPTURED = re.compile(r"debug (\S+) => (\(.*\));")
BLOCK = re.compile(r"    bb(\d+)(?: \(cleanup\))?: \{")
STATEMENT = re.compile(r" {8}[^\s/]")
REMARK = " " * 41 + "// "
ASKED = "| Inference Constraints"
PARAMETER = re.compile(r"(?:^|, )_(\d+): ")
REASON = re.compile(r"\| '\?(\d+): '\?(\d+) due to (\w+)(.*) at "
                    r"(?:All\(.*\)|Single\(bb(\d+)\[(\d+)\]\)) \((.*) \(#(\d+)\)")
LIVE = re.compile(r"\| '\?(\d+) live at \{(.*)\}")
NEED = re.compile(r"\| where '\?(\d+): '\?(\d+)$")
EXTERNAL = re.compile(r"\| '\?(\d+) \| External \|")
EDGE = re.compile(r"    r(\d+) -> r(\d+)\[")
NAME = re.compile(r"    r(\d+)\[label=\"\\'\?\d+ \(\\'([A-Za-z0-9_]+)\)\"\]")


class Outline(NamedTuple):
    """What is known of a function before its body is read: its path, whether it is one, the places that it names in its file."""

    path: str
    is_function: bool
    places: list[Span]


def read_outline(mir_path: str) -> Outline:
    """The outline of a `.mir` file, which takes a tenth of the time of `read_body`."""
    lines = read_lines(mir_path)
    path, begin = path_of(mir_path, lines), begin_of(mir_path, lines)
    end = lines.index("}", begin) if "}" in lines else len(lines)
    written = [found[1] for found in map(SPOT.search, lines[begin:end]) if found]
    result = next((span_of(found[1]) for found in map(RESULT.match, lines[begin:end]) if found), None)
    places = [span for span in map(span_of, dict.fromkeys(written)) if span and result and span.file == result.file]
    return Outline(path, is_function(lines[begin]), places)


@lru_cache(128)  # a function's is asked for its problem, and by closures around it
def read_body(mir_path: str) -> Body:
    """The body of a `.mir` file; names and the order of constraints come from the graph of regions beside it."""
    lines = read_lines(mir_path)
    body = Body(path=path_of(mir_path, lines))
    begin = begin_of(mir_path, lines)
    read_regions(body, lines[:begin])
    read_header(body, lines[begin])
    read_code(body, lines[begin + 1:])
    graph = read_lines(mir_path.removesuffix(".mir") + ".regioncx.all.dot")
    body.names = {int(found[1]): found[2] for found in map(NAME.match, graph) if found}
    body.reasons = in_order(body.reasons, [(int(found[1]), int(found[2]))
                                           for found in map(EDGE.match, graph) if found])
    return body


def path_of(mir_path: str, lines: list[str]) -> str:
    """The path of the function, which the first line has."""
    title = TITLE.fullmatch(lines[0]) if lines else None
    if not title:
        raise unknown(mir_path)
    return title[1]


def begin_of(mir_path: str, lines: list[str]) -> int:
    """The line with which the function begins, below what is said of its regions."""
    begin = next((i for i, line in enumerate(lines[1:], 1) if line and line[0] not in "/|"), None)
    if begin is None:
        raise unknown(mir_path)
    return begin


def unknown(mir_path: str) -> Refusal:
    return Refusal(f"{mir_path} is no MIR dump that is known here; rustc 1.95 is known to work")


def read_regions(body: Body, lines: list[str]) -> None:
    """Takes what stands above the function; of where regions are live no more than the text."""
    asked = lines[lines.index(ASKED) + 1:] if ASKED in lines else []
    reasons = (line for line in lines if " due to " in line)
    lines = [line for line in lines if " due to " not in line]
    body.external = {int(found[1]) for found in map(EXTERNAL.match, lines) if found}
    body.reasons = list(filter(None, map(reason_of, reasons)))
    body.live = {int(found[1]): found[2] for found in map(LIVE.fullmatch, lines) if found}
    body.needs = [(int(found[1]), int(found[2])) for found in map(NEED.match, lines) if found]
    if "|" not in asked or asked.index("|") != len(body.reasons) + len(body.live):
        body.unread.append(NotSaid(NOT_READ, "rustc's constraints"))


def in_order(reasons: list[Reason], edges: list[tuple[int, int]]) -> list[Reason]:
    """The constraints in the order in which rustc made them, which the graph has; the dump has them by regions."""
    by_pair: dict[tuple[int, int], deque[Reason]] = {}
    for reason in reasons:
        by_pair.setdefault((reason.sup, reason.sub), deque()).append(reason)
    found = [by_pair[pair].popleft() for pair in edges if by_pair.get(pair)]
    return [*found, *(reason for left in by_pair.values() for reason in left)]


def reason_of(line: str) -> Optional[Reason]:
    found = REASON.match(line)
    if not found:
        return None
    location = Location(int(found[5]), int(found[6])) if found[5] else None
    return Reason(int(found[1]), int(found[2]), found[3], found[4], location, span_of(found[7]),
                  found[8] != "0")


def read_lines(path: str) -> list[str]:
    try:
        with open(path, encoding="utf-8") as file:
            return file.read().split("\n")
    except (OSError, UnicodeDecodeError) as error:
        what = "there" if isinstance(error, OSError) else "UTF-8"
        raise Refusal(f"{path} isn't {what}: this rustc's MIR dumps have another form; 1.95 is known to work") from None


def read_header(body: Body, line: str) -> None:
    """Takes the parameters of `fn NAME(_1: T, ..) -> T {`; a constant has none."""
    begin = line.find("(_1: ")
    body.is_function = is_function(line)
    if begin < 0 or not body.is_function:
        return
    inside = line[begin + 1:closing_of(line, begin)]
    found = list(PARAMETER.finditer(inside))
    for this, following in zip(found, [*found[1:], None]):
        end = following.start() if following else len(inside)
        body.locals[int(this[1])] = Local(inside[this.end():end])


def is_function(line: str) -> bool:
    """Whether the line with which a body begins is a function's, not a constant's."""
    return line.startswith(("fn ", "unsafe fn ", "const fn "))


def read_code(body: Body, lines: list[str]) -> None:
    """Takes declarations, then blocks, up to the brace that closes the function.

    A statement whose text has a line feed, in `asm!`, goes on up to where it stands in the source.
    """
    at = Location(-1, 0)
    begun, remarks = "", [""]
    for line in lines:
        if line == "}":
            break
        if found := BLOCK.fullmatch(line):
            at = Location(int(found[1]), 0)
        elif at.block < 0 and (found := DECLARED.fullmatch(line)):
            read_declaration(body, found[1], span_of(found[2]))
        elif line.startswith(REMARK):
            remarks.append(line.removeprefix(REMARK))
        elif begun or STATEMENT.match(line) and (at.block >= 0 or DONE.fullmatch(line)):
            begun = f"{begun} {line.strip()}" if begun else line
            if found := DONE.fullmatch(begun):
                begun, remarks = "", []
                body.statements[at] = Statement(found[1], span_of(found[3]), remarks)
                if found[2] not in (None, str(at)):
                    body.unread.append(NotSaid(NOT_READ, "rustc's locations of statements"))
                at = Location(at.block, at.index + 1)
    else:
        body.unread.insert(0, NotSaid("a dump that isn't whole"))


def read_declaration(body: Body, code: str, span: Optional[Span]) -> None:
    """Takes `let mut _3: T;` and `debug x => _3;`, whose span is where a parameter is declared.

    That of `mut x` is longer than the name; that of `&mut self` is, too.
    """
    if found := LET.fullmatch(code):
        known = body.locals.get(int(found[2]))
        name = known.name if known else None
        body.locals[int(found[2])] = Local(found[3], name, span, found[1] is not None)
    elif found := DEBUG.fullmatch(code):
        local = body.locals.setdefault(int(found[2]), Local(""))
        local.name = local.name or found[1]
        local.span = local.span or span
        length = span.end - span.column if span else 0
        local.is_mutable |= length == len("mut self") if found[1] == "self" else length > len(found[1])
    elif found := CAPTURED.fullmatch(code):
        if place := read_place(found[2]):
            body.captured.setdefault(place.words, found[1].replace("__", "."))
