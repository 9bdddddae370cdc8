"""What is told of functions as rustc's own JSON: a line for each fault, then what else rustc says.

An editor that shows what rustc says in this form shows these lines (docs/FROM-RUST.md). An error of rustc that is a
fault of `nllc`, too, has the line of the fault alone.
"""

import json
import os
import re
from functools import cache
from typing import Iterator, Optional, Sequence

from nllc_tools.base.sentences import plain, visible
from nllc_tools.judge.summary import Summary, Told, mark_of
from nllc_tools.judge.findings.finding import Finding
from nllc_tools.model.said import Place
from nllc_tools.rustc.compiler import version
from nllc_tools.rustc.errors import error_of, without_colours
from nllc_tools.rustc.functions import Checked
from nllc_tools.views.terminal import finding_lines

Said = dict[str, object]
WORD = re.compile(r"\w*")


def lines(checked: Checked, answers: list[Summary]) -> Iterator[str]:
    """The lines of a file or a project; the answers are those of its functions."""
    seen = set()
    for diagnostic in [*faults(answers), *others(checked, answers)]:
        line = json.dumps(diagnostic, ensure_ascii=False)
        if line not in seen:
            seen.add(line)
            yield line


def faults(answers: list[Summary]) -> Iterator[Said]:
    for said in answers:
        unnamed = {one.finding.place[:2] for one in said.findings if one.finding.place and not one.is_of_rustc}
        for told in said.findings:
            is_unnamed = told.finding.place and told.finding.place[:2] in unnamed
            yield of_fault(said.source, told, [f"{version()} reports no error there"] if is_unnamed else [])


def of_fault(path: str, told: Told, more: list[str]) -> Said:
    """The diagnostic of a fault: its place, and the labels of other places."""
    place, code, within = told.finding.place, told.finding.code, told.finding.within
    parts = finding_lines.parts(told.finding)
    labels = {label.place or Place(label.line, 0, label.line, 0): visible(label.words) for label in told.labels}
    own = labels.pop(place, labels.pop(Place(place.line, 0, place.line, 0), None)) if place else None
    spans = [span(path, place, own, True)] if place else []
    if within and within.place and place:
        spans = [span(within.path, within.place, own, True), span(path, place, "in this macro invocation", False)]
    spans += [span(path, other, label, False) for other, label in labels.items()]
    children = [child("note", note) for note in (*parts.notes, *more)] + [child("help", one) for one in parts.helps]
    return {"$message_type": "diagnostic", "message": parts.message,
            "code": {"code": code, "explanation": None} if code else None, "level": "error",
            "spans": spans, "children": children, "rendered": rendered(path, told.finding, parts.message, children)}


def span(path: str, place: Sequence[int], label: Optional[str], is_primary: bool) -> Said:
    """A place as rustc writes it: columns count characters from 1 on, bytes those before them in the file.

    Of a place without a column what stands in the line; of one that says its begin alone the word there.
    """
    first, column, last, end = place
    text = lines_of(path)
    if column and (first, column) == (last, end) and (word := WORD.match(line_of(text, first), column - 1)):
        end += len(word[0])
    if not column:
        line = line_of(text, first).rstrip()
        column, end = len(line) - len(line.lstrip()) + 1, len(line) + 1
    return {"file_name": path, "byte_start": byte(text, first, column), "byte_end": byte(text, last, end),
            "line_start": first, "line_end": last, "column_start": column, "column_end": end,
            "is_primary": is_primary,
            "text": [shown(line_of(text, number).rstrip("\r\n"), column if number == first else 1,
                           end if number == last else None) for number in range(first, last + 1)],
            "label": label, "suggested_replacement": None, "suggestion_applicability": None, "expansion": None}


def shown(line: str, column: int, end: Optional[int]) -> Said:
    """A line of the source, and which part of it the place has; without an end all from the column on."""
    return {"text": line, "highlight_start": column, "highlight_end": end or len(line) + 1}


@cache
def lines_of(path: str) -> list[str]:
    """The lines of a file with their ends, as they stand there; none where it can't be read."""
    try:
        with open(path, encoding="utf-8", newline="") as file:
            return file.read().splitlines(keepends=True)
    except (OSError, UnicodeDecodeError):
        return []


def line_of(text: list[str], number: int) -> str:
    return text[number - 1] if 0 < number <= len(text) else ""


def byte(text: list[str], line: int, column: int) -> int:
    before = "".join(text[:line - 1]) + line_of(text, line)[:column - 1]
    return len(before.encode())


def child(level: str, message: str) -> Said:
    return {"message": message, "code": None, "level": level, "spans": [], "children": [], "rendered": None}


def rendered(path: str, finding: Finding, message: str, children: list[Said]) -> str:
    """The same for a person, as rustc lays it out."""
    code = f"[{finding.code}]" if finding.code else ""
    where, at = finding.within or (path, finding.place)
    place = f" --> {where}:{at.line}:{at.column or 1}\n" if at else ""
    notes = "".join(f"  = {one['level']}: {one['message']}\n" for one in children)
    return f"error{code}: {message}\n{place}{notes}\n"


def others(checked: Checked, answers: list[Summary]) -> Iterator[object]:
    """What rustc says and no fault does; where `nllc` differs, with a note that says so, and why."""
    told = {said.mark_of(error) for said in answers for error in said.errors}
    differing = {said.mark_of(one.error): visible(plain(one.why)) for said in answers for one in said.differences}
    told -= {said.mark_of(error) for said in answers
             for error in (*said.refused, *(one.error for one in (*said.differences, *said.further)))}
    own = {mark_of(error) for error in (*checked.errors, *checked.unanswered)}
    for unit in checked.units:
        for diagnostic in unit.diagnostics():
            error = error_of(diagnostic, unit.root)
            mark = mark_of(error.inside if error.inside and mark_of(error.inside) in own else error)
            is_own = mark in own if checked.is_part or diagnostic["level"] == "error" else True
            if diagnostic["spans"] and is_own and mark not in told:
                notes = [child("note", f"nllc: no fault there: {differing[mark]}")] if mark in differing else []
                told_of: Said = {**diagnostic, "children": [*diagnostic["children"], *notes]}
                yield moved(told_of, unit.root)


def moved(thing: object, root: str) -> object:
    """The same with the files of rustc's folder as they are called from the current one, and without colours."""
    if isinstance(thing, list):
        return [moved(one, root) for one in thing]
    if not isinstance(thing, dict):
        return thing
    return {key: os.path.join(root, one) if key == "file_name" else
            without_colours(one) if key == "rendered" and one else moved(one, root) for key, one in thing.items()}
