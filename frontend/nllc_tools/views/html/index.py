"""The index of a folder of pages: a row for each, with both verdicts and what is said in words."""

import os
import re
from typing import Container, Optional, Sequence

from nllc_tools.base.files import write
from nllc_tools.base.grouping import grouped
from nllc_tools.base.sentences import plural, ticked
from nllc_tools.judge.verdicts import counted
from nllc_tools.views.html.index_rows import NAME, Entry, Row, Told, rows_in
from nllc_tools.views.html.writing import badge, compact, fill, icon, items, sentence, text


def write_index(folder: str, names: Optional[Container[str]] = None, with_older: bool = False) -> str:
    """Writes the index of a folder's pages, or of those that are named; its path.

    If it is asked for, the pages that aren't named stand below those that are.
    """
    path = os.path.join(folder, NAME)
    found = rows_in(folder)
    rows = [one for one in found if names is None or one.file in names]
    older = [one for one in found if names is not None and one.file not in names]
    write(path, fill("index.html", index_parts(rows, older if with_older else [])))
    return path


def index_parts(rows: Sequence[Entry], older: Sequence[Entry] = ()) -> dict[str, str]:
    """The parts of an index; older pages come last, under a head of their own."""
    shown = [row for _, row in [*rows, *older]]
    lacks = [f"no-{name}" for name, has in (("line", any(row.line is not None for row in shown)),
                                            ("rustc", any(row.rustc is not None for row in shown)),
                                            ("said", any(row.told for row in shown))) if not has]
    sources = grouped((one[1].source, one) for one in rows)
    groups = "".join(group(*one) for one in sources.items()) if 1 < len(sources) < len(rows) else group("", rows)
    noun = noun_of([row for _, row in rows])
    return {"title": text(title_of([*sources])), "css": compact("look.css", "index.css"), "verdict": whole_verdict(rows),
            "about": text(plural(len(rows), noun)), "noun": noun.capitalize(), "icon": icon(whole_kind(rows)),
            "lacks": " ".join(lacks), "rows": groups + (group("Made before", older) if older else "")}


def title_of(sources: Sequence[str]) -> str:
    """The one source, or the folder of all of them."""
    try:
        return sources[0] if len(sources) == 1 else os.path.commonpath(sources) or "Pages"
    except ValueError:
        return "Pages"


def noun_of(rows: Sequence[Row]) -> str:
    """What the rows are of: functions, texts, or some of each."""
    kinds = {row.is_function for row in rows}
    return "page" if len(kinds) != 1 else "function" if kinds == {True} else "text"


def whole_kind(rows: Sequence[Entry]) -> str:
    """The gravest kind of verdict among the rows."""
    kinds = {row.kind for _, row in rows}
    return next((kind for kind in ("faulty", "differs") if kind in kinds), "fine")


def whole_verdict(rows: Sequence[Entry]) -> str:
    """The badge of all rows."""
    noun = noun_of([row for _, row in rows])
    faults, loans = sum(row.faults for _, row in rows), sum(row.loans or 0 for _, row in rows)
    differing = sum(row.kind == "differs" for _, row in rows)
    others = sum(row.kind == "faulty" and not row.faults + (row.loans or 0) for _, row in rows)
    said = [counted(faults, loans)] if faults + loans else []
    said += [f"{plural(others, noun)} with errors of moves"] if others else []
    badges = badge("faulty", ", ".join(said)) if said else ""
    badges += badge("differs", f"{plural(differing, noun)} that rustc refuses and nllc doesn’t") if differing else ""
    return badges or badge("fine", "no fault")


def group(head: str, rows: Sequence[Entry]) -> str:
    """The rows of a source, under its name where that tells them apart; of equal names each has its file's, too."""
    names = [row.name for _, row in rows]
    first = f'<tr class="source"><th colspan="6" scope="rowgroup">{text(head)}</th></tr>' if head else ""
    return f'<tbody>{first}{"".join(row_part(file, row, names.count(row.name) > 1) for file, row in rows)}</tbody>'


def row_part(file: str, row: Row, is_twin: bool = False) -> str:
    address = text(href(file))
    own = f' <span class="file">{text(file.removesuffix(".html"))}</span>' if is_twin else ""
    rustc = "–" if row.rustc is None else text(row.rustc)
    line = "" if row.line is None else f'<span class="label">line </span>{row.line}'
    told = items(told_part(address, one) for one in row.told) if row.told else ""
    return (f'<tr><th scope="row"><a href="{address}">{text(row.name)}</a>{own}</th><td class="number line">{line}</td>'
            f'<td class="answer">{badge(row.kind, row.said)}</td>'
            f'<td class="rustc"><span class="label">rustc: </span>{rustc}</td><td class="said">{told}</td>'
            f'<td class="number size">{plural(row.points, "point")}, {plural(row.regions, "region")}</td></tr>')


def told_part(address: str, told: Told) -> str:
    """A line of the source as a link, and what is said of it."""
    link = "" if told.line is None else f'<a href="{address}#line={told.line}">line {told.line}</a>: '
    return link + sentence(ticked(told.words))


def href(name: str) -> str:
    """The name of a file of the same folder as an address."""
    quoted = "".join(letter if re.fullmatch(r"[\w.-]", letter, re.ASCII) else
                     "".join(f"%{byte:02X}" for byte in letter.encode("utf-8", "surrogateescape")) for letter in name)
    return "./" + quoted
