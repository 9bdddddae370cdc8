"""The errors of rustc, as it writes them in JSON."""

from __future__ import annotations

import json
import os
import re
from dataclasses import dataclass, field
from typing import TYPE_CHECKING, Callable, NamedTuple, Optional

from nllc_tools.base.grouping import grouped
from nllc_tools.rustc.mir.spans import Span

if TYPE_CHECKING:
    from nllc_tools.rustc.diagnostics import Child, Diagnostic, DiagnosticSpan

COLOUR = re.compile(r"\x1b\[[0-9;]*m")
VARIANCE = re.compile(r"requirement occurs because of|invariant over")
SEE = re.compile(r"see <")
ARROW = re.compile(r"--> (.*):(\d+):(\d+)")
INVOCATION = "in this macro invocation"


class Label(NamedTuple):
    """A place that an error names, and what it says of it."""

    span: Span
    text: str


@dataclass(frozen=True)
class Error:
    """An error of rustc: as it would print it, and the files and lines that it is about.

    rustc names its files relatively to the folder in which it ran, which is `root`. What a macro of another file makes
    is about the macro's use, and `within` is the place in the macro, which rustc names; `inside` is the same error there,
    for a function that the macro makes.
    """

    rendered: str
    places: list[tuple[str, int]]
    column: int = 0
    code: str = ""
    message: str = ""
    labels: list[Label] = field(default_factory=list)
    notes: list[str] = field(default_factory=list)
    helps: list[str] = field(default_factory=list)
    root: str = ""
    within: Optional[Span] = None
    inside: Optional[Error] = None

    @property
    def path(self) -> str:
        return os.path.join(self.root, self.places[0][0]) if self.places else ""

    @property
    def line(self) -> int:
        return self.places[0][1] if self.places else 0

    @property
    def used(self) -> tuple[str, int, int]:
        """Where the function has it: the error's place, or where a macro of the same file is used in whose lines that is."""
        used = next((label.span for label in self.labels if label.text == INVOCATION), None)
        return (used.file, *used.begin) if used else (*self.places[0], self.column)

    def is_of_lint(self) -> bool:
        """Whether it is no error but for a lint that the source, or rustc, denies."""
        return bool(self.code) and not self.code.startswith("E0")

    def words(self) -> str:
        return f"{self.code}: {self.message}" if self.code else self.message

    def where(self) -> str:
        """The place that rustc names."""
        if self.within:
            return f"{os.path.join(self.root, self.within.file)}:{self.within.first}:{self.within.column}"
        return f"{self.path}:{self.line}:{self.column}"


def errors_in(stderr: bytes, root: str = "") -> list[Error]:
    """The errors of a run of rustc in the folder that is the root."""
    return [error for line in stderr.decode(errors="replace").splitlines()
            for error in read_error(line, root)]


def read_error(line: str, root: str = "") -> list[Error]:
    """The error that a line of rustc's JSON tells; what isn't JSON it tells before it has begun."""
    try:
        said: Diagnostic = json.loads(line)
    except ValueError:
        return [Error(line + "\n", [])]
    if said.get("level") != "error" or not said.get("rendered"):
        return []
    return [error_of(said, root)]


def without_colours(text: str) -> str:
    return COLOUR.sub("", text)


def error_of(said: Diagnostic, root: str, home: Optional[Callable[[DiagnosticSpan, str], DiagnosticSpan]] = None) -> Error:
    """The error of a diagnostic, of whichever level that is, with each place at home, which is in the user's own files."""
    home = home or at_home
    primary = [span for span in said.get("spans", ()) if span.get("is_primary")]
    spans = [home(span, root) for span in primary]
    places = [(span["file_name"], span["line_start"]) for span in spans]
    column = spans[0]["column_start"] if spans else 0
    code = own["code"] if (own := said.get("code")) else ""
    labels = [Label(place_of(home(span, root)), span.get("label") or "") for span in said.get("spans", ())]
    labels += used_macro(home(primary[0], root)) if primary else []
    below = said.get("children", ())
    notes = [child["message"] for child in below if child["level"] == "note" and VARIANCE.search(child["message"])]
    helps = [help_of(child) for child in below if child["level"] == "help" and not SEE.match(child["message"])]
    within = within_macro(primary[0], spans[0], said["rendered"]) if spans else None
    inside = error_of(said, root, lambda span, _: span) if within else None
    return Error(said["rendered"], places, column, code, said.get("message", ""), labels, notes, helps, root, within, inside)


def within_macro(own: DiagnosticSpan, home: DiagnosticSpan, rendered: str) -> Optional[Span]:
    """The place of an error, where it is in a macro of another file and rustc shows it there."""
    shown = ARROW.search(without_colours(rendered))
    if own["file_name"] == home["file_name"] or not shown:
        return None
    place = place_of(own)
    return place if shown.groups() == (place.file, str(place.first), str(place.column)) else None


def used_macro(home: DiagnosticSpan) -> list[Label]:
    """Where the macro is used in whose lines a place is; none for a place in no macro, or in what a macro takes."""
    use = place_of(outermost(home))
    return [] if place_of(home).is_inside(use) else [Label(use, INVOCATION)]


def help_of(child: Child) -> str:
    """What rustc advises, with the code that it proposes: the lines of the source as it would change them."""
    changes = ((span["line_start"], span) for span in child["spans"] if span["suggested_replacement"] is not None
               and span["text"] and span["line_start"] == span["line_end"])
    code = [changed(spans) for _, spans in sorted(grouped(changes).items())]
    return f"{child['message']}: `{' .. '.join(code)}`" if code else child["message"]


def changed(spans: list[DiagnosticSpan]) -> str:
    """A line of the source with the replacements of these places."""
    line = spans[0]["text"][0]["text"]
    for span in sorted(spans, key=lambda one: -one["column_start"]):
        line = line[:span["column_start"] - 1] + (span["suggested_replacement"] or "") + line[span["column_end"] - 1:]
    return " ".join(line.split())


def place_of(span: DiagnosticSpan) -> Span:
    return Span(span["file_name"], span["line_start"], span["line_end"], span["column_start"], span["column_end"])


def at_home(span: DiagnosticSpan, root: str) -> DiagnosticSpan:
    """The place in the user's own files: of what a macro of another file made, the macro's use."""
    own = outermost(span)["file_name"]
    while (use := span.get("expansion")) and (span["file_name"] != own or not os.path.isfile(os.path.join(root, span["file_name"]))):
        span = use["span"]
    return span


def outermost(span: DiagnosticSpan) -> DiagnosticSpan:
    """Where the macro is used that isn't itself in what another one makes; the place itself where none made it."""
    while use := span.get("expansion"):
        span = use["span"]
    return span
