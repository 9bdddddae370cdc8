"""What rustc left for each function, and how functions are named."""

from __future__ import annotations

import os
import re
from dataclasses import dataclass, replace
from functools import lru_cache, partial
from typing import Callable, Iterable, NamedTuple, Optional

from nllc_tools.base.files import text_or_nothing
from nllc_tools.rustc.mir.body_reader import read_body, read_outline
from nllc_tools.rustc.mir.destructors import DROP_FUNCTION, destroyed_by
from nllc_tools.rustc.mir.desugarings import desugarings_of
from nllc_tools.rustc.mir.spans import Span, extent

IMPL_AT = re.compile(r"<impl at (.+?):(\d+):(\d+): (\d+):(\d+)>")
HEADER = re.compile(r"(?:unsafe\s+)?impl\b")


@dataclass(frozen=True)
class Dump:
    """The files of one function: its name for a person, its tables' folder, its MIR, its lines.

    The value of a constant is a body of its own too, which is answered where it is asked for alone.
    `destructors` are the types of the same crate that have one. `span` is without what macros of the same file put in, unless
    nothing else is there; `whole` is with it. A macro may make all of a function.
    """

    name: str
    file_name: str
    facts: str
    mir: str
    span: Optional[Span]
    is_function: bool = True
    destructors: frozenset[str] = frozenset()
    whole: Optional[Span] = None
    is_of_macro: bool = False

    def has(self, place: tuple[str, int]) -> bool:
        """Whether a line of a file is one of the function's, or of a macro that it uses."""
        file, line = place
        return any(span is not None and span.file == file and span.first <= line <= span.last
                   for span in (self.span, self.whole))

    @property
    def is_closure(self) -> bool:
        return "{closure#" in self.name

    def is_inside(self, file: str, line: int, column: int) -> bool:
        """Whether a character of a file stands inside the function, behind its first one."""
        return self.span is not None and self.span.file == file and self.span.begin < (line, column) < self.span.stop


class DumpPaths(NamedTuple):
    """The folder of a function's tables, and its MIR dump."""

    facts: str
    mir: str


class DumpRead(NamedTuple):
    """A function, and the type that it destroys, if it is a destructor."""

    dump: Dump
    destroyed: set[str]


Each = Callable[[Callable[[DumpPaths], DumpRead], list[DumpPaths]], Iterable[DumpRead]]


def find_dumps(facts: str, mir: str, crate: str, root: str = "", each: Each = map) -> list[Dump]:
    """All functions of one run of rustc, in the order of the source; `each` reads them, side by side if it likes.

    rustc names its files relatively to the folder in which it ran, which is `root`.
    """
    folders = sorted(os.listdir(facts)) if os.path.isdir(facts) else []
    found = [DumpPaths(os.path.join(facts, folder), path) for folder in folders if (path := find_mir(mir, crate, folder))]
    read = list(each(partial(read_dump, root=root), found))
    destructors = frozenset(name for one in read for name in one.destroyed)
    dumps = [replace(one.dump, destructors=destructors) for one in read]
    return sorted(dumps, key=lambda dump: (dump.span or Span("", 0, 0), dump.file_name))


def find_mir(mir: str, crate: str, folder: str) -> Optional[str]:
    path = os.path.join(mir, f"{crate}.{folder}.-------.nll.0.mir")
    return path if os.path.isfile(path) else None


def read_dump(paths: DumpPaths, root: str) -> DumpRead:
    facts, mir = paths
    outline = read_outline(mir)
    name = IMPL_AT.sub(lambda found: impl_name(found, root), outline.path)
    own = own_places(outline.places, root)
    dump = Dump(name, file_name(os.path.basename(facts)), facts, mir, extent(own or outline.places), outline.is_function,
                whole=extent(outline.places), is_of_macro=not own)
    return DumpRead(dump, destroyed_in(outline.path, mir, root))


def own_places(places: list[Span], root: str) -> list[Span]:
    """The places without those in declarations of macros."""
    if not places:
        return places
    desugarings = desugarings_of(places[0].file, os.path.join(root, places[0].file))
    return [place for place in places if not desugarings.is_of_macro(place)]


def destroyed_in(path: str, mir_path: str, root: str) -> set[str]:
    """The type whose destructor is the function of this path and dump, if it is one."""
    found = IMPL_AT.search(path) if DROP_FUNCTION.fullmatch(path) else None
    return destroyed_by(read_body(mir_path), impl_header(found, root)) if found else set()


def file_name(folder: str) -> str:
    """The name of rustc's folder without what shells and people stumble over."""
    return re.sub(r"[^\w.-]+", "", folder).lstrip("-.") or "function"


def impl_name(found: re.Match[str], root: str) -> str:
    """The type of an `impl`."""
    header = impl_header(found, root)
    return header and type_name(header) or found[0]


def impl_header(found: re.Match[str], root: str) -> Optional[str]:
    """How an `impl` begins, read from the source where rustc says only where it stands."""
    lines = lines_of(os.path.join(root, found[1]))[int(found[2]) - 1:int(found[4])]
    if not lines:
        return None
    last = len(lines) - 1
    lines[last] = lines[last][:int(found[5]) - 1]
    lines[0] = lines[0][int(found[3]) - 1:]
    return " ".join(lines)


@lru_cache(16)  # a file has many functions
def lines_of(path: str) -> list[str]:
    return text_or_nothing(path).split("\n")


def type_name(header: str) -> Optional[str]:
    """`S` of `impl<'a, T> Iterator for module::S<'a, T> where ..`; `derive(Debug)` of `Debug`."""
    header = header.strip()
    begin = HEADER.match(header)
    if not begin:
        return f"derive({header.split('::')[-1]})" if re.fullmatch(r"[\w:]+", header) else None
    flat = without_arguments(header[begin.end():].replace("->", ""))
    subject = flat.split(" where ")[0].split(" for ")[-1]
    words = re.findall(r"\w+", subject)
    return words[-1] if words else None


def without_arguments(text: str) -> str:
    """The text without what stands between `<` and `>`."""
    while (shorter := re.sub("<[^<>]*>", "", text)) != text:
        text = shorter
    return text
