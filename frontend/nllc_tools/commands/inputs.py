"""Which functions a command is asked for, what rustc leaves of them, and where texts go."""

from __future__ import annotations

import argparse
import os
import sys
from dataclasses import dataclass
from typing import TYPE_CHECKING, Optional, Sequence

from nllc_tools.base.command_line import Parser
from nllc_tools.base.files import make_folder, write_whole
from nllc_tools.base.progress import Progress
from nllc_tools.base.refusal import Refusal

if TYPE_CHECKING:
    from nllc_tools.rustc.errors import Error
    from nllc_tools.rustc.functions import Checked

FOLDER = os.path.join("out", "rust")


@dataclass
class Asked:
    """The words that say of which functions, and where to; options are those of rustc, or of cargo check."""

    path: str
    functions: list[str]
    packages: list[str]
    edition: Optional[str]
    out: Optional[str]
    options: list[str]

    def is_project(self) -> bool:
        return os.path.isdir(self.path)

    def folder(self) -> str:
        """Where texts and pages go: in one folder for all files and projects, which git is told to ignore."""
        path = os.path.splitext(self.path)[0]
        if self.is_project():
            from nllc_tools.rustc.cargo import project_of
            path = project_of(self.path)
        return self.out or os.path.join(FOLDER, os.path.basename(path))


def add_words(parser: Parser, use_of_folder: str, is_of_cargo: bool = False) -> None:
    """The words of `Asked`; those of cargo are of the current folder's project."""
    if not is_of_cargo:
        parser.add_argument("path", metavar="FILE.rs|FOLDER",
                            help="a Rust file (- is standard input), or the folder of a Cargo package or workspace")
        parser.add_argument("--edition", help="the language edition of FILE.rs (default 2021)")
    parser.set_defaults(path=os.curdir, edition=None)
    parser.add_argument("functions", metavar="FUNCTION", nargs="*", default=[],
                        help="only these: a name (pick, module::pick, Type::pick) or a line (12, src/lib.rs:12)")
    parser.add_argument("-o", dest="out", metavar="FOLDER",
                        help=f"{use_of_folder}; created where it is missing (default {FOLDER}/NAME, "
                        "with the name of the file or project)")
    parser.add_argument("-p", "--package", dest="packages", metavar="PACKAGE", action="append", default=[],
                        help="only this package of a project; may be given several times")


def read_words(parser: Parser, words: Sequence[str]) -> argparse.Namespace:
    """The words; what comes on standard input is written to a file in the folder of texts and pages, so that places in it
    mean something."""
    at = words.index("--") if "--" in words else len(words)
    asked = parser.parse_args(words[:at])
    asked.options = [*words[at + 1:]]
    if asked.path == "-":
        folder = asked.out or os.path.join(FOLDER, "stdin")
        make_ready(folder)
        asked.path = os.path.join(folder, "stdin.rs")
        with open(asked.path, "wb") as file:
            file.write(sys.stdin.buffer.read())
    return asked


def asked_for_texts(word: str, about: str, words: Sequence[str]) -> Asked:
    """The words of a command that writes a text of each function."""
    parser = Parser(word, about, formatter_class=argparse.HelpFormatter,
                    usage="FILE.rs|FOLDER [FUNCTION ..] [-o FOLDER] [-p PACKAGE] [--edition E] [-- OPTIONS]")
    add_words(parser, "where the texts go")
    return Asked(**vars(read_words(parser, words)))


def check(asked: Asked, room: str, folder: str, is_for_people: bool = True) -> Checked:
    """Has rustc, or cargo, check what is asked for; all that it leaves is in the room, texts go to the folder.

    People aren't told of warnings.
    """
    in_colour = is_for_people and sys.stderr.isatty() and not os.environ.get("NO_COLOR")
    if asked.is_project():
        if asked.edition:
            raise Refusal("a project states its own edition: leave out --edition")
        from nllc_tools.rustc.cargo import check_project, project_of
        units = check_project(project_of(asked.path), asked.packages, asked.options, room, not is_for_people, in_colour)
    else:
        if asked.packages:
            raise Refusal(f"{asked.path} is a file, and -p is for projects: give the folder of one")
        from nllc_tools.rustc.units import check_file
        options = [f"--edition={asked.edition or 2021}", *asked.options]
        with Progress(lambda: f"rustc checks {asked.path}"):
            units = [check_file(asked.path, room, options, in_colour)]
    from nllc_tools.rustc.functions import checked      # it is read once rustc has run
    return checked(units, asked.functions, folder)


def refuse_nothing(path: str, found: Checked) -> None:
    """Shows rustc's errors and refuses where there is no function to look at."""
    if not found.functions:
        show([error for unit in found.units for error in unit.errors])
        raise without_functions(path, found)


def without_functions(path: str, found: Checked) -> Refusal:
    if any(unit.errors for unit in found.units):
        return Refusal(f"rustc refuses {path} before it checks borrows: fix the errors above")
    return Refusal(f"{path} has no function with a body: nothing in it has regions to solve")


def show(errors: list[Error]) -> None:
    from nllc_tools.rustc.errors import without_colours
    for error in errors:
        sys.stderr.write(error.rendered if sys.stderr.isatty() else without_colours(error.rendered))


def tell_unanswered(path: str, errors: list[Error]) -> int:
    """Says which lines rustc refuses so that it doesn't check their borrows, of a project with their files; the status."""
    if not errors:
        return 0
    show(errors)
    lines = sorted({(error.path, error.line) for error in errors})
    is_one = {place for place, _ in lines} == {path}
    places = ", ".join(str(line) if is_one else f"{place}:{line}" for place, line in lines)
    print(f"{path}: rustc refuses {'line ' if is_one else ''}{places} before it checks borrows, as it says above; "
          "the functions there have no answer", file=sys.stderr)
    return 2


def make_ready(folder: str) -> None:
    """Makes the folder; git is told to ignore the one of all files and projects."""
    make_folder(folder)
    ignored = os.path.join(FOLDER, ".gitignore")
    if os.path.dirname(folder) == FOLDER and not os.path.exists(ignored):
        write_whole(ignored, "*\n")


def open_page(path: str) -> None:
    """Opens a page in the browser."""
    import webbrowser   # which takes long to read
    webbrowser.open(f"file://{os.path.abspath(path)}")
