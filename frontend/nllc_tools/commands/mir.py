"""The command `nllc.sh mir`: a MIR text of each function."""

import os
import sys
from collections import Counter
from typing import NamedTuple, Sequence

from nllc_tools.base.command_line import called
from nllc_tools.base.files import write_whole
from nllc_tools.base.rooms import guarded_room
from nllc_tools.base.sentences import plural
from nllc_tools.base.streams import command
from nllc_tools.commands.inputs import Asked, asked_for_texts, check, make_ready, refuse_nothing, tell_unanswered
from nllc_tools.rustc.cargo import check_project, project_of
from nllc_tools.rustc.dumps import Dump, find_dumps
from nllc_tools.rustc.errors import Error
from nllc_tools.rustc.functions import Checked
from nllc_tools.rustc.units import Unit, check_file
from nllc_tools.texts.mir.functions import FLAGS, Made, texts_of

ABOUT = """\
Writes a MIR text of each function of a Rust file or a Cargo project, by what rustc dumps of them, and prints their paths. A
function without a MIR text gets a line with the reason on standard error. Needs rustc 1.95. Status 0: some were written; 2: none
was, or refused, all or in part; 3: failed."""


@command("mir")
def main(words: Sequence[str]) -> int:
    """Does what the words say; the status is 0, 2 where no function has a text, 3 for what failed."""
    asked = asked_for_texts("mir", ABOUT, words)
    ask_for_types()
    with guarded_room("nll-mir.") as room:
        found = check(asked, room, asked.folder())
        refuse_nothing(asked.path, found)
        made = made_of(found)
    make_ready(asked.folder())
    for path, one in made.items():
        if one.text:
            write_whole(path, one.text)
    return max(tell(made), tell_unanswered(asked.path, found.unanswered))


def texts_by_path(asked: Asked, room: str, folder: str) -> dict[str, Made]:
    """By the paths of facts texts the MIR texts that functions have; says which have none."""
    ask_for_types()
    made = made_of(check(asked, room, folder))
    for one in made.values():
        if not one.text:
            print(f"{called('rust')}: {one.dump.name}: no MIR text: {one.reason}; rustc's facts answer it", file=sys.stderr)
    return {f"{path.removesuffix('.mir')}.facts": one for path, one in made.items() if one.text}


def ask_for_types() -> None:
    """Has rustc dump types with all their regions."""
    os.environ["NLL_FACTS_FLAGS"] = " ".join(FLAGS)


def made_of(found: Checked) -> dict[str, Made]:
    """The texts of the functions by their paths; what types are is read off all functions of a crate."""
    paths = {function.dump.mir: f"{function.path.removesuffix('.facts')}.mir" for function in found.functions}
    return {paths[one.dump.mir]: one for unit in found.units for one in texts_of(functions_of(unit)) if one.dump.mir in paths}


def functions_of(unit: Unit) -> list[Dump]:
    return [dump for dump in find_dumps(unit.facts, unit.mir, unit.crate, unit.root) if dump.is_function]


class Dumps(NamedTuple):
    """The functions of a file that rustc has checked, with rustc's errors."""

    functions: list[Dump]
    errors: list[Error]


def dumps_of_file(file: str, room: str, options: list[str]) -> Dumps:
    ask_for_types()
    unit = check_file(file, room, options)
    return Dumps(functions_of(unit), unit.errors)


def dumps_of_crate(folder: str, room: str, options: list[str]) -> list[tuple[str, list[Dump]]]:
    """The functions of each unit of a project, by the unit's name."""
    ask_for_types()
    return [(unit.crate, functions_of(unit)) for unit in check_project(project_of(folder), [], options, room)]


def tell(made: dict[str, Made]) -> int:
    """The paths; on standard error why functions have no text, and how many by each reason."""
    reasons: Counter[str] = Counter()
    for path, one in made.items():
        if one.text:
            print(path)
        else:
            reasons[one.reason] += 1
            where = f" ({one.where})" if one.where else ""
            print(f"nllc.sh mir: {one.dump.name}: {one.reason}{where}", file=sys.stderr)
    texts = len(made) - reasons.total()
    if reasons:
        told = ", ".join(f"{count} for {reason}" for reason, count in reasons.most_common())
        print(f"nllc.sh mir: {plural(texts, 'text')}; without one {told}", file=sys.stderr)
    return 0 if texts else 2
