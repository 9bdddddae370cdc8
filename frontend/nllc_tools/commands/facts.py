"""The command `nllc.sh facts`: a facts text of each function."""

from typing import NamedTuple, Sequence

from nllc_tools.base.files import write_whole
from nllc_tools.base.refusal import Refusal
from nllc_tools.base.rooms import guarded_room
from nllc_tools.base.sentences import plural
from nllc_tools.base.streams import command
from nllc_tools.base.workers import side_by_side
from nllc_tools.commands.inputs import asked_for_texts, check, make_ready, refuse_nothing, show, tell_unanswered
from nllc_tools.rustc.functions import Function
from nllc_tools.texts.facts.conversion import convert
from nllc_tools.texts.facts.writer import facts_text

ABOUT = """\
Writes a facts text of each function of a Rust file or a Cargo project, by what rustc says of them, and prints their paths. Needs
rustc 1.95 or later (its stable one will do). OPTIONS are those of rustc, or of cargo check. Status 0: all were written; 2:
refused, all or in part; 3: failed."""


@command("facts")
def main(words: Sequence[str]) -> int:
    """Does what the words say; the status is 0, 2 for what is refused, 3 for what failed."""
    asked = asked_for_texts("facts", ABOUT, words)
    with guarded_room("nll-facts.") as room:
        found = check(asked, room, asked.folder())
        refuse_nothing(asked.path, found)
        show(found.errors)
        make_ready(asked.folder())
        texts = list(side_by_side(write_text, found.functions))
    for function, text in zip(found.functions, texts):
        print(text.failure or f"{function.path}  {function.name}: {text.size}")
    return max(tell_unanswered(asked.path, found.unanswered), *(2 if text.failure else 0 for text in texts))


class Text(NamedTuple):
    """What became of a function: the size of its text, or why it has none."""

    size: str
    failure: str


def write_text(function: Function) -> Text:
    try:
        problem = convert(function.dump, function.root, function.errors)
        write_whole(function.path, facts_text(problem))
    except Refusal as refusal:
        return Text("", str(refusal))
    return Text(f"{plural(len(problem.points), 'point')}, {plural(len(problem.regions), 'region')}, "
                f"{plural(len(problem.constraints), 'constraint')}", "")
