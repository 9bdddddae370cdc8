"""Makes the gallery, of the functions, texts and schedules of examples/."""

import contextlib
import io
import os
import re
import sys
import tempfile
from dataclasses import replace
from typing import Sequence

from nllc_tools.base import files
from nllc_tools.base.command_line import called
from nllc_tools.base.nllc import ROOT
from nllc_tools.base.refusal import Refusal
from nllc_tools.base.streams import guarded
from nllc_tools.commands import schedule, texts
from nllc_tools.commands.facts import main as make_facts
from nllc_tools.judge.content import content_of
from nllc_tools.judge.names import name_of
from nllc_tools.views.gallery import Shown, card_part, of_functions, of_text, section, whole
from nllc_tools.views.html.writing import text
from nllc_tools.views.html.page import page
from nllc_tools.views.schedule.page import page as schedule_page

EXAMPLES = "examples"

# Rust files, each a section: its title.
FILES = {"problem_cases": "The problem cases of RFC 2094", "variance": "Variance", "drops": "Drop",
         "closures": "Closures and async"}

# MIR texts, which go the proved way from the statements on: the region that is lit at first, and a sentence. A fault
# has its own first step.
MIR_TEXTS = {
    "running": ("p", "The running example of RFC 2094: the region of p has a hole where p gets its second value."),
    "lookup": ("found", "Problem case 3: the region of the first borrow ends where nothing was found."),
    "two_universals": ("", "One named lifetime is returned as another, which the text doesn't know it to outlive."),
    "invariant": ("2", "Behind a mut reference both regions must hold the same from there on."),
    "drop": ("w", "A destructor that may look behind its reference is a use of it."),
}

# Schedules of runs with several owners.
SCHEDULES = {"each_other": "Two owners whose regions let each other grow, event by event.",
             "late_hole": "A growth comes late and fills a hole, so that another region gets what is after it."}


def main(words: Sequence[str]) -> int:
    """Makes the pages and the gallery's own; the status."""
    if len(words) > 1 or words[:1] == ["--help"]:
        is_asked = words[:1] == ["--help"]
        print(f"usage: {called('gallery')} [FOLDER]\n\nMakes pages of the functions of examples/gallery, and of texts and "
              "schedules of examples/, with an index,\nin FOLDER or in out/gallery; needs nllc, world_program and rustc.",
              file=sys.stdout if is_asked else sys.stderr)
        return 0 if is_asked else 2
    folder = os.path.abspath(words[0] if words else os.path.join(ROOT, "out", "gallery"))
    os.chdir(ROOT)
    return guarded("gallery", lambda: make(folder))


def make(folder: str) -> int:
    os.makedirs(folder, exist_ok=True)
    cards = {title: list(of_functions(functions(name))) for name, title in FILES.items()}
    cards["Bodies written as MIR"] = [of_text(mir_text(name), *told) for name, told in MIR_TEXTS.items()]
    made = {one.file: one.content for its in cards.values() for card in its for one in card.shown}
    for name, content in made.items():
        files.write(os.path.join(folder, name), page(replace(content, index="index.html")))
    sections = [section(title, "".join(map(card_part, its))) for title, its in cards.items()]
    sections.append(section("Runs with several owners", "".join(
        schedule_card(folder, name, said) for name, said in SCHEDULES.items())))
    out = os.path.join(folder, "index.html")
    files.write(out, whole(sections, made))
    print(out)
    return 0


def functions(name: str) -> list[Shown]:
    """The pages of a Rust file's functions, in the order of the file."""
    path = os.path.join(EXAMPLES, "gallery", f"{name}.rs")
    with tempfile.TemporaryDirectory(prefix="nll-gallery.") as room:
        with contextlib.redirect_stdout(io.StringIO()), contextlib.redirect_stderr(io.StringIO()) as said:
            if make_facts([path, "-o", room]):
                raise Refusal(f"{path} has no facts texts: {said.getvalue().strip().splitlines()[-1]}", 3)
        contents = [content_of(path, files.read_bytes(path)) for path in (os.path.join(room, name) for name in sorted(os.listdir(room)))]
    contents.sort(key=lambda one: (one.source.first if one.source else 0, one.facts.remarks.function))
    return [Shown(file_name(content.facts.remarks.function), name_of(content), content) for content in contents]


def file_name(function: str) -> str:
    return re.sub(r"\W+", "-", function).strip("-") + ".html"


def mir_text(name: str) -> Shown:
    path = os.path.join(EXAMPLES, f"{name}.mir")
    return Shown(f"{name}.mir.html", f"{name}.mir", texts.content_of(path, files.read_bytes(path)))


def schedule_card(folder: str, name: str, said: str) -> str:
    """The page of a schedule, and its card."""
    paths = [os.path.join(EXAMPLES, f"{name}.{kind}") for kind in ("facts", "schedule")]
    content = schedule.content_of(schedule.words_of(paths))
    files.write(os.path.join(folder, f"{name}.schedule.html"), schedule_page(content, "index.html"))
    return (f'<article class="card" id="{name}"><h3><a href="./{name}.schedule.html"><code>{name}.schedule</code></a></h3>'
            f"<p>{text(said)}</p></article>")
