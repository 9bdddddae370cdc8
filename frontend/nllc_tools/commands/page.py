"""The command `nllc.sh page`: pages of facts texts and MIR texts, and an index of them."""

import os
from dataclasses import replace
from itertools import count
from typing import Iterator, Sequence

from nllc_tools.base import files
from nllc_tools.base.refusal import Refusal
from nllc_tools.base.streams import command
from nllc_tools.commands.inputs import open_page
from nllc_tools.commands.texts import content_of, parser_of_texts, read
from nllc_tools.views.html.index import write_index
from nllc_tools.views.html.index_rows import NAME
from nllc_tools.views.html.page import page

FOLDER = os.path.join("out", "pages")

ABOUT = """\
Writes a page of each text, a facts text or a MIR text (docs/FORMATS.md), and an index.html of all pages of
the folder; prints their paths. The values are those of the nllc that is found: the program in the variable NLLC,
nllc.sh next to the folder frontend/, or the nllc on the PATH. The problem of a MIR text comes from
frontend/world_program.rattle, a small program over the proved reader. It is compiled for about a minute at
the first such page."""

STATUSES = """\
status 0: the pages were written; 2: the arguments, a file or a text was refused; 3: nllc gave no answer, or a page
couldn't be written; each with one line on standard error"""


@command("page")
def main(words: Sequence[str]) -> int:
    """Runs the command on these words; its status."""
    parser = parser_of_texts("page", ABOUT, STATUSES)
    parser.add_argument("-o", dest="folder", metavar="FOLDER", default=FOLDER,
                        help=f"where the pages go; without it {FOLDER}")
    parser.add_argument("--open", action="store_true", help="open the page in the browser")
    asked = parser.parse_args(words)
    files.make_folder(asked.folder, "name another by -o FOLDER")
    paths = []
    for path, name in zip(asked.texts, page_names(asked.texts)):
        out = os.path.join(asked.folder, name)
        if files.same_file(path, out):
            raise Refusal(f"the page would be written over {path}; name another folder by -o FOLDER")
        files.write(out, page(replace(content_of(*read(path)), index=NAME)))
        print(out)
        paths.append(out)
    paths.append(write_index(asked.folder, [os.path.basename(path) for path in paths], with_older=True))
    print(paths[-1])
    if asked.open:
        open_page(paths[0 if len(paths) == 2 else -1])
    return 0


def page_names(paths: Sequence[str]) -> Iterator[str]:
    """A facts text's page has its name, any other's the name with its ending; of one name several are numbered."""
    taken = set()
    for path in paths:
        name = "stdin" if path == "-" else os.path.basename(path).removesuffix(".facts")
        names = (f"{name}-{number}.html" if number > 1 else f"{name}.html" for number in count(1))
        made = next(one for one in names if one not in taken)
        taken.add(made)
        yield made
