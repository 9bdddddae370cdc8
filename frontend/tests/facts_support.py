"""What the tests of the facts tool share: the sources, rustc's stored dumps, the golden texts."""

import json
import lzma
import os
import re
import shutil
import subprocess
import sys
import tempfile
from functools import cache

from paths import FRONTEND, ROOT, TESTS as HERE

import reference  # the slow reader and solver of check/reference/
from nllc_tools.rustc.compiler import CRATE
from nllc_tools.rustc.dumps import find_dumps
from nllc_tools.rustc.error_owners import own_errors
from nllc_tools.rustc.errors import Error, Label
from nllc_tools.rustc.mir.spans import Span
from nllc_tools.texts.facts.conversion import convert
from nllc_tools.texts.facts.writer import facts_text

GOLDEN = os.path.join(HERE, "golden")
DUMPS = os.path.join(HERE, "dumps")
SOURCES = ("small", "rfc2094", "differ")
WRONG = ("borrowed_twice", "by_closures", "moved_or_assigned", "too_short", "lifetimes", "places")
MOVES = ("moves",)
RIGHT = ("closures", "coroutines", "iterators", "right")

POINT = re.compile(r"# point (\d+): (?:line (\d+): )?(.*)")
REGION = re.compile(r"# region '(\w+): (?:line (\d+): )?(.*)")
KNOWN = "1.95."      # the release that the stored dumps are of, and that docs/FROM-RUST.md shows


def rustc_release():
    """`1.95.0 ..` of the rustc that the tools take; nothing where there is none."""
    rustc = shutil.which(os.environ.get("RUSTC") or "rustc")
    if not rustc:
        return ""
    done = subprocess.run([rustc, "--version"], capture_output=True, check=False, text=True)
    return done.stdout.removeprefix("rustc ")


def source_path(source):
    """The path as rustc gets it, in the folder of the tests."""
    return os.path.join("sources" if source in SOURCES else "loans", f"{source}.rs")


def unpack(source, folder):
    """Puts the stored dump of a source's functions into a folder."""
    with lzma.open(os.path.join(DUMPS, f"{source}.json.xz"), "rt", encoding="utf-8") as file:
        files = json.load(file)
    for name, lines in files.items():
        path = os.path.join(folder, name)
        os.makedirs(os.path.dirname(path), exist_ok=True)
        with open(path, "w", encoding="utf-8") as file:
            file.write("\n".join(lines))


def texts_of(folder, errors=()):
    """The texts of all functions that rustc left in a folder, by file name."""
    dumps = find_dumps(os.path.join(folder, "facts"), os.path.join(folder, "mir"), CRATE, HERE)
    return {f"{dump.file_name}.facts":
            facts_text(convert(dump, errors=own_errors(dump, dumps, errors)))
            for dump in dumps if dump.is_function}


def stored_errors(source):
    """rustc's errors of a source, as they are stored."""
    with open(os.path.join(HERE, "loans", "errors.tsv"), encoding="utf-8") as file:
        rows = [line.rstrip("\n").split("\t") for line in file]
    return [error_of(*row) for row in rows if row[0] == source_path(source)]


def error_of(name, line, column, code, message, more):
    labels, notes, helps = json.loads(more)
    return Error("", [(name, int(line))], int(column), code, message, [label_of(*one) for one in labels], notes, helps)


def label_of(file, first, column, last, end, text):
    return Label(Span(file, first, last, column, end), text)


@cache
def stored_texts(source):
    """The texts of a source, made of its stored dump."""
    memory = "/dev/shm" if os.path.isdir("/dev/shm") else None     # thousands of small files
    with tempfile.TemporaryDirectory(dir=memory) as folder:
        unpack(source, folder)
        return texts_of(folder, stored_errors(source))


def golden_texts(source):
    folder = os.path.join(GOLDEN, source)
    texts = {}
    for name in sorted(os.listdir(folder)):
        with open(os.path.join(folder, name), encoding="utf-8") as file:
            texts[name] = file.read()
    return texts


def golden_text(source, function):
    return golden_texts(source)[f"{function}.facts"]


def said(text):
    """The problem of a text, by the slow reader."""
    return reference.said_in(text.encode())


def faults(text):
    problem = said(text)
    return [(long.decode(), short.decode())
            for long, short in reference.faults(problem, reference.solve(problem))]


def points_of(text):
    """For each point its line, or None, and its words."""
    return {int(found[1]): (int(found[2]) if found[2] else None, found[3])
            for found in map(POINT.fullmatch, text.split("\n")) if found}


def regions_of(text):
    """The name of each region with its words, in the order of the text."""
    return [(found[1], found[3]) for found in map(REGION.fullmatch, text.split("\n")) if found]


def run(*words, **options):
    """Runs a tool; its streams are text."""
    return subprocess.run([sys.executable, *words], capture_output=True, check=False,
                          stdin=subprocess.DEVNULL, encoding="utf-8", **options)
