"""What the tests of MIR texts share: rustc's stored dump of sources/forms.rs, and the texts that are made of it."""

import os
import re
import tempfile
from functools import cache

import facts_support as support
from nllc_tools.rustc.compiler import CRATE
from nllc_tools.rustc.dumps import find_dumps
from nllc_tools.texts.mir.functions import definitions_of, text_of

SOURCE = "forms"
REGION = re.compile(r"'(r\d+|new\d+)")


def dumps_in(folder):
    """The functions of a dump; rustc ran in the folder of the tests, so the names of files start there."""
    return [dump for dump in find_dumps(os.path.join(folder, "facts"), os.path.join(folder, "mir"), CRATE, support.HERE)
            if dump.is_function]


@cache
def folder():
    """The unpacked dump; it goes with the process."""
    room = tempfile.TemporaryDirectory(prefix="nll-mir-tests.")
    support.unpack(SOURCE, room.name)
    return room


@cache
def known():
    return definitions_of(dumps_in(folder().name), 1)


@cache
def made():
    """What was made of each function, by its name."""
    return {dump.name: text_of(dump, known()) for dump in dumps_in(folder().name)}


def lines_of(function):
    """The lines of a function's text without remarks, the regions in them numbered in their order in the line."""
    return [line for line in made()[function].text.splitlines() if not line.startswith("#")]


def shortened(line):
    """The line with its regions as 1, 2 ..: rustc's numbers aren't what a test is about."""
    numbers = {}
    return REGION.sub(lambda found: f"'{numbers.setdefault(found[1], len(numbers) + 1)}", line)
