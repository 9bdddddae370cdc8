"""MIR texts of all functions of one run of rustc: first what their lines say of types, then each text."""

import os
from concurrent.futures import ProcessPoolExecutor
from dataclasses import dataclass
from typing import Optional

from nllc_tools.base.refusal import Refusal
from nllc_tools.base.workers import keep_silent
from nllc_tools.model.types.definition_evidence import gather
from nllc_tools.model.types.definitions import Definitions, Evidence
from nllc_tools.rustc.dumps import Dump
from nllc_tools.rustc.mir.function import Function
from nllc_tools.rustc.unsaid import NOT_READ, NotSaid
from nllc_tools.texts.mir.translation import translate
from nllc_tools.texts.mir.writer import mir_text

# rustc's flags beside those of facts: types with all their regions, and paths in full.
FLAGS = ("-Zverbose-internals", "-Ztrim-diagnostic-paths=no")
IN_ONE_GO = 8

definitions: Definitions     # of the functions that a process makes texts of


@dataclass(frozen=True)
class Made:
    """The text of a function, or why it has none."""

    dump: Dump
    text: str = ""
    reason: str = ""
    where: str = ""


def texts_of(dumps: list[Dump], processes: Optional[int] = None) -> list[Made]:
    """The texts of functions of one run of rustc, in their order."""
    known = definitions_of(dumps, processes)
    with ProcessPoolExecutor(processes, initializer=begin, initargs=(os.getpid(), known)) as pool:
        return list(pool.map(made, dumps, chunksize=IN_ONE_GO))


def definitions_of(dumps: list[Dump], processes: Optional[int] = None) -> Definitions:
    """What all lines of the functions agree on."""
    evidence = Evidence()
    with ProcessPoolExecutor(processes, initializer=keep_silent, initargs=(os.getpid(),)) as pool:
        for found in pool.map(evidence_of, dumps, chunksize=IN_ONE_GO):
            evidence.add(found)
    return Definitions(evidence)


def begin(parent: int, known: Definitions) -> None:
    global definitions
    keep_silent(parent)
    definitions = known


def evidence_of(dump: Dump) -> Evidence:
    """What the lines of a function say; of one that isn't understood, nothing."""
    try:
        return gather(Function(dump))
    except (NotSaid, Refusal, *STRANGE):
        return Evidence()


def made(dump: Dump) -> Made:
    return text_of(dump, definitions)


def text_of(dump: Dump, known: Definitions) -> Made:
    try:
        return Made(dump, mir_text(translate(Function(dump), known)))
    except NotSaid as refusal:
        return Made(dump, "", refusal.reason, refusal.where)
    except Refusal as refusal:
        return Made(dump, "", NOT_READ, str(refusal))
    except STRANGE as error:
        return Made(dump, "", NOT_READ, f"{dump.mir}: {type(error).__name__} {error}")


# What a dump of another form leads to: a number that is none, a block or variable that isn't there.
STRANGE = (ValueError, KeyError, IndexError, RecursionError)
