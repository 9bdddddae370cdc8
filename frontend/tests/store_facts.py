#!/usr/bin/env python3
"""Makes the stored dumps, rustc's errors and the golden texts anew, with the rustc at hand (1.95).

    python3 frontend/tests/store_facts.py

Look at what changed before it is committed: the tests compare with these files.
"""

import json
import lzma
import os
import shutil
import tempfile

import facts_support as support
from nllc_tools.rustc.tables import Tables
from nllc_tools.rustc.units import check_file

TABLES = {f"{name}.facts" for name in Tables.__dataclass_fields__}


def wanted(path):
    return os.path.basename(path) in TABLES or path.endswith((".nll.0.mir", ".all.dot"))


def files_of(folder):
    for place, _, names in sorted(os.walk(folder)):
        for name in sorted(names):
            path = os.path.join(place, name)
            if wanted(path):
                with open(path, encoding="utf-8") as file:
                    yield os.path.relpath(path, folder), file.read().split("\n")


def store(source):
    """Stores the dump, and of some sources the texts; gives rustc's errors."""
    with tempfile.TemporaryDirectory() as room:
        errors = check_file(support.source_path(source), room, ["--edition=2021"]).errors
        errors = [error for error in errors if error.places]
        path = os.path.join(support.DUMPS, f"{source}.json.xz")
        with lzma.open(path, "wt", preset=9, encoding="utf-8") as file:
            json.dump(dict(files_of(room)), file, indent=0, ensure_ascii=False)
        if source in support.SOURCES:
            store_texts(source, support.texts_of(room, errors))
    return errors


def store_texts(source, texts):
    folder = os.path.join(support.GOLDEN, source)
    shutil.rmtree(folder, ignore_errors=True)
    os.makedirs(folder)
    for name, text in texts.items():
        with open(os.path.join(folder, name), "w", encoding="utf-8") as file:
            file.write(text)


def store_errors(errors):
    with open(os.path.join(support.HERE, "loans", "errors.tsv"), "w", encoding="utf-8") as file:
        for error in errors:
            message = " ".join(error.message.split())
            more = json.dumps([[(span.file, *span.begin, *span.stop, text) for span, text in error.labels], error.notes, error.helps],
                              ensure_ascii=False)
            row = (error.places[0][0], str(error.line), str(error.column), error.code, message, more)
            file.write("\t".join(row) + "\n")


if __name__ == "__main__":
    os.chdir(support.HERE)
    os.makedirs(support.DUMPS, exist_ok=True)
    store_errors([error for one in (*support.SOURCES, *support.WRONG, *support.MOVES, *support.RIGHT)
                  for error in store(one)])
