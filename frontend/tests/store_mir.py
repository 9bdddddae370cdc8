#!/usr/bin/env python3
"""Makes the stored dump of sources/forms.rs anew, with the rustc at hand (1.95): python3 frontend/tests/store_mir.py"""

import json
import lzma
import os
import tempfile

import facts_support as support
from mir_support import SOURCE
from nllc_tools.commands.mir import dumps_of_file
from store_facts import files_of


def main():
    os.chdir(support.HERE)
    with tempfile.TemporaryDirectory() as room:
        dumps_of_file(os.path.join("sources", f"{SOURCE}.rs"), room, ["--edition=2021"])
        with lzma.open(os.path.join(support.DUMPS, f"{SOURCE}.json.xz"), "wt", preset=9, encoding="utf-8") as file:
            json.dump(dict(files_of(room)), file, indent=0, ensure_ascii=False)


if __name__ == "__main__":
    main()
