"""The paths of `tests/paths.py`, for the programs of this folder: running it puts on the path what they import."""

import os
from runpy import run_path

SAID = run_path(os.path.join(os.path.dirname(os.path.dirname(os.path.realpath(__file__))), "paths.py"))
EXAMPLES, ROOT, TESTS = (SAID[name] for name in ("EXAMPLES", "ROOT", "TESTS"))
