"""Where things stand, and the folders in which the scripts of check/ and bench/ look for modules.

`check/run` and `bench/run` pass these folders on in PYTHONPATH; a script that is started by itself takes them from here.
"""

import os
import pathlib
import sys

CHECK = pathlib.Path(__file__).resolve().parent
ROOT = CHECK.parent
BASELINE = str(ROOT / "bench" / "baseline" / "target" / "release" / "baseline")
PROGRAM = ROOT / "crates" / "nllc" / "out" / "nllc"
FOLDERS = [str(ROOT / folder) for folder in ("check", "check/fuzz", "check/reference", "check/refuse", "frontend",
                                             "frontend/tests")]

os.environ["PYTHONPATH"] = os.pathsep.join(FOLDERS)
sys.path += [folder for folder in FOLDERS if folder not in sys.path]
