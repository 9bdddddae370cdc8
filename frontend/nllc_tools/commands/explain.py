"""The command `nllc.sh explain`: which line and token of a refused text is wrong, and why."""

import os
import re
import subprocess
import tempfile
from typing import Sequence

from nllc_tools.base import nllc
from nllc_tools.base.command_line import called
from nllc_tools.base.refusal import Refusal
from nllc_tools.base.sentences import visible
from nllc_tools.base.streams import command
from nllc_tools.commands.several import is_rust
from nllc_tools.commands.texts import parser_of_texts, read
from nllc_tools.texts.refused.culprit import culprit

ABOUT = """\
Says of each text that `nllc check` refuses which line and token is wrong, and why; of each other text, what `check`
says. Status 0: no fault; 1: faults; 2: a text or the arguments were refused; 3: failed."""

REFUSED = r"nllc: line (\d+): (.*)"
OF_NO_LINE = {"nllc: limit constraints": "limit constraints: all lines together ask for more constraints than the "
                                         "1,048,576 that there may be"}
MOST_SHOWN = 200    # letters of a line


@command("explain")
def main(words: Sequence[str]) -> int:
    """Runs the command on these words; its status."""
    return max(map(explain, parser_of_texts("explain", ABOUT).parse_args(words).texts))


def explain(path: str) -> int:
    """Tells what becomes of a text; the status is that of `check`."""
    if is_rust(path):
        raise Refusal(f"{path} is a Rust file: {called('rust', path)} answers it")
    shown, text = read(path)
    done = check(text)
    said = done.stderr.strip()
    lines = [f"{shown}: {OF_NO_LINE.get(said, said)}"]
    if found := re.fullmatch(REFUSED, said):
        lines = refused(shown, text, int(found[1]), found[2])
    elif done.returncode in (0, 1):
        lines = [f"{shown}: {line}" for line in done.stdout.splitlines()]
    for line in lines:
        print(visible(line))
    return done.returncode


def check(text: bytes) -> "subprocess.CompletedProcess[str]":
    program = nllc.program().path
    with tempfile.TemporaryDirectory(prefix="nllc-explain.") as folder:
        copy = os.path.join(folder, "text")
        with open(copy, "wb") as file:
            file.write(text)
        return subprocess.run([program, "check", copy], stdin=subprocess.DEVNULL, capture_output=True, check=False,
                              encoding="utf-8", errors="replace")


def refused(shown: str, text: bytes, number: int, kind: str) -> list[str]:
    """A line with place, kind and reason, and the line of the text."""
    raw = text.split(b"\n")[number - 1]
    try:
        raw.decode("utf-8")
        column, why = culprit(kind, text.decode("utf-8", "replace").split("\n")[:number])
    except UnicodeDecodeError as error:
        column, why = error.start + 1, f"the byte {raw[error.start]:#04x} isn't UTF-8 there"
    line = raw.decode("utf-8", "replace").strip()
    place = f"{shown}:{number}:{column}" if column else f"{shown}:{number}"
    return [f"{place}: {kind}: {why}"] + ([f"    {line[:MOST_SHOWN]}"] if line else [])
