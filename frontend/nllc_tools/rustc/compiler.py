"""Runs the user's own rustc so that it leaves facts and MIR of each function."""

import os
import re
import shutil
import subprocess
from functools import cache

from nllc_tools.base.command_line import called
from nllc_tools.base.files import text_or_nothing
from nllc_tools.base.refusal import Refusal
from nllc_tools.rustc.errors import Error

CRATE = "input"
NAMED = re.compile(r'^#!\[crate_name\s*=\s*"(\w+)"\s*\]', re.MULTILINE)
NO_RUSTC = ("there is no rustc: install one (https://rustup.rs), "
            "or name it by the variable RUSTC")
TEXTS = {b"nll-facts": "facts", b"nll-mir": "MIR"}
# `-Zpolonius=next`: without it rustc leaves out which regions the drop of a variable uses
# whose regions all outlive a named lifetime; it takes those regions to hold everywhere.
FLAGS = ("-Znll-facts", "-Zdump-mir=nll", "-Zpolonius=next")


def flags(folder: str) -> list[str]:
    """The flags by which rustc leaves `facts/` and `mir/` in a folder."""
    more = os.environ.get("NLL_FACTS_FLAGS", "").split()     # those of MIR texts (texts.mir)
    return [*FLAGS, *more, f"-Znll-facts-dir={os.path.join(folder, 'facts')}",
            f"-Zdump-mir-dir={os.path.join(folder, 'mir')}"]


def find_rustc() -> str:
    """The program in the variable RUSTC, or the `rustc` on the PATH."""
    found = shutil.which(os.environ.get("RUSTC") or "rustc")
    if not found:
        raise Refusal(NO_RUSTC)
    return found


def crate_name(file: str) -> str:
    """The name that a file gives its crate, by which rustc has to call it; that of others."""
    found = NAMED.search(text_or_nothing(file))
    return found[1] if found else CRATE


def refuse_others(file: str) -> None:
    """Refuses what is no Rust file, and says what a text of `nllc`'s own is."""
    if not os.path.isfile(file):
        raise Refusal(f"{file or repr(file)} isn't a readable file; give the path of a Rust file")
    try:
        with open(file, "rb") as opened:
            begin = opened.read(64).split(b"\n")[0].split()
    except OSError as error:
        raise Refusal(f"{file} can't be read: {error.strerror}") from None
    kind = TEXTS.get(b" ".join(begin[:1]))
    if kind:
        raise Refusal(f"{file} is a {kind} text, not a Rust file: `{called('check', file)}` answers it, "
                      f"`{called('page', file)}` makes a page of it")


@cache
def version() -> str:
    """`rustc 1.95.0`, as the program calls itself."""
    done = subprocess.run([find_rustc(), "--version"], stdin=subprocess.DEVNULL, check=False,
                          capture_output=True, encoding="utf-8", errors="replace")
    return " ".join(done.stdout.split()[:2]) or "rustc"


def judge(status: int, errors: list[Error], rustc: str) -> None:
    """Refuses where rustc didn't know its words, or stopped without a reason."""
    unknown = [error.rendered for error in errors
               if re.search(r"unknown (unstable|debugging|codegen)? ?option|Unrecognized option"
                            r"|only accepted on the nightly|incorrect value", error.rendered)]
    if unknown:
        raise Refusal(f"{rustc} doesn't accept its arguments ({unknown[0].splitlines()[0]}); "
                      f"1.95 knows all flags: `rustup update stable`, or name one by RUSTC")
    if status != 0 and not errors:
        raise Refusal(f"{rustc} ended with status {status} and gave no reason; run it by itself")
