"""What rustc left of a crate in a folder: facts and MIR of its functions, and what it says of them.

rustc runs twice, side by side: as it is, and by another borrow checker, so that it leaves facts and MIR.
"""

from __future__ import annotations

import glob
import json
import os
import subprocess
from dataclasses import dataclass, field
from typing import TYPE_CHECKING, Callable, Optional, TypedDict

from nllc_tools.base.refusal import Refusal
from nllc_tools.base.rooms import tied
from nllc_tools.rustc.compiler import NO_RUSTC, crate_name, find_rustc, flags, judge, refuse_others
from nllc_tools.rustc.errors import Error, errors_in

if TYPE_CHECKING:
    from nllc_tools.rustc.diagnostics import Diagnostic

NOTE = "unit.json"
PLAIN = "plain.json"        # what rustc says as it is
LEAVING = "leaving.json"    # what it says where it leaves facts
NO_LINTS = "--cap-lints=allow"      # where it leaves facts: what lints refuse it says as it is


class Note(TypedDict):
    """What is noted in a unit's folder, as JSON: the crate, where rustc ran, which one, and its status where it leaves facts."""

    crate: str
    root: str
    rustc: str
    status: int


@dataclass(frozen=True)
class Unit:
    """The folder, the crate's name, the folder to which rustc's paths are relative, its errors as it is."""

    folder: str
    crate: str
    root: str = ""
    errors: list[Error] = field(default_factory=list)

    @property
    def facts(self) -> str:
        return os.path.join(self.folder, "facts")

    @property
    def mir(self) -> str:
        return os.path.join(self.folder, "mir")

    def diagnostics(self) -> list[Diagnostic]:
        """What rustc as it is says of the crate, errors and warnings, as it says it."""
        said: list[Diagnostic] = [json.loads(line) for line in bytes_of(self.folder, PLAIN).splitlines() if line.startswith(b"{")]
        return [one for one in said if one.get("spans") is not None]


def check_file(file: str, folder: str, options: list[str], in_colour: bool = False) -> Unit:
    """Checks a file as a library; all that rustc makes goes to the folder."""
    refuse_others(file)
    form = ["--json=diagnostic-rendered-ansi"] if in_colour else []
    rustc, name = find_rustc(), crate_name(file)
    words = [rustc, "--crate-type=lib", f"--crate-name={name}", "--error-format=json", *form, "--emit=metadata", *options, file]
    plain = [*words, f"--out-dir={os.path.join(folder, 'plain')}"]
    cap = [] if any(option.startswith("--cap-lints") for option in options) else [NO_LINTS]
    try:
        status = run_both(plain, [*words, *cap, f"--out-dir={folder}"], folder, name, RUSTC_BOOTSTRAP="1")
    except OSError as error:
        raise Refusal(f"{rustc} can't be run: {error.strerror}; {NO_RUSTC}") from None
    if status == 0 and not glob.glob(os.path.join(glob.escape(folder), "plain", "*.rmeta")):
        raise Refusal(f"{rustc} reports success but has compiled nothing: is it rustc? {NO_RUSTC}")
    return read_unit(folder)


def run_both(plain: list[str], leaving: list[str], folder: str, crate: str,
             tell: Optional[Callable[[bytes], object]] = None, **variables: str) -> int:
    """Runs rustc by the first words as it is, with these variables, and by the second ones so that it leaves facts.

    `tell` takes each line that it says as it is; the status is that of this run.
    """
    with open(os.path.join(folder, LEAVING), "wb") as beside, open(os.path.join(folder, PLAIN), "wb") as kept, \
            subprocess.Popen([*leaving, *flags(folder)], stdin=subprocess.DEVNULL, stdout=subprocess.DEVNULL,
                             stderr=beside, env=os.environ | {"RUSTC_BOOTSTRAP": "1"}, preexec_fn=tied()) as second, \
            subprocess.Popen(plain, stdin=subprocess.DEVNULL, stderr=subprocess.PIPE, env=os.environ | variables,
                             preexec_fn=tied()) as first:
        try:
            for line in first.stderr or ():
                kept.write(line)
                if tell:
                    tell(line)
            second.wait()
        except BaseException:
            first.kill()
            second.kill()
            raise
    with open(os.path.join(folder, NOTE), "w", encoding="utf-8") as file:
        json.dump(Note(crate=crate, root=os.getcwd(), rustc=plain[0], status=second.returncode), file)
    return first.returncode


def read_unit(folder: str) -> Unit:
    """The unit of a folder; refuses where rustc didn't know its words, or stopped without a reason."""
    with open(os.path.join(folder, NOTE), encoding="utf-8") as file:
        noted: Note = json.load(file)
    root = relative(noted["root"])
    plain, leaving = (errors_in(bytes_of(folder, name), root) for name in (PLAIN, LEAVING))
    judge(noted["status"], leaving, noted["rustc"])
    unit = Unit(folder, noted["crate"], root, plain)
    return unit if plain or os.path.isdir(unit.facts) else Unit(folder, unit.crate, root, leaving)


def bytes_of(folder: str, name: str) -> bytes:
    with open(os.path.join(folder, name), "rb") as file:
        return file.read()


def relative(folder: str) -> str:
    """The folder from the current one on; nothing where it is that one."""
    found = os.path.relpath(folder)
    return "" if found == os.curdir else found
