"""What rustc leaves of the packages of a Cargo project: `cargo check` with a wrapper around rustc."""

from __future__ import annotations

import json
import os
import shutil
import subprocess
import sys
from typing import TYPE_CHECKING, NamedTuple

from nllc_tools.base.command_line import current
from nllc_tools.base.refusal import Refusal
from nllc_tools.base.rooms import tied
from nllc_tools.rustc.units import Unit, read_unit

if TYPE_CHECKING:
    from nllc_tools.rustc.diagnostics import CargoMessage, Diagnostic, Metadata

HERE = os.path.dirname(os.path.abspath(__file__))
WRAPPER = os.path.join(HERE, "rustc-wrapper")
TARGET = "nllc"     # in the project's own target folder


def project_of(folder: str) -> str:
    """The nearest folder with a Cargo.toml, from this one upwards, as cargo looks for it."""
    found = os.path.abspath(folder)
    while not os.path.isfile(os.path.join(found, "Cargo.toml")):
        if found == os.path.dirname(found):
            raise Refusal(f"{folder} is in no Cargo project: give a Rust file, or the folder of a package or "
                          f"workspace, where its Cargo.toml is")
        found = os.path.dirname(found)
    return found


def check_project(folder: str, packages: list[str], options: list[str], room: str, is_json: bool = False,
                  in_colour: bool = False) -> list[Unit]:
    """The units of the packages, checked with the project's own edition, features and dependencies.

    What is compiled of the dependencies stays in a folder of its own in the project's target folder.
    """
    cargo = find_cargo()
    known = metadata(cargo, folder)
    form = "json-diagnostic-rendered-ansi" if in_colour else "json"
    words = [cargo, "check", "--keep-going", f"--message-format={form}",
             *(word for package in packages for word in ("-p", package)), *options]
    environment = os.environ | {
        "RUSTC_WRAPPER": WRAPPER, "NLL_FACTS_ROOM": room, "NLL_FACTS_ASKED": " ".join(words[4:]), "CARGO_INCREMENTAL": "0",
        "CARGO_TARGET_DIR": os.path.join(known["target_directory"], TARGET),
    }
    done = subprocess.run(words, cwd=folder, env=environment, stdin=subprocess.DEVNULL, stdout=subprocess.PIPE,
                          check=False, preexec_fn=tied())
    units = units_in(room)
    show_others(done.stdout, units, is_json)
    if done.returncode != 0 and not any(unit.errors for unit in units):
        raise Refusal(f"cargo can't check {folder}: fix the errors above")
    if not units:
        raise Refusal(f"{folder} has no such package of its own: -p names packages of the project")
    left = unchecked(known, folder, packages, units) if done.returncode != 0 else []
    if left:
        print(f"{current()[0]}: no answer for {' and '.join(left)}: another crate doesn't compile, which it needs; fix that first",
              file=sys.stderr)
    return units


def find_cargo() -> str:
    cargo = shutil.which(os.environ.get("CARGO") or "cargo")
    if not cargo:
        raise Refusal("there is no cargo: install it (https://rustup.rs), or name it by the variable CARGO")
    return cargo


def metadata(cargo: str, folder: str) -> Metadata:
    """What cargo says of the project: its packages, its target folder."""
    done = subprocess.run([cargo, "metadata", "--no-deps", "--format-version=1"], cwd=folder, check=False,
                          stdin=subprocess.DEVNULL, stdout=subprocess.PIPE)
    if done.returncode != 0:
        raise Refusal(f"cargo can't read the project of {folder}: fix the errors above")
    said: Metadata = json.loads(done.stdout)
    return said


def unchecked(known: Metadata, folder: str, packages: list[str], units: list[Unit]) -> list[str]:
    """The packages that were asked for, and of which rustc has seen nothing."""
    own = [one for one in known["packages"] if os.path.samefile(os.path.dirname(one["manifest_path"]), folder)]
    members = [one for one in known["packages"] if one["id"] in known.get("workspace_default_members", known["workspace_members"])]
    asked = [one for one in known["packages"] if one["name"] in packages] if packages else own or members
    seen = {unit.crate for unit in units}
    return [one["name"] for one in asked if seen.isdisjoint(target["name"].replace("-", "_") for target in one["targets"])]


def units_in(room: str) -> list[Unit]:
    """The units whose folders are in the room, in the order of their names."""
    return [read_unit(entry.path) for entry in sorted(os.scandir(room), key=lambda entry: entry.name)
            if os.path.isfile(os.path.join(entry.path, "unit.json"))]


def show_others(stdout: bytes, units: list[Unit], is_json: bool) -> None:
    """Shows the errors that are of no unit, such as those of a dependency or a build script."""
    known = [mark_of(one) for unit in units for one in unit.diagnostics()]
    for line in stdout.splitlines():
        said: CargoMessage = json.loads(line) if line.startswith(b"{") else {}
        message = said.get("message")
        if message and message.get("level") == "error" and mark_of(message) not in known:
            print(json.dumps(message) if is_json else message["rendered"],
                  file=sys.stdout if is_json else sys.stderr)


class Mark(NamedTuple):
    """By what a diagnostic is known again that cargo hands on, perhaps without its colours."""

    message: str
    places: list[tuple[str, int, int]]


def mark_of(diagnostic: Diagnostic) -> Mark:
    return Mark(diagnostic["message"], [(span["file_name"], span["line_start"], span["column_start"])
                                        for span in diagnostic["spans"]])
