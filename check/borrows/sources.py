"""Crates of Debian's `librust-*-dev` packages, and how rustc compiles them without cargo."""

import glob
import os
import pathlib
import subprocess
import tempfile
import tomllib
from dataclasses import dataclass, field

REGISTRY = "/usr/share/cargo/registry"
LISTED = [line.partition("|") for line in pathlib.Path(__file__).with_name("compiled.table").read_text().splitlines()[1:]]
# The features by which each crate is compiled, and the crates that it uses.
CRATES = {named.split()[0]: (named.split()[1:], uses.split()) for named, _, uses in LISTED}
# What a crate's build script would tell rustc.
CONFIGURED = {"indexmap": ["has_std"], "semver": [], "proc-macro2": ["wrap_proc_macro_disabled"]}


class Missing(Exception):
    """A crate that isn't there, or that rustc refuses."""


@dataclass
class Crate:
    """A crate's folder, and the words by which rustc compiles it beside its root."""

    name: str
    folder: str
    edition: str
    options: list[str] = field(default_factory=list)

    @property
    def root(self) -> str:
        return os.path.join("src", "lib.rs")


def crate_of(name: str, built: str) -> Crate:
    """A crate with what it uses compiled into the folder `built`."""
    folders = [folder for folder in sorted(glob.glob(os.path.join(REGISTRY, f"{name}-[0-9]*")))
               if os.path.isfile(os.path.join(folder, "src", "lib.rs"))]
    if not folders:
        raise Missing(f"{name}: apt-get install librust-{name}-dev")
    features, uses = CRATES[name]
    with open(os.path.join(folders[-1], "Cargo.toml"), "rb") as file:
        edition = tomllib.load(file)["package"].get("edition", "2015")
    options = [word for feature in features for word in ("--cfg", f'feature="{feature}"')]
    options += [word for one in CONFIGURED.get(name, ()) for word in ("--cfg", one)]
    options += ["-L", f"dependency={built}"]
    for one in uses:
        options += ["--extern", f"{one.replace('-', '_')}={compiled(crate_of(one, built), built)}"]
    return Crate(name, folders[-1], edition, options)


def compiled(crate: Crate, built: str) -> str:
    """What other crates need of a crate."""
    known_as = crate.name.replace("-", "_")
    made = os.path.join(built, f"lib{known_as}.rmeta")
    if not os.path.isfile(made):
        with tempfile.TemporaryDirectory(dir=built) as room:
            done = subprocess.run(
                ["rustc", "--crate-type=lib", f"--crate-name={known_as}", f"--edition={crate.edition}",
                 "--cap-lints=allow", "--emit=metadata", f"--out-dir={room}", *crate.options, crate.root],
                cwd=crate.folder, stdin=subprocess.DEVNULL, capture_output=True, text=True, check=False)
            if done.returncode != 0:
                raise Missing(f"{crate.name}: rustc refuses it: {done.stderr.strip().splitlines()[0]}")
            os.replace(os.path.join(room, os.path.basename(made)), made)
    return made
