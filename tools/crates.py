"""The crates of the repository as crates.txt lists them, and which stand on which."""

import os
import re


def lines_of(text):
    """What stands on the line of each crate of a crates.txt."""
    rows = [row.partition("#")[0].strip() for row in text.splitlines()]
    return {row.partition(":")[0].split()[0]: row for row in rows if row}


def uses_of(root):
    """For each crate, in the order of crates.txt, those of the repository that it uses."""
    with open(os.path.join(root, "crates.txt"), encoding="utf-8") as file:
        lines = lines_of(file.read())
    return {name: [it for it in row.partition(":")[2].split() if it in lines] for name, row in lines.items()}


def layers_of(root):
    """The headings of crates.txt, each with what it says behind a colon, or None, and its crates."""
    found = []
    with open(os.path.join(root, "crates.txt"), encoding="utf-8") as file:
        for line in file.read().splitlines():
            heading = re.match(r"# ---- ([^:]*)(?:: (.*))?$", line)
            if heading:
                found.append((heading[1], heading[2], []))
            elif line and not line.startswith("#"):
                found[-1][2].append(re.split("[: ]", line)[0])
    return found


def below(uses, name):
    """The crates below one, each after those that it uses."""
    found = []
    for used in uses[name]:
        found += [it for it in [*below(uses, used), used] if it not in found]
    return found


def above(uses, names):
    """The crates that stand on one of these, lowest first."""
    found = [name for name in uses if set(names) & set(below(uses, name))]
    return sorted(found, key=lambda name: len(below(uses, name)))


def files_in(folder, ending):
    """The paths of a folder's files with this ending, deep ones too, sorted."""
    return sorted(os.path.join(at, name) for at, _, names in os.walk(folder)
                  for name in names if name.endswith(ending))


def has_tests(root, name):
    """Whether a source of the crate has a test function."""
    for path in files_in(os.path.join(root, "crates", name, "src"), ".rt"):
        with open(path, encoding="utf-8") as file:
            if re.search(r"#\[test\]", file.read()):
                return True
    return False


def edits_in(root, name, folder):
    """The edits in one of the crate's folders of edits, in the order in which they are tried."""
    return files_in(os.path.join(root, "crates", name, folder), ".edit")
