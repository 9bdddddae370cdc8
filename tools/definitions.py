#!/usr/bin/env python3
"""The definitions of specs/, with their comments.

    tools/definitions.py                        every definition with its comment, crate by crate
    tools/definitions.py CRATE | FILE ..        those of a crate (nll_problem), or of a file of specs/ (Solution)
    tools/definitions.py NAME ..                each definition of this name, whole
    tools/definitions.py --of CRATE FUNCTION    what the contract of a function rests on, and how many lines that is

`--of` begins with the words of the function's clauses (`solve`, `Frontier::grow`) and follows each to the
definition that its file brings in, and so on. It counts the lines of these definitions, without comments, empty
lines, imports and heads of modules. What the code's own types and the kit's library define is not counted.
"""

import argparse
import collections
import functools
import pathlib
import re
import signal
import sys

ROOT = pathlib.Path(__file__).resolve().parents[1]
# Files are as `rt fmt` lays them out: comments (no headings), then what a line begins, which ends at a line that is
# indented less, or as much and begins something else.
BLOCK = re.compile(r"((?:^ *--(?! ----).*\n)*)^( *)((?:abbrev |mutual$|module |pub record |pub data ).*\n"
                   r"(?:(?:\2(?!--|abbrev |mutual$|module |pub |use |\S+ :\s).*)?\n)*)", re.M)
NAME = r"(?:abbrev )?(?:pub )?(?:record |data )?([^\s:(\[{]+)"
USE = re.compile(r"^\s*(pub )?(?:ghost )?use Rattle\.((?!std\.)\w+)\.specs\.([\w.]+?)(?:\.\{([^}]*)\}| as (\w+)|);?$", re.M)
TOKEN = re.compile(r"[^\s(){}\[\],;]+")
WITHOUT_DEFINITIONS = ("_tests", "nll_worked")

Definition = collections.namedtuple("Definition", "crate file names modules comment text")


def definitions_in(crate, file, text, modules=""):
    """The definitions of a text, in its order, with the heads of modules they stand in; a mutual block is one."""
    for comment, deep, block in BLOCK.findall(text):
        head, _, body = block.partition(" where\n")
        if block.startswith("module "):
            yield from definitions_in(crate, file, body, f"{modules}{deep}{head} where\n")
            continue
        is_mutual = block.split("\n", 1)[0].endswith("mutual")
        names = re.findall(rf"^{deep}  (?=pub ){NAME}" if is_mutual else rf"\A{NAME}", block, re.M)
        yield Definition(crate, file, tuple(names), modules.rstrip(), comment.rstrip(), f"{deep}{block}".rstrip())


@functools.lru_cache
def all_definitions(root=ROOT):
    crates = [line.partition("#")[0].split(":")[0].split() for line in (root / "crates.txt").read_text().splitlines()]
    return [one for crate in crates if crate and not crate[0].endswith(WITHOUT_DEFINITIONS)
            for path in sorted((root / "crates" / crate[0] / "specs").glob("*.antt")) if path.stem != "Lib"
            for one in definitions_in(crate[0], path.stem, path.read_text())]


def brought_in(text):
    """What each name means that a text brings in: its crate, its file, and its name there (None for a file)."""
    found = {}
    for _, crate, file, names, alias in USE.findall(text):
        for name in re.split(r",\s*", names.strip()) if names else ():
            name, _, here = name.partition(" as ")
            found[here or name] = (crate, file, name)
        if not names:
            found[alias or file.rpartition(".")[2]] = (crate, file, None)
    return found


def constructors(one):
    """The names of the cases of a type."""
    return re.findall(r"^ +([^\s:(\[{]+) :", one.text, re.M) if "data " in one.text else []


@functools.lru_cache
def known(root, crate, file):
    """The names of a file: its own definitions, and what it brings in."""
    path = root / "crates" / crate / "specs" / f"{file}.antt"
    if not path.exists():
        return {}
    own = {name: one for one in all_definitions(root) if (one.crate, one.file) == (crate, file)
           for name in [*one.names, *constructors(one)]}
    return {**brought_in(path.read_text()), **own}


def meant(root, names, token):
    """The definition that a token means where these names are brought in, or None."""
    first, _, rest = token.partition(".")
    found = names.get(first)
    while isinstance(found, tuple) and not isinstance(found, Definition):
        crate, file, name = found
        name = name or rest.partition(".")[0]
        found = known(root, crate, file).get(name)
    return found


def without_comments(text):
    return [line for line in re.sub(r"--.*", "", text).split("\n") if line.strip()]


def is_end(text):
    """Whether a function's signature and clauses end here: at its body, or at the `;` of a trait's function."""
    last = text.split("\n")[-1]
    is_balanced = text.count("{") == text.count("}")
    return last.strip() in ("{", "{}") or is_balanced and last.endswith(";") or text == last and last.endswith(" {")


def contract_of(root, crate, function):
    """A function's signature with its clauses, and the text of its file; two times None where there is none."""
    kind, _, name = function.rpartition("::")
    block = re.compile(rf"(?:pub )?(?:impl|trait)\b.*\b{kind}\b")
    head = re.compile(rf"{'    ' if kind else ''}(?:pub )?fn {name}\b")
    for path in sorted((root / "crates" / crate / "src").rglob("*.rt")):
        lines, is_inside = path.read_text().split("\n"), not kind
        for at, line in enumerate(lines):
            is_inside = not kind or bool(block.match(line)) or is_inside and line != "}"
            if is_inside and head.match(line):
                end = next(to for to in range(at, len(lines)) if is_end("\n".join(lines[at:to + 1])))
                return "\n".join(lines[at:end + 1]), path.read_text()
    return None, None


def rests_on(root, crate, function):
    """The definitions that a function's contract rests on, in the order of the crates."""
    contract, text = contract_of(root, crate, function)
    if contract is None:
        return None
    names, found = brought_in(text), set()
    todo = [meant(root, names, token) for line in without_comments(contract) for token in TOKEN.findall(line)]
    while todo:
        one = todo.pop()
        if one is None or one in found:
            continue
        found.add(one)
        names = known(root, one.crate, one.file)
        todo += [meant(root, names, token) for line in without_comments(one.modules + one.text)
                 for token in TOKEN.findall(line)]
    return [one for one in all_definitions(root) if one in found]


def show_short(one):
    comment = " ".join(line.lstrip("- ") for line in one.comment.split("\n"))
    return f"{one.crate} {one.file}.{', '.join(one.names)}: {comment}"


def show_rests(found):
    files = collections.defaultdict(list)
    for one in found:
        files[one.crate, one.file].append(one)
    for (crate, file), some in files.items():
        count = sum(len(without_comments(one.text)) for one in some)
        yield f"{crate} {file}: {', '.join(name for one in some for name in one.names)} ({count} lines)"
    yield (f"{len(found)} definitions in {len(files)} files, "
           f"{sum(len(without_comments(one.text)) for one in found)} lines")


def main(words, root=ROOT):
    parser = argparse.ArgumentParser(description="Prints definitions of specs/ with their comments.")
    parser.add_argument("--of", nargs=2, metavar=("CRATE", "FUNCTION"), help="what a function's contract rests on")
    parser.add_argument("names", nargs="*", metavar="CRATE|FILE|NAME")
    asked = parser.parse_args(words)
    if asked.of:
        found = rests_on(root, *asked.of)
        if found is None:
            print(f"no function {asked.of[1]} in {asked.of[0]}", file=sys.stderr)
            return 2
        print(*show_rests(found), sep="\n")
        return 0
    for word in asked.names or [""]:
        many = [one for one in all_definitions(root) if word in ("", one.crate, one.file)]
        single = [one for one in all_definitions(root) if word in one.names]
        for one in single:
            print(f"-- {one.crate}, specs/{one.file}.antt", *filter(None, one[3:]), sep="\n", end="\n\n")
        print(*map(show_short, many if not single else ()), sep="\n", end="\n" if many and not single else "")
        if not many and not single:
            print(f"nothing is named {word}: no crate, no file of specs/ and no definition", file=sys.stderr)
            return 2
    return 0


if __name__ == "__main__":
    signal.signal(signal.SIGPIPE, signal.SIG_DFL)    # a reader such as `head` may stop early
    sys.exit(main(sys.argv[1:]))
