"""Which crates changed since a commit, and which of them say something else to the crates above them.

A crate above another one sees the clauses of its functions, its types, constants and traits, its
definitions, and the statements that it proves; it doesn't see a function's body, nor how a goal is answered.
So a crate says something else where one of these does:

- a file of src/ without comments, without the bodies of its functions, and without imports for these alone;
- a file of specs/ without comments;
- another file of proofs/ than Answers.antt and Invariants.antt, without comments and without the proofs of
  its lemmas, which stand below their types;
- its line in crates.txt.

So none is missed; some are told without need, as where only a private function's clause changed.
"""

import collections
import os
import re
import subprocess

from crates import lines_of

TOKEN = re.compile(r"""
      (?P<comment> //[^\n]* | /\*.*?\*/ )
    | b?r(?P<marks>\#*)".*?"(?P=marks) | b?"(?:\\.|[^"\\])*" | b?'(?:\\.[^']*|[^'\\\n])'
    | \w+ | \s+ | .
""", re.X | re.S)
RUST_USE = re.compile(r"(?<!pub )\b(?:ghost )?use (?P<path>[^;{]*)(?:\{(?P<names>[^}]*)\})?;")
ANTT_USE = re.compile(r"^use (?P<path>[^\n{]*)(?:\{(?P<names>[^}]*)\})?", re.M)
KEYWORD = re.compile(r"(pub|abbrev|unfoldable|opaque|data|record|module|mod|use)\b")
CLAUSE = re.compile(r"\b(requires|ensures)\s*\*?(\s*\w+)?\s*$")
PARTS = ("src", "specs", "proofs")
EDITS = ("must-fail", "wrong-bodies")

Changes = collections.namedtuple("Changes", "crates saying edits")


def tokens_of(text):
    """The words, strings and marks of a source, without its comments; one space stands for all of it."""
    found = [" " if token["comment"] or token[0].isspace() else token[0] for token in TOKEN.finditer(text)]
    return [token for at, token in enumerate(found) if token != " " or found[at - 1:at] != [" "]]


def end_of(tokens, at, opens, closes):
    """Where what opens at a place has closed."""
    depth = 0
    for here in range(at, len(tokens)):
        depth += (tokens[here] == opens) - (tokens[here] == closes)
        if not depth:
            return here + 1
    return len(tokens)


def end_of_head(tokens, at):
    """Where the head of a function ends: at its body or at its semicolon."""
    start = at
    while at < len(tokens) and tokens[at] != ";":
        if tokens[at] in "([":
            at = end_of(tokens, at, tokens[at], ")" if tokens[at] == "(" else "]")
        elif tokens[at] != "{":
            at += 1
        elif CLAUSE.search("".join(tokens[start:at])):
            at = start = end_of(tokens, at, "{", "}")
        else:
            break
    return at


def without_bodies(text):
    """A source without comments and without the bodies of its functions."""
    tokens, at, kept = tokens_of(text), 0, []
    while at < len(tokens):
        end = at + 1
        if tokens[at] == "fn" and tokens[at + 1:at + 2] == [" "]:
            end = end_of_head(tokens, at)
        kept += tokens[at:end]
        at = end_of(tokens, end, "{", "}") if end > at + 1 and tokens[end:end + 1] == ["{"] else end
    return "".join(kept)


def without_comments(text):
    """A file of specs/ or proofs/ without the lines that are comments, and without those that are empty."""
    return "\n".join(line for line in text.splitlines() if not re.match(r"\s*(--|$)", line))


def stated(text):
    """What a file of proofs/ states: all but the proofs of its lemmas, which stand below their types."""
    items = re.split(r"\n(?=\S)", without_comments(text))
    unfolds = {word for item in items if re.match(r"(pub )?(abbrev|unfoldable)\b", item)
               for word in item.partition(":")[0].split()}
    return "\n".join(item for item in items if KEYWORD.match(item) or item.split(" ")[0] in unfolds)


def with_imports_that_count(text, use):
    """The text with those of its imported names alone that stand in the rest of it."""
    rest, kept = use.sub("", text), []
    for found in use.finditer(text):
        path, names = found["path"], found["names"] or re.split(r"[.:]", found["path"])[-1]
        for name in names.split(","):
            parts = name.split(" as ")[-1].split("◌")
            kept += [f"{path} {name.strip()}"] if all(part.strip() in rest for part in parts) else []
    return "\n".join([*sorted(kept), rest])


def said(path, text):
    """What the crates above may see of a file."""
    part = path.split("/")[2]
    if part == "src":
        return with_imports_that_count(without_bodies(text), RUST_USE)
    if os.path.basename(path) in ("Answers.antt", "Invariants.antt") and part == "proofs":
        return ""
    return with_imports_that_count(stated(text) if part == "proofs" else without_comments(text), ANTT_USE)


def git(root, *words):
    done = subprocess.run(["git", "-C", str(root), *words], stdout=subprocess.PIPE, stderr=subprocess.PIPE,
                          encoding="utf-8", errors="replace")
    return done.stdout if done.returncode == 0 else None


def text_then(root, commit, path):
    return git(root, "show", f"{commit}:{path}") or ""


def text_now(root, path):
    try:
        with open(os.path.join(root, path), encoding="utf-8", errors="replace") as file:
            return file.read()
    except FileNotFoundError:
        return ""


def changed_files(root, commit):
    """The files of the crates, and crates.txt, that aren't as they were at the commit; new ones too."""
    told = git(root, "diff", "--name-only", "--no-renames", commit, "--", "crates", "crates.txt")
    if told is None:
        raise ValueError(f"git knows no commit {commit} here")
    new = git(root, "ls-files", "--others", "--exclude-standard", "--", "crates") or ""
    return sorted({*told.split("\n"), *new.split("\n")} - {""})


def other_lines(root, commit):
    """The crates whose line in crates.txt isn't what it was."""
    then, now = lines_of(text_then(root, commit, "crates.txt")), lines_of(text_now(root, "crates.txt"))
    return {name for name, line in now.items() if then.get(name) != line}


def changes_since(root, commit):
    """The crates that changed, those of them that say something else, and those whose edits changed."""
    found = Changes(set(), set(), set())
    for path in changed_files(root, commit):
        _, crate, part = (path.split("/") + ["", ""])[:3]
        if path == "crates.txt":
            other = other_lines(root, commit)
            found.crates.update(other)
            found.saying.update(other)
        elif part in EDITS and path.endswith(".edit"):
            found.edits.add(crate)
        elif part in PARTS:
            found.crates.add(crate)
            if said(path, text_then(root, commit, path)) != said(path, text_now(root, path)):
                found.saying.add(crate)
    return found
