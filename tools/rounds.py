"""Tries wrong bodies of a crate, those of different functions in one check.

A check takes longer to load what a crate stands on than to prove a function. So the edits of a crate are tried in rounds: no
two edits of a round change the same function. That says of each what a check of its own would: a function is proved of its own
text and of the contracts of what it calls. An edit is refused where a function that it changes isn't proved for its own sake;
one that only calls what isn't proved doesn't count. What a round tells nothing of is tried again, where nothing that it calls is
changed, as far as checks have told what calls what.
Edits that change what is no function are tried alone. A round in which a function fails that none of its edits changes is tried
again in halves.
"""

import collections
import contextlib
import pathlib
import re

from proving import started

FUNCTION = re.compile(r"^( *)(?:pub(?:\([a-z]+\))? )?(?:const |unsafe )*fn (\w+)")
# What `rt check` prints of a function without a proof, and of what stands in the way that isn't its own.
UNPROVED = re.compile(r"^fn (\S+): (not proved|no proof: .*)$", re.M)
OF_OTHERS = ("it calls ", "it passes ", "it waits ")
ERROR = re.compile(r"^(?:note: )?(?:\./)?((?:src|specs|proofs)/\S+?):\d+:\d+: (?!note)(.*)$", re.M)
VERDICT = re.compile(r"^logic=(proved|not-proved)\b", re.M)
NAME_GONE = re.compile(r"has no field|is not in scope|has no `|was not admitted")
DEPENDS = re.compile(r"error: \d+ declarations? that depends? on ")
GOAL, STEP, NAME, NONE = "a clause's goal", "a step of a proof file", "a missing name", "nothing"

Edit = collections.namedtuple("Edit", "crate name pairs")
Tried = collections.namedtuple("Tried", "crate edit by text")


def pairs_in(text):
    """The changes that an edit makes: the file, the text that goes, and the one that comes; lines behind a bar go on."""
    pairs, file = [], None
    for line in text.splitlines():
        rest = line.partition(":")[2]
        if line.startswith("file: "):
            file = rest.strip()
        elif line.startswith("old: "):
            pairs.append([file, rest[1:]])
        elif line.startswith("new:"):
            pairs[-1].append(rest.removeprefix(" "))
        elif line.startswith("|") and pairs:
            pairs[-1][-1] += "\n" + line[1:].removeprefix(" ")
    return tuple(map(tuple, pairs))


def read_edit(crate, path):
    """An edit with its changes."""
    path = pathlib.Path(path)
    return Edit(crate, path.stem, pairs_in(path.read_text(encoding="utf-8")))


def function_at(text, place):
    """The name of the function that a place of a laid out text lies in, or None."""
    lines, number = text.split("\n"), text.count("\n", 0, place)
    for at in range(number, -1, -1):
        head = FUNCTION.match(lines[at])
        if head:
            ends = [line for line in lines[at:number] if line == head[1] + "}"]
            return None if ends else head[2]
    return None


def module_of(crate, file):
    """The path of the module of a source."""
    words = list(pathlib.PurePosixPath(file).relative_to("src").with_suffix("").parts)
    return "::".join([crate, *(words if words != ["lib"] else [])])


def applied(edit, texts, folder):
    """The texts with an edit made in them, and the functions that it changes, None among them where something else is changed.

    Nothing where one of its texts doesn't stand there once.
    """
    texts, changed = dict(texts), set()
    for file, old, *new in edit.pairs:
        path = pathlib.Path(folder) / file
        text = texts[file] if file in texts else path.read_text(encoding="utf-8") if path.is_file() else ""
        if not new or text.count(old) != 1:
            return None
        name = function_at(text, text.index(old)) if file.startswith("src/") else None
        changed.add(name and (module_of(edit.crate, file), name))
        texts[file] = text.replace(old, new[0])
    return texts, changed


def rounds_of(edits, folder):
    """The edits in rounds, each as a dict of edits to the functions that they change; those to be tried alone come last."""
    rounds, alone = [], []
    for edit in edits:
        made = applied(edit, {}, folder)
        if made is None or None in made[1]:
            alone.append({edit: made and made[1]})
            continue
        for one in rounds:
            texts = together(one, folder)
            if made[1].isdisjoint(set().union(*one.values())) and applied(edit, texts, folder):
                one[edit] = made[1]
                break
        else:
            rounds.append({edit: made[1]})
    return rounds + alone


def together(edits, folder):
    """The texts of a crate with all of these edits made."""
    texts = {}
    for edit in edits:
        texts, _ = applied(edit, texts, folder)
    return texts


@contextlib.contextmanager
def written(texts, folder):
    """Puts these texts in the place of the files, for as long as the block lasts."""
    paths = {pathlib.Path(folder) / file: text for file, text in texts.items()}
    before = {path: path.read_text(encoding="utf-8") for path in paths}
    try:
        for path, text in paths.items():
            path.write_text(text, encoding="utf-8")
        yield
    finally:
        for path, text in before.items():
            path.write_text(text, encoding="utf-8")


def failing(printed):
    """The functions that aren't proved for their own sake, and what is said of each."""
    found = {}
    for path, said in UNPROVED.findall(printed):
        reasons = said.partition("no proof: ")[2].split("; ")
        if said == "not proved" or any(not reason.startswith(OF_OTHERS) for reason in reasons):
            found[path] = said
    return found


def calls_in(printed):
    """Which functions without a proof wait for which others."""
    found = collections.defaultdict(set)
    for path, said in UNPROVED.findall(printed):
        for reason in said.partition("no proof: ")[2].split("; "):
            if reason.startswith(OF_OTHERS):
                found[path].update(re.findall(r"`([^`]+)`", reason))
    return found


def is_of(path, function):
    """Whether a path of `rt` is that of a function of a module, or of a closure in it."""
    module, name = function
    return path.startswith(module + "::") and name in path[len(module) + 2:].split("::")


def refusal(printed, path, said):
    """What refuses an edit of a function, and the first line that tells it. A cycle of functions has its proofs in one folder."""
    place = f"proofs/{path.partition('::')[2].replace('::', '/')}/"
    own = [(file, text) for file, text in ERROR.findall(printed) if place in file or f"{place.rsplit('/', 2)[0]}/+" in file]
    if "no proof: expected answers" in said or "did not prove" in said:
        return GOAL, said
    told = [(file, text) for file, text in own if not DEPENDS.search(text)]
    if not told:
        return STEP, said
    kept = [(file, text) for file, text in told if not NAME_GONE.search(text)]
    file, text = (kept or told)[0]
    by = NAME if not kept else GOAL if file.endswith("/Answers.antt") else STEP
    return by, f"{file}: {text}"


def judged(edit, changed, printed, is_alone):
    """What a check says of an edit, or None where that is nothing."""
    found = failing(printed)
    mine = [path for path in found if is_alone or any(is_of(path, function) for function in changed)]
    if not mine:
        return None
    order = (GOAL, STEP, NAME)
    by, text = min((refusal(printed, path, found[path]) for path in mine), key=lambda it: order.index(it[0]))
    return Tried(edit.crate, edit.name, by, text)


def check(folder):
    """What `rt` prints of a crate with the edits in place."""
    with started(["rt", "check", "--jobs", "1"], folder) as running:
        return running.stdout.read()


def is_unread(printed):
    """Whether the checker couldn't read an edited text, so that it came to no goal."""
    return any(file.startswith(("src/", "specs/")) and ("error: `" not in text or NAME_GONE.search(text))
               for file, text in ERROR.findall(printed) if text.startswith("error"))


def verdict(printed):
    """What `rt check` ends with, or nothing where it didn't come to the prover."""
    ends = VERDICT.findall(printed)
    return None if is_unread(printed) else ends[-1] if ends else None


def said_alone(edit, changed, printed):
    """What a check of an edit by itself says of it."""
    if verdict(printed) == "proved":
        return Tried(edit.crate, edit.name, NONE, "NOT REFUSED: the crate is still proved with it")
    if verdict(printed) is None:
        return Tried(edit.crate, edit.name, NONE, f"BAD EDIT: it doesn't reach the prover: {printed[:300]}")
    said = [f"{file}: {text}" for file, text in ERROR.findall(printed)] or ["no function is named"]
    return judged(edit, changed, printed, True) or Tried(edit.crate, edit.name, STEP, said[0])


def halves(edits):
    """A round in two."""
    rows = [*edits.items()]
    return [dict(rows[:len(rows) // 2]), dict(rows[len(rows) // 2:])]


def below(functions, calls):
    """The paths of what these functions call, directly or not, as far as it's known."""
    found, ahead = set(), [path for path in calls if any(is_of(path, function) for function in functions)]
    while ahead:
        new = calls.get(ahead.pop(), set()) - found
        found |= new
        ahead += new
    return found


def calls_one(functions, others, calls):
    """Whether one of these functions calls one of the others."""
    return any(is_of(path, other) for path in below(functions, calls) for other in others)


def apart(edits, calls):
    """Splits a round so that no edit of a part changes what is called by the function of another one."""
    parts = []
    for edit, changed in edits.items():
        for part in parts:
            if not any(calls_one(changed, other, calls) or calls_one(other, changed, calls) for other in part.values()):
                part[edit] = changed
                break
        else:
            parts.append({edit: changed})
    return parts


def try_round(edits, folder, calls):
    """Tries edits together; gives what came of those that the check tells of, and the rounds in which the others are tried."""
    with written(together(edits, folder), folder):
        printed = check(folder)
    for path, called in calls_in(printed).items():
        calls[path] |= called
    if len(edits) == 1:
        (edit, changed), = edits.items()
        return [said_alone(edit, changed, printed)], []
    functions = set().union(*edits.values())
    # Where a function fails that none of them changes, one of them is wrong beyond its own function.
    strange = [path for path in failing(printed) if not any(is_of(path, function) for function in functions)]
    if strange or verdict(printed) != "not-proved":
        return [], halves(edits)
    found = {edit: judged(edit, changed, printed, False) for edit, changed in edits.items()}
    # Nothing may be told of a function that calls one which isn't proved.
    rest = {edit: edits[edit] for edit, it in found.items() if not it}
    return [it for it in found.values() if it], halves(rest) if len(rest) == len(edits) else [rest] if rest else []


def try_edits(edits, folder, told=lambda tried: None):
    """Tries all edits of a crate in its folder; gives what came of each, and calls `told` behind each check."""
    found, waiting, calls = [], rounds_of(edits, folder), collections.defaultdict(set)
    while waiting:
        one = waiting.pop(0)
        if len(one) > 1:
            one, *more = apart(one, calls)
            waiting = more + waiting
        if None in one.values():
            ended, again = [Tried(edit.crate, edit.name, NONE, "BAD EDIT: a text doesn't stand there once") for edit in one], []
        else:
            ended, again = try_round(one, folder, calls)
        waiting = again + waiting
        found += ended
        told(ended)
    return found
