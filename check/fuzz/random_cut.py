"""Makes random texts, the words that ask for owners, and the cut files that deal them; some of these are hostile."""

import reference
import reference_text

import small_facts
import small_mir
from text_changes import change_bytes
from comparing import FILE
from text_tables import lines_of


WRONG = {name: lines_of("wrong", name) for name in ("cut", "cut_headers", "schedule", "schedule_headers")}


def small_text(rng, changed):
    """A small text of either format, so often a changed one."""
    kind = rng.choice(["facts", "facts", "crowded", "mir"])
    source = small_mir if kind == "mir" else small_facts
    text = small_facts.crowded(rng) if kind == "crowded" else source.small(rng)
    return source.mutant(rng, text) if rng.random() < changed else text


def region_count(text):
    """How many regions a text without a fault has, else None."""
    try:
        said = reference.said_in(text)
    except reference_text.Refused:
        return None
    return len(said.names() if isinstance(said, reference.Facts) else reference.Body(said).names())


def spread_words(rng, pairs):
    """The words of some options and FILE: in random order, some options one word."""
    pairs = [["=".join(pair)] if rng.random() < 0.2 else pair for pair in pairs]
    rng.shuffle(pairs)
    pairs.insert(rng.choice([0, 0, rng.randrange(len(pairs) + 1)]), [FILE])
    return sum(pairs, [])


def change_length(rng, lines):
    """Cuts the lines off, takes one out or puts some in."""
    at = rng.randrange(len(lines))
    lines[at + 1:] = rng.choice([lines[at + 2:], [b"0"] * rng.randrange(3) + lines[at + 1:], []])


def change_owner(rng, lines):
    """Puts in numbers of which most are no owner's."""
    for _ in range(rng.choice([1, 2])):
        lines[rng.randrange(1, len(lines))] = b"%d" % rng.choice([1, 63, 64, 65, 1_000, 65_535, 65_535, 65_536, 999_999_999])


CHANGES = {"length": change_length, "owner": change_owner}


def hostile(rng, lines, name, kinds):
    """The bytes of a file of these lines in which something may be wrong; None for no file. `kinds` are those of wrongs."""
    kind = rng.choice(kinds)
    if kind == "none":
        return None
    if kind == "header":
        lines[0] = rng.choice(WRONG[f"{name}_headers"])
    elif kind == "line":
        for _ in range(rng.choice([1, 1, 2, 3])):
            at = rng.randrange(1, len(lines) + 1)
            lines[at:at + rng.randrange(2)] = [rng.choice(WRONG[name])]
    elif kind in CHANGES:
        CHANGES[kind](rng, lines)
    text = b"\n".join(lines) + rng.choice([b"\n", b"\n", b"", b"\n\n", b"\nend\n" if kind == "end" else b"\n"])
    if kind == "bytes":
        for _ in range(rng.choice([1, 2])):
            text = rng.choice([change_bytes, small_facts.change_token])(rng, text)
    return text


def add_remarks(rng, lines, count, remark):
    """Puts in lines that say nothing."""
    for _ in range(count):
        lines.insert(rng.randrange(1, len(lines) + 1), rng.choice([b"", remark, b"\t\r", b" #1"]))


def cut_of(rng, regions, owners):
    """The bytes of a cut file; None for no file."""
    entries = [b"%d" % rng.randrange(owners) for _ in range(regions)]
    if rng.random() < 0.3:
        entries = [b"%d" % rng.choice([0, owners - 1])] * regions
    lines = [b"nll-cut 1", *entries]
    if rng.random() < 0.5:
        return hostile(rng, lines, "cut", ["header", "line", "line", "bytes", "length", "owner", "none", "end"])
    if rng.random() < 0.5:
        add_remarks(rng, lines, rng.randrange(4), b"# an owner")
    return b"\n".join(lines) + rng.choice([b"\n", b"\n", b""])
