"""Texts at the limits of the formats, hostile ones, and long lines: each its name, the text, and its refusal, or `ok`."""

from text_tables import answered

# What is repeated in a long line, with what stands before and behind, and the refusal. A remark is skipped. Of facts none of
# the forms has such a line.
LINES = {
    b"nll-facts 1\n": {
        "signs": (b"", b"=", b"", "syntax"),
        "words": (b"", b"a ", b"", "syntax"),
        "regions": (b"", b"'a", b"", "syntax"),
        "name": (b"", b"a", b"", "syntax"),
        "blanks": (b"", b" ", b"", "end"),
        "remark": (b"", b"#", b"", "end"),
    },
    b"nll-mir 1\n": {
        "references": (b"let _0: ", b"&'static", b" int", "type size"),
        "nameless": (b"let _0: ", b"&'z", b" int", "unknown"),
        "brackets": (b"let _0: ", b"(", b"", "syntax"),
        "parts": (b"let _0: (int", b",int", b")", "type size"),
        "parameters": (b"struct S<'a+", b",'a+", b"> ()", "duplicate"),
        "projections": (b"read _0", b".0", b"", "syntax"),
        "remark": (b"#", b"#", b"", "end"),
    },
}
FACTS, MIR = LINES


def line(header, kind, mebibytes):
    """A text of this size, which is its header and one line of pieces of this kind."""
    first, piece, last, _ = LINES[header][kind]
    room = (mebibytes << 20) - len(header + first + last)
    return header + first + piece * (room // len(piece)) + b" " * (room % len(piece)) + last


def names_of_many_lengths():
    """Texts with names that differ in their last byte, about the sixteen that stand in the list of names."""
    names = [b"a" * length + last for length in (0, 14, 15, 16, 40, 1000) for last in (b"b", b"c")]
    declared = [b"region '" + name for name in names]
    types = [b"let _0: int", *[b"let _%d: &'%s int" % pair for pair in enumerate(names, 1)], b"blocks 1", b"block bb0"]
    borrows = [b"_%d = &'%s _0" % pair for pair in enumerate(names, 1)]

    def text(*lines):
        return b"\n".join([b"nll-mir 1", *lines, b"return", b"end", b""])

    yield "names_of_many_lengths", text(*declared, *types, *borrows), "ok"
    for name in names:
        again = text(*declared, b"region '" + name, *types, *borrows)
        yield f"name_of_{len(name)}_again", again, f"line {2 + len(names)}: duplicate"
    for length in (14, 15, 16, 40, 1000):
        other = text(*declared, *types, b"_1 = &'" + b"a" * length + b"d _0")
        yield f"no_name_of_{length + 1}", other, f"line {2 + len(names) + len(types)}: unknown"


def mir_limits():
    yield from answered("mir_limits")
    for kind, (_, _, _, refusal) in LINES[MIR].items():
        yield f"line_of_{kind}", line(MIR, kind, 64), f"line 2: {refusal}"
    yield from names_of_many_lengths()


def facts_limits():
    return answered("facts_limits")


def hostile():
    return answered("mir_hostile")


def costly():
    """Texts whose meaning is small, and some of those at the limits."""
    yield from answered("costly")
    yield "line_of_nameless", line(MIR, "nameless", 64), ""
    yield from (one for one in answered("mir_limits") if one[0] == "edges_at_limit")


LIMITS, HOSTILE = {"facts": facts_limits, "mir": mir_limits}, hostile
