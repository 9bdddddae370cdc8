#!/usr/bin/env python3
"""Makes MIR texts: small bodies, changed texts, texts at the limits, and big ones.

Every text depends on its arguments and its seed alone.

    generate_mir.py body POINTS VARIABLES [--refused] [--seed S]   a big body of many blocks
    generate_mir.py ranges POINTS VARIABLES      one block, variables with short live ranges
    generate_mir.py wide REGIONS POINTS          a variable with many regions, live everywhere
    generate_mir.py line KIND MIB                one long line after the header
    generate_mir.py random [--seed S] [--version V]   a small body, of version 1 or 2
    generate_mir.py worked --into DIR            the worked texts
    generate_mir.py mutations FILE --into DIR    each small change of a text
    generate_mir.py limits --into DIR [NAME ..]  texts at the limits of the format
    generate_mir.py hostile --into DIR [NAME ..] deep types, and types that grow without end
    generate_mir.py costly --into DIR [NAME ..]  texts that mean little and repeat what they ask

All but those with `--into` write to standard output. Where names are given, only these texts are made.
"""

import pathlib
import random
import sys

sys.path += [str(pathlib.Path(__file__).resolve().parents[1] / "reference")]

from limits import LINES, MIR, costly, hostile, line, mir_limits  # noqa: E402 (what they need is in check/reference/)
from making import main  # noqa: E402
from small_mir import VERSIONS, mutations, small  # noqa: E402
from text_tables import cases, filled, text_of  # noqa: E402

# Big bodies

FRAME = 8
HEAD, VARIABLES, FIRST, COPIED, BORROWED, LAST = (
    text_of("frames", name) for name in ("head", "variables", "first", "copied", "borrowed", "last"))


def numbered(**numbers):
    """Numbers by their names, as frames have them: the first of `v` is `v0`."""
    return {b"%s%d" % (name.encode(), at): one for name, many in numbers.items() for at, one in enumerate(many)}


def body(points, variables, refused=False, seed=1):
    """A body of about so many points and variables; a refused one ends with a block out of range.

    Blocks come in fours, each four over one frame of variables, which it defines before it uses
    them, so that no variable is live for long.
    """
    rng = random.Random(seed)
    frames = max(1, variables // FRAME)
    regions = min(65_000, 2 * FRAME * frames)
    of_frame = [rng.sample(range(regions), k=FRAME) for _ in range(frames)]
    names = [range(1 + FRAME * frame, 1 + FRAME * (frame + 1)) for frame in range(frames)]
    parts = [HEAD.replace(b"REGIONS\n", filled(b"{%d i*region 'r$i\n}" % regions))]
    parts += [VARIABLES % numbered(v=own, r=mine) for own, mine in zip(names, of_frame)]
    blocks = 4 * (points // 19)
    parts.append(b"blocks %d\n" % (blocks + 1))
    for block in range(0, blocks, 4):
        frame = rng.randrange(frames)
        mine = of_frame[frame][:4] + rng.sample(range(regions), k=4)
        form = FIRST + (COPIED if rng.random() < 0.5 else BORROWED) + LAST
        parts.append(form % numbered(b=range(block, block + 5), v=names[frame], r=mine))
    last = b"goto bb%d\n" % (blocks + 1) if refused else b"return\nend\n"
    return b"".join([*parts, b"block bb%d\n" % blocks, last])


def ranges(points, variables):
    """One block in which each variable is defined and then read three points later."""
    others = variables - 1
    return filled(b"nll-mir 1\n{%d v*region 'r$[v + 1]\n}let _0: int\n{%d v*let _$[v + 1]: &'r$[v + 1] int\n}blocks 1\n"
                  b"block bb0\n{%d p*_$[1 + p %% %d] = &'r$[1 + p %% %d] _0\nnop\nnop\nread _$[1 + p %% %d].*\n}"
                  b"return\nend\n" % (others, others, (points - 1) // 4, others, others, others))


def wide(regions, points):
    """One variable, which is live everywhere, with so many regions in its type."""
    last = regions - 1
    return filled(b"nll-mir 1\n{%d r*region 'r$r\n}struct S<{%d r*'r$r +, }'r%d +> ()\nlet _0: S<{%d r*'r$r, }'r%d>\n"
                  b"blocks 1\nblock bb0\n{%d*nop\n}return\nend\n" % (regions, last, last, last, last, points - 1))


SINGLE = {
    "body": body,
    "ranges": ranges,
    "wide": wide,
    "line": lambda kind, mebibytes: line(MIR, kind, mebibytes),
    "random": lambda seed=1, version="": small(random.Random(seed), version.encode()),
}
FOLDERS = {
    "worked": lambda: ((one.name, one.text) for one in cases("mir_worked") if one.answer in ("", "values", "check")),
    "limits": mir_limits,
    "hostile": hostile,
    "costly": costly,
}

if __name__ == "__main__":
    main(__doc__, ".mir", SINGLE, FOLDERS, mutations, kind=sorted(LINES[MIR]),
         version=[version.decode() for version in VERSIONS])
