"""Makes small facts texts, of both versions: random problems, and texts with small changes."""

from text_changes import byte_changes, change_bytes, change_lines, changed, line_changes, replaced, spans
from text_tables import lines_of

NUMBERS = [b"01", b"1000000000", b"4294967296", b"999999999", b"1048576", b"1048577", b"0", b"1_0"]
NAMES = [b"a", b"b", b"c", b"1", b"01", b"2", b"end", b"Static", b"_", b"a1", b"base", b"x_9"]
KEYWORDS = [b"points", b"universal", b"outlives", b"region", b"next", b"return", b"base",
            b"constraint", b"end", b"all"]
NUMBER, REGION, WORD = rb"\b\d+\b", rb"'\w+", rb"\b[a-z]+\b"
WRONG = lines_of("wrong", "facts")


def constraint_lines(rng, points, every, bases, everywhere):
    """Constraints, mostly at points that the sub-region has; in some texts many of them. So many of them as the
    last number says, from 0 to 1, hold at all points."""
    few = rng.randrange(3 * len(every))
    for _ in range(few if rng.random() < 0.6 else 8 * len(every)):
        sup, sub = rng.choice(every), rng.choice(every)
        inside = [p for _, name, p in bases if name == b"'" + sub]
        at = rng.choice(inside) if inside and rng.random() < 0.8 else rng.randrange(points)
        at = b"all" if rng.random() < everywhere else at
        yield [b"constraint", b"'" + sup, b"'" + sub, at]


def fact_lines(rng, points, universals, names, everywhere):
    """Edges, return points, base elements and constraints of a small problem, in any order."""
    every = [b"static"] + universals + names
    facts = []
    if rng.random() < 0.6:
        facts += [[b"next", p, p + 1] for p in range(points - 1)]
    facts += [[b"next", rng.randrange(points), rng.randrange(points)]
              for _ in range(rng.randrange(points + 1))]
    facts += [[b"return", rng.randrange(points)] for _ in range(rng.choice([0, 1, 1, 2, 3]))]
    bases = []
    for name in names + rng.choices(every, k=2):
        chance = rng.choice([0.0, 0.2, 0.3, 0.5, 0.9])
        bases += [[b"base", b"'" + name, p] for p in range(points) if rng.random() < chance]
    mostly = names if names and rng.random() < 0.6 else every
    facts += bases + list(constraint_lines(rng, points, mostly, bases, everywhere))
    facts += rng.choices(facts, k=rng.choice([0, 0, 3])) if facts else []
    if rng.random() < 0.8:
        rng.shuffle(facts)
    return facts


def spelled(rng, tokens, plain):
    """A line of these tokens; not plain, with other blanks between and round them."""
    words = [b"%d" % token if isinstance(token, int) else token for token in tokens]
    if plain:
        return b" ".join(words)
    blanks = [b" ", b"  ", b"\t", b" \r", b"\t "]
    line = rng.choice([b"", b"", b" ", b"\t"]) + words[0]
    for word in words[1:]:
        needs = not word.startswith(b"'")
        line += (rng.choice(blanks) if needs or rng.random() < 0.7 else b"") + word
    return line + rng.choice([b"", b"", b" ", b"\r", b" \t\r"])


def named(keyword, names):
    """A line for each name."""
    return [[keyword, b"'" + name] for name in names]


def small(rng):
    """A small text without a fault: universals, outlives facts, constraints, odd layout."""
    points = rng.choice([1, 2, 3, 4, 5, 6, 8, 10, 12, rng.randrange(55, 80)])
    names = rng.sample(NAMES, k=len(NAMES))
    universals = names[:rng.choice([0, 0, 1, 2, 2, 3, 4])]
    names = names[len(universals):len(universals) + rng.randrange(7)]
    known = [b"static"] + universals
    lines = [[b"points", points]] + named(b"universal", universals)
    lines += [[b"outlives", b"'" + rng.choice(known), b"'" + rng.choice(known)]
              for _ in range(rng.randrange(len(known) + 1))]
    lines += named(b"region", names)
    version = rng.choice([1, 1, 2])
    everywhere = rng.choice([0.0, 0.1, 0.5, 1.0]) if version == 2 else 0.0
    lines += fact_lines(rng, points, universals, names, everywhere) + [[b"end"]]
    plain = rng.random() < 0.5
    out = [spelled(rng, [b"nll-facts", version], plain)]
    skipped = [b"", b" \t", b"\r", b"#", b"# next 1 2", b" \t# \xc3\xa9 \xf0\x9f\xa6\x80", b"#\x00"]
    for tokens in lines:
        if not plain and rng.random() < 0.1:
            out.append(rng.choice(skipped))
        out.append(spelled(rng, tokens, plain))
    if not plain:
        out += rng.choices(skipped, k=rng.choice([0, 0, 1, 2]))
    return b"\n".join(out) + rng.choice([b"\n", b"\n", b""])


def crowded(rng):
    """A small text of many regions."""
    points = rng.randrange(1, 30)
    universals = [b"u%d" % i for i in range(rng.randrange(4))]
    names = [b"r%d" % i for i in range(rng.randrange(7, 100))]
    version = rng.choice([1, 1, 2])
    everywhere = rng.choice([0.1, 0.5, 1.0]) if version == 2 else 0.0
    lines = [[b"nll-facts", version], [b"points", points], *named(b"universal", universals), *named(b"region", names)]
    lines += fact_lines(rng, points, universals, names, everywhere) + [[b"end"]]
    return b"".join(spelled(rng, tokens, True) + b"\n" for tokens in lines)


def mutations(text):
    """Every text that one small change makes of a text."""
    yield from byte_changes(text)
    for pattern, pieces in ((NUMBER, NUMBERS), (REGION, [b"'static", b"'z"]), (WORD, KEYWORDS)):
        for start, end in spans(pattern, text):
            yield from (replaced(text, start, end, piece) for piece in pieces)
    yield from line_changes(text)


def change_token(rng, text):
    """Puts another number, name or keyword in the place of one."""
    pattern, pieces = rng.choice([
        (NUMBER, NUMBERS + [b"%d" % rng.randrange(20), b"all"]),
        (REGION, [b"'" + name for name in NAMES + [b"static", b"z"]]),
        (WORD, KEYWORDS),
    ])
    found = spans(pattern, text)
    if not found:
        return text
    start, end = rng.choice(found)
    return replaced(text, start, end, rng.choice(pieces))


def change_some_lines(rng, text):
    return change_lines(rng, text, WRONG)


def mutant(rng, text):
    """A text with one to three changes."""
    return changed(rng, text, 0.1, [change_bytes, change_token, change_token, change_some_lines])
