"""Big facts texts: those to measure reading, and the families of problems on which solving is measured.

The families that nothing is drawn for stand in tables/families.table.
"""

import random

from text_tables import filled, text_of


def edge_lines(points, rng):
    """Mostly a step to the point behind, with some branches, loops back and return points."""
    for p in range(points - 1):
        roll = rng.random()
        yield b"return %d\n" % p if roll < 0.01 else b"next %d %d\n" % (p, p + 1)
        if roll > 0.86:
            yield b"next %d %d\n" % (p, min(points - 1, p + 2 + int(rng.random() * 200)))
        elif roll > 0.83:
            yield b"next %d %d\n" % (p, max(0, p - int(rng.random() * 500)))
    yield b"return %d\n" % (points - 1)


def base_lines(points, region, budget, rng):
    """Runs of neighbouring points of one region, up to a number of bytes."""
    prefix = b"base 'r%d " % region
    while True:
        start = rng.randrange(points)
        for p in range(start, min(points, start + rng.randrange(20, 400))):
            line = prefix + b"%d\n" % p
            budget -= len(line)
            if budget < 0:
                return
            yield line


def reading(mebibytes, shuffled=False, refused=False, seed=1):
    """A text of about this size; a refused one ends with a constraint at a point out of range."""
    rng = random.Random(seed)
    points = min(1_048_576, 16_384 * mebibytes)
    regions = max(1_000, 64 * mebibytes)
    last = b"constraint 'static 'static %d\n" % points if refused else b"end\n"
    head = filled(b"nll-facts 1\npoints %d\n{8 i*universal 'u$[i + 1]\n}{7 i*outlives 'u$[i + 1] 'u$[i + 2]\n}"
                  b"{%d i*region 'r$i\n}" % (points, regions))
    lines = list(edge_lines(points, rng))
    budget = (mebibytes << 20) - len(head) - sum(map(len, lines)) - len(last)
    for region in range(regions):
        share = budget // (regions - region)
        mine = list(base_lines(points, region, share, rng))
        budget -= sum(map(len, mine))
        lines += mine
    if shuffled:
        rng.shuffle(lines)
    return b"".join([head, *lines, last])


def chain(points, regions):
    """A chain of points that returns at its end; region k takes from region k - 1 at point 0."""
    return filled(b"nll-facts 1\npoints %d\nuniversal 'a\n{%d k*region 'r$k\n}{%d p*next $p $[p + 1]\n}return %d\n"
                  b"{%d p*base 'r0 $p\n}{%d k*constraint 'r$[k + 1] 'r$k 0\n}constraint 'r0 'a 0\nend\n"
                  % (points, regions, points - 1, points - 1, points, regions - 1))


def problem_text(points, universals, regions, facts, version=1):
    """A text of these numbers and of these lines of facts, over regions 'r0, 'r1 and so on."""
    lines = [b"nll-facts %d" % version, b"points %d" % points]
    lines += [b"universal 'u%d" % i for i in range(universals)]
    lines += [b"region 'r%d" % i for i in range(regions)]
    return b"\n".join(lines + list(facts) + [b"end", b""])


def steps(points):
    """A straight line of points that returns at its end."""
    yield from (b"next %d %d" % (p, p + 1) for p in range(points - 1))
    yield b"return %d" % (points - 1)


def branches(points, rng):
    """A straight line with some branches ahead and back."""
    yield from steps(points)
    for p in range(0, points - 1, 7):
        yield b"next %d %d" % (p, rng.randrange(points))


def stretches(region, points, count, most, rng):
    """Base elements of a region: so many stretches of at most so many points."""
    for _ in range(count):
        first = rng.randrange(points)
        for p in range(first, min(points, first + rng.randrange(1, most + 1))):
            yield b"base 'r%d %d" % (region, p)


def asks(sup, sub, at):
    return b"constraint 'r%d 'r%d %d" % (sup, sub, at)


def dense_family(rng, regions=300, points=1_000):
    """Each region takes from each other one."""
    facts = list(branches(points, rng))
    for region in range(regions):
        facts += stretches(region, points, 3, 20, rng)
    pairs = [(a, b) for a in range(regions) for b in range(regions) if a != b]
    facts += [asks(a, b, rng.randrange(points)) for a, b in pairs]
    return problem_text(points, 3, regions, facts)


def sparse_family(rng, regions=60_000, points=1_000_000):
    """Many regions of a few points each, over many points."""
    facts = list(steps(points))
    for region in range(regions):
        first = rng.randrange(points - 8)
        facts += [b"base 'r%d %d" % (region, p) for p in range(first, first + rng.randrange(1, 6))]
        facts.append(asks(rng.randrange(regions), region, first))
    return problem_text(points, 2, regions, facts)


def most_family(rng, regions=65_000, points=2_000, constraints=800_000, version=1):
    """Nearly as many regions and constraints as a text may have; in version 2 each of these at all points."""
    facts = list(branches(points, rng))
    for region in range(regions):
        facts += stretches(region, points, 1, 6, rng)
    for _ in range(constraints):
        sub = rng.randrange(regions)
        sup = min(regions - 1, sub + rng.randrange(40))
        facts.append(asks(sup, sub, rng.randrange(points)) if version == 1 else b"constraint 'r%d 'r%d all" % (sup, sub))
    return problem_text(points, 4, regions, facts, version)


def everywhere_family(rng):
    """`most_family` with each constraint at all points."""
    return most_family(rng, version=2)


def full_family(rng, regions=65_000, points=1_048_576, constraints=1_000_000):
    """As many points, and nearly as many regions and constraints, as a text may have. Nothing is read of a
    universal region, and of sixteen constraints one meets a point that its sub-region has."""
    facts = list(steps(points))
    bases = [rng.randrange(points) for _ in range(regions)]
    facts += [b"base 'r%d %d" % base for base in enumerate(bases)]
    for _ in range(constraints):
        sub = rng.randrange(regions)
        at = bases[sub] if rng.randrange(16) == 0 else rng.randrange(points)
        facts.append(asks(rng.randrange(regions), sub, at))
    return problem_text(points, 0, regions, facts)


def islands_family(rng, islands=4, size=64, points=500):
    """Islands of as many regions each, which tell each other nothing: in an island each region takes from each
    other one. The graph has no stretch of points to go along, so that elements come one by one. Dealt in blocks
    to as many owners as there are islands, each owner has one of them; 'static is a region of the first."""
    facts = [b"next %d %d" % (p, q) for p in range(points) for q in rng.sample(range(points), 2)]
    for island in range(islands):
        first = island * size
        names = [b"'r%d" % (number - 1) for number in range(max(1, first), first + size)]
        facts += [b"base %s %d" % (name, p) for name in names for p in range(points) if rng.random() < 0.2]
        facts += [b"constraint %s %s %d" % (sup, sub, rng.randrange(points))
                  for sup in names for sub in names if sup != sub]
    return problem_text(points, 0, islands * size - 1, facts)


DRAWN = {"dense": dense_family, "sparse": sparse_family, "most": most_family, "full": full_family,
         "islands": islands_family, "everywhere": everywhere_family}
NAMES = sorted([*DRAWN, "chain", "circle", "cycle", "ends", "joins", "points", "row", "stairs", "trickle"])


def family(name):
    """The text of a family."""
    if name in DRAWN:
        return DRAWN[name](random.Random(1))
    return text_of("families", name)
