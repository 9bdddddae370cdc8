"""Least values and faults of a problem, straight from the definitions."""

# Where a constraint holds at all points this stands in place of a point. It is below each point.
ALL = -1


def step(problem, e):
    """The elements that a step from e leads to; the end of universal i is `points + i`."""
    if e >= problem.points:
        return set()
    targets = {q for (p, q) in problem.edges if p == e}
    if e in problem.returns:
        targets |= {problem.points + i for i in range(len(problem.universals))}
    return targets


def steps_of(problem):
    """For each element those that a step from it leads to."""
    return [step(problem, e) for e in range(problem.points + len(problem.universals))]


def reach(problem, at, inside):
    """What paths from a point reach whose elements all lie in a set."""
    return reach_by(steps_of(problem), at, inside)


def reach_by(steps, at, inside):
    """The same, by the steps of the problem."""
    reached = more = {at} & inside
    while more:
        more = ({f for e in more for f in steps[e]} & inside) - reached
        reached = reached | more
    return reached


def asked_by(steps, at, inside):
    """What a constraint asks for: what paths from its point reach inside a set, or all of the set."""
    return set(inside) if at == ALL else reach_by(steps, at, inside)


def base_values(problem):
    """The values of just the base elements."""
    values = {name: set() for name in problem.names()}
    for index, name in enumerate(problem.universals):
        values[name] = set(range(problem.points)) | {problem.points + index}
    for name, p in problem.bases:
        values[name].add(p)
    return values


def solve(problem):
    """The least values: rounds over all constraints until a whole round adds nothing."""
    steps = steps_of(problem)
    values = base_values(problem)
    while True:
        before = sum(len(value) for value in values.values())
        for a, b, p in problem.constraints:
            values[a] |= asked_by(steps, p, values[b])
        if sum(len(value) for value in values.values()) == before:
            return values


def faults(problem, values):
    """The pairs of universals that hold an end and aren't known to outlive its region."""
    known = {(a, a) for a in problem.universals} | {(b"static", a) for a in problem.universals}
    known |= problem.outlives
    while True:
        more = {(a, d) for (a, b) in known for (c, d) in known if b == c}
        if more <= known:
            break
        known |= more
    ends = [(name, problem.points + index) for index, name in enumerate(problem.universals)]
    return [(a, b) for a in problem.universals for (b, end) in ends
            if end in values[a] and (a, b) not in known]
