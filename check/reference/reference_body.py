"""What a MIR text means, straight from the definitions: liveness by walks, constraints, tables."""

import functools

import reference_grammar as grammar
import reference_mir as mir
import reference_text as text
import reference_types as types
from reference_solve import ALL


def operands_of(form):
    """The places that a line reads as operands."""
    if isinstance(form, (grammar.Assign, grammar.Switch)):
        operands = [form.operand]
    else:
        operands = form.operands if isinstance(form, (grammar.Make, grammar.Call)) else []
    return [operand for operand in operands if operand is not None]


def uses(form):
    """The variables that a line uses."""
    places = operands_of(form)
    if isinstance(form, grammar.Borrow):
        places = places + [form.borrowed]
    if isinstance(form, grammar.Read):
        places = places + [form.place]
    elif hasattr(form, "place") and form.place.projections:
        places = places + [form.place]
    returned = {0} if isinstance(form, grammar.Return) else set()
    return {place.variable for place in places} | returned


def defines(form):
    """The variables that a line defines: one at most."""
    if isinstance(form, (grammar.Live, grammar.Dead)):
        return {form.variable}
    is_target = hasattr(form, "place") and not isinstance(form, grammar.Read)
    return {form.place.variable} if is_target and not form.place.projections else set()


def drops(form):
    """The variables that a line drops: one at most."""
    return {form.variable} if isinstance(form, grammar.Drop) else set()


class Body:
    """The body of a text that was read, and its problem."""

    def __init__(self, said):
        self.said = said
        self.points = len(said.points)
        self.universals = said.universals
        self.outlives = said.outlives
        self.edges = {(p, q) for p in range(self.points) for q in self.successors(p)}
        self.returns = {p for p in range(self.points) if isinstance(self.form(p), grammar.Return)}

    def names(self):
        return self.universals + self.said.further

    def label(self, p):
        block, index, _ = self.said.points[p]
        return b"bb%d/%d" % (block, index)

    def form(self, p):
        return self.said.points[p][2]

    def successors(self, p):
        """Where a point goes on, in the order of the text."""
        if isinstance(self.form(p), grammar.STATEMENTS):
            return [p + 1]
        return [self.said.firsts[block] for block in mir.targets_of(self.form(p))]

    # Liveness

    def is_live(self, x, p, what):
        """Whether a walk leads from p to a use (drop) of x, with no definition before its end."""
        seen, left = set(), [p]
        while left:
            q = left.pop()
            if q in seen:
                continue
            seen.add(q)
            if x in what(self.form(q)):
                return True
            if x not in defines(self.form(q)):
                left += self.successors(q)
        return False

    def live(self, what):
        """The pairs of a variable and a point where it is live."""
        variables = range(len(self.said.variables))
        mentioned = {x for p in range(self.points) for x in what(self.form(p))}
        return {(x, p) for x in variables if x in mentioned
                for p in range(self.points) if self.is_live(x, p, what)}

    @functools.cached_property
    def bases(self):
        """The pairs of a region and a point where it is in the type of a live variable."""
        of = self.said.variables
        found = {(r, p) for x, p in self.live(uses) for r in types.regions_in(of[x])}
        dropped = {x for p in range(self.points) for x in drops(self.form(p))}
        regions = {x: types.drop_regions(self.said.structs, of[x]) for x in dropped}
        return found | {(r, p) for x, p in self.live(drops) for r in regions[x]}

    # Constraints

    def type_of(self, operand):
        return types.INT if operand is None else self.said.place_type(set(), operand)

    def reborrows(self, region, place):
        """The pairs that a borrow of this region asks: those of its supporting dereferences."""
        before = [self.said.variables[place.variable]]
        for projection in place.projections:
            before.append(types.behind(self.said.structs, before[-1], projection))
        dereferences = [t for t, projection in zip(before, place.projections) if projection == "*"]
        return {(t.regions[0], region) for at, t in enumerate(dereferences)
                if all(behind.mutable for behind in dereferences[at + 1:])}

    def wants(self, t, u):
        return types.wants(self.said.structs, t, u)

    def written(self, nodes):
        return self.said.written(set(), nodes)

    def asks(self, form):
        """The pairs of regions that a line asks at each successor."""
        if isinstance(form, grammar.Assign):
            return self.wants(self.type_of(form.operand), self.type_of(form.place))
        if isinstance(form, grammar.Borrow):
            made = mir.reference_to(form, self.type_of(form.borrowed))
            pairs = self.wants(made, self.type_of(form.place))
            return pairs | self.reborrows(form.region, form.borrowed)
        if isinstance(form, grammar.Make):
            made = self.written(form.type)
            pairs = self.wants(made, self.type_of(form.place))
            for operand, part in zip(form.operands, types.parts_of(self.said.structs, made)):
                pairs |= self.wants(self.type_of(operand), part)
            return pairs
        if isinstance(form, grammar.Call):
            pairs = self.wants(self.written(form.result), self.type_of(form.place))
            for operand, nodes in zip(form.operands, form.types):
                pairs |= self.wants(self.type_of(operand), self.written(nodes))
            return pairs | set(form.where)
        return set()

    @functools.cached_property
    def constraints(self):
        """The constraints as a set; raises where they are too many."""
        found = {(a, b, q) for p in range(self.points) for (a, b) in self.asks(self.form(p))
                 for q in self.successors(p)}
        found |= {(a, b, ALL) for a, b in self.said.asserts}
        if len(found) > text.LIMIT_CONSTRAINTS:
            raise text.Refused("nllc: limit constraints")
        return found

    # The tables

    def table(self):
        """A line for each point: where it goes on, and what it uses, defines, drops and asks."""
        use_live, drop_live = self.live(uses), self.live(drops)
        for p in range(self.points):
            form = self.form(p)
            columns = [
                (b"next", [self.label(q) for q in sorted(self.successors(p))]),
                (b"uses", variables(uses(form))),
                (b"defines", variables(defines(form))),
                (b"drops", variables(drops(form))),
                (b"use-live", variables(x for x, q in use_live if q == p)),
                (b"drop-live", variables(x for x, q in drop_live if q == p)),
                (b"asks", [b"'%s: '%s" % pair for pair in sorted(self.asks(form), key=self.order)]),
            ]
            kind = type(form).__name__.lower().encode()
            yield self.label(p) + b" " + kind + b"".join(
                b"; " + name + b" " + b", ".join(items) for name, items in columns if items) + b"\n"

    def order(self, pair):
        names = self.names()
        return names.index(pair[0]), names.index(pair[1])


def variables(numbers):
    return [b"_%d" % number for number in sorted(numbers)]
