"""A slow reader of MIR texts (versions 1 and 2), written straight from the definitions.

All kinds of fault of a line are gathered, and the first in the order of kinds is told.
"""

import sys

import reference_text as text
import reference_types as types
from reference_grammar import (
    STATEMENTS, TERMINATORS, Assert, Block, Blocks, Call, Drop, End, Goto, Grammar, Let, NoForm, Outlives,
    Region, Struct, Switch, Universal)
from reference_text import tokens_of

# Types that fit are at most 4,096 deep, and some functions go down one part after the other.
sys.setrecursionlimit(100_000)

# The groups of lines, in their order.
UNIVERSAL, OUTLIVES, REGION, ASSERT, STRUCT, LET, BLOCKS, BODY, END = range(1, 10)

GROUPS = {Universal: UNIVERSAL, Outlives: OUTLIVES, Region: REGION, Assert: ASSERT, Struct: STRUCT, Let: LET,
          Blocks: BLOCKS, Block: BODY, End: END}
GROUPS |= {form: BODY for form in STATEMENTS + TERMINATORS}


def targets_of(form):
    """The blocks to which a terminator goes, in the order of the text, each once."""
    if isinstance(form, Switch):
        return list(dict.fromkeys(form.targets))
    if isinstance(form, Goto):
        return [form.target]
    if isinstance(form, (Drop, Call)):
        return [block for block in dict.fromkeys([form.target, form.unwind]) if block is not None]
    return []


class Mir:
    """What the lines so far said."""

    HEADER = b"nll-mir"
    VERSIONS = (b"1", b"2")

    def __init__(self, version):
        types.forget_all()
        self.version = version
        self.reached = 0
        self.universals = [b"static"]
        self.further = []
        self.regions = {b"static"}
        self.outlives = set()
        self.asserts = set()
        self.structs = {}
        self.variables = []
        self.blocks = 0
        # For each block begun its first point; for each point its block, index and form.
        self.firsts = []
        self.points = []
        self.is_open = False
        self.edges = 0

    def form_of(self, line):
        """The form of a line, or None where it has none."""
        tokens = tokens_of(line)
        if not tokens:
            return None
        try:
            return Grammar(tokens, self.version).line()
        except NoForm:
            return None

    def ends(self, form):
        """Whether a line of this form, or one before it, is the last of a text."""
        return self.reached == END or isinstance(form, End)

    def in_order(self, form):
        """Whether a line of this form may stand here."""
        group = GROUPS[type(form)]
        if group < self.reached or (group == self.reached and group in (BLOCKS, END)):
            return False
        if (group >= BLOCKS and not self.variables) or (group > BLOCKS and self.blocks == 0):
            return False
        return self.is_open == isinstance(form, STATEMENTS + TERMINATORS)

    def faults(self, form):
        """All kinds of fault of a line of this form, in no order."""
        kinds = set()
        if not self.in_order(form):
            kinds.add("syntax")
        getattr(self, "faults_" + type(form).__name__.lower())(kinds, form)
        if isinstance(form, STATEMENTS + TERMINATORS):
            self.faults_point(kinds, form)
        return kinds

    # Regions, structs, variables

    def faults_universal(self, kinds, form):
        self.faults_region(kinds, form)
        if form.name not in self.regions and len(self.universals) + 1 > text.LIMIT_UNIVERSALS:
            kinds.add("limit universals")

    def faults_outlives(self, kinds, form):
        if not set(form) <= (set(self.universals) if isinstance(form, Outlives) else self.regions):
            kinds.add("unknown")

    faults_assert = faults_outlives

    def faults_region(self, kinds, form):
        if form.name in self.regions:
            kinds.add("duplicate")
        elif len(self.regions) + 1 > text.LIMIT_REGIONS:
            kinds.add("limit regions")

    def faults_struct(self, kinds, form):
        regions, names = parameters_of(form)
        for declared in (regions, [*self.structs, form.name, *names]):
            if len(set(declared)) < len(declared):
                kinds.add("duplicate")
        for field in form.fields:
            self.judged(kinds, field, regions, names)
        if len(self.structs) + 1 > text.LIMIT_STRUCTS:
            kinds.add("limit structs")

    def faults_let(self, kinds, form):
        if form.variable != len(self.variables):
            kinds.add("range")
        self.written(kinds, form.type)
        if len(self.variables) + 1 > text.LIMIT_VARIABLES:
            kinds.add("limit variables")

    # Types

    def written(self, kinds, nodes):
        """The type that is written in a line of the body; None where it has a fault."""
        return self.judged(kinds, nodes, self.regions, set())

    def judged(self, kinds, nodes, regions, parameters):
        """The type of a list of nodes; None where it has a fault of its own."""
        made = []
        for node in nodes:
            made.append(self.node(kinds, node, made, regions, parameters))
        if made[-1] is not None and made[-1].nodes > text.LIMIT_NODES:
            kinds.add("type size")
        return made[-1]

    def node(self, kinds, node, made, regions, parameters):
        """The type of one node whose parts are made; None where it or a part has a fault."""
        form = node[0]
        if form == "int":
            return types.INT
        if form == "reference":
            _, region, mutable, part = node
            if region not in regions:
                kinds.add("unknown")
            return made[part] and types.make("reference", None, mutable, (region,), (made[part],))
        if form in ("tuple", "function"):
            parts = [made[part] for part in node[1]]
            return None if None in parts else types.make(form, parts=tuple(parts))
        _, name, arguments = node
        kinds |= {"unknown" for is_region, name in arguments if is_region and name not in regions}
        return self.named(kinds, name, arguments, made, parameters)

    def named(self, kinds, name, arguments, made, parameters):
        """The type of a use of a struct or of a type parameter; None where it has a fault."""
        if name not in self.structs and name not in parameters:
            kinds.add("unknown")
            return None
        wanted = [] if name in parameters else self.structs[name].parameters
        if [p.is_region for p in wanted] != [is_region for is_region, _ in arguments]:
            kinds.add("shape")
            return None
        if name in parameters:
            return types.make("parameter", name)
        regions = tuple([region for is_region, region in arguments if is_region])
        parts = [made[part] for is_region, part in arguments if not is_region]
        return None if None in parts else types.make("struct", name, False, regions, tuple(parts))

    def place_type(self, kinds, place):
        """The type of a place; None where it has a fault. The type of each prefix is limited."""
        if place.variable >= len(self.variables):
            kinds.add("unknown")
            return None
        t = self.variables[place.variable]
        for projection in place.projections:
            t = types.behind(self.structs, t, projection)
            if t is None:
                kinds.add("shape")
                return None
            if t.nodes > text.LIMIT_NODES:
                kinds.add("type size")
        return t

    def operand_type(self, kinds, operand):
        return types.INT if operand is None else self.place_type(kinds, operand)

    def same(self, kinds, t, u):
        """Asks that two types are equal when regions are forgotten."""
        if t is not None and u is not None and t.erased is not u.erased:
            kinds.add("shape")

    # Blocks and points

    def faults_blocks(self, kinds, form):
        if form.count == 0:
            kinds.add("range")
        if form.count > text.LIMIT_POINTS:
            kinds.add("limit points")

    def faults_block(self, kinds, form):
        if form.number != len(self.firsts) or form.number >= self.blocks:
            kinds.add("range")

    def faults_end(self, kinds, form):
        if len(self.firsts) < self.blocks:
            kinds.add("range")

    def faults_point(self, kinds, form):
        """The faults that each statement and terminator may have."""
        if any(target >= self.blocks for target in targets_of(form)):
            kinds.add("range")
        if len(self.points) + 1 > text.LIMIT_POINTS:
            kinds.add("limit points")
        more = 1 if isinstance(form, STATEMENTS) else len(targets_of(form))
        if self.edges + more > text.LIMIT_EDGES:
            kinds.add("limit edges")

    def faults_assign(self, kinds, form):
        self.same(kinds, self.operand_type(kinds, form.operand), self.place_type(kinds, form.place))

    def faults_borrow(self, kinds, form):
        if form.region not in self.regions:
            kinds.add("unknown")
        target, borrowed = self.place_type(kinds, form.place), self.place_type(kinds, form.borrowed)
        if borrowed is not None:
            self.same(kinds, reference_to(form, borrowed), target)

    def faults_make(self, kinds, form):
        target, t = self.place_type(kinds, form.place), self.written(kinds, form.type)
        operands = [self.operand_type(kinds, operand) for operand in form.operands]
        self.same(kinds, t, target)
        parts = None if t is None else types.parts_of(self.structs, t)
        if t is not None and (parts is None or len(parts) != len(operands)):
            kinds.add("shape")
        for operand, part in zip(operands, parts or []):
            self.same(kinds, operand, part)
        if any(part.nodes > text.LIMIT_NODES for part in parts or []):
            kinds.add("type size")

    def faults_read(self, kinds, form):
        self.place_type(kinds, form.place)

    def faults_variable(self, kinds, form):
        if form.variable >= len(self.variables):
            kinds.add("unknown")

    faults_live = faults_dead = faults_drop = faults_variable

    def faults_nop(self, kinds, form):
        """A line of this form has no fault of its own."""

    faults_goto = faults_return = faults_stop = faults_nop

    def faults_switch(self, kinds, form):
        self.same(kinds, self.operand_type(kinds, form.operand), types.INT)

    def faults_call(self, kinds, form):
        for operand, nodes in zip(form.operands, form.types):
            self.same(kinds, self.operand_type(kinds, operand), self.written(kinds, nodes))
        self.same(kinds, self.written(kinds, form.result), self.place_type(kinds, form.place))
        if any(region not in self.regions for clause in form.where for region in clause):
            kinds.add("unknown")

    # What is said

    def add(self, form):
        """Adds what a line without a fault says."""
        self.reached = GROUPS[type(form)]
        if isinstance(form, (Universal, Region)):
            (self.universals if isinstance(form, Universal) else self.further).append(form.name)
            self.regions.add(form.name)
        elif isinstance(form, Outlives):
            self.outlives.add(tuple(form))
        elif isinstance(form, Assert):
            self.asserts.add(tuple(form))
        elif isinstance(form, Struct):
            self.add_struct(form)
        elif isinstance(form, Let):
            self.variables.append(self.written(set(), form.type))
        elif isinstance(form, Blocks):
            self.blocks = form.count
        elif isinstance(form, Block):
            self.firsts.append(len(self.points))
            self.is_open = True
        elif not isinstance(form, End):
            self.add_point(form)

    def add_struct(self, form):
        fields = [self.judged(set(), field, *parameters_of(form)) for field in form.fields]
        self.structs[form.name] = types.Struct(form.parameters, form.drop, fields)

    def add_point(self, form):
        block = len(self.firsts) - 1
        self.points.append((block, len(self.points) - self.firsts[block], form))
        self.edges += 1 if isinstance(form, STATEMENTS) else len(targets_of(form))
        self.is_open = isinstance(form, STATEMENTS)


def parameters_of(struct):
    """The regions that a struct's fields may name, and its type parameters."""
    return ([b"static"] + [p.name for p in struct.parameters if p.is_region],
            [p.name for p in struct.parameters if not p.is_region])


def reference_to(form, borrowed):
    """The type of the reference that a borrow of a place of this type makes."""
    return types.make("reference", None, form.mutable, (form.region,), (borrowed,))
