"""The grammar of MIR texts: the form of a line from its tokens, one rule a function.

Version 2 has the rules of version 1, and the types of functions, the sign `-` and `assert` lines besides.
"""

from collections import namedtuple

import reference_text as text
import reference_types as types
from reference_text import number_of

# The lines, by what stands in them. A place is its variable and its projections, each `*` or a
# number; an operand is a place, or None for `const`. A written type is a list of its nodes, in
# which parts stand before what they are parts of.
FORMS = {
    "Universal": "name", "Outlives": "sup sub", "Region": "name", "Assert": "sup sub",
    "Struct": "name parameters drop fields", "Let": "variable type", "Blocks": "count", "Block": "number",
    "Assign": "place operand", "Borrow": "place region mutable borrowed", "Make": "place type operands",
    "Read": "place", "Live": "variable", "Dead": "variable", "Nop": "",
    "Goto": "target", "Switch": "operand targets", "Drop": "variable target unwind",
    "Call": "place operands types result where target unwind", "Return": "", "Stop": "", "End": "",
}
(Universal, Outlives, Region, Assert, Struct, Let, Blocks, Block, Assign, Borrow, Make, Read, Live, Dead, Nop, Goto,
 Switch, Drop, Call, Return, Stop, End) = (namedtuple(name, parts) for name, parts in FORMS.items())
Place = namedtuple("Place", "variable projections")

STATEMENTS = (Assign, Borrow, Make, Read, Live, Dead, Nop)
TERMINATORS = (Goto, Switch, Drop, Call, Return, Stop)

# What stands behind the keyword of a line: rules, of which some give several parts; nothing, or each as it comes.
LINES = {
    "universal": (Universal, "region"), "outlives": (Outlives, "region region"), "region": (Region, "region"),
    "assert": (Assert, "clause"), "struct": (Struct, "head fields"), "let": (Let, "declared"), "blocks": (Blocks, "number"),
    "block": (Block, "block"), "read": (Read, "place"), "live": (Live, "variable"), "dead": (Dead, "variable"),
    "nop": (Nop, ""), "goto": (Goto, "block"), "switch": (Switch, "operand blocks"), "drop": (Drop, "variable targets"),
    "return": (Return, ""), "stop": (Stop, ""), "end": (End, ""),
}
SEVERAL = {"clause", "head", "declared", "targets"}


class NoForm(Exception):
    """The tokens of a line have none of the forms."""


def run(rule):
    """What a rule finds. Rules that go down are generators, so that no depth is too great."""
    under_way, found = [rule], None
    while under_way:
        try:
            under_way.append(under_way[-1].send(found))
            found = None
        except StopIteration as stop:
            under_way.pop()
            found = stop.value
    return found


class Grammar:
    """The rules of the grammar of a version, `b"1"` or `b"2"`, over the tokens of one line."""

    def __init__(self, tokens, version):
        self.tokens = tokens
        self.signs = b"+=-" if version == b"2" else b"+="
        self.has_functions = self.has_asserts = version == b"2"
        self.at = 0

    def has(self, kind, spelled=None):
        """Whether the next token is this one; then it is taken."""
        token = self.tokens[self.at] if self.at < len(self.tokens) else None
        found = token is not None and token[0] == kind and spelled in (None, token[1])
        self.at += found
        return found

    def want(self, kind, spelled=None):
        if not self.has(kind, spelled):
            raise NoForm
        return self.tokens[self.at - 1][1]

    def sign(self, spelled):
        return self.has("sign", spelled)

    def region(self):
        return self.want("region")

    def numbered(self, prefix):
        """A word that is this prefix and a number; the number."""
        word = self.want("word")
        number = number_of(word[len(prefix):])
        if not word.startswith(prefix) or number is None:
            raise NoForm
        return number

    def variable(self):
        return self.numbered(b"_")

    def block(self):
        return self.numbered(b"bb")

    def number(self):
        return self.numbered(b"")

    def name(self):
        word = self.want("word")
        if word[0] not in text.CAPITALS:
            raise NoForm
        return word

    def listed(self, rule):
        """Something once or more often, with commas between."""
        found = [rule()]
        while self.sign(b","):
            found.append(rule())
        return found

    def closed(self, rule):
        """What stands in round brackets, perhaps nothing, with commas between."""
        self.want("sign", b"(")
        if self.sign(b")"):
            return []
        found = self.listed(rule)
        self.want("sign", b")")
        return found

    # Types

    def type(self):
        nodes = []
        run(self.type_into(nodes))
        return nodes

    def type_into(self, nodes):
        """Puts the nodes of a type to those before; gives the index of its root."""
        if self.sign(b"&"):
            region, mutable = self.region(), self.has("word", b"mut")
            part = yield self.type_into(nodes)
            nodes.append(("reference", region, mutable, part))
        elif self.sign(b"("):
            parts = yield self.listed_into(nodes, self.type_into, b")")
            nodes.append(("tuple", parts))
        elif self.has("word", b"int"):
            nodes.append(("int",))
        elif self.has_functions and self.has("word", b"fn"):
            self.want("sign", b"(")
            parts = yield self.listed_into(nodes, self.type_into, b")")
            self.want("arrow")
            parts.append((yield self.type_into(nodes)))
            nodes.append(("function", parts))
        else:
            name, arguments = self.name(), []
            if self.sign(b"<"):
                arguments = yield self.listed_into(nodes, self.argument_into, b">")
            nodes.append(("named", name, arguments))
        return len(nodes) - 1

    def listed_into(self, nodes, rule, end):
        """What a rule finds, up to the bracket that closes it; only round ones may hold nothing."""
        found = []
        if end == b")" and self.sign(end):
            return found
        found.append((yield rule(nodes)))
        while self.sign(b","):
            found.append((yield rule(nodes)))
        self.want("sign", end)
        return found

    def argument_into(self, nodes):
        """An argument: whether it is a region, and the region or the index of the type."""
        if self.has("region"):
            return True, self.tokens[self.at - 1][1]
        part = yield self.type_into(nodes)
        return False, part

    # Places and operands

    def place(self):
        variable, projections = self.variable(), []
        while self.sign(b"."):
            if self.sign(b"*"):
                projections.append("*")
            else:
                projections.append(self.number())
        return Place(variable, tuple(projections))

    def operand(self):
        if self.has("word", b"const"):
            return None
        if not self.has("word", b"copy"):
            self.want("word", b"move")
        return self.place()

    def typed_operand(self):
        operand = self.operand()
        self.want("sign", b":")
        return operand, self.type()

    # Lines

    def line(self):
        form = self.form()
        if self.at < len(self.tokens):
            raise NoForm
        return form

    def form(self):
        if self.tokens[0][1].startswith(b"_"):
            return self.assignment()
        keyword = self.want("word").decode()
        if keyword not in LINES or (keyword == "assert" and not self.has_asserts):
            raise NoForm
        form, rules = LINES[keyword]
        parts = []
        for rule in rules.split():
            found = getattr(self, rule)()
            parts += found if rule in SEVERAL else [found]
        return form(*parts)

    def head(self):
        """The name of a struct, its parameters, and whether it has a drop of its own."""
        name, parameters = self.name(), []
        if self.sign(b"<"):
            parameters = self.listed(self.parameter)
            self.want("sign", b">")
        return name, parameters, self.has("word", b"drop")

    def fields(self):
        return self.closed(self.type)

    def parameter(self):
        is_region = self.has("region")
        name = self.tokens[self.at - 1][1] if is_region else self.name()
        sign = self.want("sign")
        if sign not in self.signs:
            raise NoForm
        return types.Parameter(is_region, name, sign.decode(), self.sign(b"?"))

    def declared(self):
        """A variable and its type."""
        variable = self.variable()
        self.want("sign", b":")
        return variable, self.type()

    def blocks(self):
        """Blocks up to the end of the line, one at least."""
        found = [self.block()]
        while self.at < len(self.tokens):
            found.append(self.block())
        return found

    def targets(self):
        """Where a drop or call goes on, and where it unwinds to or None."""
        self.want("arrow")
        target = self.block()
        return target, self.block() if self.has("word", b"unwind") else None

    def assignment(self):
        place = self.place()
        self.want("sign", b"=")
        if self.sign(b"&"):
            region, mutable = self.region(), self.has("word", b"mut")
            return Borrow(place, region, mutable, self.place())
        if self.has("word", b"make"):
            return Make(place, self.type(), self.closed(self.operand))
        if self.has("word", b"call"):
            return self.call(place)
        return Assign(place, self.operand())

    def call(self, place):
        self.want("word")
        arguments = self.closed(self.typed_operand)
        self.want("sign", b":")
        result, where = self.type(), []
        if self.has("word", b"where"):
            where = self.listed(self.clause)
        operands, written = [one[0] for one in arguments], [one[1] for one in arguments]
        return Call(place, operands, written, result, where, *self.targets())

    def clause(self):
        sup = self.region()
        self.want("sign", b":")
        return sup, self.region()
