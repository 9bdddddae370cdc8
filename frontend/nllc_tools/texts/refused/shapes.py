"""The token at which types of a line of a MIR text don't fit, or at which one is too large, and why."""

from typing import Iterable, NamedTuple, Optional, Sequence

from nllc_tools.base.sentences import plural
from nllc_tools.texts.refused.types import (INT, MOST_NODES, Named, Reader, Token, Type, nodes, nodes_in, shown, types_of,
                                            with_arguments)


class Misfit(Exception):
    """A token, and what is wrong with it."""

    def __init__(self, token: Token, why: str):
        super().__init__(why)
        self.token, self.why = token, why


class Struct(NamedTuple):
    """A struct's parameters, as they are written, and its fields."""

    parameters: list[str]
    fields: list[Type]


class Field(NamedTuple):
    """The type of a part, and the types of the parameters in it."""

    kind: Type
    arguments: dict[str, Type]

    def nodes(self) -> int:
        return nodes(self.kind, {name: nodes(one, {}) for name, one in self.arguments.items()})

    def whole(self) -> Type:
        """With the arguments in place, unless that is too large."""
        return with_arguments(self.kind, self.arguments) if self.nodes() <= MOST_NODES else self.kind


class Shapes:
    """The structs and variables that earlier lines declare."""

    def __init__(self, declared: Iterable[Sequence[Token]]):
        self.structs: dict[str, Struct] = {}
        self.variables: list[Type] = []
        for tokens in declared:
            reader = Reader(tokens, 2)
            if tokens[0][0] == "struct":
                parameters = reader.parameters()
                reader.accept("drop")
                reader.take()
                self.structs[tokens[1][0]] = Struct(parameters, reader.several(")", reader.type))
            else:
                reader.take()
                self.variables.append(reader.type())

    def judge(self, tokens: Sequence[Token]) -> None:
        """Raises the first misfit of a line that has its form, and whose names are known."""
        self.look_written(tokens)
        if tokens[0][0] not in ("struct", "let"):
            Statement(self, tokens).judge()

    def look_written(self, tokens: Sequence[Token]) -> None:
        """The types that the line writes: their sizes, and the arguments of the names in them."""
        words = [token[0] for token in tokens]
        own = Reader(tokens, 2).parameters() if words[0] == "struct" else []
        for begin, end in types_of(words):
            count = nodes_in(words[begin:end])
            if count > MOST_NODES:
                raise Misfit(tokens[begin], f"begins a type of {count:,} nodes, and a type may have {MOST_NODES:,}")
            reader = Reader(tokens, begin)
            reader.type()
            for one in reader.named:
                self.look_named(one, own)

    def look_named(self, one: Named, own: Sequence[str]) -> None:
        name, are_regions = one.token[0], one.are_regions
        wanted = [] if name in own else self.structs[name].parameters
        if are_regions != [word.startswith("'") for word in wanted]:
            takes = f"<{', '.join(wanted)}>, in this order" if wanted else "no arguments"
            counts = ((are_regions.count(True), "region"), (are_regions.count(False), "type"))
            given = " and ".join(plural(count, noun) for count, noun in counts if count)
            raise Misfit(one.token, f"takes {takes}; here it has {given or 'none'}")

    def part(self, kind: Type, step: str) -> Optional[Field]:
        """What a step leads to; None where there is no such part."""
        if step == "*":
            return Field(kind.parts[0], {}) if kind.kind in ("&", "&mut") else None
        parts = self.parts(kind) or []
        return parts[int(step)] if int(step) < len(parts) else None

    def parts(self, kind: Type) -> Optional[list[Field]]:
        """The parts of a tuple, or the fields of a struct with its arguments; None of what has no parts."""
        if kind.kind == "()":
            return [Field(part, {}) for part in kind.parts]
        struct = self.structs.get(kind.kind)
        if not struct:
            return None
        names = [name for name in struct.parameters if not name.startswith("'")]
        return [Field(field, dict(zip(names, kind.parts))) for field in struct.fields]


class Statement(Reader):
    """A statement or terminator, as its places and operands are read."""

    def __init__(self, shapes: Shapes, tokens: Sequence[Token]):
        super().__init__(tokens)
        self.shapes = shapes

    def judge(self) -> None:
        if self.accept("read"):
            self.place()
        elif self.accept("switch"):
            self.fit(self.here(), "the operand", self.operand(), INT, "what a switch takes")
        elif self.here()[0].startswith("_"):
            self.assignment()

    def assignment(self) -> None:
        target, kind = self.here(), self.place()
        self.take()
        begin = self.here()
        if self.accept("&"):
            self.take()
            word = "&mut" if self.accept("mut") else "&"
            self.fit(begin, "the borrow", Type(word, (self.place(),)), kind)
        elif self.accept("make"):
            made = self.type()
            self.makes(begin, made)
            self.fit(begin, "what is made", made, kind)
        elif self.accept("call"):
            self.call(target, kind)
        else:
            self.fit(begin, "the operand", self.operand(), kind)

    def makes(self, make: Token, made: Type) -> None:
        """The operands of a `make`, and the parts for which they are."""
        parts = self.shapes.parts(made)
        for at, part in enumerate(parts or ()):
            if part.nodes() > MOST_NODES:
                raise Misfit(make, f"makes a part {at} with a type of more than {MOST_NODES:,} nodes")
        self.take()
        operands = self.several(")", lambda: (self.here(), self.operand()))
        if parts is None or len(operands) != len(parts):
            has = "has no parts" if parts is None else f"has {len(parts)} parts"
            raise Misfit(make, f"has {len(operands)} operands, and the type {shown(made)} {has}")
        for at, ((token, kind), part) in enumerate(zip(operands, parts)):
            self.fit(token, "the operand", kind, part.whole(), f"part {at} of {shown(made)}")

    def call(self, target: Token, kind: Type) -> None:
        """The operands of a call, and the types that it says of them."""
        self.at += 2
        self.several(")", self.call_argument)
        self.take()
        self.fit(target, "the place", kind, self.type(), "the result")

    def call_argument(self) -> None:
        token, given = self.here(), self.operand()
        self.take()
        self.fit(token, "the operand", given, self.type(), "the type after it")

    def operand(self) -> Type:
        return INT if self.take()[0] == "const" else self.place()

    def place(self) -> Type:
        """The type of the place that is read next."""
        name = self.take()[0]
        kind = self.shapes.variables[int(name[1:])]
        while self.accept("."):
            step = self.take()
            found = self.shapes.part(kind, step[0])
            if found is None:
                what = "a reference" if step[0] == "*" else f"a part {step[0]}"
                raise Misfit(step, f"asks for {what}, and `{name}` is {shown(kind)}")
            if step[0] != "*" and found.nodes() > MOST_NODES:
                raise Misfit(step, f"leads to a type of {found.nodes():,} nodes, and a type may have {MOST_NODES:,}")
            name, kind = f"{name}.{step[0]}", found.whole()
        return kind

    def fit(self, token: Token, what: str, kind: Type, wanted: Type, where: str = "the place") -> None:
        if kind != wanted:
            raise Misfit(token, f"doesn't fit: {what} is of type {shown(kind)}, and {where} of {shown(wanted)}")
