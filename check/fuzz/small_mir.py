"""Makes small MIR texts, of both versions: random bodies, and texts with small changes."""

import re

import reference_types as types

from text_changes import byte_changes, change_bytes, change_lines, changed, line_changes, replaced, spans
from text_tables import lines_of

NAMES = [b"a", b"b", b"c", b"1", b"01", b"2", b"end", b"Static", b"_", b"a1", b"mut", b"x_9"]
STRUCTS = [b"W", b"V", b"P", b"T1", b"Mut"]
PARAMETERS = [b"T", b"U", b"X_", b"Int"]
VERSIONS = [b"1", b"2"]
TOKEN = rb"->|'?\w+|[^\w\s]"


# Small bodies

class Small:
    """A small body, which mostly has no fault: its lines grow one after the other."""

    def __init__(self, rng, version):
        types.forget_all()
        self.rng = rng
        self.version = version
        self.has_functions = version == b"2"
        names = rng.sample(NAMES, k=len(NAMES))
        universals = names[:rng.choice([0, 0, 1, 2, 2, 3])]
        self.universals = [b"static"] + universals
        self.regions = self.universals + names[len(universals):][:rng.randrange(1, 8)]
        self.structs = {}
        self.variables = []
        self.lines = []
        # So often a line of the body is of a kind and of places taken at random.
        self.sloppy = rng.choice([0.0, 0.0, 0.0, 0.02, 0.1])
        # Whether the body hardly does more than drop, so that nothing else is live.
        self.only_drops = rng.random() < 0.25

    def text(self):
        rng = self.rng
        self.lines += [b"universal '" + name for name in self.universals[1:]]
        for _ in range(rng.randrange(len(self.universals) + 1)):
            pair = rng.choice(self.universals), rng.choice(self.universals)
            self.lines.append(b"outlives '%s '%s" % pair)
        self.lines += [b"region '" + name for name in self.regions[len(self.universals):]]
        for _ in range(rng.choice([0, 0, 1, 2, 3]) if self.version == b"2" else 0):
            self.lines.append(b"assert '%s : '%s" % (rng.choice(self.regions), rng.choice(self.regions)))
        count = rng.choice([3, 4, 5] if self.only_drops else [0, 1, 2, 2, 3, 4])
        for name in rng.sample(STRUCTS, k=count):
            self.struct(name)
        self.declare_variables()
        blocks = rng.choice([3, 4, 6] if self.only_drops else [1, 1, 2, 3, 4, 6, 9])
        self.lines.append(b"blocks %d" % blocks)
        for number in range(blocks):
            self.lines.append(b"block bb%d" % number)
            for _ in range(rng.choice([0, 1, 1, 2, 3, 5, 8])):
                self.lines.append(self.statement())
            self.lines.append(self.terminator(blocks, number == blocks - 1))
        return self.laid_out([b"nll-mir " + self.version] + self.lines + [b"end"])

    def laid_out(self, lines):
        rng = self.rng
        plain = rng.random() < 0.6
        skipped = [b"", b" \t", b"\r", b"#", b"# _1 = const", b" \t# \xc3\xa9 \xf0\x9f\xa6\x80",
                   b"#\x00"]
        out = []
        for number, one in enumerate(lines):
            if number > 0 and not plain and rng.random() < 0.1:
                out.append(rng.choice(skipped))
            out.append(one if plain or number == 0 else self.spelled(one))
        return b"\n".join(out) + rng.choice([b"\n", b"\n", b"", b"\n#"])

    def spelled(self, one):
        """The line with other blanks between and round its tokens."""
        blanks = [b"", b"", b" ", b"  ", b"\t", b" \r"]
        out = self.rng.choice(blanks)
        for token in re.findall(TOKEN, one):
            one_word = is_word(out[-1:]) and is_word(token[:1])
            one_arrow = out.endswith(b"-") and token == b">"
            out += self.rng.choice(blanks[2:] if one_word or one_arrow else blanks) + token
        return out + self.rng.choice(blanks)

    # Types

    def type(self, depth, regions, parameters):
        """A type of the structs so far, over these regions and type parameters."""
        rng = self.rng
        kind = rng.random() if depth > 0 else 0.0
        if kind < 0.3:
            if parameters and rng.random() < 0.7:
                return types.make("parameter", rng.choice(parameters))
            return types.INT
        if kind < 0.6:
            part = self.type(depth - 1, regions, parameters)
            region = (rng.choice(regions),)
            return types.make("reference", None, rng.random() < 0.5, region, (part,))
        if self.has_functions and rng.random() < 0.3:
            count = rng.choice([1, 1, 2, 2, 3, 4])
            parts = [self.type(depth - 1, regions, parameters) for _ in range(count)]
            return types.make("function", parts=tuple(parts))
        if kind < 0.75 or not self.structs:
            count = rng.choice([0, 1, 2, 2, 3])
            parts = [self.type(depth - 1, regions, parameters) for _ in range(count)]
            return types.make("tuple", parts=tuple(parts))
        return self.use_of(rng.choice(list(self.structs)), depth, regions, parameters)

    def use_of(self, name, depth, regions, parameters):
        """A use of a struct."""
        rng = self.rng
        wanted = self.structs[name].parameters
        mine = tuple([rng.choice(regions) for p in wanted if p.is_region])
        parts = [self.type(depth - 1, regions, parameters) for p in wanted if not p.is_region]
        return types.make("struct", name, False, mine, tuple(parts))

    def struct(self, name):
        rng = self.rng
        regions = rng.sample(NAMES, k=rng.choice([0, 1, 1, 2]))
        names = rng.sample(PARAMETERS, k=rng.choice([0, 1, 1, 1, 2]))
        signs = "+=-" if self.has_functions else "+="
        parameters = [types.Parameter(one in regions, one, rng.choice(signs), rng.random() < 0.4)
                      for one in rng.sample(regions + names, k=len(regions + names))]
        fields = [self.field(regions + [b"static"], names)
                  for _ in range(rng.choice([0, 1, 1, 2, 3]))]
        drop = rng.random() < 0.5
        written = [(b"'" if p.is_region else b"") + p.name + b" " + p.sign.encode()
                   + (b"?" if p.marked else b"") for p in parameters]
        # The blank before `>` keeps it from being the end of an arrow.
        listed = b"<" + b", ".join(written) + b" >" if written else b""
        inside = b", ".join([types.spelled(self.structs, field) for field in fields])
        self.lines.append(b"struct " + name + listed + (b" drop" if drop else b" ")
                          + b"(" + inside + b")")
        self.structs[name] = types.Struct(parameters, drop, fields)

    def field(self, regions, names):
        """A type of a field: often a struct over the parameters, so that drops lead through it."""
        if self.structs and self.rng.random() < 0.5:
            return self.use_of(self.rng.choice(list(self.structs)), 1, regions, names)
        return self.type(self.rng.choice([0, 1, 2]), regions, names)

    def renewed(self, t):
        """The type with its regions taken anew."""
        regions = tuple([self.rng.choice(self.regions) for _ in t.regions])
        parts = tuple([self.renewed(part) for part in t.parts])
        return types.make(t.form, t.name, t.mutable, regions, parts)

    def written(self, t):
        return types.spelled(self.structs, t)

    # Variables, places, operands

    def declare_variables(self):
        rng = self.rng
        seeds = [self.type(rng.choice([1, 2, 3]), self.regions, []) for _ in range(3)] + [types.INT]
        seeds += [self.use_of(name, 2, self.regions, []) for name in self.structs]
        if self.only_drops:
            seeds = [self.use_of(name, rng.choice([2, 3]), self.regions, [])
                     for name in list(self.structs)[1:]]
        for number in range(rng.randrange(1, 8)):
            t = self.renewed(rng.choice(seeds))
            for _ in range(0 if self.only_drops else rng.choice([0, 0, 0, 1, 1, 2])):
                region = (rng.choice(self.regions),)
                t = types.make("reference", None, rng.random() < 0.5, region, (t,))
            if rng.random() < 0.2:
                t = types.make("tuple", parts=(t, types.INT))
            self.variables.append(t)
            self.lines.append(b"let _%d: %s" % (number, self.written(t)))
        self.places = list(self.places_of())

    def places_of(self):
        """The places of all variables with a few projections, each with its type."""
        for number, t in enumerate(self.variables):
            level = [(b"_%d" % number, t)]
            for _ in range(4):
                yield from level
                level = [found for place in level for found in self.behind(*place)]

    def behind(self, place, t):
        if t.form == "reference":
            yield place + b".*", t.parts[0]
        for k, part in enumerate(types.parts_of(self.structs, t) or []):
            yield place + b".%d" % k, part

    def place(self):
        return self.rng.choice(self.places)

    def target(self):
        """A place to assign to: often a variable."""
        if self.rng.random() < 0.6:
            return self.rng.choice([one for one in self.places if b"." not in one[0]])
        return self.place()

    def operand(self, t):
        """An operand of this type when regions are forgotten and its type; None where none is."""
        rng = self.rng
        found = [one for one in self.places if one[1].erased is t.erased]
        if rng.random() < self.sloppy:
            found = self.places
        if t is types.INT and (not found or rng.random() < 0.4):
            return b"const", types.INT
        if not found:
            return None
        place, of = rng.choice(found)
        return rng.choice([b"copy ", b"move "]) + place, of

    # Lines of the body

    def statement(self):
        rng = self.rng
        kinds = [self.assign, self.assign, self.borrow, self.borrow, self.make, self.read,
                 self.mark]
        if self.only_drops and rng.random() < 0.9:
            kinds = [self.mark]
        return rng.choice(kinds)() or self.read()

    def assign(self):
        place, t = self.target()
        operand = self.operand(t)
        return operand and place + b" = " + operand[0]

    def borrow(self):
        rng = self.rng
        references = [one for one in self.places if one[1].form == "reference"]
        if not references:
            return None
        place, t = rng.choice(references)
        found = [one for one in self.places if one[1].erased is t.parts[0].erased]
        if rng.random() < self.sloppy:
            found = self.places
        if not found:
            return None
        # Long places are the ones that ask for something.
        found.sort(key=lambda one: len(one[0]))
        borrowed = found[-1][0] if rng.random() < 0.4 else rng.choice(found)[0]
        mut = b"mut " if t.mutable else b""
        return b"%s = &'%s %s%s" % (place, rng.choice(self.regions), mut, borrowed)

    def make(self):
        found = [one for one in self.places if types.parts_of(self.structs, one[1]) is not None]
        if not found:
            return None
        place, t = self.rng.choice(found)
        t = self.renewed(t)
        operands = [self.operand(part) for part in types.parts_of(self.structs, t)]
        if None in operands:
            return None
        inside = b", ".join([operand for operand, _ in operands])
        return b"%s = make %s (%s)" % (place, self.written(t), inside)

    def read(self):
        return b"read " + self.place()[0]

    def variable(self):
        return b"_%d" % self.rng.randrange(len(self.variables) + (self.rng.random() < self.sloppy))

    def mark(self):
        kind = self.rng.choice([b"live ", b"dead ", b"dead ", b"nop"])
        return kind if kind == b"nop" else kind + self.variable()

    def block(self, blocks):
        return b"bb%d" % self.rng.randrange(blocks + (self.rng.random() < self.sloppy))

    def unwind(self, blocks):
        return b" unwind " + self.block(blocks) if self.rng.random() < 0.4 else b""

    def terminator(self, blocks, is_last):
        rng = self.rng
        kind = rng.choice(["goto", "switch", "switch", "drop", "drop", "call", "call", "return",
                           "stop"])
        if self.only_drops and rng.random() < 0.9:
            kind = "drop"
        if is_last and rng.random() < 0.7:
            kind = "return"
        if kind in ("return", "stop"):
            return kind.encode()
        if kind == "goto":
            return b"goto " + self.block(blocks)
        if kind == "drop":
            owned = [b"_%d" % number for number, t in enumerate(self.variables)
                     if t.form in ("struct", "tuple")]
            dropped = rng.choice(owned) if owned and rng.random() < 0.7 else self.variable()
            return b"drop %s -> %s%s" % (dropped, self.block(blocks), self.unwind(blocks))
        if kind == "switch":
            operand, _ = self.operand(types.INT)
            targets = [self.block(blocks) for _ in range(rng.choice([1, 2, 2, 3]))]
            return b"switch " + operand + b" " + b" ".join(targets)
        return self.call(blocks)

    def call(self, blocks):
        rng = self.rng
        place, t = self.target()
        arguments = []
        for _ in range(rng.choice([0, 1, 1, 2, 3])):
            operand, of = self.operand(rng.choice([self.place()[1], types.INT]))
            arguments.append(operand + b": " + self.written(self.renewed(of)))
        clauses = [b"'%s: '%s" % (rng.choice(self.regions), rng.choice(self.regions))
                   for _ in range(rng.choice([0, 0, 1, 2]))]
        where = b" where " + b", ".join(clauses) if clauses else b""
        word = rng.choice([b"f", b"g", b"call", b"7", b"bb0", b"_1", b"Some"])
        return b"%s = call %s(%s): %s%s -> %s%s" % (
            place, word, b", ".join(arguments), self.written(self.renewed(t)), where,
            self.block(blocks), self.unwind(blocks))


def is_word(byte):
    return byte.isalnum() or byte == b"_"


def small(rng, version=None):
    """A small body of this version, or of one taken at random."""
    return Small(rng, version or rng.choice(VERSIONS)).text()


# Changed texts

PIECES, WRONG, WRONG_STRUCTS = (lines_of("wrong", name) for name in ("pieces", "mir", "structs"))


def change_struct(rng, text):
    """Puts in a struct line before the variables, and perhaps a variable of it."""
    at = text.find(b"let ")
    at = 0 if at < 0 else text.rfind(b"\n", 0, at) + 1
    return text[:at] + rng.choice(WRONG_STRUCTS) + b"\n" + text[at:]


def mutations(text):
    """Every text that one small change makes of a text."""
    yield from byte_changes(text)
    yield from line_changes(text)
    places = spans(TOKEN, text)
    tokens = sorted({text[start:end] for start, end in places})
    for start, end in places:
        yield from (replaced(text, start, end, piece) for piece in tokens + PIECES)
        yield replaced(text, end, end, b" " + text[start:end])


# Tokens that may stand for one another: what they look like, and some more of them.
ALIKE = [(rb"\Anll-mir \w", [b"nll-mir 1", b"nll-mir 2", b"nll-mir 2", b"nll-mir 3", b"nll-mir 02"]),
         (rb"\bfn\b", [b"fn", b"", b"Fn", b"fn()", b"fn ->", b"fn (int)"]),
         (rb"_\d+", [b"_0", b"_1", b"_2", b"_9", b"_01"]),
         (rb"bb\d+", [b"bb0", b"bb1", b"bb9", b"bb01"]),
         (rb"\b(int|[A-Z]\w*)", [b"int", b"(int)", b"()", b"T", b"Z", b"W", b"&'static int",
                                    b"fn() -> int", b"fn(int) -> int"]),
         (rb"(?<=\. )\d+|(?<=\.)[\d*]+", [b"0", b"1", b"2", b"*"]),
         (rb"'\w+", [b"'static", b"'z", b"'01", b"int"]),
         (rb"(copy|move) _\d+", [b"const", b"copy _0", b"move _0.*", b"copy _1.0"]),
         (rb"\bmut\b|[+=?-]", [b"mut", b"+", b"=", b"-", b"?", b""]),
         (rb"\bblocks \d+", [b"blocks 0", b"blocks 1", b"blocks 2", b"blocks 1048577"])]


def change_alike(rng, text):
    """Puts a token in the place of one that is like it."""
    pattern, more = rng.choice(ALIKE)
    places = spans(pattern, text)
    if not places:
        return text
    pieces = [text[start:end] for start, end in rng.choices(places, k=4)] + more
    return replaced(text, *rng.choice(places), rng.choice(pieces))


def change_token(rng, text):
    """Puts another token in the place of one, or beside it."""
    places = spans(TOKEN, text)
    if not places:
        return text
    start, end = rng.choice(places)
    other = rng.choice(places)
    piece = rng.choice([rng.choice(PIECES), text[slice(*other)]])
    return replaced(text, start if rng.random() < 0.8 else end, end, piece)


def change_some_lines(rng, text):
    return change_lines(rng, text, WRONG)


def mutant(rng, text):
    """A text with one to three changes."""
    return changed(rng, text, 0.05, [change_bytes, change_token, *[change_alike] * 4, change_some_lines, change_struct])
