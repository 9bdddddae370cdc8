"""Reads places, operands, statements and terminators as rustc prints them."""

import re
from functools import lru_cache
from typing import Optional

from nllc_tools.rustc.mir.statements import (Assign, Call, Constant, Drop, Foreign, Jump, Leave, Line, Nothing, Operand, Place,
                                             Read, Statement, Step, Storage, Terminator)
from nllc_tools.rustc.mir.type_reader import CLOSURE, Reader, simplified
from nllc_tools.rustc.unsaid import NotSaid

LOCAL = re.compile(r"_(\d+)")
FIELD = re.compile(r"\.(\d+): ")
INDEX = re.compile(r"\[(?:(_\d+|-?\d+ of \d+)|\d*:-?\d*|\d+\.\.\d+)\]")
NAME = re.compile(r"[\w#]+: ")
VARIANT = re.compile(r" as ([\w#]+)\)")
PAIR = re.compile(r"(?:Add|Sub|Mul|Div|Rem|BitXor|BitAnd|BitOr|Shl|Shr|Eq|Lt|Le|Ne|Ge|Gt|Cmp|Offset)"
                  r"(?:WithOverflow|Unchecked)?\(|(?:Not|Neg|PtrMetadata|Len|discriminant)\(")
BORROW = re.compile(r"&(?:'\?(\d+) )?(?:(mut|fake(?: shallow| deep)?) )?")
RAW = re.compile(r"&raw (const|mut)( \(fake\))? ")
CAST = re.compile(r" \((?:PointerCoercion\((\w+)[^()]*(?:\([^()]*\))?[^()]*\)|(\w+)(?:\([^()]*\))?)\)$")
FAKE_READ = re.compile(r"FakeRead\(\w+(?:\(\w+\))?, ")
VALUE = re.compile(r"ConstValue\([A-Za-z]+(?:\([^()]*\)| \{[^{}]*\})?: ")
QUOTED = re.compile(r'"(?:[^"\\]|\\.)*"|b?\'(?:[^\'\\]|\\.[^\']*)\'')
USED = re.compile(r"\b(?:move|copy) ")
OPERAND = ("copy ", "move ", "const ", "ConstValue(")
NOTHING = ("Coverage", "nop", "ConstEvalCounter", "BackwardIncompatibleDropHint", "assume(")


class Lines(Reader):
    """Reads one line of a body."""

    def place(self) -> Place:
        if self.takes("("):
            return self.bracketed()
        return self.indexed(Place(int(self.must_match(LOCAL)[1])))

    def indexed(self, place: Place) -> Place:
        while found := self.match(INDEX):
            place = place.onward(Step("index" if found[1] else "part"))
        return place

    def bracketed(self) -> Place:
        """`(*P)`, `(P.1: T)`, `(P as Some)`; the opening bracket is behind."""
        if self.takes("*"):
            place = self.place()
            self.must(")")
            return self.indexed(place.onward(Step("deref")))
        place = self.place()
        if found := self.match(VARIANT):
            return place.onward(Step("variant", found[1]))
        number, type, variant = int(self.must_match(FIELD)[1]), self.type(), ""
        self.must(")")
        if place.steps and place.steps[-1].kind == "variant":
            place, variant = Place(place.local, place.steps[:-1]), place.steps[-1].variant
        return self.indexed(place.onward(Step("field", variant, number, type)))

    def operand(self) -> Operand:
        if self.takes("move "):
            return self.place()._replace(is_moved=True)
        if self.takes("copy ") or self.sign() == "(" or LOCAL.match(self.text, self.at):    # `discriminant(PLACE)` has no word
            return self.place()
        if self.takes("const ") or self.text.startswith("ConstValue(", self.at):
            return self.constant()
        return Constant(self.path().name)

    def constant(self) -> Constant:
        """`ConstValue(..: T)`, a literal, or the name of a constant."""
        if not self.match(VALUE):
            return Constant(self.skipped(",)};]"))
        type = self.type()
        self.must(")")
        return Constant("value", type)

    def operands(self, closer: str) -> tuple[Operand, ...]:
        found: list[Operand] = []
        while not self.takes(closer):
            self.match(NAME)
            found.append(self.operand())
            if not self.takes(", ") and not self.takes(","):
                self.takes(" ")
                self.must(closer)
                break
        return tuple(found)

    def value(self, place: Place) -> Assign:
        """What stands behind `PLACE = `."""
        if self.takes("&/*tls*/ "):
            self.at = len(self.text)
            return Assign(place, "static")
        if found := self.match(RAW):
            return Assign(place, "raw", (self.place(),), word="fake" if found[2] else found[1])
        if found := self.match(BORROW):
            kind = {"mut": "mut", None: "ref"}.get(found[2], "fake")
            return Assign(place, kind, (self.place(),), region=int(found[1]) if found[1] else "^")
        if found := self.match(PAIR):
            return Assign(place, "pair", self.operands(")"), word=found[0][:-1])
        if self.text.startswith(OPERAND, self.at):
            operand = self.operand()
            return self.cast(place, operand) if self.takes(" as ") else Assign(place, "use", (operand,))
        if self.takes("("):
            return Assign(place, "tuple", self.operands(")"))
        if self.takes("["):
            return self.array(place)
        if found := self.match(CLOSURE):
            return Assign(place, "make", self.operands("}") if self.takes(" { ") else (), word=found[0])
        if self.takes("CopyForDeref("):
            return Assign(place, "use", self.operands(")"))
        return self.made(place)

    def cast(self, place: Place, operand: Operand) -> Assign:
        type, cast = self.type(), self.must_match(CAST)
        return Assign(place, "cast", (operand,), type, cast[1] or cast[2])

    def asserted(self) -> tuple[Operand, ...]:
        """What `assert(` looks at: the condition, and what its message tells."""
        self.takes("!")
        condition = self.operand()
        return (condition, *(self.operands(")") if self.takes(', "", ') else ()))

    def used_by_assembler(self) -> tuple[Operand, ...]:
        found = []
        for used in USED.finditer(self.text):
            self.at = used.start()
            found.append(self.operand())
        return tuple(found)

    def called(self) -> Operand:
        """What is called, with the bracket behind it: an operand, or the name of a function."""
        function = self.operand() if self.text.startswith(OPERAND, self.at) else Constant(self.skipped("("))
        self.must("(")
        return function

    def array(self, place: Place) -> Assign:
        first = () if self.sign() == "]" else (self.operand(),)
        if self.takes("; "):
            self.skip("]")
            self.must("]")
            return Assign(place, "repeat", first)
        self.takes(", ")
        return Assign(place, "array", (*first, *self.operands("]")))

    def made(self, place: Place) -> Assign:
        """`Option::<T>::Some(move _1)`, `a::B { c: move _2 }`, `C`: the type, then the variant, if it is an enum's.

        Where the last name is that of a variant the type has the names before it; which it is the place says.
        """
        type = self.path()
        if self.takes(" as "):
            return self.cast(place, Constant(type.name))
        found = self.operands(")") if self.takes("(") else self.operands("}") if self.takes(" { ") else ()
        return Assign(place, "make", found, type)


def read_place(text: str) -> Optional[Place]:
    """The place of a text; None where it isn't understood."""
    try:
        return Lines(simplified(text)).place()
    except NotSaid:
        return None


@lru_cache(4096)
def read_statement(text: str) -> Statement:
    """The statement of a text."""
    for word, is_live in (("StorageLive(_", True), ("StorageDead(_", False)):
        if text.startswith(word):
            return Storage(is_live, int(text[len(word):-1]))
    if text.startswith(NOTHING):
        return Nothing()
    reader = Lines(simplified(QUOTED.sub('""', text)))
    if reader.match(FAKE_READ) or reader.takes("PlaceMention(") or reader.takes("AscribeUserType("):
        return Read(reader.place())
    if not text.startswith(("_", "(")):
        raise NotSaid("a statement that isn't understood", text[:60])
    place = reader.place()
    reader.must(" = ")
    found = reader.value(place)
    reader.end()
    return found


TARGETS = re.compile(r" -> (?:\[(.*)\]|(bb\d+)|(unwind .*))$")
NAMED = re.compile(r"(\w[\w ]*?)(?:: | )(bb\d+|continue|unreachable|terminate\(\w+\))")


def targets_of(text: str) -> tuple[str, dict[str, Optional[int]]]:
    """The text before the arrow, and the blocks by what rustc calls them."""
    found = TARGETS.search(text, text.rindex(" -> ") if " -> " in text else 0)
    if not found:
        return text, {}
    if found[2]:
        return text[:found.start()], {"return": int(found[2][2:])}
    blocks: dict[str, Optional[int]] = {}
    for part in (found[1] or found[3]).split(", "):
        named = NAMED.fullmatch(part)
        if not named:
            raise NotSaid("a terminator that isn't understood", part)
        blocks[named[1]] = int(named[2][2:]) if named[2].startswith("bb") else None
    return text[:found.start()], blocks


def there(blocks: dict[str, Optional[int]]) -> tuple[int, ...]:
    return tuple(dict.fromkeys(block for block in blocks.values() if block is not None))


@lru_cache(4096)
def read_terminator(text: str) -> Terminator:
    """The terminator of a text."""
    if text in ("return", "resume", "coroutine_drop"):
        return Leave(True)
    if text.startswith(("unreachable", "abort", "terminate")):
        return Leave(False)
    head, blocks = targets_of(QUOTED.sub('""', text))
    reader = Lines(simplified(head))
    if head in ("goto", "falseEdge", "falseUnwind"):
        return Jump(there(blocks))
    if reader.takes("switchInt("):
        return Jump(there(blocks), (reader.operand(),))
    if reader.takes("assert("):
        return Jump(there(blocks), reader.asserted())
    if reader.takes("drop("):
        return Drop(reader.place(), there(blocks), "drop" in blocks)
    if head.startswith("asm!"):
        return Foreign(NotSaid("assembler"), reader.used_by_assembler())
    if not head.startswith(("_", "(")):
        raise NotSaid("a terminator that isn't understood", head[:40])
    place = reader.place()
    reader.must(" = ")
    if reader.takes("yield("):
        return Foreign(NotSaid("a coroutine"), reader.operands(")"), place, blocks.get("resume"))
    found = Call(place, reader.called(), reader.operands(")"), blocks.get("return"), blocks.get("unwind"))
    reader.end()
    return found


def read_line(text: str, is_terminator: bool) -> Line:
    """The statement or terminator of a text; of one that isn't understood, why."""
    try:
        return read_terminator(text) if is_terminator else read_statement(text)
    except NotSaid as reason:
        return Foreign(reason)
    except RecursionError:
        return Foreign(NotSaid("a type that isn't understood", text[:60]))
