"""Reads types as rustc prints them, with `-Zverbose-internals` with all their regions."""

import re
from functools import lru_cache
from typing import Iterator, Optional

from nllc_tools.rustc.mir.scanner import Scanner
from nllc_tools.rustc.mir.types import PLAIN, STATIC, UNIT, Part, Region, Type
from nllc_tools.rustc.unsaid import NotSaid

REGION = re.compile(r"'\?(\d+)|'(\^[\d_]+)(?:\.Named)?|'\{erased\}|'([A-Za-z_]\w*)(?:/#\d+)?")
DEFINITION = re.compile(r"\(DefId\([^()]*\)\)")
BINDER = re.compile(r"for<[^<>]*> ")
QUALIFIER = re.compile(r"(?:safe |unsafe |async |const |extern \"[^\"]*\" |#\[[^\]]*\] )+")
WORD = re.compile(r"[A-Za-z_]\w*(?:/?#\d+)?")
CLOSURE = re.compile(r"\{[a-z -]+@[^{}]*\}")
NAMED = re.compile(r"[A-Za-z_]\w*(<[^=]*>)? = ")
BRACED = re.compile(r"\{[a-z_ ]+(?:#\d+)?\}|\{closure@[^{}]*\}")
CONSTANT = re.compile(r"-?\d\w*|true\b|false\b|'.'|\{const|ValTree\(|ConstValue\(|Const\b|Unevaluated|Expr\(|\{\w+(?:::|/)")


def simplified(text: str) -> str:
    """The text without rustc's numbers of definitions."""
    return DEFINITION.sub("", text) if "DefId(" in text else text


@lru_cache(65536)
def read_type(text: str) -> Type:
    """The type of a whole text."""
    reader = Reader(simplified(text))
    found = reader.type()
    reader.end()
    return found


def type_or_plain(text: str) -> Type:
    """The type of a text; one without parts where it isn't understood."""
    try:
        return read_type(text)
    except (NotSaid, RecursionError):
        return PLAIN


class Reader(Scanner):
    """Reads types from a text, from a place on."""

    def type(self) -> Type:
        """The type that begins here."""
        forms = {"&": self.reference, "*": self.pointer, "[": self.slice, "(": self.tuple, "{": self.closure, "<": self.path}
        if found := forms.get(self.sign()):
            return found()
        if self.takes("!"):
            return PLAIN
        self.match(BINDER)
        if self.text.startswith(("dyn ", "dyn* "), self.at):
            return self.object()
        if self.text.startswith("impl ", self.at):      # of an argument: a type parameter like others
            return Type("plain", self.skipped(",>)]};"))
        if self.text.startswith(("fn(", "unsafe ", "extern ", "safe ", "#["), self.at):
            return self.function()
        return self.opaque() if self.text.startswith("Opaque(", self.at) else self.path()

    def region(self) -> Optional[Region]:
        """The region that stands here, if one does."""
        found = self.match(REGION) if self.sign() == "'" else None
        if not found:
            return None
        if found[1]:
            return int(found[1])
        if found[2]:
            self.takes("(DefId")     # what `simplified` left of it
            return str(found[2])
        return STATIC if found[3] == "static" else str(found[0])

    def reference(self) -> Type:
        self.must("&")
        region = self.region()
        self.takes(" ")
        form = "mut" if self.takes("mut ") else "ref"
        return Type(form, "", ("^" if region is None else region, self.type()))

    def pointer(self) -> Type:
        form = "pointer" if self.takes("*const ") else "mut pointer"
        if form == "mut pointer":
            self.must("*mut ")
        return Type(form, "", (self.type(),))

    def slice(self) -> Type:
        self.must("[")
        inside = self.type()
        if self.takes("; "):
            self.skip("]")
        self.must("]")
        return Type("slice", "", (inside,))

    def tuple(self) -> Type:
        self.must("(")
        if self.takes(")"):
            return UNIT
        parts = [self.type()]
        if self.takes(")"):
            return parts[0]
        while self.takes(", ") or self.takes(","):
            if self.sign() != ")":
                parts.append(self.type())
        self.must(")")
        return Type("tuple", "", tuple(parts))

    def function(self) -> Type:
        """`fn(A, B) -> R`, which a path between braces may follow; `for<..>` is behind."""
        self.match(QUALIFIER)
        self.must("fn(")
        inputs = tuple(self.listed(")"))
        signature = Type("fn", "", (*inputs, self.type() if self.takes(" -> ") else UNIT))
        if not self.takes(" {"):
            return signature
        path = self.path()
        self.must("}")
        others = tuple(one for one in path.regions() if one not in signature.regions())
        return Type("function", path.name, (Type("path", "", others), signature))

    def listed(self, closer: str) -> Iterator[Type]:
        while not self.takes(closer):
            if not self.takes("..."):
                yield self.type()
            self.takes(", ")

    def object(self) -> Type:
        """`dyn A<..> + B + '?5`."""
        self.takes("dyn* ") or self.takes("dyn ")
        names: list[str] = []
        parts: list[Part] = []
        region: Region = STATIC
        while True:
            self.match(BINDER)
            found = self.region()
            if found is not None:
                region = found
            else:
                bound = self.path()
                names.append(bound.name)
                parts += bound.parts
            if not self.takes(" + "):
                break
        return Type("dyn", " + ".join(names), (*parts, region))

    def opaque(self) -> Type:
        self.must("Opaque(")
        name = self.skipped(",")
        self.must(", [")
        parts = tuple(self.arguments("]"))
        self.must(")")
        return Type("alias", name, parts)

    def closure(self) -> Type:
        """`{path::{closure#0} closure_kind_ty=i16 .. upvar_tys=(T, ..)}`; that of a coroutine has other words.

        Where regions aren't printed it is `{closure@FILE:1:2: 3:4}`.
        """
        if found := self.match(CLOSURE):
            return Type("closure", found[0])
        self.must("{")
        self.takes("static ")
        path = self.path()
        upvars, form = UNIT, "coroutine"
        signature: tuple[Type, ...] = ()
        while self.takes(" "):
            word = self.must_match(WORD)[0]
            self.must("=")
            if word == "upvar_tys":
                taken = self.type()
                upvars = taken if taken.form == "tuple" else Type("tuple", "", (taken,))    # of one the brackets are kept
            elif word == "closure_sig_as_fn_ptr_ty":
                form, signature = "closure", (self.type(),)
            elif word == "closure_kind_ty":
                self.type()
            else:
                self.skip(" }")
        self.must("}")
        return Type(form, path.name, (upvars, *path.parts, *signature))

    def path(self) -> Type:
        """`a::b<'?1, T>::c`, `<T as Trait>::Name<..>`; the parts are all arguments in order."""
        names: list[str] = []
        parts: list[Part] = []
        form = "adt"
        if self.sign() == "<" and not self.text.startswith("<impl at ", self.at):
            form = "alias"
            self.qualified(names, parts)
            self.must("::")
        before = len(names)
        while True:
            self.segment(names, parts)
            if not self.takes("::"):
                break
        if len(names) > before + 1:     # of a struct inside a method: `<T as Trait>::method::Struct<..>`
            form = "adt"
        if not parts and form == "adt":
            form = "plain"
        return Type(form, "::".join(names), tuple(parts))

    def qualified(self, names: list[str], parts: list[Part]) -> None:
        """`<T as Trait<..>>`."""
        self.must("<")
        parts.append(self.type())
        if self.takes(" as "):
            trait = self.path()
            names.append(f"<{trait.name.rpartition('::')[2]}>")
            parts.extend(trait.parts)
        self.must(">")

    def segment(self, names: list[str], parts: list[Part]) -> None:
        """A name, or arguments, or what stands for a name."""
        if self.takes("<impl "):
            inside = self.skipped(">")
            self.must(">")
            parts.extend(int(found) for found in re.findall(r"'\?(\d+)", inside))
            names.append("<impl>" if inside.startswith("at ") else f"<impl {re.sub(r'.?[?]?[0-9]+', '', inside)}>")
        elif self.takes("<"):
            parts.extend(self.arguments(">"))
        elif self.sign() == "{":
            names.append(self.must_match(BRACED)[0])
        else:
            word = self.must_match(WORD)[0]
            names.append(word.partition("/")[0])
            if self.takes("<"):
                parts.extend(self.arguments(">"))
            elif word[:2] == "Fn" and self.takes("("):
                parts.extend(self.listed(")"))
                if self.takes(" -> "):
                    parts.append(self.type())

    def is_constant(self) -> bool:
        """Whether what stands here is no type; between braces there is a closure, or an expression."""
        if self.sign() != "{":
            return CONSTANT.match(self.text, self.at) is not None
        inside = Scanner(self.text, self.at + 1).skipped("}")
        return "upvar_tys=" not in inside and "@" not in inside

    def arguments(self, closer: str) -> Iterator[Part]:
        """Regions and types between brackets; `Name = ` before a type, and constants, are skipped."""
        while not self.takes(closer):
            region = self.region()
            if region is not None:
                yield region
            elif self.is_constant():
                self.skip("," + closer)
            else:
                self.match(NAMED)
                yield self.type()
            self.takes(", ") or self.takes(",")
