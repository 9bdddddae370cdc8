"""Calls in a MIR text, by the signatures of what is called."""

import re
from typing import Callable

from nllc_tools.model.types.definitions import is_opaque
from nllc_tools.rustc.mir.function import Paths
from nllc_tools.rustc.mir.statements import Call, Place
from nllc_tools.rustc.mir.types import PLAIN, STATIC, Part, Type
from nllc_tools.rustc.unsaid import NotSaid
from nllc_tools.texts.mir.parts import Bounds, Parts, unfit
from nllc_tools.texts.mir.text import STOP, Used


class Calls(Parts):
    """Translates calls, by the signatures of what is called."""

    def called(self, line: Call, paths: Paths) -> None:
        """A call by its signature, made fresh."""
        exits = tuple(block for block in (line.returns, line.unwinds) if block is not None) or (STOP,)
        operands: list[tuple[Used, Type]] = []
        if isinstance(line.function, Place):
            pointer = self.operand(line.function)
            operands.append((pointer, pointer.type))
            type, word = pointer.type, "pointer"
        else:
            type = line.function.type or PLAIN
            word = word_of(type.name)
        signature = type.types[1] if type.form == "function" else type
        if signature.form != "fn":
            raise NotSaid("a call of what has no signature", type.name)
        new: dict[str, int] = {}
        *inputs, output = (instantiate(part, 0, lambda bound: new.get(bound) or self.bound(new, bound))
                           for part in signature.types)
        where = paths.bounds()
        if len(inputs) > len(line.operands):
            raise NotSaid("a call of other arguments than its signature's", word)
        for number, operand in enumerate(line.operands):
            used = self.operand(operand)    # a C function has more than its inputs
            operands.append((used, self.fit(inputs[number], used.type, paths, where) if number < len(inputs) else used.type))
        target = self.walk(line.place)
        self.call(target, word, operands, self.fit(output, target.type, paths, where), where, exits)

    def bound(self, new: dict[str, int], bound: str) -> int:
        new[bound] = self.new_region()
        return new[bound]

    def fit(self, signed: Type, own: Type, paths: Paths, where: Bounds) -> Type:
        """A type of a signature in the shape of what it meets: a projection there is the type that it stands for."""
        if self.structs.is_int(own):
            return own
        if signed.form == own.form and signed.name == own.name and len(signed.parts) == len(own.parts):
            return Type(own.form, own.name, tuple(
                self.fit(a, b, paths, where) if isinstance(b, Type) and isinstance(a, Type) else a
                for a, b in zip(signed.parts, own.parts)))
        if signed.form != "alias" and not is_opaque(own):
            raise unfit(signed, own)
        if is_opaque(own):
            where |= paths.pairs()
        self.approximate("what a projection stands for, by what rustc asks of it")
        known = {one for one in signed.regions() if one > 0} | {STATIC, *self.function.universals}
        regions = []
        for one in own.regions():
            new = self.new_region()
            regions.append(new)
            for other in known:
                if one in paths.reached(other):
                    where.add((other, new))
                if other in paths.reached(one):
                    where.add((new, other))
        return own.with_list(regions)


def word_of(name: str) -> str:
    return re.sub(r"\W+", "", name.rpartition("::")[2]) or "call"


def instantiate(type: Type, depth: int, new: Callable[[str], int]) -> Type:
    """The type with new regions for those that the outermost `for<..>` binds."""
    last = len(type.parts) - 1

    def part_of(number_of: int, part: Part) -> Part:
        inner = depth + (type.form == "fn" or (type.form == "dyn" and number_of < last))
        if isinstance(part, Type):
            return instantiate(part, inner, new)
        if isinstance(part, str):
            number, _, rest = part[1:].partition("_")
            if inner == 0 and not rest:
                return new(number)
            if inner > 0 and rest and int(number) == inner:
                return new(rest)
        return part

    return type._replace(parts=tuple(part_of(number, part) for number, part in enumerate(type.parts)))
