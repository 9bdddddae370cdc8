"""What the lines of functions, and what rustc asks of them, say of structs and enums."""

from typing import Collection, Iterator

from nllc_tools.model.types.definitions import BACK, BOTH, FORWARD, Evidence, Key, made_type, own_signs, times
from nllc_tools.rustc.mir.function import Function, Paths
from nllc_tools.rustc.mir.statements import Assign, Call, Constant, Line, Place, Step, behind, places_of
from nllc_tools.rustc.mir.types import PLAIN, STATIC, Region, Type


def gather(function: Function) -> Evidence:
    """What the lines of one function say."""
    return Gatherer(function).evidence


class Gatherer:
    """Goes over the lines of a function."""

    def __init__(self, function: Function):
        self.function = function
        self.evidence = Evidence()
        for location, line in function.lines.items():
            if location in function.asked or any(place.steps for place in places_of(line)):
                self.line(function.paths(location), line)
        for local, regions in function.drops.items():
            self.dropped(function.locals[local], regions)

    def dropped(self, type: Type, regions: Collection[int]) -> None:
        """A drop goes through tuples and closures; of others it looks at regions."""
        if type.form in ("tuple", "slice", "closure"):
            for part in type.captures if type.form == "closure" else type.types:
                self.dropped(part, regions)
        elif type.form in ("adt", "alias", "dyn", "coroutine"):
            own = {number for number, one in enumerate(type.regions()) if one in regions}
            self.evidence.drops.setdefault(type.shape(), set()).update(own)

    def line(self, paths: Paths, line: Line) -> None:
        types = [self.walk(paths, place) for place in places_of(line)]
        if isinstance(line, Assign):
            self.assigned(paths, line, types)
        elif isinstance(line, Call):
            self.called(paths, line, types)

    def walk(self, paths: Paths, place: Place) -> Type:
        """The type of a place by what rustc writes of its steps."""
        type = self.function.locals[place.local]
        written = {one for step in place.steps if step.type is not None for one in step.type.regions()}
        for step in place.steps:
            if step.type is not None and type.form not in ("tuple", "closure", "coroutine"):
                self.field(paths, type, step, step.type, written)
            type = behind(type, step) or PLAIN
        return type

    def field(self, paths: Paths, base: Type, step: Step, type: Type, written: set[int]) -> None:
        found = [near(paths, one, base.regions(), written) | (
            {-1} if one in paths.reached(STATIC, written) else set()) for one in type.regions()]
        self.evidence.add_field((base.shape(), step.variant, step.field, type.shape()), found)

    def assigned(self, paths: Paths, line: Assign, types: list[Type]) -> None:
        target, *others = types
        if line.kind == "use" and others:
            self.meet(paths, others[0], target)
        elif line.kind == "make" and line.type is not None:
            self.made(paths, line, line.type, target)

    def made(self, paths: Paths, line: Assign, written: Type, target: Type) -> None:
        made = made_type(written, target)
        if made is None:
            return
        type, variant = made
        self.meet(paths, type, target)
        for number, operand in enumerate(line.operands):
            if isinstance(operand, Place):
                own = self.walk(paths, operand)
                self.evidence.add_field((type.shape(), variant, number, own.shape()),
                                        [near(paths, one, type.regions()) for one in own.regions()])

    def called(self, paths: Paths, line: Call, types: list[Type]) -> None:
        """The types of what goes in and comes out, where the signature has them with regions that it names."""
        signature = line.function.type if isinstance(line.function, Constant) else None
        if signature is None or signature.form != "function":
            return
        *inputs, output = signature.types[1].types
        self.meet(paths, output, types[0])
        places = iter(types[1:])
        for operand, input in zip(line.operands, inputs):
            if not isinstance(operand, Constant):
                self.meet(paths, next(places), input)

    def meet(self, paths: Paths, less: Type, more: Type) -> None:
        """One type is to be a subtype of another: which ways are asked behind which parameters."""
        if not less.has_shape_of(more):
            return
        for (a, outer, keys), (b, _, _) in zip(behind_keys(less), behind_keys(more)):
            if not keys or outer == "=" or a == b or STATIC in (a, b) or isinstance(a, str) or isinstance(b, str):
                continue
            ways = FORWARD * paths.leads(a, b) | BACK * paths.leads(b, a)
            self.evidence.signs[outer, keys] = self.evidence.signs.get((outer, keys), BOTH) & ways


def near(paths: Paths, one: int, regions: list[int], stops: Collection[int] = ()) -> frozenset[int]:
    """The numbers of the regions that are asked to outlive one, or that it is to outlive; -1 is a `'static` that it is to."""
    after = paths.reached(one, stops)
    found = {number for number, other in enumerate(regions) if other in after or one in paths.reached(other, stops)}
    return frozenset(found | ({-1} if STATIC in after else set()))


def behind_keys(type: Type, outer: str = "+", keys: tuple[Key, ...] = ()) -> Iterator[tuple[Region, str, tuple[Key, ...]]]:
    """The regions of a type, with the signs and the parameters behind which each stands."""
    for number, (part, sign) in enumerate(zip(type.parts, own_signs(type))):
        own = (outer if sign is None else times(outer, sign), keys if sign is not None else (*keys, (type.name, number)))
        if isinstance(part, Type):
            yield from behind_keys(part, *own)
        else:
            yield part, *own
