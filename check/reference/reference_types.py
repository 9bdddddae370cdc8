"""Types of MIR texts as trees, each kept once: equal trees are one object.

So types far above the limit, whose parts are the same again and again, can be made and compared.
"""

from collections import namedtuple

# A parameter of a struct: whether it stands for a region, its name, its sign, whether it has a `?`.
Parameter = namedtuple("Parameter", "is_region name sign marked")

# A struct: its parameters, whether it has a drop of its own, and the types of its fields.
Struct = namedtuple("Struct", "parameters drop fields")


class Type:
    """A type: `int`, or a parameter, reference, tuple, function or use of a struct.

    `name` is that of the parameter or of the struct, `regions` are the region of the reference or
    the region arguments, `parts` what stands behind the reference, the parts of the tuple, the
    arguments of the function and then its result, or the type arguments. `erased` is the same type
    with its regions forgotten.
    """

    __slots__ = ("form", "name", "mutable", "regions", "parts", "nodes", "erased")


KNOWN = {}


def make(form, name=None, mutable=False, regions=(), parts=()):
    """The type of this form, the same one each time."""
    key = (form, name, mutable, regions, parts)
    found = KNOWN.get(key)
    if found is None:
        found = Type()
        found.form, found.name, found.mutable, found.regions, found.parts = key
        found.nodes = 1 + sum([part.nodes for part in parts])
        forgotten = (None,) * len(regions)
        erased = tuple([part.erased for part in parts])
        if (forgotten, erased) == (regions, parts):
            found.erased = found
        else:
            found.erased = make(form, name, mutable, forgotten, erased)
        KNOWN[key] = found
    return found


INT = make("int")


def forget_all():
    """Lets all types go but `int`, so that many texts can be read one after the other."""
    KNOWN.clear()
    KNOWN[("int", None, False, (), ())] = INT
    FIELDS.clear()


def put_in(t, regions, types):
    """The type with arguments put in for its parameters, given by their names."""
    if t.form == "parameter":
        return types[t.name]
    new_regions = tuple([regions.get(region, region) for region in t.regions])
    new_parts = tuple([put_in(part, regions, types) for part in t.parts])
    return make(t.form, t.name, t.mutable, new_regions, new_parts)


FIELDS = {}


def fields(structs, t):
    """The types of the fields of a struct with the arguments of this use put in."""
    if t not in FIELDS:
        struct = structs[t.name]
        region_names = [p.name for p in struct.parameters if p.is_region]
        type_names = [p.name for p in struct.parameters if not p.is_region]
        regions = dict(zip(region_names, t.regions))
        types = dict(zip(type_names, t.parts))
        FIELDS[t] = [put_in(field, regions, types) for field in struct.fields]
    return FIELDS[t]


def parts_of(structs, t):
    """The types of the parts of a tuple or struct; None for another type."""
    if t.form == "tuple":
        return list(t.parts)
    return fields(structs, t) if t.form == "struct" else None


def behind(structs, t, projection):
    """The type of a place with one projection more, `*` or a number; None where it has none."""
    if projection == "*":
        return t.parts[0] if t.form == "reference" else None
    parts = parts_of(structs, t)
    return parts[projection] if parts is not None and projection < len(parts) else None


def arguments(structs, t):
    """For each parameter of a struct's use the parameter and its argument, a region or a type."""
    regions, types = iter(t.regions), iter(t.parts)
    return [(p, next(regions) if p.is_region else next(types)) for p in structs[t.name].parameters]


def all_in(t, parts):
    """A type and all that its parts lead to, each once; `parts` gives those of a type."""
    seen, left = {t}, [t]
    while left:
        yield (t := left.pop())
        more = set(parts(t)) - seen
        seen |= more
        left += more


def regions_in(t):
    """The regions that are written in a type."""
    return {region for one in all_in(t, lambda one: one.parts) for region in one.regions}


def drop_regions(structs, t):
    """The regions that a drop of a value of this type may look at."""
    found = set()
    for one in all_in(t, lambda one: parts_of(structs, one) or []):
        if one.form == "struct" and structs[one.name].drop:
            for parameter, argument in arguments(structs, one):
                if not parameter.marked:
                    found |= {argument} if parameter.is_region else regions_in(argument)
    return found


# The product of two signs.
TIMES = {("+", "+"): "+", ("+", "-"): "-", ("+", "="): "=",
         ("-", "+"): "-", ("-", "-"): "+", ("-", "="): "=",
         ("=", "+"): "=", ("=", "-"): "=", ("=", "="): "="}


def positions(structs, t, outer="+"):
    """The positions of regions in a type, in the order of the text, as (sign, region)."""
    if t.form == "reference":
        behind_it = TIMES[outer, "=" if t.mutable else "+"]
        return [(outer, t.regions[0])] + positions(structs, t.parts[0], behind_it)
    if t.form == "struct":
        signed = [(TIMES[outer, p.sign], argument) for p, argument in arguments(structs, t)]
    else:
        taken = TIMES[outer, "-"] if t.form == "function" else outer
        signed = [(taken, part) for part in t.parts[:-1]] + [(outer, part) for part in t.parts[-1:]]
    return [one for sign, part in signed
            for one in (positions(structs, part, sign) if isinstance(part, Type) else [(sign, part)])]


def wants(structs, t, u):
    """The pairs that the subtyping of t and u asks; they are equal when regions are forgotten."""
    pairs = set()
    for (sign, a), (_, b) in zip(positions(structs, t), positions(structs, u)):
        pairs |= {"+": {(a, b)}, "-": {(b, a)}, "=": {(a, b), (b, a)}}[sign]
    return pairs


def listed(structs, parts):
    """Types in round brackets as they are written."""
    return b"(" + b", ".join([spelled(structs, part) for part in parts]) + b")"


def spelled(structs, t):
    """A type as it is written."""
    if t.form == "reference":
        mut = b"mut " if t.mutable else b""
        return b"&'%s %s%s" % (t.regions[0], mut, spelled(structs, t.parts[0]))
    if t.form == "tuple":
        return listed(structs, t.parts)
    if t.form == "function":
        return b"fn" + listed(structs, t.parts[:-1]) + b" -> " + spelled(structs, t.parts[-1])
    if t.form == "struct" and structs[t.name].parameters:
        written = [b"'" + argument if parameter.is_region else spelled(structs, argument)
                   for parameter, argument in arguments(structs, t)]
        return t.name + b"<" + b", ".join(written) + b">"
    return b"int" if t.form == "int" else t.name
