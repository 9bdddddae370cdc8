"""Makes one MIR text of given dimensions, so that each can be grown alone or beside another."""

from text_tables import filled

# Each dimension, and its size where it isn't grown.
DIMENSIONS = {
    "universals": 2,      # universal regions, each known to outlive the next
    "regions": 2,         # regions of the body, which the variables have in turn
    "structs": 1,         # structs, each of which has the one before it in its field
    "parameters": 1,      # region parameters of each struct
    "fields": 1,          # fields of each struct
    "references": 1,      # references in each field, in a tuple
    "variables": 2,       # variables of the last struct
    "depth": 1,           # projections of the places that are copied
    "copies": 1,          # copies from one variable's field to another's
    "borrows": 1,         # borrows of fields
    "nops": 1,            # statements that ask for nothing
    "runs": 1,            # times that a variable is defined, and later used
    "arguments": 1,       # arguments of a call
    "bounds": 1,          # pairs of regions that a call asks by itself
    "switches": 1,        # switches
    "targets": 2,         # targets of each
    "drops": 1,           # drops of a variable
}

# The texts of a form, as tables write them; `-NAME` is one less than the size of that name, and `+NAME` is one more.
PARAMETERS = b"{%(-parameters)d k*'p$k +, }'p%(-parameters)d +"
OWN = b"<{%(-parameters)d k*'p$k, }'p%(-parameters)d>"
WIDE = b"({%(references)d k*&'p$[k %% %(parameters)d] int, }&'p%(rest)d int)"
STRUCTS = (b"struct S0<" + PARAMETERS + b"> drop ({%(-fields)d*" + WIDE + b", }" + WIDE + b")\n"
           b"{%(-structs)d k*struct S$[k + 1]<" + PARAMETERS + b"> ({%(-fields)d*S$k" + OWN + b", }S$k" + OWN + b")\n}")
PLACE = b"_$[1 + NUMBER %% %(variables)d]{%(steps)d*.$[NUMBER %% %(fields)d]}"
STATEMENTS = (b"{%(copies)d k*" + PLACE.replace(b"NUMBER", b"k") + b" = copy "
              + PLACE.replace(b"NUMBER", b"(k + 1 + k // %(variables)d)") + b"\n}"
              b"{%(borrows)d k*_%(+variables)d = &'r$[k %% %(regions)d] _0\n}{%(nops)d*nop\n}"
              b"{%(runs)d*_%(+variables)d = &'r0 _0\nnop\nread _%(+variables)d\n}")
BOUND = b"'r$[k %% %(regions)d]: 'u$[k %% %(universals)d]"
TARGETS = b"{%(targets)d k* bb$[1 + k %% %(-blocks)d]}"


def variable_lines(d):
    """Variables of the last struct, whose regions are those of the body in turn."""
    for v in range(d["variables"]):
        taken = b", ".join(b"'r%d" % ((v + k) % d["regions"]) for k in range(d["parameters"]))
        yield b"let _%d: S%d<%s>\n" % (1 + v, d["structs"] - 1, taken)


def grown(**sizes):
    """The text of these dimensions; the others are small."""
    d = {**DIMENSIONS, **sizes}
    d.update(steps=min(d["depth"], d["structs"]), blocks=3 + d["switches"] + d["drops"],
             rest=d["references"] % d["parameters"])
    form = (b"nll-mir 1\n{%(universals)d k*universal 'u$k\n}{%(-universals)d k*outlives 'u$k 'u$[k + 1]\n}"
            b"{%(regions)d k*region 'r$k\n}" + STRUCTS + b"let _0: int\n" + b"".join(variable_lines(d)) +
            b"let _%(+variables)d: &'r0 int\nblocks %(blocks)d\nblock bb0\n" + STATEMENTS +
            b"_0 = call f({%(-arguments)d*copy _0: int, }copy _0: int): int where {%(bounds)d k*, " + BOUND + b"} -> bb1\n"
            b"{%(switches)d n*block bb$[n + 1]\nswitch copy _0" + TARGETS + b"\n}"
            b"{%(drops)d k*block bb$[%(+switches)d + k]\ndrop _$[1 + k %% %(variables)d] -> bb$[%(+switches)d + 1 + k]\n}"
            b"block bb%(+ends)d\nnop\ngoto bb%(-blocks)d\nblock bb%(-blocks)d\nreturn\nend\n")
    d["ends"] = d["blocks"] - 3
    known = {sign + name: size + more for name, size in d.items() for sign, more in (("", 0), ("-", -1), ("+", 1))}
    return filled(form % {name.encode(): size for name, size in known.items()}).replace(b"where , ", b"where ", 1)
