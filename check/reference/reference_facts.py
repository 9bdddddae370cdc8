"""A slow reader of facts texts (versions 1 and 2), written straight from the definitions."""

import reference_text as text
from reference_solve import ALL
from reference_text import number_of, tokens_of

# For each form its group and what stands behind the keyword: regions (r), numbers (n) and a place (p), which is
# a number or, in version 2, `all`.
FORMS = {
    b"points": (1, "n"),
    b"universal": (2, "r"),
    b"outlives": (3, "rr"),
    b"region": (4, "r"),
    b"next": (5, "nn"),
    b"return": (5, "n"),
    b"base": (5, "rn"),
    b"constraint": (5, "rrp"),
    b"end": (6, ""),
}


class Facts:
    """What the lines so far said."""

    HEADER = b"nll-facts"
    VERSIONS = (b"1", b"2")

    def __init__(self, version=b"1"):
        self.version = version
        self.reached = 0
        self.points = 0
        self.universals = [b"static"]
        self.further = []
        self.outlives = set()
        self.edges = set()
        # For a point where its edges lead, in the order of their first lines.
        self.targets = {}
        self.returns = set()
        self.bases = set()
        self.constraints = set()

    def names(self):
        return self.universals + self.further

    def label(self, p):
        return b"%d" % p

    def successors(self, p):
        return self.targets.get(p, [])

    def form_of(self, line):
        """The form of a line as (keyword, arguments), or None where it has none."""
        tokens = tokens_of(line)
        if not tokens or tokens[0][0] != "word" or tokens[0][1] not in FORMS:
            return None
        keyword = tokens[0][1]
        wanted = FORMS[keyword][1]
        if len(tokens) - 1 != len(wanted):
            return None
        arguments = []
        for (token, name), want in zip(tokens[1:], wanted):
            if want == "r":
                arguments.append(name if token == "region" else None)
            elif want == "p" and self.version == b"2" and (token, name) == ("word", b"all"):
                arguments.append(ALL)
            else:
                arguments.append(number_of(name) if token == "word" else None)
        return None if None in arguments else (keyword, arguments)

    def ends(self, form):
        """Whether a line of this form, or one before it, is the last of a text."""
        return self.reached == 6 or (form is not None and form[0] == b"end")

    def in_order(self, group):
        """Whether a line of the group may stand here."""
        once = group in (1, 6)
        owed = self.reached == 0 and group != 1
        return not owed and (self.reached < group or (self.reached == group and not once))

    def faults(self, form):
        """All kinds of fault of a line of this form, in no order."""
        keyword, arguments = form
        kinds = set()
        if not self.in_order(FORMS[keyword][0]):
            kinds.add("syntax")
        getattr(self, "faults_" + keyword.decode())(kinds, *arguments)
        return kinds

    def faults_points(self, kinds, n):
        if n == 0:
            kinds.add("range")
        if n > text.LIMIT_POINTS:
            kinds.add("limit points")

    def faults_universal(self, kinds, name):
        self.faults_region(kinds, name)
        if name not in self.names() and len(self.universals) + 1 > text.LIMIT_UNIVERSALS:
            kinds.add("limit universals")

    def faults_outlives(self, kinds, a, b):
        if a not in self.universals or b not in self.universals:
            kinds.add("unknown")

    def faults_region(self, kinds, name):
        if name in self.names():
            kinds.add("duplicate")
        elif len(self.names()) + 1 > text.LIMIT_REGIONS:
            kinds.add("limit regions")

    def faults_next(self, kinds, p, q):
        if p >= self.points or q >= self.points:
            kinds.add("range")
        if len(self.edges | {(p, q)}) > text.LIMIT_EDGES:
            kinds.add("limit edges")

    def faults_return(self, kinds, p):
        if p >= self.points:
            kinds.add("range")

    def faults_base(self, kinds, name, p):
        if name not in self.names():
            kinds.add("unknown")
        self.faults_return(kinds, p)

    def faults_constraint(self, kinds, a, b, p):
        if a not in self.names() or b not in self.names():
            kinds.add("unknown")
        if p != ALL:
            self.faults_return(kinds, p)
        if len(self.constraints | {(a, b, p)}) > text.LIMIT_CONSTRAINTS:
            kinds.add("limit constraints")

    def faults_end(self, kinds):
        """A line of this form has no fault of its own."""

    def add(self, form):
        """Adds what a line without a fault says."""
        keyword, arguments = form
        self.reached = FORMS[keyword][0]
        if keyword == b"points":
            self.points = arguments[0]
        elif keyword == b"universal":
            self.universals.append(arguments[0])
        elif keyword == b"region":
            self.further.append(arguments[0])
        elif keyword == b"return":
            self.returns.add(arguments[0])
        elif keyword != b"end":
            if keyword == b"next" and tuple(arguments) not in self.edges:
                self.targets.setdefault(arguments[0], []).append(arguments[1])
            sets = {b"outlives": self.outlives, b"next": self.edges, b"base": self.bases,
                    b"constraint": self.constraints}
            sets[keyword].add(tuple(arguments))
