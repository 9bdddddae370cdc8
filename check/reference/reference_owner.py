"""A slow owner of regions, straight from the definitions: sets for values and copies, and a log.

An owner enters one element after another. Which one comes next, of those that are called for, the definitions
leave open: an order says it (`reference_order`). The owner checks that each is called for and new when it comes,
and that nothing that is called for is lacking at the end of a turn.
"""

from collections import namedtuple

from reference_solve import asked_by, base_values, steps_of

Growth = namedtuple("Growth", "region element rank")


class Wrong(Exception):
    """What an order proposed isn't allowed, or a state isn't as the definitions say."""


def demand(is_so, what):
    if not is_so:
        raise Wrong(what)


class Ground:
    """A problem whose regions, by their numbers, are dealt to owners."""

    def __init__(self, problem, owners, owner_of):
        names = problem.names()
        number = {name: region for region, name in enumerate(names)}
        values = base_values(problem)
        self.problem = problem
        self.owners = owners
        self.owner_of = owner_of
        self.steps = steps_of(problem)
        self.bases = [values[name] for name in names]
        self.constraints = {(number[a], number[b], p) for a, b, p in problem.constraints}
        self.readers = [self.readers_of(region) for region in range(len(names))]

    def readers_of(self, region):
        """The owners, but for the region's own, of the regions that constraints fill from it."""
        found = {self.owner_of[sup] for sup, sub, _ in self.constraints if sub == region}
        return found - {self.owner_of[region]}


class Owner:
    """An owner: what it has of its regions and of those that it reads, its log, and what it received."""

    def __init__(self, ground, me, order):
        self.ground = ground
        self.me = me
        self.constraints = sorted(c for c in ground.constraints if ground.owner_of[c[0]] == me)
        self.has = [set() for _ in ground.bases]
        self.log = []
        # The parts of the log whose regions the other owners read.
        self.parts = [[] for _ in range(ground.owners)]
        self.received = [[] for _ in range(ground.owners)]
        self.clock = 0
        self.loaded = False
        # For each constraint how many elements its sub-region had, and what it asked for then.
        self.walked = {}
        self.order = order(self)

    def owns(self, region):
        return self.ground.owner_of[region] == self.me

    def reached(self, constraint):
        """What a constraint asks of its region, by what the owner has of the other one."""
        inside = self.has[constraint[1]]
        count, found = self.walked.get(constraint, (None, None))
        if count != len(inside):
            found = asked_by(self.ground.steps, constraint[2], inside)
            self.walked[constraint] = len(inside), found
        return found

    def is_called(self, region, element):
        """Whether an own region is to have an element: a base element, or what a constraint asks."""
        return self.owns(region) and (element in self.ground.bases[region] or any(
            element in self.reached(c) for c in self.constraints if c[0] == region))

    def lacking(self):
        """What is called for and isn't there, as pairs of a region and an element."""
        called = [(region, value) for region, value in enumerate(self.ground.bases) if self.owns(region)]
        called += [(c[0], self.reached(c)) for c in self.constraints]
        return {(region, e) for region, value in called for e in value - self.has[region]}

    def grow(self, region, element):
        demand(self.is_called(region, element), f"{region} {element} isn't called for")
        demand(element not in self.has[region], f"{region} {element} isn't new")
        self.clock += 1
        growth = Growth(region, element, self.clock)
        self.has[region].add(element)
        self.log.append(growth)
        for reader in self.ground.readers[region]:
            self.parts[reader].append(growth)

    def turn(self, growths):
        """Enters what an order proposes. Nothing that is called for is lacking then."""
        for region, element in growths:
            self.grow(region, element)
        demand(not self.lacking(), "something that is called for is lacking")

    def load(self):
        self.loaded = True
        self.turn(self.order.load())

    def receive(self, sender, growth):
        self.received[sender].append(growth)
        self.clock = max(self.clock, growth.rank)
        self.has[growth.region].add(growth.element)
        self.turn(self.order.receive(growth))
