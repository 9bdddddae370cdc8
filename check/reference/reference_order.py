"""Orders in which an owner enters what is called for.

An order proposes pairs of a region and an element, one after another, and sees what its owner has entered so
far. `ProgramOrder` is that of `nllc` (crates/nll_owner and the frontiers of crates/nll_core), element by element;
`RandomOrder` is any.
"""


from reference_solve import ALL


class RandomOrder:
    """What is called for, in any order."""

    def __init__(self, rng, owner):
        self.rng = rng
        self.owner = owner

    def load(self):
        while lacking := sorted(self.owner.lacking()):
            yield from self.rng.sample(lacking, self.rng.randint(1, len(lacking)))

    def receive(self, _growth):
        return self.load()


class Link:
    """The constraints that fill one region from another: where their walks start, what these reached, and whether
    they rest, since the one region had all of the other."""

    def __init__(self, sup):
        self.sup = sup
        self.starts = []
        self.reached = set()
        self.rests = False

    def is_idle(self, run):
        """Whether nothing is reached yet, and no walk starts in the run."""
        return not self.reached and ALL not in self.starts and not any(p in run for p in self.starts)


class Walk:
    """The walks of a link go on from a run inside a set. `found` has what they newly reach, in stretches."""

    def __init__(self, paths, link, inside):
        self.paths = paths
        self.link = link
        self.inside = inside
        self.found = []

    def put(self, stretch):
        self.link.reached.update(stretch)
        self.found.append(stretch)

    def enter(self, p):
        """Enters the points from p on, along their line, up to one that is outside or reached."""
        stretch = []
        while p in self.inside and p not in self.link.reached:
            stretch.append(p)
            if p + 1 not in self.paths.next[p]:
                break
            p += 1
        if stretch:
            self.put(stretch)

    def begin(self, run):
        """Enters those of a run of points to which a line leads, at which a walk starts, to which a jump leads."""
        reached = self.link.reached
        for p in range(max(0, run[0] - 1), run[-1]):
            if p in reached and p + 1 in self.paths.next[p]:
                self.enter(p + 1)
        for p in self.link.starts:
            if p in run:
                self.enter(p)
        for p in run:
            if any(p in self.paths.jumps[q] for q in reached if q < self.paths.points):
                self.enter(p)

    def spread(self):
        """Follows the jumps of each stretch, and of those that come. Whether a return point is among them."""
        ended = False
        for stretch in self.found:
            for p in stretch:
                for target in self.paths.jumps[p]:
                    self.enter(target)
                ended = ended or p in self.paths.returns
        return ended

    def go_on(self, run):
        """What is newly reached once a run is inside, in the order in which it's reached. Where a constraint of
        the link holds at all points, that is what of the run is new."""
        if ALL in self.link.starts:
            new = [e for e in run if e not in self.link.reached]
            self.link.reached.update(new)
            return new
        if self.link.is_idle(run) or self.link.reached.issuperset(run):
            return []
        points = [e for e in run if e < self.paths.points]
        if points:
            self.begin(points)
        ended = self.spread()
        if run[-1] >= self.paths.points:
            ended = ended or bool(self.link.reached & self.paths.returns)
        if ended:
            self.put([e for e in sorted(self.inside - self.link.reached) if e >= self.paths.points])
        return [e for stretch in self.found for e in stretch]


class Paths:
    """The steps of a problem, in the order of its text. Jumps are those that don't lead to the next point."""

    def __init__(self, problem):
        self.points = problem.points
        self.returns = problem.returns
        self.next = [problem.successors(p) for p in range(problem.points)]
        self.jumps = [[q for q in targets if q != p + 1] for p, targets in enumerate(self.next)]


def runs_of(elements):
    """The runs of elements that ascend: as many as follow each other by number are one."""
    runs = []
    for e in elements:
        if runs and runs[-1][-1] + 1 == e:
            runs[-1].append(e)
        else:
            runs.append([e])
    return runs


# A set of more runs isn't compared with another one.
MOST_RUNS = 64


class ProgramOrder:
    """The order of the program. It follows up the log in rounds: all that came since the round before, by region and
    then by element, a run at a time; each link that reads the region goes on from its runs."""

    def __init__(self, owner):
        self.owner = owner
        self.paths = Paths(owner.ground.problem)
        self.place = 0
        self.links = [[] for _ in owner.has]
        for sup, sub, at in owner.constraints:
            if sup == sub:
                continue
            links = self.links[sub]
            if not links or links[-1].sup != sup:
                links.append(Link(sup))
            links[-1].starts.append(at)

    def load(self):
        for region, value in enumerate(self.owner.ground.bases):
            if self.owner.owns(region):
                yield from ((region, e) for e in sorted(value))
        yield from self.settle()

    def receive(self, growth):
        yield from self.follow([(growth.region, growth.element)])
        yield from self.settle()

    def settle(self):
        while self.place < len(self.owner.log):
            told = [growth[:2] for growth in self.owner.log[self.place:]]
            self.place = len(self.owner.log)
            yield from self.follow(told)

    def follow(self, told):
        """Lets each link that reads a region go on from what is told of it."""
        for region in sorted({region for region, _ in told}):
            runs = runs_of(sorted(e for told_of, e in told if told_of == region))
            for link in self.links[region]:
                yield from self.advance(link, region, runs)

    def may_rest(self, link, sub, runs):
        """Whether the link's region has all that the other one has. Where the link rests, it had all but the runs."""
        inside, own = self.owner.has[sub], self.owner.has[link.sup]
        if link.rests:
            return all(own.issuperset(run) for run in runs)
        return len(runs_of(sorted(inside))) <= MOST_RUNS and inside <= own

    def advance(self, link, sub, runs):
        """Lets a link go on from runs; where it rested, from all of the region that it reads."""
        if not link.rests and all(link.is_idle(run) for run in runs):
            return
        if self.may_rest(link, sub, runs):
            link.rests = True
            return
        if link.rests:
            link.rests = False
            runs = runs_of(sorted(self.owner.has[sub]))
        for run in runs:
            for e in Walk(self.paths, link, self.owner.has[sub]).go_on(run):
                if e not in self.owner.has[link.sup]:
                    yield link.sup, e
