"""A function as rustc types it: its points by number, the regions that a text names, its constraints, where regions are live."""

from collections import defaultdict
from typing import Iterator

from nllc_tools.model.facts import Constraint
from nllc_tools.model.liveness import live_variables
from nllc_tools.model.points import number_points
from nllc_tools.model.problem import MOST_CONSTRAINTS, refuse_past
from nllc_tools.model.regions import Regions, name_regions
from nllc_tools.rustc.dumps import Dump
from nllc_tools.rustc.mir.body_reader import read_body
from nllc_tools.rustc.tables import read_tables


class TypedFunction:
    """What rustc left of a function. The universal regions of a text, the others, and the names of both are of classes."""

    def __init__(self, dump: Dump):
        self.dump, self.tables, self.body = dump, read_tables(dump.facts), read_body(dump.mir)
        self.points, self.regions = number_points(self.tables, self.body), Regions(self.tables)
        self.constraints = self.asked()
        mentioned = set(map(self.regions.find, self.mentioned()))
        self.universals = self.kept_universals(mentioned)
        self.others = sorted(region for region in mentioned if not self.regions.is_universal(region))
        self.names = name_regions(self.body, [*self.universals, *self.others])

    def asked(self) -> list[Constraint]:
        """Each constraint once: what a statement asks, at the points after it; the rest everywhere."""
        find, points, subsets = self.regions.find, self.points, self.tables.subset_base
        everywhere = {(find(sup), find(sub)) for sup, sub in subsets.everywhere}
        everywhere = {(sup, sub) for sup, sub in everywhere if sup != sub}
        all_points = range(len(points.locations))
        refuse_past(self.dump.name, "constraints", len(everywhere) * len(all_points), MOST_CONSTRAINTS)
        found = {(at, find(sup), find(sub)) for sup, sub, spot in subsets.located
                 for at in points.successors[points.number[spot.location]]}
        found |= {(at, sup, sub) for sup, sub in everywhere for at in all_points}
        return [Constraint(sup, sub, at) for at, sup, sub in sorted(found) if sup != sub]

    def mentioned(self) -> Iterator[int]:
        """The regions of variables' types and drops, of borrows and of constraints."""
        yield from (region for _, region in self.tables.use_of_var_derefs_origin)
        yield from (region for _, region in self.tables.drop_of_var_derefs_origin)
        yield from (region for region, _, _ in self.tables.loan_issued_at)
        yield from (region for sup, sub, _ in self.constraints for region in (sup, sub))

    def kept_universals(self, mentioned: set[int]) -> list[int]:
        """The universal regions without rustc's own one of the body, where nothing speaks of it."""
        *others, last = self.regions.universals
        is_body = last not in self.body.names and last not in mentioned
        return others if is_body and others else self.regions.universals

    def live_points(self) -> dict[int, list[int]]:
        """For each region that isn't universal the points at which it is live, ascending, if there are any.

        A bound of an `impl Trait` or of an associated type can say that its regions aren't live where a variable
        of it is: that is in the dump alone.
        """
        live: dict[int, set[int]] = defaultdict(set)
        for its, locations in live_variables(self.tables):
            for region in its:
                found = self.regions.find(region)
                if not self.regions.is_universal(found):
                    live[found].update(self.points.number[location] for location in locations & self.body.live_at(region))
        return {region: sorted(points) for region, points in sorted(live.items()) if points}
