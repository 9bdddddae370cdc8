"""The problem of a function, with what is said of its points and regions; what `nllc` would refuse for its size."""

from dataclasses import dataclass, field

from nllc_tools.base.refusal import Refusal
from nllc_tools.model.remarks import Remark


MOST_POINTS = 1_048_576
MOST_EDGES = 4_194_304
MOST_UNIVERSALS = 256
MOST_REGIONS = 65_536
MOST_CONSTRAINTS = 1_048_576

Named = tuple[str, Remark]


@dataclass(frozen=True)
class Problem:
    """What a facts text says: names without `'`, points by number, each with its remark.

    What it says beside the problem itself is lines of remarks.
    """

    function: str
    source: str
    points: list[Remark]
    universals: list[Named]
    outlives: list[tuple[str, str]]
    regions: list[Named]
    successors: list[list[int]]
    returns: list[int]
    bases: list[tuple[str, list[int]]]
    constraints: list[tuple[str, str, int]]
    beside: list[str] = field(default_factory=list)
    way: str = ""

    def check_limits(self) -> None:
        """Refuses what `nllc` would refuse for its size."""
        counts = {
            "points": (len(self.points), MOST_POINTS),
            "edges": (sum(map(len, self.successors)), MOST_EDGES),
            "named lifetimes": (1 + len(self.universals), MOST_UNIVERSALS),
            "regions": (1 + len(self.universals) + len(self.regions), MOST_REGIONS),
            "constraints": (len(self.constraints), MOST_CONSTRAINTS),
        }
        for what, (count, most) in counts.items():
            refuse_past(self.function, what, count, most)


def refuse_past(function: str, what: str, count: int, most: int) -> None:
    if count > most:
        raise Refusal(f"{function}: {count} {what}, and nllc takes at most {most}; "
                      f"split the function into smaller ones")
