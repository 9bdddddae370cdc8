"""Which constraint rustc names where a region would have to outlive a universal one, by rustc's own list.

rustc looks for a shortest chain of constraints, in the order in which it made them, first without those of the
result's `impl`. It ranks the categories of constraints, and names one of the chain's by them (`blamed`).
"""

from typing import Callable, Iterable, Optional, Sequence

from nllc_tools.base.grouping import grouped
from nllc_tools.base.walks import backwards, shortest
from nllc_tools.model.regions import STATIC
from nllc_tools.rustc.mir.body import Body, Reason
from nllc_tools.rustc.mir.captures import made_at
from nllc_tools.rustc.mir.desugarings import Desugarings

# rustc's categories of constraints in words. The others say nothing of the source.
CATEGORIES = {
    "Return": "return", "Yield": "yield", "UseAsConst": "constant", "UseAsStatic": "constant",
    "TypeAnnotation": "annotation", "Cast": "cast", "CallArgument": "argument",
    "CopyBound": "bound", "SizedBound": "bound", "Assignment": "assignment", "Usage": "use",
    "ClosureUpvar": "capture", "Predicate": "predicate", "OpaqueType": "opaque", "Boring": "step",
    "BoringNoLocation": "step",
}
GENERIC = "(GenericArg)"
OBJECT = "unsize_to: Some("
RANKS = {"return": 0, "object": 1, "generic": 3, "predicate": 4, "opaque": 4, "step": 5}     # the best first
INTERESTING, BORING, PLACELESS, INTERNAL = 2, 5, 6, 7

Chain = list[Reason]


def word_of(reason: Reason) -> str:
    """The category in a word; nothing for rustc's inner ones."""
    if reason.category == "TypeAnnotation" and GENERIC in reason.detail:
        return "generic"
    if reason.category == "Cast" and makes_object(reason.detail):
        return "object"
    return CATEGORIES.get(reason.category, "")


def rank_of(word: str) -> int:
    """The rank of a category."""
    return RANKS.get(word, INTERESTING)


def blamed(words: Sequence[str], ranks: Sequence[int], is_of_result_alone: Callable[[], bool] = lambda: True) -> int:
    """Which of a chain's constraints rustc names, by their categories and ranks from the beginning of the chain on.

    It is the one of the best rank, of equals the last. Where that is a return, and the next one is asked by the result's
    `impl`, and by nothing else, it is the next.
    """
    best = min(range(len(ranks)), key=lambda at: (ranks[at], -at))
    is_followed = words[best] == "return" and [*words[best + 1:best + 2]] == ["opaque"]
    return best + 1 if is_followed and is_of_result_alone() else best


def makes_object(detail: str) -> bool:
    """Whether a cast that isn't written makes a `Box<dyn ..>` or the like."""
    target = detail.partition(OBJECT)[2]
    return "is_implicit_coercion: true" in detail and target[:1] not in ("", "&", "*") \
        and "<dyn " in target.partition(" ")[0] + " "


class Blame:
    """rustc's list of constraints, as its search goes through it."""

    def __init__(self, body: Body, desugarings: Desugarings):
        self.body, self.desugarings = body, desugarings
        self.onwards = grouped((reason.sup, reason) for reason in body.reasons)

    def chains(self, begin: int, goals: Iterable[int]) -> dict[int, Chain]:
        """For each of the regions to which a chain leads, the one that rustc finds."""
        found = self.shortest(begin, goals, lambda reason: reason.category != "OpaqueType")
        left = [goal for goal in goals if goal not in found]
        return found | (self.shortest(begin, left, lambda reason: True) if left else {})

    def shortest(self, begin: int, goals: Iterable[int], passes: Callable[[Reason], bool]) -> dict[int, Chain]:
        """For each of the goals the first shortest chain there of constraints that pass, if there is one."""
        def onward(region: int) -> Iterable[tuple[int, Reason]]:
            if region == STATIC:    # it outlives all, which is never to blame
                return ()
            return ((reason.sub, reason) for reason in self.onwards[region] if passes(reason))

        came_by: dict[int, Optional[Reason]] = shortest([begin], onward)
        return {goal: backwards(came_by, goal, lambda reason: reason.sup)[::-1] for goal in goals if came_by.get(goal)}

    def named(self, chain: Chain) -> Reason:
        """The constraint of a chain that rustc names."""
        return chain[blamed([word_of(one) for one in chain], [self.rank(one, chain) for one in chain])]

    def rank(self, reason: Reason, chain: Chain) -> int:
        word = word_of(reason)
        if self.desugarings.has(reason):
            return BORING
        if word == "object":
            is_annotated = any(one.category == "TypeAnnotation" for one in chain)
            return RANKS[word] if chain[-1].sub == STATIC and not is_annotated else INTERESTING
        if word == "step":
            return BORING if reason.category == "Boring" else PLACELESS
        return rank_of(word) if word else INTERNAL

    def is_of_closure(self, reason: Reason) -> bool:
        """Whether the body of a closure asks for it, of the function around it: its place is a part of the closure's."""
        made = made_at(self.body, reason.location) if reason.location else None
        inner, outer = reason.span, made.span if made else None
        return inner is not None and outer is not None and inner != outer and inner.is_inside(outer)
