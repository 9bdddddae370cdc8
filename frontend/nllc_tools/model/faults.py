"""Which ends in the values of universal regions are faults."""

from typing import Iterable, Sequence

from nllc_tools.base.walks import reached
from nllc_tools.model.facts import Facts
from nllc_tools.model.values import Values

Pair = tuple[int, int]      # of universal regions; the first holds the end of the second


def known(facts: Facts, further: Iterable[Pair] = ()) -> list[set[int]]:
    """For each universal region those that it is known to outlive, itself among them."""
    direct: list[list[int]] = [[] for _ in range(facts.universals)]
    for long, short in [*facts.outlives, *further]:
        direct[long].append(short)
    direct[0] = list(range(facts.universals))
    return [reached([region], direct.__getitem__) for region in range(facts.universals)]


def faults(facts: Facts, values: Values) -> list[Pair]:
    """The pairs (a, b) where a holds the end of b and isn't known to outlive it, in region order.
    """
    outlived = known(facts)
    return [(a, element - facts.points)
            for a in range(facts.universals)
            for element in values.elements(a)
            if element >= facts.points and element - facts.points not in outlived[a]]


def needs(facts: Facts, found: Sequence[Pair]) -> list[Pair]:
    """Those of the faults that a closure or coroutine only needs of the function around it.

    rustc says what that is, and asks it where the closure is made; there it is a constraint like
    any other.
    """
    asked = asked_for(facts)
    outlived = known(facts, asked)
    return [(long, short) for long, short in found if asked and short in outlived[long]]


def asked_for(facts: Facts) -> list[Pair]:
    """The pairs of universal regions of which a closure needs that the first outlive the second."""
    return [(facts.names.index(long), facts.names.index(short))
            for long, short in facts.remarks.beside.needs
            if {long, short} <= set(facts.names[:facts.universals])]


def distinct(facts: Facts, found: Iterable[Pair]) -> list[Pair]:
    """The faults without those that are another one's in other names: of regions that a closure needs to be equal."""
    outlived = known(facts, asked_for(facts))
    kept: list[Pair] = []
    for pair in found:
        if not any(all(b in outlived[a] and a in outlived[b] for a, b in zip(pair, other)) for other in kept):
            kept.append(pair)
    return kept
