"""The names of regions and ends in sentences."""

from nllc_tools.base.sentences import Code
from nllc_tools.model.facts import Facts


def tick(facts: Facts, region: int) -> Code:
    return Code(f"'{facts.names[region]}")


def end(facts: Facts, universal: int) -> Code:
    return Code(f"end('{facts.names[universal]})")
