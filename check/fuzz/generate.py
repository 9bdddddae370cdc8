#!/usr/bin/env python3
"""Makes facts texts (versions 1 and 2): big ones to measure reading, small ones to compare programs.

Every text depends on its arguments and its seed alone.

    generate.py reading MIB [--shuffled] [--refused] [--seed S]   a big text without constraints
    generate.py chain POINTS REGIONS                              a chain of regions on a chain
    generate.py random [--seed S]                                 a small problem
    generate.py mutations FILE --into DIR                         each small change of a text
    generate.py limits --into DIR [NAME ..]                       texts at the limits of the format
    generate.py line KIND MIB                                     one long line after the header
    generate.py family NAME                                       a big problem to measure solving

All but `mutations` and `limits` write to standard output.
"""

import random

import families
import small_facts
from limits import FACTS, LINES, facts_limits, line
from making import main

SINGLE = {
    "reading": families.reading,
    "chain": families.chain,
    "random": lambda seed=1: small_facts.small(random.Random(seed)),
    "line": lambda kind, mebibytes: line(FACTS, kind, mebibytes),
    "family": families.family,
}

if __name__ == "__main__":
    main(__doc__, ".facts", SINGLE, {"limits": facts_limits}, small_facts.mutations,
         kind=sorted(LINES[FACTS]), name=families.NAMES)
