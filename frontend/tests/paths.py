"""Puts the package, the slow reference, the comparison of rules and the helpers of browsers on the path: what imports one of
these imports this before."""

import os
import sys

TESTS = os.path.dirname(os.path.realpath(__file__))
FRONTEND = os.path.dirname(TESTS)
ROOT = os.path.dirname(FRONTEND)
EXAMPLES = os.path.join(ROOT, "examples")

sys.path[:0] = [FRONTEND, TESTS, os.path.join(TESTS, "browser"), os.path.join(ROOT, "check", "reference"),
                os.path.join(ROOT, "check", "rules")]
