"""What the rules make of the MIR texts of sources/forms.rs is what rustc's facts have, save for known classes.

The rules are those of the slow reference, which stands for nllc; `check/run rules` compares by nllc itself.
"""

import unittest
from types import SimpleNamespace

import facts_support as support
import mir_support as mir

import classes
import sides

# Of each function that isn't the same both ways the classes, found by reading: `loud` may be moved out before its drop,
# and what goes to `*loud` is moved out of a temporary, which rustc drops all the same. `kept` is moved before its drop, and
# its bound says that nothing of it is live.
DIFFERENT = {"maybe_dropped": {classes.BEFORE_ELABORATION}, "replaced": {classes.BEFORE_ELABORATION},
             "uses_statics": {classes.BEFORE_ELABORATION, classes.BOUND_OF_ALIAS}}


def said_by_reference(text):
    """The problem of a MIR text in the form in which the pages read one."""
    body = support.reference.Body(support.reference.said_in(text.encode()))
    names = [name.decode() for name in body.names()]
    number = {name.encode(): at for at, name in enumerate(names)}
    bases = [set() for _ in names]
    for name, point in body.bases:
        bases[number[name]].add(point)
    return SimpleNamespace(names=names, bases=bases,
                           constraints=[(number[a], number[b], at) for a, b, at in body.constraints])


def differences(dump, text):
    return classes.differences(sides.both_of(sides.Reading(dump), said_by_reference(text)))


class SameProblem(unittest.TestCase):
    def test_each_function(self):
        for name, one in mir.made().items():
            if one.text:
                with self.subTest(function=name):
                    found = {difference.class_of for difference in differences(one.dump, one.text)}
                    self.assertEqual(found, DIFFERENT.get(name, set()))


class Planted(unittest.TestCase):
    """A text that says something else is found out."""

    CASES = {
        "a sign": ("make_pair", "struct Pair <'p1 =, 'p2 +>", "struct Pair <'p1 =, 'p2 =>"),
        "an assertion": ("known", "assert 'a : ", "# assert 'a : "),
        "a shared borrow": ("reborrow", "_3 = &'r4 mut _1.*.*", "read _1.*.*"),
        "an operand": ("variants", "_6 = copy _1.1", "_6 = copy _7"),
        "a drop": ("dropped", "drop _2 ->", "switch const"),
        "a bound": ("make_pair", " where 'r6: 'r7", ""),
        "a function's argument": ("wrapped", ", 'r5: 'r4", ", 'r4: 'r5, 'r5: 'r4"),
        "a pattern's type": ("Maybe::taken", "read _3.*", "nop"),
        "a field's type": ("holder", "move _2: Option<'static>", "move _2: Option<'r5>"),
        "a mark": ("dropped", "struct Loud <'p1 +> drop (", "struct Loud <'p1 + ?> drop ("),
    }

    def test_each(self):
        for what, (function, old, new) in self.CASES.items():
            with self.subTest(planted=what):
                one = mir.made()[function]
                self.assertIn(old, one.text)
                text = one.text.replace(old, new)
                text = text.replace("switch const bb11 unwind bb15", "switch const bb11 bb15")
                found = {difference.class_of for difference in differences(one.dump, text)}
                self.assertIn(classes.UNEXPLAINED, found)


class Between(unittest.TestCase):
    def test_chains_through_others(self):
        """2 is of one line: `1: 2` and `2: 3` at point 5 are `1: 3` there; at another point 2 leads nowhere."""
        constraints = {(1, 2, 5), (2, 3, 5), (1, 2, 6)}
        self.assertEqual(sides.between(constraints, {1, 3}), {(1, 3, 5)})
        self.assertEqual(sides.between(constraints, {1, 2, 3}), constraints)

    def test_what_follows(self):
        constraints = {(1, 2, 5), (2, 3, sides.ALL), (3, 4, 6)}
        self.assertEqual(sides.closed(constraints, {5}), {(1, 2, 5), (1, 3, 5), (2, 3, 5)})
