"""Edits of a crate in rounds, and what a check says of each."""

import pathlib
import tempfile
import unittest
from unittest import mock

import support  # noqa: F401 (it says where modules stand)
import rounds

SOURCE = """\
const MOST: u8 = 9;

pub fn low(x: u8) -> u8 {
    x + 1
}

impl Pair {
    pub(crate) fn high(&self) -> u8 {
        low(self.0)
    }

    fn other(&self) -> u8 {
        self.1
    }
}
"""
LOW, HIGH, OTHER = (("crate_a::pair", name) for name in ("low", "high", "other"))
SEARCHED = "fn crate_a::pair::{}: no proof: expected answers in ./proofs/pair/{}/Answers.antt; `search` did not prove `returns`"
CALLS = "fn crate_a::pair::Pair::high: no proof: it calls `crate_a::pair::low`, which is not proved"


def edit_of(name, old, new):
    return rounds.Edit("crate_a", name, (("src/pair.rt", old, new),))


WRONG_LOW = edit_of("wrong_low", "x + 1", "x + 2")
LOWER = edit_of("lower", "x + 1", "x + 0")
WRONG_HIGH = edit_of("wrong_high", "low(self.0)", "low(self.1)")
WRONG_OTHER = edit_of("wrong_other", "        self.1", "        self.0")
MORE = edit_of("more", "= 9;", "= 8;")


class Rounds(unittest.TestCase):
    def setUp(self):
        folder = tempfile.TemporaryDirectory()
        self.addCleanup(folder.cleanup)
        self.folder = pathlib.Path(folder.name)
        (self.folder / "src").mkdir()
        (self.folder / "src" / "pair.rt").write_text(SOURCE)

    def test_a_place_is_in_the_function_around_it(self):
        for text, name in (("x + 1", "low"), ("pub fn low", "low"), ("low(self.0)", "high"), ("self.1", "other"),
                           ("MOST", None), ("impl Pair", None)):
            self.assertEqual(rounds.function_at(SOURCE, SOURCE.index(text)), name, text)

    def test_no_two_of_a_round_change_one_function(self):
        found = rounds.rounds_of([WRONG_LOW, LOWER, WRONG_HIGH, MORE], self.folder)
        self.assertEqual(found, [{WRONG_LOW: {LOW}, WRONG_HIGH: {HIGH}}, {LOWER: {LOW}}, {MORE: {None}}])

    def test_an_edit_is_read_pair_by_pair(self):
        path = self.folder / "one.edit"
        path.write_text("# wrong: a\nfile: src/a.rt\nold: x\nnew: y\nold: z\nnew:\n")
        self.assertEqual(rounds.read_edit("crate_a", path),
                         rounds.Edit("crate_a", "one", (("src/a.rt", "x", "y"), ("src/a.rt", "z", ""))))

    def try_on(self, edits, answers):
        """What comes of the edits where the checks print these answers, one after the other, and the texts that they see."""
        answers, seen = iter(answers), []

        def check(folder):
            seen.append((folder / "src" / "pair.rt").read_text())
            return next(answers)

        with mock.patch.object(rounds, "check", check):
            found = rounds.try_edits(edits, self.folder)
        self.assertEqual((self.folder / "src" / "pair.rt").read_text(), SOURCE)
        self.assertEqual(list(answers), [])
        return {one.edit: one.by for one in found}, seen

    def not_proved(self, *lines):
        return "\n".join([*lines, "logic=not-proved"])

    def test_a_round_tells_of_each(self):
        found, seen = self.try_on([WRONG_LOW, WRONG_OTHER], [self.not_proved(
            SEARCHED.format("low", "low"), "./proofs/pair/Pair/other/Invariants.antt:3:1: error: `kept`: it differs",
            "fn crate_a::pair::Pair::other: not proved")])
        self.assertEqual(found, {"wrong_low": rounds.GOAL, "wrong_other": rounds.STEP})
        self.assertEqual([("x + 2" in text, text.count("self.0")) for text in seen], [(True, 2)])

    def test_one_that_calls_what_is_not_proved_is_tried_again(self):
        found, seen = self.try_on([WRONG_LOW, WRONG_HIGH], [
            self.not_proved(SEARCHED.format("low", "low"), CALLS), self.not_proved(SEARCHED.format("Pair::high", "Pair/high"))])
        self.assertEqual(found, {"wrong_low": rounds.GOAL, "wrong_high": rounds.GOAL})
        self.assertNotIn("x + 2", seen[1])

    def test_what_waits_for_one_another_is_tried_apart(self):
        calls = rounds.calls_in(CALLS)
        self.assertEqual(rounds.apart({WRONG_LOW: {LOW}, WRONG_OTHER: {OTHER}, WRONG_HIGH: {HIGH}}, calls),
                         [{WRONG_LOW: {LOW}, WRONG_OTHER: {OTHER}}, {WRONG_HIGH: {HIGH}}])
        lower = self.not_proved(SEARCHED.format("low", "low"), CALLS)
        higher = self.not_proved(SEARCHED.format("Pair::high", "Pair/high"), SEARCHED.format("Pair::other", "Pair/other"))
        found, seen = self.try_on([WRONG_LOW, WRONG_HIGH, LOWER, WRONG_OTHER], [
            self.not_proved(SEARCHED.format("low", "low"), CALLS, SEARCHED.format("Pair::other", "Pair/other")), higher, lower])
        self.assertEqual([text.count("low(self.1)") for text in seen], [1, 1, 0])
        self.assertEqual(set(found.values()), {rounds.GOAL})

    def test_one_that_is_not_refused_is_found_beside_another(self):
        found, _ = self.try_on([WRONG_LOW, WRONG_OTHER], [self.not_proved(SEARCHED.format("low", "low")), "a\nlogic=proved"])
        self.assertEqual(found, {"wrong_low": rounds.GOAL, "wrong_other": rounds.NONE})

    def test_a_round_with_a_stranger_is_tried_in_halves(self):
        stranger = self.not_proved(SEARCHED.format("low", "low"), SEARCHED.format("Pair::third", "Pair/third"))
        found, seen = self.try_on([WRONG_LOW, WRONG_OTHER], [stranger, stranger, "a\nlogic=proved"])
        self.assertEqual(found, {"wrong_low": rounds.GOAL, "wrong_other": rounds.NONE})
        self.assertEqual(len(seen), 3)

    def test_what_does_not_reach_the_prover_is_not_refused(self):
        for printed in ("src/pair.rt:3:1: error: expected `;`", self.not_proved("src/pair.rt:3:1: error: `x` is not in scope")):
            self.assertEqual(self.try_on([WRONG_LOW], ["\n" + printed])[0], {"wrong_low": rounds.NONE})

    def test_an_edit_of_no_function_is_judged_by_what_fails(self):
        self.assertEqual(self.try_on([MORE], [self.not_proved(SEARCHED.format("low", "low"))])[0], {"more": rounds.GOAL})

    def test_what_refuses_is_told_by_the_file(self):
        for place, message, by in (("pair/low/Answers.antt", "`returns`: the two types differ", rounds.GOAL),
                                   ("pair/low/Invariants.antt", "`kept`: expected type", rounds.STEP),
                                   ("pair/low/Answers.antt", "`returns`: `c` has no field `got`", rounds.NAME),
                                   ("pair/+cycle/Answers.antt", "`low-returns`: the two types differ", rounds.GOAL),
                                   ("pair/other/Answers.antt", "`returns`: the two types differ", rounds.STEP),
                                   ("pair/low/Answers.antt", "1 declaration that depends on `a`, which was rejected", rounds.STEP)):
            printed = self.not_proved(f"./proofs/{place}:8:13: error: {message}", "fn crate_a::pair::low: not proved")
            self.assertEqual(self.try_on([WRONG_LOW], ["\n" + printed])[0], {"wrong_low": by}, message)


if __name__ == "__main__":
    unittest.main()
