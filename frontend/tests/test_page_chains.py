"""The chain of each fault: re-checked by the reference, and as short as any."""

import glob
import os
import unittest

from page_support import EXAMPLES, SAMPLES, file_bytes, random_text, reference, solved

from nllc_tools.model import chains
from nllc_tools.model.facts import ALL
from nllc_tools.model.faults import faults


def cost(steps):
    return len(steps), sum(len(step.walk) for step in steps)


def walks(facts, inside, at):
    """All walks without a point twice from a point to a return point, inside a set; the empty one at
    all points."""
    if at == ALL:
        yield []
    todo = [[at]] if at in inside else []
    while todo:
        walk = todo.pop()
        if walk[-1] in facts.returns:
            yield walk
        todo += [[*walk, q] for q in facts.successors[walk[-1]] if q in inside and q not in walk]


def shortest(facts, values, region, universal):
    """The least cost over all chains that come to no region twice."""
    end = facts.end_of(universal)
    best = None
    todo = [(universal, (0, 0), {universal})]
    while todo:
        sub, (steps, points), seen = todo.pop()
        if sub == region:
            best = min(best or (steps, points), (steps, points))
            continue
        for constraint in facts.constraints:
            if constraint.sub == sub and constraint.sup not in seen and values.has(sub, end):
                for walk in walks(facts, values.set_of(sub), constraint.at):
                    todo.append((constraint.sup, (steps + 1, points + len(walk)),
                                 seen | {constraint.sup}))
    return best


def holds(said, values, name, element):
    return element in values[name]


class Chains(unittest.TestCase):
    def checked_by_reference(self, data, sup, sub, steps):
        """Each step once more, on what `check/reference/reference.py` reads and solves alone."""
        said = reference.said_in(data)
        values = reference.solve(said)
        names = said.names()
        end = said.points + sub
        holder = sub
        for constraint, walk in steps:
            larger, smaller = names[constraint.sup], names[constraint.sub]
            self.assertEqual(constraint.sub, holder)
            self.assertIn((larger, smaller, constraint.at), said.constraints)
            self.assertEqual(walk[:1], [] if constraint.at == ALL else [constraint.at])
            for pair in zip(walk, walk[1:]):
                self.assertIn(pair, said.edges)
            for last in walk[-1:]:
                self.assertIn(last, said.returns)
            for element in [*walk, end]:
                self.assertIn(element, values[smaller])
                self.assertIn(element, values[larger])
            holder = constraint.sup
        self.assertEqual(holder, sup)

    def test_each_fault_of_random_problems(self):
        seen = 0
        for seed in range(600):
            data = random_text(seed, ["all"] * (seed % 3))
            facts, values = solved(data)
            for sup, sub in faults(facts, values):
                seen += 1
                with self.subTest(seed=seed, fault=(sup, sub)):
                    steps = chains.chain(facts, values, sup, sub)
                    chains.check(facts, values, sup, sub, steps)
                    self.checked_by_reference(data, sup, sub, steps)
                    self.assertEqual(cost(steps), shortest(facts, values, sup, sub))
        self.assertGreater(seen, 200)

    def test_faults_are_those_of_the_reference(self):
        for seed in range(600):
            data = random_text(seed, ["all"] * (seed % 3))
            facts, values = solved(data)
            lines = [f"fault '{facts.names[a]} must outlive '{facts.names[b]}\n"
                     for a, b in faults(facts, values)]
            self.assertEqual("".join(lines) or "ok\n", reference.answer("check", data)[0].decode())

    def test_examples(self):
        paths = glob.glob(os.path.join(EXAMPLES, "*.facts")) + glob.glob(os.path.join(SAMPLES,
                                                                                      "*.facts"))
        for path in paths:
            data = file_bytes(path)
            if len(data) > 8000:
                continue  # the reference takes seconds for those; they have no fault
            with self.subTest(path=path):
                facts, values = solved(data)
                for sup, sub in faults(facts, values):
                    self.checked_by_reference(data, sup, sub, chains.chain(facts, values, sup, sub))

    def test_pick_by_hand(self):
        facts, values = solved(file_bytes(SAMPLES, "pick.facts"))
        a, b, best = 1, 2, 3
        self.assertEqual(faults(facts, values), [(b, a)])
        self.assertEqual(chains.chain(facts, values, b, a),
                         [((best, a, 8), [8]), ((b, best, 6), [6, 7, 8])])

    def test_a_step_outside_the_values_is_refused(self):
        facts, values = solved(file_bytes(SAMPLES, "pick.facts"))
        steps = chains.chain(facts, values, 2, 1)
        wrong = [
            steps[:1],
            steps[1:],
            [steps[0], steps[1]._replace(walk=[6, 8])],
            [steps[0], steps[1]._replace(walk=[6, 7])],
            [steps[0], steps[1]._replace(walk=[5, 6, 7, 8])],
            [steps[0]._replace(constraint=steps[1].constraint), steps[1]],
        ]
        for each in wrong:
            with self.assertRaises(chains.WrongValues):
                chains.check(facts, values, 2, 1, each)

    def test_a_larger_region_without_the_end_is_refused(self):
        facts, values = solved(file_bytes(SAMPLES, "pick.facts"))
        steps = chains.chain(facts, values, 2, 1)
        values.rows[2].remove(facts.end_of(1))
        values.sets.clear()
        with self.assertRaises(chains.WrongValues):
            chains.check(facts, values, 2, 1, steps)

    def test_no_chain_is_found_in_values_of_another_text(self):
        facts, values = solved(file_bytes(SAMPLES, "pick.facts"))
        values.rows[3] = [1, 2, 3, 4, 6, 7]  # 'best without the end of 'a
        values.sets.clear()
        with self.assertRaises(chains.WrongValues):
            chains.chain(facts, values, 2, 1)
