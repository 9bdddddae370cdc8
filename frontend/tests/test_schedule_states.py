"""Reading states: what the program prints is taken as it is, and what is no state of a world is refused."""

import random
import unittest

from page_support import text
from schedule_support import answers, example, example_content, printed, schedule

from nllc_tools.base.refusal import Refusal
from nllc_tools.texts.schedule_states import Event, Growth, read_run, under_way
from nllc_tools.views.schedule import spans
from nllc_tools.views.schedule.spans import Span

TWO = text(2, "region '1", "region '2", "next 0 1", "return 1", "base '1 0", "base '2 1",
           "constraint '2 '1 0", "constraint '1 '2 0")


def random_schedule(seed, owners, count):
    """Events of which many are possible, in any order."""
    draw = random.Random(seed)
    words = ["load", "owe", "clear", "take", "push", "leave", "owe", "clear", "take", "push"]
    events = []
    for _ in range(count):
        word = draw.choice(words)
        numbers = [draw.randrange(owners) for _ in range(2 if word in ("take", "push") else 1)]
        events.append(" ".join([word, *map(str, numbers)]))
    return schedule(*events)


class States(unittest.TestCase):
    def test_a_state(self):
        run = example_content("each_other").run
        self.assertEqual((run.owners, run.cut), (2, [0, 1, 0]))
        state = run.states[8]       # the growth of owner 1 is in its box before owner 1 has cleared
        self.assertEqual((state.event, state.answer, state.balance), (Event("push", 1, 0), "done", 3))
        sender, reader = state.seats[1], state.seats[0]
        self.assertEqual((sender.loaded, sender.item, sender.left), (True, "owed", False))
        self.assertEqual(sender.log, [Growth(1, 0, 1)])
        self.assertEqual(sender.lane(0, "box"), [Growth(1, 0, 1)])
        self.assertEqual(sender.holds, {1: {0}})
        self.assertEqual(reader.received, {})
        self.assertEqual([kind for kind, *_ in under_way(state)], ["box", "item", "box"])

    def test_random_schedules(self):
        """The slow model's states pass all that is looked at, whatever the order of events is."""
        for seed in range(60):
            owners = 2 + seed % 3
            lines = printed(TWO, random_schedule(seed, owners, 80), owners)
            with self.subTest(seed=seed):
                run = read_run(lines, 3, 3)
                self.assertEqual(len(run.states), 81)
                self.assertEqual(len(answers(lines)), 80 + 1 + 3)

    def changed(self, old, new):
        facts, events = example("each_other")
        lines = printed(facts, events, 2)
        self.assertIn(old, lines)
        return lines.replace(old, new, 1)

    def refused(self, pattern, lines):
        with self.assertRaisesRegex(Refusal, pattern) as caught:
            read_run(lines, 3, 3)
        self.assertEqual(caught.exception.status, 3)

    def test_what_is_no_state(self):
        for old, new, pattern in (
                ("cut 0 1 0", "cut 0 1", "no cut"),
                ("\nvalues\n", "\n", "no values"),
                ("balance 2", "balance 3", "balance of state 0"),
                ("3 done", "4 done", "no answer here"),
                ("4 not now", "4 later", "no answer here"),
                ("seat 1", "seat 2", "out of order"),
                ("log 0/0/1", "log 9/0/1", "no region or element"),
                ("log 0/0/1 0/1/2", "log 0/1/2", "knows something else"),
                ("holds 2 1", "holds 2 0", "knows something else"),
                ("fresh 1", "flesh 1", "begins no line"),
                ("event owe 0\n2 done\n", "event owe 0\n", "isn't whole"),
                ("2/1/4", "2/1", "no states of a world")):
            with self.subTest(old=old):
                self.refused(pattern, self.changed(old, new))
        self.refused("no values", "")


class Spans(unittest.TestCase):
    def test_values(self):
        self.assertEqual(spans.values([1, 1, 2, 1], lambda state: state),
                         [(1, Span(0, 2)), (2, Span(2, 3)), (1, Span(3))])

    def test_members(self):
        found = spans.members(["", "a", "ab", "b", ""], list)
        self.assertEqual(found, [("a", Span(1, 3)), ("b", Span(2, 4))])

    def test_attributes(self):
        self.assertEqual(Span(3).attributes(), 'data-from="3"')
        self.assertEqual(Span(3, 5).attributes(), 'data-from="3" data-to="5"')
