"""What a page of a schedule says: sentences, reasons, and what is shown from which event on."""

import re
import unittest

from page_support import Markup, text
from schedule_support import SCHEDULES, content_of, example_content, schedule

from nllc_tools.base.sentences import plain
from nllc_tools.texts import schedule_states
from nllc_tools.texts.schedule_states import Growth, under_way
from nllc_tools.views.schedule import event_words, reasons
from nllc_tools.views.schedule.event_words import Happening
from nllc_tools.views.schedule.event_part import event_list, event_part
from nllc_tools.views.schedule.page import page
from nllc_tools.views.schedule.reasons import Asked, Reading
from nllc_tools.views.schedule.wait_part import wait_part

# Two owners: owner 0 has 'static and '2, owner 1 has '1, which reads '2.
ONE_WAY = text(2, "region '1", "region '2", "next 0 1", "return 1", "base '2 0", "constraint '1 '2 0")

LOADED = ["load 0", "owe 0", "clear 0", "load 1", "owe 1", "clear 1"]


def sentence(content, number):
    return plain(Happening(content.facts, content.run, number).told())


class Sentences(unittest.TestCase):
    def test_each_event(self):
        content = example_content("each_other")
        for number, wanted in (
                (1, "Owner 0 loads: .* It grows 4 times; 1 message for another owner isn’t owed for yet\\."),
                (2, "Owner 0 owes for 1 message: the balance rises from 2 to 3\\."),
                (3, "Owner 0 clears its load: the balance falls from 3 to 2\\."),
                (4, "The box from owner 1 to owner 0 is empty\\. Nothing changes\\."),
                (5, "Owner 0 puts `'2 gets 1` into the box for owner 1\\..* stays at 2\\."),
                (10, "Owner 1 takes `'2 gets 1` out of the box from owner 0.* None of its regions grows\\."),
                (11, "Owner 1 owes for nothing.* stays at 2\\."),
                (12, "Owner 1 clears the growth that it took: the balance falls from 2 to 1\\."),
                (16, "Owner 1 has nothing to do\\. But the balance is 1: .* So it stays"),
                (18, "Owner 1 takes `'2 gets 0` .* It grows once; 1 message"),
                (26, "The balance is 0, so nothing is under way: owner 1 leaves\\.")):
            with self.subTest(number=number):
                self.assertRegex(sentence(content, number), f"^{wanted}")
        late = example_content("late_hole")
        self.assertIn("It grows twice; 2 messages for other owners aren’t owed for yet.", sentence(late, 1))
        self.assertIn("It grows twice, and no other owner reads that.", sentence(late, 24))

    def test_why_not_now(self):
        for events, wanted in (
                (["owe 0"], "Owner 0 works on nothing that it could owe for."),
                (["clear 0"], "Owner 0 works on nothing that it could clear."),
                (["take 0 1"], "Owner 0 isn’t loaded yet."),
                (["leave 0"], "Owner 0 isn’t loaded yet."),
                (["push 0 1"], "Nothing that owner 0 owes for waits to be sent to owner 1."),
                (["push 1 1"], "Owner 1 has no mailbox to itself."),
                (["take 1 1"], "Owner 1 has no mailbox to itself."),
                (["load 0", "load 0"], "Owner 0 is loaded already."),
                (["load 0", "clear 0"], "Owner 0 has to owe for this turn’s messages first."),
                (["load 0", "push 0 1"], "Nothing that owner 0 owes for waits to be sent to owner 1."),
                (["load 0", "owe 0", "owe 0"], "Owner 0 has owed for this turn already."),
                (["load 0", "leave 0"], "Owner 0 hasn’t cleared its load."),
                (["load 0", "take 0 1"], "Owner 0 hasn’t cleared its load."),
                ([*LOADED, "leave 0"], "Owner 0 still has to send `'2 gets 0` to owner 1."),
                ([*LOADED, "push 0 1", "take 1 0", "leave 1"], "Owner 1 hasn’t cleared the growth that it took."),
                ([*LOADED, "push 0 1", "take 1 0", "owe 1", "clear 1", "leave 1", "leave 1"],
                 "Owner 1 has left.")):
            content = content_of(ONE_WAY, schedule(*events), 2)
            with self.subTest(events=events):
                self.assertEqual(content.run.states[-1].answer, "not now")
                self.assertEqual(sentence(content, len(events)), f"{wanted} Nothing changes.")

    def test_what_the_balance_counts(self):
        content = content_of(ONE_WAY, schedule(*LOADED[:2], "push 0 1"), 2)
        counted = [[plain(event_words.way_words(content.facts, way)) for way in under_way(state)]
                   for state in content.run.states]
        self.assertEqual(counted, [
            ["the load of owner 0", "the load of owner 1"],
            ["what owner 0 works on", "the load of owner 1"],
            ["what owner 0 works on", "`'2 gets 0`, which owner 0 still has to send to owner 1",
             "the load of owner 1"],
            ["what owner 0 works on", "`'2 gets 0`, in the box from owner 0 to owner 1",
             "the load of owner 1"]])


class Reasons(unittest.TestCase):
    def test_walks(self):
        """A growth has the shortest walk inside what was known with lower ranks."""
        content = example_content("each_other")
        self.assertEqual(content.came[0, Growth(2, 1, 4)].asked, [])
        self.assertEqual(content.came[0, Growth(2, 0, 5)].asked, [Asked(0, [0])])
        self.assertEqual(content.came[1, Growth(1, 1, 6)].asked, [Asked(1, [0, 1])])
        self.assertEqual((content.asking, content.asked_for_taken), ({0: [13], 1: [18]}, {0: [18], 1: [22]}))

    def test_readings(self):
        def found(name, number):
            content = example_content(name)
            before, after = content.run.states[number - 1:number + 1]
            taken = after.seats[after.event.owner].received[after.event.other][-1]
            return list(reasons.readings(content.facts, content.run, before, after, taken))

        self.assertEqual(found("each_other", 10), [Reading(1, [], [], 0)])
        self.assertEqual(found("each_other", 13), [Reading(0, [0], [0], 1)])
        self.assertEqual(found("each_other", 22), [Reading(0, [0, 1], [], None)])
        self.assertEqual(found("late_hole", 12), [Reading(1, [0], [], 1)])
        self.assertEqual(found("late_hole", 24), [Reading(1, [0, 1, 2], [1, 2], None)])

    def test_ends(self):
        """Walks go on from a return to each end, and a universal region's own elements need no reason."""
        facts = text(2, "universal 'a", "region 'r", "next 0 1", "return 1", "base 'r 0", "base 'r 1",
                     "constraint 'r 'a 0")
        content = content_of(facts, schedule("load 0", "owe 0", "clear 0", "push 0 1", "load 1"), 1 + 1,
                             b"nll-cut 1\n1\n1\n0\n")
        self.assertEqual([came for came in content.came.values() if came.asked], [])
        facts = facts.replace(b"base 'r 0\nbase 'r 1\n", b"")
        content = content_of(facts, schedule("load 0"), 1)
        walks = {one.element: came.asked for (_, one), came in content.came.items() if one.region == 2}
        self.assertEqual(walks, {0: [Asked(0, [0])], 1: [Asked(0, [0, 1])], 3: [Asked(0, [0, 1, 3])]})

    def test_a_reason_that_is_missing(self):
        content = example_content("each_other")
        seat = content.run.states[6].seats[1]
        with self.assertRaises(schedule_states.Broken):
            reasons.reasons(content.facts, seat, Growth(1, 1, 2))


class Waits(unittest.TestCase):
    def at(self, name, number):
        """What the drawing says of a state, in words."""
        found = re.findall(r'<g class="[^"]*" data-from="(\d+)"(?: data-to="(\d+)")?><title>([^<]*)</title>',
                           wait_part(example_content(name)))
        return [said for first, end, said in found if int(first) <= number < int(end or 10 ** 9)]

    def test_an_owner_with_nothing_to_do_waits(self):
        self.assertEqual(self.at("each_other", 18),
                         ["1 message from owner 1 to owner 0", "owner 0 waits for owner 1", "owner 0 waits", "owner 1 works"])

    def test_before_and_at_the_end(self):
        self.assertEqual(self.at("each_other", 0), ["owner 0 not loaded", "owner 1 not loaded"])
        self.assertEqual(self.at("each_other", 26), ["owner 0 has left", "owner 1 has left"])

    def test_an_owner_with_something_in_its_box_does_not_wait(self):
        self.assertEqual(self.at("each_other", 17),
                         ["1 message from owner 0 to owner 1", "owner 0 waits for owner 1", "owner 0 waits",
                          "owner 1 has something to take or to send"])

    def test_the_one_that_it_waits_for_is_not_loaded(self):
        self.assertEqual(self.at("late_hole", 12)[0], "owner 1 waits for owner 0")

    def test_in_words(self):
        for name, number, wanted in (("each_other", 0, "Nobody waits."), ("each_other", 18, "Owner 0 waits for owner 1."),
                                     ("each_other", 26, "Nobody waits."), ("late_hole", 12, "Owner 1 waits for owner 0.")):
            found = re.findall(r'<p data-from="(\d+)"(?: data-to="(\d+)")?>([^<]*)</p>', wait_part(example_content(name)))
            self.assertEqual([said for first, end, said in found if int(first) <= number < int(end or 10 ** 9)], [wanted])

    def test_too_many_owners(self):
        content = content_of(text(1, "return 0"), schedule(), 17)
        self.assertEqual(wait_part(content), '<p class="none">17 owners, too many for a picture.</p>')


class Pages(unittest.TestCase):
    def test_well_formed(self):
        for name in SCHEDULES:
            made = Markup(page(example_content(name)))
            with self.subTest(example=name):
                self.assertEqual((made.open, made.wrong), ([], []))
                ids = made.values("id")
                self.assertEqual(len(ids), len(set(ids)))
                inside = [link[1:] for link in made.values("href") if link.startswith("#") and "event=" not in link]
                self.assertLessEqual(set(inside), set(ids))

    def test_why_an_event_is_not_possible_is_said_at_the_event(self):
        rows = event_list(example_content("each_other")).split("<li>")
        self.assertIn('<span class="why">The box from owner 1 to owner 0 is empty.</span>', rows[5])
        self.assertEqual(sum('class="why"' in row for row in rows), 1)

    def test_a_taken_growth_leads_to_its_constraint(self):
        part = event_part(example_content("each_other"), 18)
        self.assertIn("Owner 0 has it since event 13: <a class=\"to\" href=\"#constraint-0\"", part)
        self.assertIn("requires it, by the walk <code>0 → 1</code> inside <code>&#x27;2</code>", part)

    def test_spans(self):
        """A growth moves from part to part of its lane."""
        shown = page(example_content("each_other"))
        lane = re.search(r'<section class="lane" id="lane-0-1">.*?</section>', shown, re.DOTALL)[0]
        spans = re.findall(r'<li class="growth" (data-from="\d+" data-to="\d+")', lane)
        self.assertEqual(spans, ['data-from="1" data-to="2"', 'data-from="13" data-to="14"',
                                 'data-from="2" data-to="5"', 'data-from="14" data-to="17"',
                                 'data-from="5" data-to="10"', 'data-from="17" data-to="18"'])

    def test_cells(self):
        shown = page(example_content("each_other"))
        owner = re.search(r'<section class="owner" id="owner-1".*?</section>', shown, re.DOTALL)[0]
        self.assertEqual(re.findall(r'<i class="(cell[^"]*)"(?: data-since="(\d+)")?>(\d)</i>', owner),
                         [("cell base", "6", "0"), ("cell", "18", "1"),
                          ("cell", "18", "0"), ("cell base", "10", "1")])

    def test_nothing_from_outside_is_markup(self):
        content = example_content("each_other")
        content.schedule_path = "<b>&\u202e.schedule"
        content.facts_path = "</script><i>"
        content.origin = "<u>"
        shown = page(content)
        self.assertIn("&lt;b&gt;&amp;‹U+202E›.schedule", shown)
        for markup in ("<b>&", "</script><i>", "<u>"):
            self.assertNotIn(markup, shown)

    def test_no_event_and_no_reader(self):
        content = content_of(text(1, "return 0"), schedule(), 2)
        shown = page(content)
        self.assertIn("No owner reads a region of another one.", shown)
        self.assertIn("There is none.", shown)
        self.assertIn("Before the first event", shown)
