"""The command of pages of schedules: the page that it writes, and each refusal, after which nothing is left."""

import sys

from page_support import EXAMPLES, file_bytes, text
from rooms import STATES, Room
from schedule_support import example, schedule

from nllc_tools.commands.schedule import main, named_owners


class Commands(Room):
    """Each test has a folder of its own; `world` is a script there that runs the slow model."""

    def setUp(self):
        super().setUp()
        self.slow("world", STATES)
        facts, events = example("each_other")
        self.facts = self.write("two.facts", facts)
        self.schedule = self.write("two.schedule", events)

    def run_main(self, *words, world="world"):
        return self.called(main, list(words), WORLD_PROGRAM=world)

    def page(self, name="two.schedule.html"):
        return self.read(name)

    # What is written

    def test_a_page(self):
        status, out, err = self.run_main(self.facts, self.schedule)
        self.assertEqual((status, out, err), (0, self.path("two.schedule.html") + "\n", ""))
        self.assertIn("26 events · 2 owners · 3 regions · 2 constraints", self.page())
        self.assertIn("doesn’t know whether it is proved", self.page())

    def test_other_words(self):
        status, out, _ = self.run_main(self.facts, self.schedule, "--owners", "4", "--deal", "blocks",
                                       "-o", self.path("out.html"))
        self.assertEqual((status, out), (0, self.path("out.html") + "\n"))
        self.assertIn("Owner 3", self.page("out.html"))
        cut = self.write("cut", b"nll-cut 1\n0\n0\n1\n")
        self.assertEqual(self.run_main(self.facts, self.schedule, "--cut", cut)[0], 0)
        self.assertIn("of owner 1</span>", self.page())

    def test_a_mir_text(self):
        body = self.write("body.mir", file_bytes(EXAMPLES, "running.mir"))
        events = self.write("body.schedule", schedule("load 0", "owe 0", "clear 0", "load 1"))
        self.assertEqual(self.run_main(body, events)[0], 0)
        shown = self.page("body.schedule.html")
        self.assertIn("bb0/0 → bb0/1, bb0/1 → bb1/0, bb0/1 → bb2/0", shown)
        self.assertIn("(&#x27;bar: &#x27;p) @ bb1/2", shown)
        self.assertIn("<code>&#x27;p gets bb1/2</code>", shown)
        self.program("half", "echo nll-facts 1")
        self.refused("printed no problem of the MIR text", body, events, world="half", status=3)

    def test_owners_that_a_schedule_names(self):
        for events, owners in (((), 1), (("load 0",), 1), (("take 0 4", "load 2"), 5), (("load 99999",), 64)):
            self.assertEqual(named_owners(schedule(*events)), owners)

    # What is refused

    def test_words(self):
        for words in ((self.facts,), (self.facts, self.schedule, "--owners", "0"),
                      (self.facts, self.schedule, "--owners", "65"),
                      (self.facts, self.schedule, "--deal", "round", "--cut", "c")):
            status, out, err = self.run_main(*words)
            self.assertEqual((status, out), (2, ""))
            self.assertIn("usage: nllc.sh schedule", err)

    def test_files(self):
        self.refused("no.facts can't be read", self.path("no.facts"), self.schedule)
        self.refused("no.schedule can't be read", self.facts, self.path("no.schedule"))
        self.refused("isn't a facts text", self.schedule, self.schedule)
        self.refused("line 1: end", self.write("text.mir", b"nll-mir 1"), self.schedule)
        self.refused("would be written over", self.facts, self.schedule, "-o", self.facts)
        self.refused("can't be written", self.facts, self.schedule, "-o", self.path("no/out.html"), status=3)

    def test_what_the_program_refuses(self):
        wrong = self.write("wrong.schedule", schedule("load 0", "lode 1"))
        self.refused("line 3: syntax", self.facts, wrong)
        self.refused("line 7: range", self.facts, self.schedule, "--owners", "1")

    def test_programs_that_fail(self):
        self.program("silent", "exit 5")
        self.refused("ended with status 5", self.facts, self.schedule, world="silent", status=3)
        self.program("says", "echo Error: the schedule, line 1: header >&2; exit 1")
        self.refused("nllc.sh schedule: the schedule, line 1: header", self.facts, self.schedule, world="says")
        self.program("wrong", "echo nonsense")
        self.refused("printed no states of a world", self.facts, self.schedule, world="wrong", status=3)
        self.refused("can't be run", self.facts, self.schedule, world="none", status=3)
        self.program("other", f'"{sys.executable}" "{STATES}" "$1" "$2" {self.facts} "$4"')
        other = self.write("other.facts", example("each_other")[0].replace(b"base '1 0", b"base '1 1"))
        self.refused("don't follow from .*other.facts: nothing requires element", other, self.schedule,
                     world="other", status=3)

    def test_what_is_too_large(self):
        large = self.write("large.facts", text(250))
        self.refused("has 251 elements, and a page shows at most 200", large, self.schedule)
        many = self.write("many.facts", text(1, *(f"region '{n}" for n in range(70))))
        self.refused("has 71 regions", many, self.schedule)
        long = self.write("long.schedule", schedule(*["load 0"] * 2001))
        self.refused("has 2,001 events", self.facts, long)
