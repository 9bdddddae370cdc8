"""The schedules among the examples: answers and balances found by hand from the definitions."""

import os
import re
import subprocess
import tempfile
import unittest

from page_support import ROOT
from schedule_support import SCHEDULES, answers, example, example_content, printed

from nllc_tools.views.schedule.event_words import words_of

# Of each event the answer and the balance after it.
WANTED = {
    "each_other": """
        load 0: done 2; owe 0: done 3; clear 0: done 2; take 0 1: not now 2; push 0 1: done 2; load 1: done 2;
        owe 1: done 3; push 1 0: done 3; clear 1: done 2; take 1 0: done 2; owe 1: done 2; clear 1: done 1;
        take 0 1: done 1; owe 0: done 2; clear 0: done 1; leave 1: open 1; push 0 1: done 1; take 1 0: done 1;
        owe 1: done 2; clear 1: done 1; push 1 0: done 1; take 0 1: done 1; owe 0: done 1; clear 0: done 0;
        leave 0: quiet 0; leave 1: quiet 0""",
    "late_hole": """
        load 1: done 3; owe 1: done 5; clear 1: done 4; push 1 2: done 4; push 1 2: done 4; load 2: done 4;
        owe 2: done 4; clear 2: done 3; take 2 1: done 3; owe 2: done 3; clear 2: done 2; take 2 1: done 2;
        owe 2: done 2; clear 2: done 1; leave 2: open 1; load 0: done 1; owe 0: done 2; clear 0: done 1;
        push 0 1: done 1; take 1 0: done 1; owe 1: done 2; clear 1: done 1; push 1 2: done 1; take 2 1: done 1;
        owe 2: done 1; clear 2: done 0; leave 2: quiet 0; leave 1: quiet 0; leave 0: quiet 0""",
    "early_leave": """
        load 0: done 3; owe 0: done 4; clear 0: done 3; load 1: done 3; owe 1: done 3; clear 1: done 2;
        load 2: done 2; owe 2: done 2; clear 2: done 1; leave 0: not now 1; push 0 1: done 1; leave 0: open 1;
        leave 2: open 1; take 1 0: done 1; leave 2: open 1; owe 1: done 2; clear 1: done 1; leave 1: not now 1;
        push 1 2: done 1; take 2 1: done 1; owe 2: done 1; clear 2: done 0; leave 2: quiet 0; leave 0: quiet 0;
        leave 1: quiet 0; take 2 1: not now 0""",
}

VALUES = {
    "each_other": ["'static: 0 1 end('static)", "'1: 0 1", "'2: 0 1"],
    "late_hole": ["'static: 0 1 2 end('static)", "'1: 0 1 2", "'2: 0 1 2", "'3: 1"],
    "early_leave": ["'static: 0 1 end('static)", "'1: 0", "'2: 0", "'3: 0"],
}

# Events and the growths, as region and elements, by which owners' own regions grow there.
GROWN = {
    "each_other": {1: {0: [0, 1, 2], 2: [1]}, 6: {1: [0]}, 13: {2: [0]}, 18: {1: [1]}},
    "late_hole": {1: {1: [0, 2]}, 9: {2: [0]}, 16: {0: [0, 1, 2, 3], 3: [1]}, 20: {1: [1]}, 24: {2: [1, 2]}},
    "early_leave": {1: {0: [0, 1, 2], 3: [0]}, 14: {1: [0]}, 20: {2: [0]}},
}


def rows(table):
    """The rows of a table, each as an event's words, its answer and the balance."""
    for row in " ".join(table.split()).split("; "):
        event, _, rest = row.partition(": ")
        answer, _, balance = rest.rpartition(" ")
        yield event, answer, int(balance)


class Examples(unittest.TestCase):
    def test_answers_and_balances(self):
        for name, table in WANTED.items():
            states = example_content(name).run.states[1:]
            with self.subTest(example=name):
                self.assertEqual([(words_of(s.event), s.answer, s.balance) for s in states],
                                 list(rows(table)))

    def test_values(self):
        for name, values in VALUES.items():
            with self.subTest(example=name):
                self.assertEqual(example_content(name).run.values, values)

    def test_growths(self):
        for name, wanted in GROWN.items():
            content = example_content(name)
            found = {}
            for number in range(1, len(content.run.states)):
                for one in content.grown(number):
                    found.setdefault(number, {}).setdefault(one.region, []).append(one.element)
            sorted_found = {number: {region: sorted(elements) for region, elements in by_region.items()}
                            for number, by_region in found.items()}
            with self.subTest(example=name):
                self.assertEqual(sorted_found, wanted)

    def test_all_are_here(self):
        named = {name.removesuffix(".schedule") for name in os.listdir(os.path.join(ROOT, "examples"))
                 if name.endswith(".schedule")}
        self.assertEqual(named, set(SCHEDULES))


class Messages(unittest.TestCase):
    """The tables of docs/MESSAGES.md."""

    def setUp(self):
        with open(os.path.join(ROOT, "docs", "MESSAGES.md"), encoding="utf-8") as file:
            self.rows = [[cell.strip() for cell in line.strip("|\n").split("|")]
                         for line in file if line.startswith("| ")]

    def test_each_other(self):
        states = example_content("each_other").run.states
        rows = [row for row in self.rows if len(row) == 6]
        self.assertEqual([row[0].split()[0] for row in rows[1:]],
                         ["none", "1", "3", "5", "9", "12", "15", "17", "21", "24", "26"])
        for row in rows[1:]:
            state = states[0 if row[0] == "none" else int(row[0].split()[0])]
            with self.subTest(row=row[0]):
                self.assertEqual(int(row[5]), state.balance)
                for owner, cell in ((0, row[1]), (1, row[4])):
                    self.check_owner(state.seats[owner], cell)
                for owner, cell in ((0, row[2]), (1, row[3])):
                    self.check_lane(state.seats[owner], 1 - owner, cell)

    def check_owner(self, seat, cell):
        """The owner's region and its copy, of which the numbers are those of their names."""
        if not seat.loaded or seat.left:
            self.assertEqual(cell, "has left" if seat.left else "not loaded")
            return
        said = {int(name): {int(point) for point in points.split()}
                for name, points in re.findall(r"`'(\d)`:((?: \d)*)", cell)}
        self.assertEqual(said, {region: seat.holds.get(region, set()) for region in (1, 2)})

    def check_lane(self, seat, reader, cell):
        said = [(part, int(region), int(element), int(rank)) for part, region, element, rank
                in re.findall(r"(fresh|owes|box): `'(\d)` (\d) \((\d)\)", cell)]
        words = {"fresh": "fresh", "out": "owes", "box": "box"}
        self.assertEqual(said, [(words[part], *one) for part in words for one in seat.lane(reader, part)])

    def test_early_leave(self):
        states = example_content("early_leave").run.states
        rows = [row for row in self.rows if len(row) == 4 and row[0].split()[0].isdigit()]
        self.assertEqual(len(rows), 9)
        for event, answer, balance, _ in rows:
            number, words = re.fullmatch(r"(\d+) `(.*)`", event).groups()
            state = states[int(number)]
            with self.subTest(event=event):
                self.assertEqual((words_of(state.event), state.answer, state.balance),
                                 (words, answer, int(balance)))

    def test_ranks(self):
        content = example_content("each_other")
        logged = {f"`'{one.region}` {one.element}": one.rank for _, one in content.came if one.region}
        said = {row[0]: int(row[1]) for row in self.rows if len(row) == 4 and row[1].isdigit()
                and not row[2].isdigit() and row[0].startswith("`'")}
        self.assertEqual(said, logged)


class Programs(unittest.TestCase):
    """The program and `nllc replay`, where both are built: on each beginning of each example."""

    NLLCS = (os.environ.get("NLLC"), "crates/nllc/out/nllc", "out/nllc-unproved")

    def programs(self):
        """The paths of both, as far as they are built."""
        world = os.environ.get("WORLD_PROGRAM") or self.output(
            os.path.join(ROOT, "frontend", "world_program.sh"), "--built")
        nllcs = [os.path.join(ROOT, path) for path in self.NLLCS if path]
        return world, next((path for path in nllcs if os.access(path, os.X_OK)), None)

    def output(self, *words):
        run = subprocess.run(words, stdin=subprocess.DEVNULL, capture_output=True, text=True, check=False)
        return run.stdout.strip("\n") if run.returncode == 0 else None

    def test_each_beginning(self):
        world, nllc = self.programs()
        if not world or not nllc:
            self.skipTest("world_program and nllc aren't both built")
        with tempfile.TemporaryDirectory() as folder:
            for name, owners in SCHEDULES.items():
                facts, text = example(name)
                path = os.path.join(ROOT, "examples", f"{name}.facts")
                lines = text.splitlines(keepends=True)
                for count in range(1, len(lines) + 1):
                    beginning = os.path.join(folder, "schedule")
                    with open(beginning, "wb") as file:
                        file.write(b"".join(lines[:count]))
                    told = self.output(world, str(owners), "round", path, beginning)
                    replay = self.output(nllc, "replay", path, "--schedule", beginning,
                                         "--owners", str(owners))
                    if replay is None and count == 1:
                        self.skipTest("this nllc has no `replay`")
                    with self.subTest(example=name, lines=count):
                        self.assertEqual(answers(told), replay.splitlines())
                        slow = printed(facts, b"".join(lines[:count]), owners)
                        self.assertEqual(answers(slow), replay.splitlines())
