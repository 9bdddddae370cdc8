"""Texts made of rustc's stored dumps are the golden ones, and what the golden ones say is right."""

import os
import re
import tempfile
import unittest

import facts_support as support
from nllc_tools.model import chains
from nllc_tools.rustc.mir.body_reader import read_body
from nllc_tools.rustc.tables import read_tables
from nllc_tools.texts.facts import reader, values as page_values

HOLDS = re.compile(r"// (holds|of): (.*)")
NO_STATEMENT = re.compile(r"[\s{}();]*(else)?[\s{}();]*|\s*pub fn .*")


class Golden(unittest.TestCase):
    def test_conversion_of_stored_dumps(self):
        for source in support.SOURCES:
            texts = support.stored_texts(source)
            golden = support.golden_texts(source)
            self.assertEqual(sorted(texts), sorted(golden))
            for name, text in texts.items():
                with self.subTest(text=f"{source}/{name}"):
                    self.assertEqual(text, golden[name])

    def test_the_slow_reader_takes_them(self):
        for source in support.SOURCES:
            for name, text in support.golden_texts(source).items():
                with self.subTest(text=f"{source}/{name}"):
                    support.said(text)


class ByHand(unittest.TestCase):
    """The sources say in remarks which regions hold just before a line runs; a person wrote them.

    `// holds: p, &foo`: the first point of the line is in the region of the type of `p` and in that
    of the borrow `&foo`, and not in the others that the function's remarks name. A line without
    such a remark is in none of them. `// of: v` names further ones for the function.
    """

    def test_regions(self):
        checked = 0
        for source in support.SOURCES:
            lines = marked_lines(source)
            for name, text in support.golden_texts(source).items():
                with self.subTest(text=f"{source}/{name}"):
                    checked += self.check(text, lines)
        self.assertGreater(checked, 100)

    def check(self, text, lines):
        """Compares what each line of a function holds; gives the number of comparisons."""
        first = {}
        for point, (line, _) in sorted(support.points_of(text).items()):
            first.setdefault(line, point)
        known = [line for line in first if line is not None]
        own = range(min(known), max(known) + 1) if known else []
        tracked = {token for line in own for token in lines[line - 1][1]}
        if not tracked:
            return 0
        problem = support.said(text)
        values = support.reference.solve(problem)
        regions = {token: region_of(text, token) for token in tracked}
        compared = 0
        for line in own:
            code, _, held = lines[line - 1]
            if line not in first or NO_STATEMENT.fullmatch(code):
                self.assertFalse(held, f"line {line} has no statement")
                continue
            for token, region in regions.items():
                compared += 1
                self.assertEqual(first[line] in values[region.encode()], token in held,
                                 f"line {line}, {token}: {code.strip()}")
        return compared


def marked_lines(source):
    """For each line its code, the regions that it names, and those that hold there."""
    with open(os.path.join(support.HERE, support.source_path(source)), encoding="utf-8") as file:
        lines = file.read().split("\n")
    marked = []
    for line in lines:
        found = HOLDS.search(line)
        tokens = [token.strip() for token in found[2].split(", ")] if found else []
        held = tokens if found and found[1] == "holds" else []
        marked.append((HOLDS.sub("", line), tokens, held))
    return marked


def region_of(text, token):
    """The region in the type of a variable, the outer one; or that of the first such borrow."""
    begins = f"the borrow {token}" if token.startswith("&") else f"the type of {token}: "
    for name, words in support.regions_of(text):
        for part in words.split("; "):
            if part == begins:
                return name
            if not token.startswith("&") and part.startswith(begins):
                named = re.search(r"'(\w+)", part)
                return named[1] if named else name
    raise AssertionError(f"no region is {token}")


class Faults(unittest.TestCase):
    FAULTS = {
        "as_static": [("a", "static")],
        "longer": [("b", "a")],
        "panics": [("a", "static")],
        "last": [],
        "at_last": [],
    }

    def test_functions_that_differ(self):
        for function, faults in self.FAULTS.items():
            with self.subTest(function=function):
                self.assertEqual(support.faults(support.golden_text("differ", function)), faults)

    def test_what_rustc_takes_has_none(self):
        for source in ("small", "rfc2094"):
            for name, text in support.golden_texts(source).items():
                with self.subTest(text=f"{source}/{name}"):
                    self.assertEqual(support.faults(text), [])


class Chains(unittest.TestCase):
    """The chain that a page tells for each fault, judged by the slow reference alone."""

    def test_each_step(self):
        for function, faults in Faults.FAULTS.items():
            text = support.golden_text("differ", function)
            for fault in faults:
                with self.subTest(function=function, fault=fault):
                    self.judge(text, *fault)

    def judge(self, text, long, short):
        facts = reader.read_facts(text.encode(), "golden")
        report = support.reference.answer("values", text.encode())[0].decode()
        values = page_values.read_values(report, facts, "reference")
        steps = chains.chain(facts, values, facts.names.index(long), facts.names.index(short))
        problem = support.said(text)
        solved = support.reference.solve(problem)
        end = problem.points + problem.universals.index(short.encode())
        holder = short.encode()
        for step in steps:
            sup, sub = (facts.names[r].encode() for r in (step.constraint.sup, step.constraint.sub))
            self.assertEqual(sub, holder)
            self.assertIn((sup, sub, step.constraint.at), problem.constraints)
            reached = support.reference.reach(problem, step.constraint.at, solved[sub])
            self.assertIn(end, reached)
            self.assertTrue(set(step.walk) <= reached <= solved[sup])
            holder = sup
        self.assertEqual(holder, long.encode())


class Ends(unittest.TestCase):
    """How far a reborrow goes, by the ends that regions hold."""

    def test_reborrow_through_mut(self):
        self.assertEqual(self.ends("reborrow_mut", "b"), {"a", "b"})

    def test_reborrow_behind_shared(self):
        self.assertEqual(self.ends("reborrow_shared", "a"), {"a"})

    def ends(self, function, region):
        problem = support.said(support.golden_text("rfc2094", function))
        value = support.reference.solve(problem)[region.encode()]
        return {problem.universals[e - problem.points].decode() for e in value
                if e >= problem.points}


class Dumps(unittest.TestCase):
    """What the tool takes for granted of rustc's dumps holds in the stored ones."""

    def test_universal_regions_have_the_lowest_numbers(self):
        for source in support.SOURCES:
            with tempfile.TemporaryDirectory() as folder:
                support.unpack(source, folder)
                for name in os.listdir(os.path.join(folder, "facts")):
                    tables = read_tables(os.path.join(folder, "facts", name))
                    numbers = sorted(tables.universal_region)
                    self.assertEqual(numbers, list(range(len(numbers))))

    def test_names(self):
        with tempfile.TemporaryDirectory() as folder:
            support.unpack("small", folder)
            body = read_body(os.path.join(folder, "mir", "input.part.-------.nll.0.mir"))
        self.assertEqual(body.names, {0: "static", 1: "p", 2: "q"})
        self.assertEqual(body.locals[1].name, "pair")
