"""Answers for programs: faults as rustc's own JSON, a text's values and faults, and their schema."""

import copy
import json
import os
import subprocess
import unittest

import facts_support as support
from nllc_tools.rustc.compiler import find_rustc
from schema_checker import errors
from test_facts_command import RUST, Room, needs_known
from test_project import QUICK

SCHEMA = os.path.join(support.ROOT, "docs", "answer.schema.json")

FAULTS = """\
pub fn grow(scores: &mut Vec<u32>) -> u32 {
    let first = &mut scores[0]; // ä
    scores.push(1);
    *first
}
pub fn longer<'a, 'b>(x: &'a u8, y: &'b u8) -> &'a u8 {
    if *x == 0 { y } else { x }
}
pub fn fixed<'a>(name: &'a u8) -> &'static u8 {
    let mut text = name;
    let _ = *text;
    text = &3;
    text
}
pub fn moved(text: String) -> usize {
    drop(text);
    text.len()
}
pub fn idle() {
    let mut unused = 1;
}
"""


# What may be null, by the published shape: rustc's book, "JSON output".
NULLABLE = [(key,) for key in ("code", "explanation", "label", "suggested_replacement", "suggestion_applicability", "expansion",
                               "rendered")]


def kinds_in(thing, path=(), found=None):
    """For each place in a value the kinds of what stands there: a key's place is its name, all items of a list have one."""
    found = {} if found is None else found
    found.setdefault(path, set()).add(type(thing).__name__)
    for key, one in thing.items() if isinstance(thing, dict) else [("[]", one) for one in thing] if isinstance(thing, list) else ():
        inside = path[:path.index("children")] if key == "[]" and "children" in path else (*path, key)   # a child is a diagnostic
        kinds_in(one, inside, found)
    return found


def with_schema():
    with open(SCHEMA, encoding="utf-8") as file:
        return json.load(file)


@needs_known
class OfRust(Room):
    """`rust --message-format=json`: a line for each fault, and what else rustc says."""

    def rust(self, *words):
        done = subprocess.run([RUST, "rust", *words, "--message-format=json"], capture_output=True, check=False,
                              cwd=self.room, encoding="utf-8", env=os.environ | {"NLLC": QUICK})
        return done, [json.loads(line) for line in done.stdout.splitlines()]

    def said(self, lines, level="error"):
        return [(one["code"] and one["code"]["code"], span["line_start"]) for one in lines
                for span in one["spans"] if span["is_primary"] and one["level"] == level]

    def test_each_error_once_in_the_shape_of_rustc(self):
        path = self.write("a.rs", FAULTS)
        done, lines = self.rust(path)
        self.assertEqual((done.returncode, done.stderr), (1, ""))
        self.assertEqual(self.said(lines), [("E0499", 3), (None, 7), ("E0382", 17), (None, 13)])
        self.assertIn(("unused_variables", 20), self.said(lines, "warning"))
        self.assertFalse(any(name.startswith("out") for name in self.left()))
        own, theirs = lines[0], next(one for one in lines if one["level"] == "warning")
        self.assertLessEqual(own.keys(), theirs.keys())
        for part in ("spans", "children"):
            self.assertEqual(own[part][0].keys(), theirs[part][0].keys())
        self.assertEqual(own["spans"][0]["text"][0].keys(), theirs["spans"][0]["text"][0].keys())

    def test_each_key_has_what_rustc_has_there(self):
        """What rustc prints for the same file, and what cargo hands on as the `message` of a `compiler-message`: editors read that."""
        path = self.write("a.rs", FAULTS)
        plain = subprocess.run([find_rustc(), "--crate-type=lib", "--edition=2021", "--error-format=json", "--emit=metadata",
                                f"--out-dir={self.room}", path], capture_output=True, check=False, encoding="utf-8", cwd=self.room)
        theirs = [json.loads(line) for line in plain.stderr.splitlines()]
        known = {}
        for one in theirs:
            kinds_in(one, found=known)
        _, lines = self.rust(path)
        own = [one for one in lines if one["rendered"].startswith("error") and one["rendered"] not in
               [their["rendered"] for their in theirs]]
        self.assertEqual(len(own), 3)
        for line in lines:
            for place, kinds in kinds_in(line).items():
                self.assertLessEqual(kinds, known.get(place, set()) | ({"NoneType"} if place[-1:] in NULLABLE else set()), place)
            self.assertEqual(line.keys(), theirs[0].keys())
            for span in line["spans"]:
                self.assertEqual(span.keys(), theirs[0]["spans"][0].keys())
                self.assertLess(span["byte_start"], span["byte_end"])
                self.assertEqual(len(span["text"]), span["line_end"] - span["line_start"] + 1)
            self.assertIn(line["level"], ("error", "warning"))
            self.assertLessEqual({one["level"] for one in line["children"]}, {"note", "help"})
            self.assertEqual(line["$message_type"], "diagnostic")

    def test_places_and_labels(self):
        _, lines = self.rust(self.write("a.rs", FAULTS), "grow")
        self.assertEqual(self.said(lines), [("E0499", 3)])
        places = [(one["line_start"], one["column_start"], one["column_end"], one["label"], one["is_primary"])
                  for one in lines[0]["spans"]]
        self.assertEqual(places, [(3, 5, 11, "conflicts here", True), (2, 22, 28, "borrowed here", False),
                                  (4, 5, 11, "used here later", False)])
        for one in lines[0]["spans"]:
            begin, end = one["byte_start"], one["byte_end"]
            text = FAULTS.encode()[begin:end].decode()
            self.assertEqual(text, one["text"][0]["text"][one["column_start"] - 1:one["column_end"] - 1])
        self.assertEqual([one["level"] for one in lines[0]["children"]], ["note", "help"])
        self.assertIn("move the use in line 4 above line 3", lines[0]["children"][1]["message"])
        self.assertTrue(lines[0]["rendered"].startswith("error[E0499]: "))

    def test_a_difference_is_rustc_s_error_with_a_note(self):
        _, lines = self.rust(self.write("a.rs", FAULTS), "fixed")
        self.assertEqual(len(lines), 1)
        self.assertTrue(lines[0]["rendered"].startswith("error: lifetime may not live long enough"))
        self.assertTrue(lines[0]["children"][-1]["message"].startswith("nllc: no fault there: "))

    def test_a_project_whose_types_do_not_fit(self):
        self.write("a/Cargo.toml", '[package]\nname = "a"\nversion = "0.1.0"\nedition = "2021"\n')
        self.write("a/src/lib.rs", 'pub fn f() -> u8 {\n    "a"\n}\n')
        done, lines = self.rust("a")
        self.assertEqual((done.returncode, self.said(lines)), (2, [("E0308", 2)]))
        self.assertEqual(lines[0]["spans"][0]["file_name"], "a/src/lib.rs")


class OfTexts(Room):
    """`json FILE`: values as runs with names, faults with their chains, as the schema has it."""

    def answer(self, *paths, **more):
        done = subprocess.run([RUST, "json", *paths], capture_output=True, check=False, encoding="utf-8",
                              env=os.environ | {"NLLC": QUICK}, **more)
        return done, [json.loads(line) for line in done.stdout.splitlines()]

    def test_values_and_a_fault(self):
        path = self.write("a.facts", "nll-facts 1\n# function: f\npoints 3\nuniversal 'a\nuniversal 'b\nregion 'x\n"
                          "next 0 1\nnext 1 2\nreturn 2\nbase 'x 0\nbase 'x 2\nconstraint 'x 'a 1\n"
                          "constraint 'b 'x 2\nend\n")
        done, [answer] = self.answer(path)
        self.assertEqual((done.returncode, done.stderr), (1, ""))
        self.assertEqual(errors(answer, with_schema()), [])
        self.assertEqual((answer["function"], answer["points"], answer["loans"]), ("f", 3, None))
        self.assertEqual(answer["regions"][3], {"name": "'x", "is_universal": False, "words": None, "line": None,
                                                "points": [[0, 2]], "ends": ["'a"]})
        [fault] = answer["faults"]
        self.assertEqual((fault["longer"], fault["shorter"]), ("'b", "'a"))
        self.assertEqual(fault["chain"], [{"longer": "'x", "shorter": "'a", "at": 1, "walk": [1, 2]},
                                          {"longer": "'b", "shorter": "'x", "at": 2, "walk": [2]}])

    def test_examples_are_as_the_schema_has_them(self):
        folder = os.path.join(support.ROOT, "examples")
        paths = sorted(os.path.join(folder, name) for name in os.listdir(folder) if name.endswith(".facts"))
        paths.append(os.path.join(support.GOLDEN, "differ", "longer.facts"))
        done, answers = self.answer(*paths)
        self.assertEqual((done.returncode, len(answers)), (1, len(paths)), done.stderr)
        schema = with_schema()
        for answer in answers:
            self.assertEqual(errors(answer, schema), [], answer["text"])
        self.assertEqual(answers[-1]["faults"][0]["place"]["column"], 5)

    def test_the_highest_status(self):
        """Each text is answered, and an earlier one has the higher status."""
        right = "nll-facts 1\npoints 1\nend\n"
        ok, fault, wrong = (self.write(f"{name}.facts", text) for name, text in (
            ("ok", right), ("fault", right.replace("end", "universal 'a\nreturn 0\nconstraint 'a 'static 0\nend")),
            ("wrong", "no text\n")))
        for paths, status, told in (((fault, ok), 1, [fault, ok]), ((wrong, fault, ok), 2, [fault, ok]),
                                    ((ok, wrong, fault), 2, [ok, fault]), ((self.room + "/none", ok), 2, [ok])):
            done, answers = self.answer(*paths)
            self.assertEqual((done.returncode, [one["text"] for one in answers]), (status, told), paths)
            self.assertEqual(done.stderr.count("\n"), len(paths) - len(told))
        for path in ("-", "/dev/stdin"):
            done, [answer] = self.answer(path, input=right)
            self.assertEqual((done.returncode, answer["points"]), (0, 1))

    def test_no_text(self):
        done, answers = self.answer(self.write("a.facts", "no text\n"))
        self.assertEqual((done.returncode, answers, done.stderr.count("\n")), (2, [], 1))


class Checker(unittest.TestCase):
    """The checker of schemas refuses what a schema doesn't have."""

    SCHEMA = {"type": "object", "required": ["a", "b"], "additionalProperties": False, "properties": {
        "a": {"$ref": "#/$defs/run"}, "b": {"anyOf": [{"type": "null"}, {"enum": ["x"]}]},
        "c": {"type": "string", "pattern": "^'"}},
        "$defs": {"run": {"type": "array", "items": {"type": "integer", "minimum": 0}, "minItems": 2, "maxItems": 2}}}
    RIGHT = {"a": [0, 1], "b": None, "c": "'a"}

    def test_right(self):
        self.assertEqual(errors(self.RIGHT, self.SCHEMA), [])

    def test_wrong(self):
        for name, value in (("a", [0]), ("a", [0, -1]), ("a", [0, True]), ("a", [0, 1, 2]), ("a", None), ("b", "y"),
                            ("c", "a"), ("c", 1), ("d", 1)):
            self.assertEqual(len(errors(copy.deepcopy(self.RIGHT) | {name: value}, self.SCHEMA)), 1, (name, value))
        self.assertEqual(errors({"a": [0, 1]}, self.SCHEMA), ["$: no b"])
        self.assertEqual(errors([], self.SCHEMA), ["$: no object"])
