"""The errors of errors/*/*.rs are told as rustc tells them, and nothing else is.

A file is in the folder of its code; those of `right/` have no error, those of `many/` several. expected.tsv has rustc's
errors, by store_errors.py: the line, column and code, the line of the loan, and that of what keeps it in force.
known.tsv has what is told otherwise, each with its reason: a row that isn't needed fails, too.
"""

import csv
import functools
import itertools
import os
import re
import tempfile
import unittest

import errors_support as support
import facts_support

EXPECTED = os.path.join(support.SUITE, "expected.tsv")
KNOWN = os.path.join(support.SUITE, "known.tsv")
CODES = {"lifetime": "", "escape": ""}      # the folders that aren't named by their code
FEWEST = 150
MOST_MODULES = 80
needs_known = unittest.skipUnless(facts_support.rustc_release().startswith(facts_support.KNOWN),
                                  f"no rustc {facts_support.KNOWN}x, of which the table is")


def read_rows(path):
    with open(path, encoding="utf-8", newline="") as file:
        return list(csv.reader(file, delimiter="\t", quoting=csv.QUOTE_NONE))


def read_expected():
    """The rows of each file that has errors."""
    found = {}
    for source, line, column, code, loan, later in read_rows(EXPECTED):
        row = support.Row(int(line), int(column), code, *(int(one) if one else None for one in (loan, later)))
        found.setdefault(source, []).append(row)
    return found


def modules(sources):
    """The files of one edition, many in a group: rustc and the command need a second for a group."""
    by_edition = {}
    for source in sources:
        by_edition.setdefault(support.edition_of(os.path.join(support.SUITE, source)), []).append(source)
    return [(edition, group[begin:begin + MOST_MODULES]) for edition, group in sorted(by_edition.items())
            for begin in range(0, len(group), MOST_MODULES)]


def answers_of_modules(task):
    """What is said of each file of a group, as modules of one file."""
    edition, group = task
    with tempfile.TemporaryDirectory(dir=support.MEMORY) as room:
        for folder in {os.path.dirname(source) for source in group}:
            os.symlink(os.path.join(support.SUITE, folder), os.path.join(room, folder))
        names = {source: re.sub(r"\W", "_", source.removesuffix(".rs")) for source in group}
        with open(os.path.join(room, "modules.rs"), "w", encoding="utf-8") as file:
            file.writelines(f'#[path = "{source}"]\npub mod {name};\n' for source, name in names.items())
        os.chdir(room)
        support.in_one_process()
        said = support.answer_of("modules.rs", edition)
        return {source: support.read_answer(*said, source, f"{name}::") for source, name in names.items()}


def answer_of_file(source):
    os.chdir(support.SUITE)
    support.in_one_process()
    return support.read_answer(*support.answer_of(source, support.edition_of(source)), source)


def both_of_files(texts):
    """What rustc says of the file lib.rs beside others, and what is printed of it."""
    with tempfile.TemporaryDirectory(dir=support.MEMORY) as room:
        os.chdir(room)
        for name, text in texts.items():
            with open(name, "w", encoding="utf-8") as file:
                file.write(text)
        messages = support.rustc_says("lib.rs", room, ["--edition=2021"])
        support.in_one_process()
        return messages, support.answer_of("lib.rs", "2021")[1]


def first_files():
    """The first file of each folder."""
    return [next(group) for _, group in itertools.groupby(support.sources(), os.path.dirname)]


@functools.cache
def all_differences():
    """How what is said differs from the table, by files; the status is that of the first ones of each folder."""
    expected, found = read_expected(), {}
    for answers in support.side_by_side(answers_of_modules, modules(support.sources()), 1):
        for source, answer in answers.items():
            rows, function_at = expected.get(source, []), support.function_finder(os.path.join(support.SUITE, source))
            found[source] = {*support.differences(rows, answer), *support.wrongly_right(rows, answer, function_at)}
    for source, answer in zip(first_files(), support.side_by_side(answer_of_file, first_files())):
        found[source] |= {*support.differences(expected.get(source, []), answer),
                          *support.wrong_status(expected.get(source, []), answer)}
    return found


class Table(unittest.TestCase):
    def setUp(self):
        self.expected = read_expected()

    def test_files(self):
        sources = support.sources()
        self.assertGreaterEqual(len(sources), FEWEST)
        self.assertEqual(set(self.expected) - set(sources), set())

    def test_each_file_shows_its_code(self):
        for source in support.sources():
            folder = os.path.dirname(source)
            codes = [row.code for row in self.expected.get(source, [])]
            with self.subTest(source=source):
                if folder == "right":
                    self.assertEqual(codes, [])
                elif folder == "many":
                    self.assertNotEqual(codes, [])
                else:
                    self.assertIn(CODES.get(folder, folder), codes)

    def test_known_differences_have_reasons(self):
        for source, difference, reason in read_rows(KNOWN):
            with self.subTest(source=source, difference=difference):
                self.assertIn(source, support.sources())
                self.assertGreaterEqual(len(reason.split()), 2)


@needs_known
class Answers(unittest.TestCase):
    def test_they_are_as_rustc_has_them(self):
        known = read_rows(KNOWN)
        for source, found in all_differences().items():
            with self.subTest(source=source):
                self.assertEqual(found, {row[1] for row in known if row[0] == source})


@needs_known
class MacroOfAnotherFile(unittest.TestCase):
    """An error within a macro of another file has rustc's place there; the macro's use is said."""

    MACROS = """
macro_rules! next {
    ($list:ident) => {
        { $list.pop() }
    };
}
macro_rules! taken {
    ($text:ident) => {
        drop($text)
    };
}
macro_rules! function {
    ($name:ident) => {
        pub fn $name(list: &mut Vec<u32>) -> u32 {
            let first = &list[0];
            list.push(1);
            *first
        }
    };
}
macro_rules! first {
    ($list:expr) => { &$list[0] };
}
"""
    USES = """
#[macro_use]
mod macros;
pub fn grow(list: &mut Vec<u32>) -> u32 {
    let first = &mut list[0];
    next!(list);
    *first
}
pub fn again(text: String) {
    taken!(text);
    taken!(text);
}
pub fn behind(text: &String) {
    let own = text;
    taken!(own);
    let list = *text;
    taken!(list);
}
function!(made);
pub fn outlives(list: &Vec<u32>) -> &'static u32 { first!(list) }
"""

    def test_places(self):
        [(messages, text)] = support.side_by_side(both_of_files, [{"macros.rs": self.MACROS, "lib.rs": self.USES}])
        for file, codes in (("macros.rs", ["", "E0382", "E0499", "E0502"]), ("lib.rs", ["E0507"])):
            rows = support.rows_of(messages, file)
            self.assertEqual(sorted(row.code for row in rows), codes)
            rows = [row._replace(loan=None, later=None) if row.code == "E0502" else row for row in rows]   # of `made`
            self.assertEqual(support.differences(rows, support.read_answer(0, text, file)), [])
        self.assertIn("the loan of line 15 (`list`, borrowed by an index) is live: its region `'r3` holds line 16", text)
        self.assertIn("in this macro invocation: lib.rs:6:5; the lines named here are of lib.rs", text)
        self.assertIn("in this macro invocation: lib.rs:19:1\n", text)
        self.assertIn("in this macro invocation: lib.rs:20:52; the lines named here are of lib.rs", text)
        self.assertNotIn("no error there", text)
        self.assertNotIn("no answer", text)


class Reading(unittest.TestCase):
    """What is read from lines that are printed, and how they are compared."""

    TEXT = ("grow: 1 loan error\n"
            "  a.rs:8:5: E0499: `list` is borrowed as mutable, and line 7 has borrowed it as mutable\n"
            "      the loan of line 7 (`line 3`) is live: its region `'r3` holds line 8, since line 9 uses it\n"
            "  a.rs:9:5: rustc 1.95.0: E0502: cannot borrow; nllc: no fault there\n"
            "      the loan isn't live there\n"
            "a.rs:12:5: rustc 1.95.0: E0382: use of moved value\n"
            "no fault: other, Type::third\n")

    def setUp(self):
        self.said = support.read_answer(1, self.TEXT, "a.rs")

    def test_lines(self):
        self.assertEqual(self.said.told, [support.Told(8, 5, "E0499", 7, frozenset({9}))])
        self.assertEqual(self.said.denied, [support.Row(9, 5, "E0502")])
        self.assertEqual(self.said.others, [support.Row(12, 5, "E0382")])
        self.assertEqual(self.said.right, {"other", "third"})

    def differences(self, *rows):
        return support.differences(rows, self.said)

    def test_differences(self):
        loan, denied, other = (support.Row(8, 5, "E0499", 7, 9), support.Row(9, 5, "E0502"),
                               support.Row(12, 5, "E0382"))
        self.assertEqual(self.differences(loan, denied, other), ["E0502 9:5: denied"])
        self.assertEqual(self.differences(loan._replace(loan=6), denied, other),
                         ["E0499 8:5: loan of line 7, for 6", "E0502 9:5: denied"])
        self.assertEqual(self.differences(loan._replace(later=8), denied, other),
                         ["E0499 8:5: later use in line 9, for 8", "E0502 9:5: denied"])
        self.assertEqual(self.differences(loan._replace(column=6), denied, other),
                         ["E0499 8:6: told as E0499 8:5", "E0502 9:5: denied"])
        self.assertEqual(self.differences(loan, denied), ["E0502 9:5: denied", "E0382 12:5: not rustc's"])

    def test_verdicts(self):
        rows = [support.Row(8, 5, "E0499")]
        self.assertEqual(support.wrongly_right(rows, self.said, lambda line: "grow"), [])
        self.assertEqual(support.wrongly_right(rows, self.said, lambda line: "third"), ["no fault: third"])
        self.assertEqual(support.wrong_status(rows, self.said), [])
        self.assertEqual(support.wrong_status([], self.said), ["status 1"])
