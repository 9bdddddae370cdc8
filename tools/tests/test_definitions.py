"""Each definition of specs/ has its comment and stands in one crate, and tools/definitions.py finds it and what it stands on."""

import collections
import re
import unittest

import support
from support import ROOT
import definitions

# A line that begins a definition, at any depth; and one of a mutual block, which has lines that begin with its name.
BEGUN = re.compile(r"^ *(?:abbrev (?:pub )?(?!mutual)|pub record |pub data )([^\s:(\[{]+)", re.M)
MUTUAL = re.compile(r"^( +)pub (?!record |data )(\S+) (?=[\s\S]*^\1\2 (?!=))", re.M)

# Words of `fixpoint` that `nll_owner` and `nll_run` say once more, of regions.
OF_REGIONS = ("AreRanked AreSettled IsDone IsNoted IsSaturated IsTold IsWellSupported Passes SayLeast given_to list_in "
              "list_of part part_for received_from")


def printed(*words):
    return support.printed(definitions.main, list(words))


def is_lemma(crate, file, name):
    return f"\npub {name} : " in (ROOT / "crates" / crate / "specs" / f"{file}.antt").read_text()


def rests_on(crate, function):
    return {name for one in definitions.rests_on(ROOT, crate, function) for name in one.names}


class All(unittest.TestCase):
    def test_each_has_a_comment(self):
        """Each public definition; of a block of mutual ones each, or the block."""
        silent = []
        for one in definitions.all_definitions():
            head = one.text.split("\n", 1)[0]
            is_told = one.comment or "pub " not in head and (
                "mutual" not in head or len(re.findall(r"^ *--.*\n *pub ", one.text, re.M)) == len(one.names))
            silent += [] if is_told else [f"{one.crate} {one.file}.{', '.join(one.names)}"]
        self.assertEqual(silent, [])

    def test_each_line_that_begins_one_is_found(self):
        found, begun = collections.Counter(), collections.Counter()
        for one in definitions.all_definitions():
            found.update((one.crate, one.file, name) for name in one.names)
        for path in (ROOT / "crates").glob("*/specs/*.antt"):
            if not path.parts[-3].endswith(definitions.WITHOUT_DEFINITIONS):
                text = path.read_text()
                names = BEGUN.findall(text) + [name for _, name in MUTUAL.findall(text)]
                begun.update((path.parts[-3], path.stem, name) for name in names)
        self.assertGreater(sum(begun.values()), 1000)
        self.assertEqual((begun - found, found - begun), (collections.Counter(), collections.Counter()))

    def test_each_name_that_a_file_brings_in_is_found(self):
        """The kit refuses an import of what isn't there; only lemmas aren't definitions."""
        crates, unknown = {one.crate for one in definitions.all_definitions()}, set()
        for path in [path for kind in ("src/**/*.rt", "specs/*.antt", "proofs/**/*.antt")
                     for path in (ROOT / "crates").glob(f"*/{kind}")]:
            for crate, file, name in definitions.brought_in(path.read_text()).values():
                if name and crate in crates and "." not in file and name not in definitions.known(ROOT, crate, file):
                    unknown.add((crate, file, name))
        self.assertEqual([one for one in sorted(unknown) if not is_lemma(*one)], [])


class Printing(unittest.TestCase):
    def test_one_definition(self):
        status, out, _ = printed("Least")
        source = (ROOT / "crates/nll_problem/specs/Solution.antt").read_text()
        head, _, rest = out.split("\n\n")[0].partition("\n")
        self.assertEqual((status, head), (0, "-- nll_problem, specs/Solution.antt"))
        self.assertIn(rest.strip(), source)

    def test_one_in_a_module(self):
        """With the heads of its modules, whose parameters it has."""
        _, out, _ = printed("IsEnded")
        source = (ROOT / "crates/worker/specs/Finishing.antt").read_text().split("\n")
        file, *lines = out.rstrip().split("\n")
        self.assertEqual(file, "-- worker, specs/Finishing.antt")
        self.assertEqual([line for line in lines if line not in source], [])
        self.assertEqual([line.split("{")[0].rstrip() for line in lines if "module" in line], ["module _", "  module _"])
        self.assertIn("pub shuts :", out)

    def test_one_ends_where_a_module_begins(self):
        self.assertEqual(printed("log_of")[1].split("\n")[3:], ["log_of logs i = slice_index_or logs i []", "", ""])

    def test_a_file_and_a_crate(self):
        self.assertIn("nll_problem Solution.Least: the region r holds e under", printed("Solution")[1])
        self.assertIn("nll_problem Faults.AreFaults: ", printed("nll_problem")[1])
        self.assertNotIn("nll_core ", printed("nll_problem")[1])

    def test_a_name_that_is_gone(self):
        self.assertEqual(printed("NoSuchName")[:2], (2, ""))
        self.assertEqual(printed("--of", "nll_core", "no_such_call")[0], 2)


class Resting(unittest.TestCase):
    def test_what_solve_rests_on(self):
        found = rests_on("nll_core", "solve")
        self.assertLessEqual({"Least", "Satisfies", "IsAskedIn", "IsWalk", "Graph", "IsHeld", "flag"}, found)
        self.assertFalse({"AreFaults", "IsMet"} & found)

    def test_a_method_and_a_law(self):
        self.assertIn("IsFrontierIn", rests_on("nll_core", "Frontier::grow"))
        self.assertIn("IsFaultOfText", rests_on("nll_facts", "facts_one_fault"))

    def test_what_stands_in_modules(self):
        """And not all of the module where a contract rests on what stands before it."""
        self.assertLessEqual({"Rules", "IsClosed", "IsWellSupported", "AreSound"}, rests_on("run", "run"))
        self.assertIn("log_of", rests_on("nll_run", "run"))
        self.assertFalse({"Rules", "most_parts"} & rests_on("nll_run", "run"))

    def test_names_that_a_file_hands_on(self):
        """`IsEarlier` is of another file than that from which a contract has it."""
        names = definitions.known(ROOT, "nll_problem", "Faults")
        self.assertEqual(definitions.meant(ROOT, names, "IsEarlier").file, "Problem")


def clashes():
    crates = collections.defaultdict(set)
    for one in definitions.all_definitions():
        for name in one.names:
            crates[name].add(one.crate)
    return {name: sorted(found) for name, found in crates.items() if len(found) > 1}


class Names(unittest.TestCase):
    def test_a_name_stands_in_one_crate(self):
        found, known = clashes(), OF_REGIONS.split()
        self.assertEqual({name: crates for name, crates in found.items() if name not in known}, {})
        self.assertEqual([name for name in known if name not in found], [])


if __name__ == "__main__":
    unittest.main()
