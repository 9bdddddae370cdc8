"""What has each growth of memory refused, as the last part of the gate: check/refuse/rows.py."""

import pathlib
import subprocess
import tempfile
import unittest

from support import printed
import rows

# A program that asks for memory GROWTHS times. As `nllc` it ends at the first refusal; as a test it tries again.
PROGRAM = r"""
#include <stdlib.h>
#include <string.h>
#include <unistd.h>
static void *volatile kept;
int main(int count, char **words)
{
    int is_test = count == 2;
    for (int at = 0; at < GROWTHS; at++) {
        void *block = malloc(8);
        if (!block && is_test && !ENDS_TEST)
            block = malloc(8);
        if (!block && LOSES)
            kept = malloc(8);
        if (!block) {
            if (WRITES_EARLY) write(1, "ri", 2);
            if (CRASHES) abort();
            write(2, "nllc: memory\n", 13);
            return IGNORES ? 0 : 3;
        }
        free(block);
    }
    if (is_test) return write(1, "test result: ok\n", 16) != 16;
    return write(1, "right\n", 6) != 6;
}
"""
WAYS = ["ENDS_TEST", "LOSES", "WRITES_EARLY", "CRASHES", "IGNORES"]


class Refusing(unittest.TestCase):
    def setUp(self):
        self.folder = tempfile.TemporaryDirectory()
        self.addCleanup(self.folder.cleanup)
        for name, value in (("PROBLEMS", {"one": ("text\n", "right\n")}), ("TESTS", ["again"])):
            self.addCleanup(setattr, rows, name, getattr(rows, name))
            setattr(rows, name, value)

    def ended(self, *ways, growths=7, words=()):
        """What the script ends with and prints, where the program has these faults."""
        program, source = (pathlib.Path(self.folder.name) / name for name in ("program", "program.c"))
        source.write_text(PROGRAM)
        given = [f"-D{way}={int(way in ways)}" for way in WAYS] + [f"-DGROWTHS={growths}"]
        subprocess.run(["cc", "-O0", "-w", *given, "-o", str(program), str(source)], check=True)
        status, out, _ = printed(rows.main, ["--nllc", str(program), "--tests", str(program), *words])
        return status, out.splitlines()

    def test_each_growth_is_refused_and_one_more_run_meets_no_refusal(self):
        status, printed = self.ended(words=["--before", "90 passed, 0 failed"])
        self.assertEqual(status, 0)
        self.assertEqual(printed[0], "values of one: 7 growths of memory, 8 runs with one refused, 0 skipped, 0 wrong")
        self.assertEqual(printed[3].partition(": ")[::2],
                         ("repeated_runs::again", "7 growths of memory, 8 runs with one refused, 0 skipped, 0 wrong"))
        self.assertEqual(printed[-1], "94 passed, 0 failed")

    def test_each_way_to_end_otherwise_is_told(self):
        for way, failed in (("ENDS_TEST", 1), ("LOSES", 1), ("WRITES_EARLY", 3), ("CRASHES", 3), ("IGNORES", 3)):
            status, printed = self.ended(way)
            self.assertEqual((status, printed[-1]), (1, f"{4 - failed} passed, {failed} failed"), way)

    def test_a_program_that_asks_for_nothing_fails(self):
        status, printed = self.ended(growths=0)
        self.assertEqual((status, printed[-1]), (1, "0 passed, 4 failed"))

    def test_what_is_skipped_for_time_is_told(self):
        status, printed = self.ended(words=["--seconds", "0"])
        self.assertIn("28 growths of 4 commands, 0 runs, 28 skipped, ", printed[-2])
        self.assertEqual(status, 1)

    def test_a_failure_before_is_kept(self):
        status, printed = self.ended(words=["--before", "90 passed, 1 failed"])
        self.assertEqual((status, printed[-1]), (1, "94 passed, 1 failed"))

    def test_a_missing_program_fails(self):
        status, out, _ = printed(rows.main, ["--nllc", self.folder.name + "/none", "--before", "9 passed, 0 failed"])
        self.assertEqual((status, out.splitlines()[-1]), (1, "9 passed, 1 failed"))

    def test_each_beginning_is_spread(self):
        self.assertEqual(sorted(rows.spread(100)), list(range(1, 101)))
        self.assertLess(min(rows.spread(1000)[:8]), 200)
        self.assertGreater(max(rows.spread(1000)[:8]), 800)


if __name__ == "__main__":
    unittest.main()
