"""What the gate took: the table, the units, and the samples of processes while they run."""

import json
import os
import subprocess
import sys
import unittest

from support import ROOT, InRepository
import gate_minutes
import processes

# A process named rattle is the shell, which runs the file of its first word: it works until it was seen.
WORK = "while [ ! -e {room}/seen-$$ ]; do :; done\n"
RT = """#!/bin/sh
rattle() {{ (cd "$1" && shift && exec {bin}/rattle "$@"); }}
rattle crates/low build --crate-name low src/lib.rt
rattle crates/low build --crate-name low src/lib.rt --jobs 1 --test -o low.o
rattle {room}/rt-edit-a check --crate-name low src/lib.rt
rattle {room}/rt-edit-a check --crate-name low src/lib.rt
rattle crates/low fmt --check src/lib.rt
echo "1 passed, 1 failed"
exit 1
"""
# Runs the tool on another repository, looks more often, and tells which processes it has seen at work.
MAIN = """
import pathlib, sys, gate_minutes, processes

look, root = processes.Watch.look, pathlib.Path(sys.argv[1])

def look_and_tell(watch):
    look(watch)
    for (pid, _), sample in watch.alive.items():
        if sample["own"] > 0:
            (root / f"seen-{pid}").touch()

processes.Watch.look = look_and_tell
sys.exit(gate_minutes.main(sys.argv[2:], root, 0.02))
"""


def sample(crate, seconds, verb="build", edit=False, tests=False, parent=1, kids=0.0):
    words = ["/kit/bin/rattle", verb, "--crate-name", crate] + ["--test"] * tests
    cwd = "/tmp/rt-edit-x1" if edit else f"/repository/crates/{crate}"
    return {"pid": 2, "parent": parent, "own": seconds, "kids": kids, "cwd": cwd, "words": words, "kb": 1}


def yardstick(times):
    return [sample(crate, seconds * times) for crate, seconds in gate_minutes.YARDSTICK.items()]


class Table(unittest.TestCase):
    def test_seconds_are_told_by_crate_and_kind(self):
        samples = [sample("low", 60), sample("low", 30, tests=True)]
        samples += [sample("low", 20, "check", edit=True, kids=5.0)]
        samples += [sample("low", seconds, "check", edit=True) for seconds in (10, 5)]
        self.assertIn("| `low` | - | 60 | 30 | 40 | 2 |", gate_minutes.table(samples, None))

    def test_one_edit_has_no_check_of_the_crate_as_it_is(self):
        self.assertIn("| 0 | 0 | 9 | 1 |", gate_minutes.table([sample("low", 9, "check", edit=True)], None))

    def test_what_a_check_starts_is_counted_with_it_alone(self):
        samples = [sample("low", 60), sample("high", 50), sample("low", 40, parent=2)]
        self.assertIn("| `low` | - | 60 | 0 | 0 | 0 |", gate_minutes.table(samples, None))

    def test_other_processes_are_no_checks(self):
        other = sample("low", 60) | {"words": ["/kit/bin/rattle", "fmt", "--check", "a.rt"]}
        self.assertIn("| all | - | 0 | 0 | 0 | 0 |", gate_minutes.table([other], None))

    def test_units_are_those_of_the_machine_of_the_first_rows(self):
        samples = yardstick(3) + [sample("low", 360)]
        told = gate_minutes.table(samples, {"user": 5000.0, "system": 400.0, "wall": 3661.0})
        self.assertIn("| `low` | 2.0 | 360 | 0 | 0 | 0 |", told)
        self.assertIn("90.0 core-minutes, user 1:23:20, system 6:40, wall 1:01:01", told)
        self.assertIn("3.00 times as slow", told)
        self.assertEqual(told.splitlines()[-1], "30.0 units")

    def test_a_yardstick_that_lacks_a_crate_gives_no_units(self):
        told = gate_minutes.table(yardstick(3)[1:], None).splitlines()[-1]
        self.assertEqual(told, "no units: the yardstick's nll_sets has no check in this run")

    def test_a_yardstick_with_a_crate_that_changed_gives_no_units(self):
        told = gate_minutes.table(yardstick(3)[1:] + yardstick(7)[:1], None).splitlines()[-1]
        self.assertIn("no units: the yardstick's crates don't agree", told)
        self.assertIn("nll_sets 7.00", told)


class Budget(unittest.TestCase):
    def test_each_crate_has_one(self):
        crates = [crate for _, _, names in gate_minutes.layers_of(ROOT) for crate in names]
        self.assertEqual(sorted(gate_minutes.budgets()), sorted(crates))

    def test_the_gates_document_has_that_of_each_layer(self):
        by_layer = gate_minutes.budget_table().partition("\n\n")[0]
        [document] = ROOT.glob("docs/**/GATE.md")
        self.assertIn(by_layer, document.read_text())

    def test_a_crate_that_takes_more_is_told(self):
        samples = yardstick(1) + [sample("nll_lists", 60)]
        self.assertIn("above its budget: `nll_lists`, 1.0 of 0.6", gate_minutes.table(samples, None))
        self.assertNotIn("above", gate_minutes.table(yardstick(1), None))


class Running(InRepository):
    def setUp(self):
        super().setUp()
        self.root = self.room
        for place in ("crates/low", "rt-edit-a"):
            (self.root / place).mkdir(parents=True)
            for verb in ("build", "check", "fmt"):
                (self.root / place / verb).write_text(WORK.format(room=self.root))
        (self.root / "bin").mkdir()
        (self.root / "bin/rattle").symlink_to("/bin/sh")

    def run_on(self, words, rt):
        """What the tool ends with, and what is printed, in a small repository with this `rt`."""
        path = self.path_with(rt, bin=self.root / "bin")
        done = subprocess.run([sys.executable, "-c", MAIN, self.root, *words], cwd=ROOT / "tools", text=True,
                              stdout=subprocess.PIPE, env=os.environ | {"PATH": path})
        return done.returncode, done.stdout

    def test_a_run_is_measured_and_read_again(self):
        log = self.root / "log"
        status, told = self.run_on(["--log", log], RT)
        said, _, table = told.partition("\n")
        self.assertEqual((status, said), (1, "1 passed, 1 failed"))
        found = [json.loads(line) for line in log.read_text().splitlines()]
        low = gate_minutes.rows_of(found[:-1])["low"]
        self.assertEqual((low.tries, low.edits()), (2, 1))
        self.assertTrue(all(seconds > 0 for seconds in low.seconds.values()), low.seconds)
        self.assertGreater(found[-1]["whole"]["user"], 0)
        self.assertEqual(self.run_on(["--read", log], "exit 9"), (0, table))

    def test_a_gate_that_is_killed_ends_with_a_status_above_128(self):
        self.assertEqual(self.run_on([], "#!/bin/sh\nkill -9 $$\n")[0], 137)


class Watching(unittest.TestCase):
    def test_each_child_is_told_of_once_it_has_ended(self):
        told = []
        watch = processes.Watch(os.getpid(), told.append)
        with subprocess.Popen(["cat", "-"], stdin=subprocess.PIPE, stdout=subprocess.PIPE) as child:
            # Until it answers, its command line may still be empty.
            child.stdin.write(b"\n")
            child.stdin.flush()
            child.stdout.readline()
            watch.look()
            self.assertEqual((told, [one["pid"] for one in watch.samples()]), ([], [child.pid]))
        watch.look()
        self.assertEqual([one["words"][:2] for one in told], [["cat", "-"]])
        self.assertEqual((told, told), (watch.gone, watch.samples()))
        self.assertTrue(told[0]["kb"] > 0 and told[0]["last"] >= told[0]["first"])

    def test_of_what_has_ended_and_is_not_waited_for_nothing_new_is_told(self):
        ended = subprocess.Popen(["true"])
        os.waitid(os.P_PID, ended.pid, os.WEXITED | os.WNOWAIT)
        self.assertEqual(processes.described(ended.pid), {})
        ended.wait()
        self.assertEqual(processes.described(ended.pid), {})

    def test_the_kept_work_that_a_check_begins_with_is_told_by_its_name(self):
        for words, wanted in ((["--incremental", "/kept/7"], "7"), (["--jobs", "1"], ""), (["--incremental"], "")):
            with subprocess.Popen(["sh", "-c", "echo it; read it", "check", *words], stdin=subprocess.PIPE,
                                  stdout=subprocess.PIPE) as child:
                child.stdout.readline()
                self.assertEqual(processes.described(child.pid)["over"], wanted)

    def test_what_is_no_check_has_no_crate(self):
        self.assertEqual(processes.crate_of(sample("low", 1)), "low")
        self.assertIsNone(processes.crate_of({"words": []}))
        self.assertIsNone(processes.crate_of({"words": ["/bin/sleep", "check", "--crate-name", "low"]}))


if __name__ == "__main__":
    unittest.main()
