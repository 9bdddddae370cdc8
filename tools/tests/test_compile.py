"""How a first run compiles: once for all that ask, and so that a killed one leaves nothing."""

import hashlib
import os
import pty
import shutil
import signal
import subprocess
import time
import unittest

from support import ROOT, InRepository

PROGRAM = '#!/bin/sh\\necho "answers $*"\\n'
# An `rt` that makes a program and has it read the pipe, as `rt try` does, with a helper in a session of its own.
RT = f"""#!/bin/sh
[ "$1" != version ] || {{{{ echo "a kit"; exit; }}}}
echo "$*" >> {{said}}
mkdir -p "$TMPDIR/a/b" && printf '{PROGRAM}' > "$TMPDIR/a/b/program" && chmod 700 "$TMPDIR/a/b/program"
setsid sleep 61.{{number}} &
sleep {{seconds}}
for word; do last=$word; done
cat "$last" >/dev/null
kill $!
"""
FAILS = "#!/bin/sh\necho \"$*\" >> {said}\nsleep {seconds}; exit 1\n"
WAITS = "nllc.sh: another run compiles; waiting for it\n"


class Compiling(InRepository):
    def setUp(self):
        super().setUp()
        for name in ("crates/nllc/src", "crates/nllc/specs", "tools", "bin"):
            (self.root / name).mkdir(parents=True)
        self.write("crates.txt", "nllc:\n")
        self.write("crates/nllc/src/main.rt", "fn main() {}\n")
        for name in ("nllc.sh", "tools/compile_unproved.py"):
            shutil.copy(ROOT / name, self.root / name)

    def rt(self, text=RT, seconds="0.5"):
        """The PATH with this `rt`."""
        self.number = f"{os.getpid()}{time.monotonic_ns()}"
        return self.path_with(text, seconds=seconds, number=self.number)

    def compiles(self):
        return len(self.said.read_text().splitlines()) if self.said.exists() else 0

    def left(self):
        """The rooms and the helpers that are there."""
        rooms = [path.name for path in (self.root / "out").glob("compile.*") if path.is_dir()]
        helpers = subprocess.run(["ps", "-eo", "args"], stdout=subprocess.PIPE, text=True, check=True).stdout
        return rooms, [line for line in helpers.splitlines() if line == f"sleep 61.{self.number}"]

    def wait_until(self, holds, seconds):
        end = time.monotonic() + seconds
        while not holds() and time.monotonic() < end:
            time.sleep(0.02)
        self.assertTrue(holds(), self.left())

    def run_many(self, rt, number):
        """Starts so many runs, and lets the one compile end once all others wait for it; each one's status, and what all said."""
        go = self.room / "go"
        path = self.rt(rt, seconds=f"0; until [ -e {go} ]; do sleep 0.05; done")
        files = [open(self.room / f"told{one}", "w+", encoding="utf-8") for one in range(number)]
        runs = [self.start(path, "check", f"F{one}", stderr=file) for one, file in enumerate(files)]
        self.wait_until(lambda: sum((self.room / f"told{one}").read_text().count(WAITS) for one in range(number)) == number - 1,
                        120)
        go.touch()
        outs = [run.communicate(timeout=120)[0] for run in runs]
        for file in files:
            file.close()
        return [run.returncode for run in runs], outs, [(self.room / f"told{one}").read_text() for one in range(number)]

    def test_many_first_runs_make_one_compile(self):
        statuses, outs, told = self.run_many(RT, 8)
        self.assertEqual((statuses, outs), ([0] * 8, [f"answers check F{number}\n" for number in range(8)]), told)
        self.assertEqual(self.compiles(), 1)
        self.assertEqual("".join(told).count("nllc.sh: compiling for about a minute\n"), 1, told)
        self.assertEqual(self.left(), ([], []))

    def test_the_others_dont_try_again_what_failed(self):
        statuses, _, told = self.run_many(FAILS, 4)
        self.assertEqual(statuses, [127] * 4)
        self.assertEqual({lines.splitlines()[-1] for lines in told},
                         {f"nllc.sh: nothing was compiled: see {self.root}/out/compile.log"})
        self.assertEqual(self.compiles(), 1)

    def test_a_killed_run_leaves_nothing(self):
        """Whichever process is killed, and however: the one that was started, or the compile below it."""
        for number in (signal.SIGKILL, signal.SIGTERM, signal.SIGHUP):
            for words in (("check", "F"), ("--which",)):
                with self.subTest(number=number, words=words):
                    running = self.start(self.rt(seconds=30), *words)
                    self.wait_until(lambda: self.left()[1], 30)
                    running.send_signal(number)
                    running.communicate(timeout=60)
                    self.wait_until(lambda: self.left() == ([], []), 5)

    def test_a_killed_compile_leaves_nothing(self):
        running = self.start(self.rt(seconds=30), "check", "F")
        self.wait_until(lambda: self.left()[1], 30)
        compiling = subprocess.run(["pgrep", "-f", f"{self.root}/tools/compile_unproved.py --asks"], text=True,
                                   stdout=subprocess.PIPE, check=True).stdout.split()
        os.kill(int(compiling[0]), signal.SIGKILL)
        self.assertEqual(running.wait(60), 127)
        running.communicate()
        self.wait_until(lambda: self.left() == ([], []), 5)

    def test_what_an_older_run_left_is_removed(self):
        path = self.rt(seconds="0")
        (self.root / "out" / "compile.left" / "a").mkdir(parents=True)
        self.assertEqual(self.start(path, "check", "F").communicate(timeout=60)[0], "answers check F\n")
        self.assertEqual(self.left()[0], [])

    def test_others_may_run_it(self):
        self.start(self.rt(seconds="0"), "check", "F").communicate(timeout=60)
        self.assertEqual((self.root / "out/nllc-unproved").stat().st_mode & 0o777, 0o755)

    @unittest.skipIf(os.geteuid() == 0 and not shutil.which("setpriv"), "root may write anywhere")
    def test_out_cannot_be_written(self):
        self.room.chmod(0o755)
        path, few = self.rt(), ["setpriv", "--reuid=65534", "--clear-groups"] if os.geteuid() == 0 else []
        self.root.chmod(0o555)
        done = subprocess.run([*few, str(self.root / "nllc.sh"), "check", "F"], capture_output=True, text=True,
                              check=False, env={**os.environ, "PATH": path, "NLLC": "", "HOME": "/"})
        self.root.chmod(0o755)
        self.assertEqual((done.returncode, done.stdout), (127, ""))
        self.assertEqual(done.stderr, f"nllc.sh: nothing was compiled: {self.root}/out can't be written: "
                                      "Permission denied\n")

    def test_no_rt(self):
        few = self.room / "few"
        few.mkdir()
        (few / "python3").symlink_to(shutil.which("python3", path="/usr/bin:/usr/local/bin"))
        run = self.start(str(few), "check", "F")
        self.assertEqual(run.communicate(timeout=60), ("", "nllc.sh: rt, the command of the Rattle kit, isn't on the PATH\n"))
        self.assertEqual(run.returncode, 127)

    def test_seconds_so_far_on_a_terminal(self):
        path, (master, terminal) = self.rt(seconds="1.5"), pty.openpty()
        run = self.start(path, "check", "F", stderr=terminal)
        os.close(terminal)
        run.communicate(timeout=60)
        said = b""
        with os.fdopen(master, "rb", buffering=0) as file:
            while True:
                try:
                    said += file.read(65536)
                except OSError:    # nobody writes to it any longer
                    break
        self.assertIn(b"\rcompiling (1 s)\x1b[K", said)

    def test_what_changed_while_it_compiled_is_newer(self):
        path = self.rt(RT.replace("for word", f"touch {self.root}/crates/nllc/src/main.rt; for word"))
        self.start(path, "check", "F").communicate(timeout=60)
        built = self.start(path, "--built")
        built.communicate(timeout=60)
        self.assertEqual(built.returncode, 1)

    def test_version(self):
        path = self.rt(seconds="0")
        self.start(path, "check", "F").communicate(timeout=60)
        out, _ = self.start(path, "--version").communicate(timeout=60)
        lines = dict(line.split(" ", 1) for line in out.splitlines())
        program = self.root / "out/nllc-unproved"
        self.assertEqual(lines, {"nllc,": "commit unknown", "program:": f"{program}, which isn't proved", "kit:": "a kit",
                                 "sha256:": hashlib.sha256(program.read_bytes()).hexdigest()})


if __name__ == "__main__":
    unittest.main()
