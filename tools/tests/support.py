"""What the tests of tools/ share: where modules stand, small repositories, and an `rt` that isn't the kit's."""

import contextlib
import io
import os
import pathlib
import signal
import subprocess
import sys
import tempfile
import unittest
from unittest import mock

ROOT = pathlib.Path(__file__).resolve().parents[2]
sys.path[:0] = [str(ROOT / folder) for folder in ("tools", "bench", "check/refuse")]


def hear_the_end():
    """Has a run hear that it's to end, also where these tests don't, as under `nohup`."""
    for number in (signal.SIGHUP, signal.SIGINT):
        signal.signal(number, signal.SIG_DFL)


def printed(main, *words):
    """The status of a tool's `main`, and what it printed on both streams."""
    out, err = io.StringIO(), io.StringIO()
    with contextlib.redirect_stdout(out), contextlib.redirect_stderr(err):
        status = main(*words)
    return status, out.getvalue(), err.getvalue()


class InRepository(unittest.TestCase):
    """A test in a folder, `room`, with a small repository in it, `root`, and a file `said` for what its `rt` is asked."""

    def setUp(self):
        folder = tempfile.TemporaryDirectory()
        self.addCleanup(folder.cleanup)
        self.room = pathlib.Path(folder.name)
        self.root, self.said = self.room / "repository", self.room / "said"
        self.root.mkdir()

    def write(self, path, text):
        (self.root / path).parent.mkdir(parents=True, exist_ok=True)
        (self.root / path).write_text(text)

    def commit(self):
        for words in ("init -q", "add -A", "-c user.name=a -c user.email=a@b commit -q -m a"):
            subprocess.run(["git", "-C", str(self.root), *words.split()], check=True)

    def path_with(self, rt, **known):
        """The PATH with this `rt`, in which what is known stands in the place of its names."""
        file = self.room / "bin" / "rt"
        file.parent.mkdir(exist_ok=True)
        file.write_text(rt.format(said=str(self.said), room=self.room, root=self.root, **known))
        file.chmod(0o755)
        return f"{file.parent}:{os.environ['PATH']}"

    def start(self, path, *words, **more):
        """Starts nllc.sh of the repository with this PATH."""
        return subprocess.Popen([str(self.root / "nllc.sh"), *words], stdin=subprocess.DEVNULL, stdout=subprocess.PIPE,
                                text=True, env={**os.environ, "PATH": path, "NLLC": ""}, preexec_fn=hear_the_end,
                                **{"stderr": subprocess.PIPE, **more})

    def ended(self, main, words, rt, **known):
        """What a tool's `main` ends with in the repository, what its `rt` was asked, and what was printed."""
        self.said.write_text("")
        with mock.patch.dict(os.environ, {"PATH": self.path_with(rt, **known)}):
            status, out, err = printed(main, words, self.root)
        return status, self.said.read_text(), out + err
