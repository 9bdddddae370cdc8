"""What a room has, and what comes back of it; which crates begin when, and with how many processes, reckoned by hand."""

import pathlib
import tempfile
import unittest

from support import InRepository
import rooms
from shares import ahead_of, at_once, lines_in, shares

AHEAD = {"long": 90, "middle": 50, "short": 20, "other": 10, "last": 5}


class Rooms(InRepository):
    def setUp(self):
        super().setUp()
        self.write("crates.txt", "low:\nhigh: low memchr\nbeside:  # apart\n")
        for name in ("low", "high", "beside"):
            self.write(f"crates/{name}/src/lib.rt", f"mod {name};\n")
            self.write(f"crates/{name}/specs/Lib.antt", "")
            self.write(f"crates/{name}/README.md", "")
            self.write(f"crates/{name}/out/rlib/stamp", name)
            self.write(f"crates/{name}/out/incremental/found", name)
        self.room = rooms.Room(str(self.root), "high", ["low"])
        self.top = self.root / "out/rooms/high"

    def files(self, folder):
        return sorted(str(path.relative_to(folder)) for path in folder.rglob("*") if path.is_file())

    def test_it_has_the_crate_and_those_below(self):
        self.room.open()
        self.assertEqual(self.files(self.top), [
            "crates.txt", "crates/high/out/incremental/found", "crates/high/out/rlib/stamp", "crates/high/specs/Lib.antt",
            "crates/high/src/lib.rt", "crates/low/out/rlib/stamp", "crates/low/specs/Lib.antt", "crates/low/src/lib.rt"])
        self.assertEqual((self.top / "crates.txt").read_text(), "low:\nhigh: low memchr\n")
        self.assertEqual(self.room.folder, str(self.top / "crates/high"))

    def test_a_library_is_the_same_file_and_a_source_is_another(self):
        self.room.open()
        for path, is_same in (("crates/low/out/rlib/stamp", True), ("crates/low/src/lib.rt", False)):
            self.assertEqual((self.root / path).samefile(self.top / path), is_same, path)

    def test_what_was_kept_is_away_until_it_is_closed(self):
        kept = self.root / "crates/high/out/incremental"
        self.room.open()
        self.assertFalse(kept.exists())
        (self.top / "crates/high/out/incremental/more").write_text("")
        self.room.close()
        self.assertEqual(self.files(kept), ["found", "more"])
        self.assertTrue((self.top / "crates/high/out/rlib/stamp").exists())

    def test_nothing_stays_of_one_that_is_removed(self):
        self.room.open()
        self.room.remove()
        self.assertFalse(self.top.parent.exists())
        self.assertEqual(self.files(self.root / "crates/high/out"), ["incremental/found", "rlib/stamp"])

    def test_one_that_is_removed_leaves_the_others(self):
        other = rooms.Room(str(self.root), "beside", [])
        other.open()
        self.room.open()
        self.room.remove()
        self.assertTrue((self.root / "out/rooms/beside/crates/beside/src/lib.rt").exists())

    def test_after_a_run_that_was_killed_what_was_kept_is_put_back(self):
        self.room.open()
        rooms.Room(str(self.root), "low", []).open()
        self.write("crates/low/out/incremental/newer", "")
        rooms.remove_left(str(self.root))
        self.assertFalse(self.top.exists())
        self.assertEqual(self.files(self.root / "crates/high/out/incremental"), ["found"])
        self.assertEqual(self.files(self.root / "crates/low/out/incremental"), ["newer"])

    def test_a_crate_that_was_never_checked_has_a_room_too(self):
        self.write("crates.txt", "low:\nhigh: low\nnew: low\n")
        self.write("crates/new/src/lib.rt", "")
        room = rooms.Room(str(self.root), "new", ["low"])
        room.open()
        self.assertEqual(self.files(self.root / "out/rooms/new/crates/new"), ["src/lib.rt"])
        room.remove()
        self.assertEqual(self.files(self.root / "crates/new"), ["src/lib.rt"])


class Shares(unittest.TestCase):
    def test_what_is_ahead_of_a_crate_is_its_longest_chain(self):
        uses = {"low": [], "left": ["low"], "right": ["low"], "top": ["left", "right"], "apart": []}
        lines = {"low": 10, "left": 3, "right": 7, "top": 20, "apart": 5}
        self.assertEqual(ahead_of(uses, lines), {"low": 37, "left": 23, "right": 27, "top": 20, "apart": 5})

    def test_lines_are_those_of_the_code(self):
        with tempfile.TemporaryDirectory() as folder:
            crate = pathlib.Path(folder) / "crates/low"
            (crate / "src/deep").mkdir(parents=True)
            (crate / "proofs").mkdir()
            for path in ("src/lib.rt", "src/deep/one.rt", "src/note.md", "proofs/Lib.antt"):
                (crate / path).write_text("a\nb\n")
            self.assertEqual(lines_in(folder, "low"), 4)

    def test_a_quarter_more_processes_than_processors(self):
        self.assertEqual([at_once(number) for number in (1, 2, 3, 4, 8)], [1, 2, 3, 5, 10])

    def test_one_that_is_alone_has_all_processors(self):
        self.assertEqual(shares(["long"], {}, 4, AHEAD), {"long": 4})
        self.assertEqual(shares(["long"], {}, 1, AHEAD), {"long": 1})

    def test_the_longest_chain_has_half_and_goes_first(self):
        self.assertEqual(shares(["short", "middle", "long", "other", "last"], {}, 4, AHEAD),
                         {"long": 2, "middle": 1, "short": 1, "other": 1})

    def test_no_other_has_more_than_half(self):
        self.assertEqual(shares(["long", "middle"], {}, 4, AHEAD), {"long": 2, "middle": 2})
        self.assertEqual(shares(["middle"], {"long": 2}, 4, AHEAD), {"middle": 2})

    def test_nothing_begins_where_nothing_is_free(self):
        self.assertEqual(shares(["short"], {"long": 2, "middle": 2, "other": 1}, 4, AHEAD), {})
        self.assertEqual(shares(["short"], {"long": 4}, 2, AHEAD), {})

    def test_the_longest_chain_takes_what_is_free(self):
        self.assertEqual(shares(["long", "short"], {"middle": 2, "other": 2}, 4, AHEAD), {"long": 1})

    def test_on_two_processors_two_run(self):
        self.assertEqual(shares(["long", "middle", "short"], {}, 2, AHEAD), {"long": 1, "middle": 1})


if __name__ == "__main__":
    unittest.main()
