"""Tests of bench/edits.py: `python3 -m unittest discover -s bench`. Unproved."""
from __future__ import annotations

import pathlib
import unittest

import edits
import kit

FILES = "crates/pg_a/src/lib.rt", "crates/pg_a/specs/Lib.antt", "bench/edits/pg_a/one.edit"


class Tried(unittest.TestCase):
    def tree(self, top: pathlib.Path) -> None:
        for name in FILES:
            (top / name).parent.mkdir(parents=True)
            (top / name).write_text("text")

    def test_what_was_tried_changes(self) -> None:
        for name in FILES:
            with kit.files() as top:
                self.tree(top)
                sums = {"pg_a": edits.sum_of(top, "pg_a")}
                self.assertEqual(edits.changed(top, ["pg_a"], sums), [])
                (top / name).write_text("another")
                self.assertEqual(len(edits.changed(top, ["pg_a"], sums)), 1, name)

    def test_files_come_and_go(self) -> None:
        with kit.files() as top:
            self.tree(top)
            before = edits.sum_of(top, "pg_a")
            more = top / "crates/pg_a/src/more.rt"
            more.write_text("")
            self.assertNotEqual(edits.sum_of(top, "pg_a"), before)
            more.unlink()
            self.assertEqual(edits.sum_of(top, "pg_a"), before)

    def test_never_tried(self) -> None:
        with kit.files() as top:
            self.tree(top)
            self.assertEqual(edits.changed(top, ["pg_a"], {}), [])
            self.assertEqual(edits.changed(top, ["pg_a"], {"pg_a": "another"}), [
                "pg_a has changed since its edits were tried: run bench/edits.py pg_a"])


if __name__ == "__main__":
    unittest.main()
