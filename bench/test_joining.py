"""Tests of bench/joining.py: `python3 -m unittest discover -s bench`. Expected values are worked by
hand. Unproved.
"""
from __future__ import annotations

import argparse
import pathlib
import tempfile
import unittest

import joining
import kit

# Stands for posgame-settle: a game of two positions, of which the second decides.
PROGRAM = """#!/bin/sh
case "$1" in
    split) echo moves > "$3/plan"; printf 'positions 2 depth 1\\n' ;;
    join)
        if [ -e "$3/00002.cert" ]; then
            echo proof > "$4"; printf 'result maker\\nexpanded 0 nodes 3\\n'
        else
            printf 'unknown after 0 positions\\nneeded 1 positions\\n00002.game missing\\n'; exit 1
        fi ;;
    *) echo proof > "$2"; echo settled ;;
esac
"""


def ended(output: str, status: int) -> kit.Run:
    """Returns a run that ended so."""
    return kit.Run(output, status, 0.0, 0.0, 0)


class Texts(unittest.TestCase):
    def test_result(self) -> None:
        done = ended("result maker\nexpanded 0 nodes 12\n", 0)
        self.assertEqual((joining.result_of(done), joining.nodes_of(done)), ("maker", 12))
        self.assertEqual(joining.result_of(ended("unknown after 0 positions\n", 1)), "")

    def test_needed(self) -> None:
        text = "unknown after 0 positions\nneeded 2 positions\n"
        text += "00012.game missing\n00007.game open\n"
        self.assertEqual(joining.needed(ended(text, 1)), ["00012", "00007"])

    def test_needed_faults(self) -> None:
        text = "unknown after 0 positions\nneeded 2 positions\n00012.game missing\n"
        for output, status in (text, 1), (text.replace("2", "1", 1), 0), ("plan P3 line 2\n", 4):
            with self.assertRaises(ValueError):
                joining.needed(ended(output, status))


class Rounds(unittest.TestCase):
    def setUp(self) -> None:
        self.top = pathlib.Path(self.enterContext(tempfile.TemporaryDirectory()))
        program = self.top / "program"
        program.write_text(PROGRAM, encoding="utf-8")
        program.chmod(0o755)
        self.given = argparse.Namespace(program=str(program))
        self.board = joining.Board("two", "game", 2, (), "maker", 0.02)

    def test_only_what_is_needed_is_settled(self) -> None:
        folder = joining.Folder(self.given, self.top, self.board.text)
        it = joining.in_rounds(folder, self.board)
        self.assertEqual((it.positions, it.runs, it.rounds), (2, 1, 1))
        self.assertEqual(joining.result_of(it.done), "maker")
        self.assertFalse((folder.folder / "00001.cert").exists())

    def test_killed_runs_give_the_same(self) -> None:
        self.assertEqual([*joining.killed_once(1, self.given, self.board, b"proof\n")], [])
        other = [*joining.killed_once(1, self.given, self.board, b"another\n")]
        self.assertTrue(other and "another certificate" in other[0])

    def test_files_of_a_run_that_was_broken_off(self) -> None:
        def ways(due: bytes) -> list[str]:
            return [*joining.broken_off_once(1, self.given, self.board, {"plan": due}, 0.1)]

        self.assertEqual(ways(b"moves\n"), [])
        self.assertTrue(ways(b"others\n"))


if __name__ == "__main__":
    unittest.main()
