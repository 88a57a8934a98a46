"""Tests of bench/settling.py: `python3 -m unittest discover -s bench`. Expected values are worked
by hand. Unproved.
"""
from __future__ import annotations

import argparse
import os
import pathlib
import tempfile
import unittest
from unittest import mock

import kit
import settling

# Stands for posgame-settle: it prints SAID, stores STORED unless it is empty, and ends with STATUS.
PROGRAM = """#!/bin/sh
echo "$SAID"
[ -z "$STORED" ] || echo "$STORED" > "$2"
exit "$STATUS"
"""
# Stands for `posgame check`.
POSGAME = """#!/bin/sh
echo "$CHECKED"
"""
# Two lines with a common point, and a certificate by which Maker wins it.
TWO_LINES = kit.game("maker-breaker", "points 3", "line 0 1", "line 0 2")
THREAT = kit.certificate(kit.claim("x x win", "||x|threat 0 1 2\n"))[:-1]
RESULT = "result maker\nexpanded 0 nodes 1"


def ended(output: str, status: int, stored: bool = False) -> settling.Settled:
    """Returns a run that ended so."""
    return settling.Settled(kit.Run(output, status, 0.0, 0.0, 0), stored, [])


class Texts(unittest.TestCase):
    def test_decided(self) -> None:
        it = ended("result draw\nexpanded 12 nodes 34\n", 0, True)
        self.assertEqual((it.result, it.counts, it.is_open), ("draw", [12, 34], False))

    def test_open(self) -> None:
        it = ended("unknown after 7 positions\n", 1)
        self.assertEqual((it.result, it.counts, it.is_open),
                         ("unknown after 7 positions", [7], True))
        for other in (ended("unknown after 7 positions\n", 1, True),
                      ended("unknown after 7 positions\n", 0), ended("unknown\n", 1)):
            self.assertFalse(other.is_open)

    def test_stopped(self) -> None:
        self.assertEqual((ended("", -9).result, ended("", -9).counts), ("status -9", []))
        self.assertEqual(ended("result maker\n", 0).result, "result maker")


class Boards(unittest.TestCase):
    def test_all_rows(self) -> None:
        text = kit.data("settling.txt")
        found = [settling.board(it) for it in settling.ROW.findall(text)]
        self.assertEqual(len(found), sum(map(bool, text.split("\n"))))
        self.assertEqual(len({it.name for it in found}), len(found))
        self.assertEqual(len({it.text for it in found}), len(found))
        for it in found:
            kind = it.text.split("\n")[1].removeprefix("kind ")
            self.assertIn(it.result, settling.RESULTS[kind])

    def test_rows_of_cells(self) -> None:
        row = "maker-maker", "row", "3", "2", "4", "", "draw", "1", "0.5"
        due = kit.game("maker-maker", "grid 4 2", "line 0 1 2", "line 1 2 3", "line 4 5 6",
                       "line 5 6 7")
        self.assertEqual(settling.board(row),
                         ("3 in a row, 2 by 4, Maker-Maker", due, "draw", 1, 0.5))

    def test_boxes(self) -> None:
        name, rows = settling.boxes(2, 3, 1, "x")
        self.assertEqual(name, "2 boxes of 3, bias 1, Avoider begins")
        self.assertEqual(rows, ["points 6", "line 0 1 2", "line 3 4 5"])
        self.assertEqual(settling.boxes(1, 1, 2, "y")[1], ["points 1", "bias 2", "line 0"])


class Random(unittest.TestCase):
    def test_games_and_results(self) -> None:
        for kind in kit.KINDS:
            drawn = [settling.small_game(kind, number) for number in range(30)]
            self.assertEqual(drawn[:2], [settling.small_game(kind, number) for number in (0, 1)])
            self.assertEqual(len({it.text for it in drawn}), 30)
            self.assertEqual({it.text.split()[3] for it in drawn}, {kind})
            self.assertLessEqual(max(int(it.text.split()[5]) for it in drawn), 9)
            # Each result that the kind has is met.
            results = {it.result for it in drawn}
            self.assertEqual(results, {*settling.RESULTS[kind]} - {""})


@unittest.skipUnless(os.path.exists("/usr/bin/time"), "there is no /usr/bin/time")
class Runs(unittest.TestCase):
    def setUp(self) -> None:
        temporary = tempfile.TemporaryDirectory()
        self.addCleanup(temporary.cleanup)
        self.folder = pathlib.Path(temporary.name)
        self.given = argparse.Namespace(program=self.put("program", PROGRAM),
                                        posgame=self.put("posgame", POSGAME))

    def put(self, name: str, text: str) -> str:
        """Writes a program; returns its path."""
        path = self.folder / name
        path.write_text(text, encoding="ascii")
        path.chmod(0o755)
        return str(path)

    def settle(self, said: str, status: int, stored: str = "",
               checked: str = "accepted x x win") -> settling.Settled:
        """Settles a game by the stand-ins."""
        values = {"SAID": said, "STATUS": str(status), "STORED": stored, "CHECKED": checked}
        with mock.patch.dict(os.environ, values):
            return settling.settle(self.given, TWO_LINES)

    def test_open(self) -> None:
        it = self.settle("unknown after 1 positions", 1)
        self.assertEqual((it.is_open, it.wrong), (True, []))

    def test_accepted(self) -> None:
        it = self.settle(RESULT, 0, THREAT)
        self.assertEqual((it.result, it.wrong), ("maker", []))

    def test_refused_by_either(self) -> None:
        it = self.settle(RESULT, 0, "other")
        self.assertEqual(it.wrong, ["again: certificate C2 line 1"])
        it = self.settle(RESULT, 0, THREAT, "rejected J6")
        self.assertEqual(it.wrong, ["check: rejected J6"])

    def test_stored_or_not(self) -> None:
        self.assertEqual(self.settle(RESULT, 0).wrong, ["status 0, and no certificate"])
        it = self.settle("unknown after 1 positions", 1, THREAT)
        self.assertEqual(it.wrong, ["status 1, and a certificate"])


if __name__ == "__main__":
    unittest.main()
