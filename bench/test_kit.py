"""Tests of bench/kit.py: `python3 -m unittest discover -s bench`. Expected values are worked by
hand, or are those of a well-known game. Unproved.
"""
from __future__ import annotations

import argparse
import contextlib
import io
import itertools
import os
import pathlib
import sys
import unittest
from typing import Callable
from unittest import mock

import kit


def printed(call: Callable[[], object]) -> tuple[object, list[str]]:
    """Returns what a call returns, and the lines that it prints."""
    output = io.StringIO()
    with contextlib.redirect_stdout(output):
        result = call()
    return result, output.getvalue().splitlines()


class Options(unittest.TestCase):
    def options(self, *words: str, **more: object) -> argparse.Namespace:
        with mock.patch.object(sys, "argv", ["script", *words]):
            return kit.options("Tries options.", None, **more)

    def test_defaults_and_types(self) -> None:
        more = {"runs": 20, "quick": False, "only": [], "keep": None, "out": (kit.TOP, "a file")}
        self.assertEqual(vars(self.options(**more)), {
            "runs": 20, "quick": False, "only": [], "keep": None, "out": kit.TOP})
        given = "--runs 3 --quick --only a --only b --keep c --out d".split()
        self.assertEqual(vars(self.options(*given, **more)), {
            "runs": 3, "quick": True, "only": ["a", "b"], "keep": "c", "out": pathlib.Path("d")})

    def test_parts(self) -> None:
        def one(word: str) -> int:
            return int(word)

        def two(word: str) -> None:
            self.assertEqual(word, "5")

        for part, status in ("one", 5), ("two", 0):
            with mock.patch.object(sys, "argv", ["script", part, "--word", "5"]):
                self.assertEqual(kit.call_part("Tries parts.", None, one, two, word=""), status)


class Tables(unittest.TestCase):
    def test_figures_and_limits(self) -> None:
        def table() -> int:
            share = kit.Column("share", ".0%")
            made = kit.Table("board", kit.Column("s", ".2f", 1), "nodes", share)
            made.row("a|b", 0.5, 12345, 0.25)
            made.row("slow", 1.5, (3, 2), None)
            made.row(7, "-", 1, 1.0, wrong=["refused"])
            return made.end()

        status, lines = printed(table)
        self.assertEqual(status, 1)
        self.assertEqual(lines, [
            "| board | s | nodes | share |", "|---|---|---|---|", "| limit | 1.00 |  |  |",
            "| a\\|b | 0.50 | 12,345 | 25% |", "| slow | **1.50** | **3** |  |",
            "| 7 | - | 1 | 100% |", "wrong: slow: s 1.50 above 1.00",
            "wrong: slow: nodes 3 above 2", "wrong: 7: refused"])

    def test_named(self) -> None:
        rows = [("a board", 1), ("another", 2), ("a graph", 3)]
        self.assertEqual([it[1] for it in kit.named("a ", rows)], [1, 3])

    def test_nothing_wrong(self) -> None:
        table = printed(lambda: kit.Table("a", "b").end())
        self.assertEqual(table, (0, ["| a | b |", "|---|---|"]))


@unittest.skipUnless(os.path.exists("/usr/bin/time"), "there is no /usr/bin/time")
class Runs(unittest.TestCase):
    def python(self, text: str, **how: object) -> kit.Run:
        return kit.run(sys.executable, "-c", text, **how)

    def test_output_input_and_status(self) -> None:
        done = self.python("print(input() * 2); raise SystemExit(4)", typed="ab\n")
        self.assertEqual((done.output, done.status), ("abab\n", 4))
        self.assertGreater(done.kilobytes, 1000)

    def test_signal(self) -> None:
        self.assertEqual(self.python("import os; os.kill(os.getpid(), 9)").status, -9)

    def test_limits(self) -> None:
        self.assertLess(self.python("while True: pass", most=1).status, 0)
        late = self.python("import time; time.sleep(9)", clock=1)
        self.assertEqual((late.status, late.seconds < 9), (-9, True))

    def test_quick_runs(self) -> None:
        done = self.python("import sys; print(1, file=sys.stderr); print(input()); sys.exit(7)",
                           typed="ab\n", is_quick=True, most=9, clock=9)
        self.assertEqual((done.output, done.errors, done.status), ("ab\n", "1\n", 7))
        large = self.python("bytearray(300_000_000)", is_quick=True)
        self.assertGreater(large.kilobytes, 290_000)
        with mock.patch.object(kit.resource, "getrusage", return_value=mock.Mock(
                ru_maxrss=large.kilobytes + 100_000)):
            self.assertEqual(self.python("bytearray(300_000_000)", is_quick=True).kilobytes, 0)
        self.assertEqual(self.python("while True: pass", most=1, is_quick=True).status, -24)
        late = self.python("import time; time.sleep(9)", clock=1, is_quick=True)
        self.assertEqual((late.status, late.seconds < 9), (-9, True))

    def test_errors_and_bytes(self) -> None:
        done = self.python("import sys; sys.stderr.write(ascii(sys.stdin.buffer.read()))",
                           typed=b"\xff7", clock=9)
        self.assertEqual((done.errors, done.output, done.status), ("b'\\xff7'", "", 0))
        self.assertGreater(done.kilobytes, 1000)

    def test_solved(self) -> None:
        script = """#!/bin/sh
            [ $1 = span ] || exit 9
            [ $2 = solve ] && echo stored > "$4" && echo class maker
            [ $2 = check ] && echo accepted x y win"""
        with kit.files(program=script) as folder:
            (folder / "program").chmod(0o755)
            done, stored, is_accepted = kit.solved(str(folder / "program"), kit.span((2, [])))
        self.assertEqual((done.said, stored, is_accepted), ("class maker", "stored\n", True))

    def test_folder_and_files(self) -> None:
        with kit.files(one="1\n", two="22\n") as folder:
            done = self.python("print(open('two').read())", folder=folder)
        self.assertEqual(done.output, "22\n\n")
        self.assertFalse(folder.exists())

    def test_inside(self) -> None:
        before = os.getcwd()
        with kit.files(one="1\n") as folder, kit.inside(folder):
            self.assertEqual(pathlib.Path("one").read_text(encoding="ascii"), "1\n")
        self.assertEqual(os.getcwd(), before)

    def test_accepted(self) -> None:
        for text, is_accepted in (("accepted x y win\naccepted y y win\n", True), ("", False),
                                  ("accepted x y win\nrejected J1 claim 1 node 0\n", False)):
            self.assertEqual(kit.Run(text, 0, 0.0, 0.0, 2048).is_accepted, is_accepted)
        self.assertEqual(kit.Run("", 0, 0.0, 0.0, 2048).megabytes, 2)


class Texts(unittest.TestCase):
    def test_games(self) -> None:
        self.assertEqual(kit.game("maker-breaker", "points 3", *kit.line_rows([(0, 1), (1, 2)])),
                         "posgame 1\nkind maker-breaker\npoints 3\nline 0 1\nline 1 2\nturn x\n")
        self.assertEqual(kit.switching((3, [(0, 2), (2, 1)]), turn="y"),
                         "posgame 1\nkind switching\nvertices 3\nterminals 0 1\n"
                         "edge 0 2\nedge 2 1\nturn y\n")
        self.assertEqual(kit.span((2, [(0, 1)])), "posgame-span 1\nvertices 2\nedge 0 1\nturn x\n")
        self.assertEqual(kit.short_game("maker-maker", 3, [(0, 1), (2,)]),
                         "maker-maker 3 x 1:0 1,2::\n")

    def test_families(self) -> None:
        for text, words in (("posgame 1\n", []), ("# a\nposgame-span 1\n", ["span"]),
                            ("posgame-vectors 1\n", ["vec"])):
            self.assertEqual(kit.family_of(text), words)

    def test_marks(self) -> None:
        self.assertEqual(kit.mark_rows({5, 2}, [7]), ["x 2 5", "y 7"])
        self.assertEqual(kit.mark_rows([], [7]), ["y 7"])

    def test_certificate(self) -> None:
        text = kit.certificate(kit.claim("x y win", "||x|pairs 0-1\n", 2))
        due = "posgame-cert 1\nclaim x y win\nnodes 2\n" + "||x|pairs 0-1\n" * 2
        self.assertEqual(text, due)

    def test_data(self) -> None:
        name = "pictures.txt"
        self.assertEqual([len(it) for it in kit.stanzas(name)], [36, 33])
        self.assertNotIn("\n# ", kit.data(name))


class Boards(unittest.TestCase):
    def test_lines_in_a_row(self) -> None:
        lines = ["012", "036", "048", "147", "246", "258", "345", "678"]
        self.assertEqual(sorted("".join(map(str, it)) for it in kit.in_row(3, 3, 3)), lines)
        self.assertEqual(len(kit.in_row(16, 16, 5)), 2 * 16 * 12 + 2 * 12 * 12)
        by_direction = ["012", "345", "678", "036", "147", "258", "048", "246"]
        lines = kit.in_row(3, 3, 3, by_direction=True)
        self.assertEqual(["".join(map(str, it)) for it in lines], by_direction)

    def test_digits(self) -> None:
        self.assertEqual(kit.boards("; 01 123; 0"), [[], [(0, 1), (1, 2, 3)], [(0,)]])

    def test_shapes(self) -> None:
        self.assertEqual(kit.placements(2, 2, "11"), [[0, 1], [0, 2], [1, 3], [2, 3]])
        self.assertEqual(len(kit.placements(3, 3, "11/10")), 16)
        self.assertEqual(kit.word_of([(0, 0), (0, 1), (1, 1)]), "11/01")
        self.assertEqual(len(set(kit.turned([(0, 0), (1, 0), (1, 1), (2, 1)]))), 4)

    def test_graphs(self) -> None:
        for rows in range(1, 6):
            vertices, ends = kit.bridge(rows)
            self.assertEqual((vertices, len(ends)),
                             (rows * (rows - 1) + 2, rows**2 + (rows - 1)**2))
        self.assertEqual(len(kit.complete(5, 3)[1]), 30)
        self.assertEqual(len(kit.grid(3, 4)[1]), 17)
        self.assertEqual(len(kit.doubled_path(5, 10)[1]), 10)
        vertices, ends = kit.scattered(1, 9, 20, is_joined=True)
        self.assertEqual((len(ends), set(kit.tops(vertices, ends))), (20, {kit.tops(9, ends)[0]}))
        self.assertEqual(len(kit.scattered(1, 9, 20)[1]), 20)

    def test_draws(self) -> None:
        # The first numbers of the generator in the standard of C, from the seed 1.
        draws = kit.Draws(1)
        self.assertEqual([draws.below(32768) for _ in range(3)], [16838, 5758, 10113])
        lines = kit.scatter(7, 10, 5, 3)
        self.assertEqual([len(set(line)) for line in lines], [3] * 5)


class Games(unittest.TestCase):
    NONE: kit.Points = frozenset()

    def test_noughts_and_crosses(self) -> None:
        lines = kit.in_row(3, 3, 3)
        for kind, score in (("maker-breaker", 1), ("maker-maker", 0), ("avoider-enforcer", -1)):
            game = kit.LineGame(kind, 9, lines)
            self.assertEqual(game.value(self.NONE, self.NONE, "x"), score)

    def test_bias(self) -> None:
        for bias, score in ((1, 1), (2, -1)):
            game = kit.LineGame("maker-breaker", 3, [(0, 1), (0, 2)], bias)
            self.assertEqual(game.value(self.NONE, self.NONE, "x"), score)

    def test_attack(self) -> None:
        game = kit.LineGame("maker-breaker", 3, [(0, 1), (0, 2)])
        self.assertFalse(game.attack(self.NONE, self.NONE, 0))
        self.assertTrue(game.attack(self.NONE, self.NONE, 1))

    def test_set_game(self) -> None:
        lines = [frozenset(it) for it in kit.in_row(3, 3, 3)]
        wins = kit.set_game(9, lambda points: any(it <= points for it in lines))
        self.assertTrue(wins(self.NONE, self.NONE, True))
        self.assertFalse(wins(self.NONE, frozenset([4]), True))
        game = kit.LineGame("maker-breaker", 9, lines)
        for x, y in itertools.islice(kit.marked(9), 0, 19683, 97):
            self.assertEqual(wins(x, y, True), game.value(x, y, "x") == 1)

    def test_bits(self) -> None:
        self.assertEqual((kit.bits([]), kit.bits([3, 0])), (0, 9))


if __name__ == "__main__":
    unittest.main()
