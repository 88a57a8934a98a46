"""Tests of bench/table.py, as far as the program isn't needed:
`python3 -m unittest discover -s bench`. Stand-ins for the program are scripts. Unproved.
"""
from __future__ import annotations

import pathlib
import random
import shutil
import tempfile
import unittest

import computer
import duel
import kit
import table

GRID = table.BOARDS["a grid"]
TURN = "X claims: "


class Rules(unittest.TestCase):
    def test_grid(self) -> None:
        game = table.Table(GRID)
        game.claim(1)
        self.assertEqual(game.picture(), "     a  b  c \n  1  . [X] . \n  2  .  .  . \n"
                                         "  3  .  .  . \n")

    def test_parts(self) -> None:
        game = table.Table(table.Board("maker-breaker", 6, [[0, 1]], 3), 10)
        self.assertEqual(game.picture(), "     a  b \n  1  .  . \n  2  .  . \n"
                                         "     c \n  1  . \n  2  . \n")

    def test_points(self) -> None:
        game = table.Table(table.Board("maker-breaker", 3, [[0, 1], [0, 2]]), 10)
        game.claim(1)
        self.assertEqual(game.picture(), "   0  [X] \n   2 \nopen lines: 2\n 0 1\n 0 2\n")

    def test_edges(self) -> None:
        game = table.Table(table.Board("switching", 2, [], graph=(3, [(0, 2), (2, 1)])))
        game.claim(1)
        self.assertEqual(game.picture(), "  0:  0-2   .     1:  2-1  [X]  \n")

    def test_paper(self) -> None:
        game = table.Table(table.BOARDS["Bridg-It"])
        for point in (4, 9, 6):
            game.claim(point)
        self.assertEqual(game.picture(), """\
    o-----o-----o    
 x   0 x   1 x   2 x 
 |  o-----o  10 o  | 
 x   3 x-----x   5 x 
 |  o  11 o  12 o  | 
 x-[-]-x   7 x   8 x 
    o-----o-----o    
""")

    def test_paper_in_parts(self) -> None:
        game = table.Table(table.Board("switching", 5, [], graph=kit.bridge(2)), 9)
        self.assertEqual(game.picture(), """\
    o----
 x   0 x 
 |  o   4
 x   2 x 
    o----
to the right of that:
-o    
  1 x 
 o  | 
  3 x 
-o    
""")

    def test_layout(self) -> None:
        board = table.Board("maker-breaker", 12, [[0, 1]],
                            layout=[(4, 0), (1, 2), (8, 2), *[(13, 2 * it) for it in range(9)]])
        game = table.Table(board, 14)
        game.claim(1)
        self.assertEqual(game.picture().splitlines()[:4], [
            "     0        ", " " * 14, " [X]     2    ", " " * 14])
        self.assertEqual(game.picture().splitlines()[17:22], [
            "to the right of that:", "  3 ", "    ", "  4 ", "    "])
        self.assertEqual(board.layout_text()[:18], "at 0 4 0\nat 1 1 2\n")

    def test_long_lines(self) -> None:
        game = table.Table(table.Board("maker-breaker", 40, [list(range(31))]))
        self.assertEqual(game.lines(None), "open lines: 1\n 0 1 2 3 4 5 6 7 8 9 10 11 12 13 14\n"
                         "    15 16 17 18 19 20 21 22 23 24 25 26 27 28 29\n    30\n")

    def test_names(self) -> None:
        game = table.Table(table.BOARDS["a wide grid"])
        found = [game.point(it) for it in ("ad2", "ae1", "a3", "a0", "59", "b01", "lines")]
        self.assertEqual(found, [59, 60, 60, 60, 59, None, None])

    def test_turns(self) -> None:
        game = table.Table(table.BOARDS["two points a turn"])
        said = [game.claim(it).rsplit("\n", 1)[-1] for it in (0, 5, 1)]
        self.assertEqual(said, ["O claims 2 points: ", "O claims: ", TURN])

    def test_ends(self) -> None:
        game = table.Table(GRID)
        for point in (0, 3, 1, 4):
            game.claim(point)
        self.assertTrue(game.claim(2).endswith("X has won.\n"))
        self.assertEqual(game.score(), 1)

    def test_joined(self) -> None:
        board = table.Board("switching", 2, [], graph=(3, [(0, 2), (2, 1)]))
        both, one, none = frozenset({0, 1}), frozenset({1}), frozenset[int]()
        found = [board.joins(both, none), board.joins(none, one), board.joins(none, none)]
        self.assertEqual(found, [1, -1, None])

    def test_lines(self) -> None:
        game = table.Table(GRID)
        game.claim(4)
        game.claim(0)
        self.assertEqual(game.answer(b"lines b1"), "open lines: 1\n b1 b2 b3\n" + TURN)
        self.assertEqual(game.answer(b"lines d1"), table.REFUSALS["none"] + TURN)
        self.assertEqual(game.answer(b"e5"), table.REFUSALS["none"] + TURN)
        self.assertEqual(game.answer(b"lines e"), table.REFUSALS["unclear"] + TURN)
        self.assertEqual(game.answer(b"lines 9"), table.REFUSALS["none"] + TURN)

    def test_answers(self) -> None:
        game = table.Table(GRID)
        self.assertEqual(game.answer(b"undo"), table.REFUSALS["nothing"] + TURN)
        self.assertEqual(game.answer(b" nothing\r"), table.REFUSALS["unclear"] + TURN)
        self.assertIn("quit     leaves", game.answer(b"?") or "")
        self.assertIsNone(game.answer(b"\tquit "))
        game.answer(b"b2")
        self.assertEqual(game.answer(b"4"), table.REFUSALS["taken"] + "O claims: ")
        game.answer(b"undo")
        self.assertEqual(game.record(), "posgame-record 1\nmove 4\nback\n")

    def test_end_of_input(self) -> None:
        said = table.Table(GRID).play(b"b1")
        self.assertTrue(said.endswith("O claims: \n"))
        self.assertEqual(table.Table(GRID).play(b"b1\nquit") + "\n", said)

    def test_most(self) -> None:
        said = table.Table(GRID).play(b"?\n" * (table.MOST_LINES + 5))
        self.assertEqual(said.count("quit     leaves"), table.MOST_LINES)


class Lines(unittest.TestCase):
    def test_cut(self) -> None:
        self.assertEqual(table.cut(b"x" * 130), [b"x" * 64, b"x" * 64, b"xx"])

    def test_drawn(self) -> None:
        typed = table.typed_lines(random.Random(1), GRID, 300)
        self.assertEqual(typed, table.typed_lines(random.Random(1), GRID, 300))
        game = table.Table(GRID)
        for line in table.cut(typed):
            self.assertIsNone(game.score())
            game.answer(line)

    def test_difference(self) -> None:
        board, typed = GRID, b"b1\nquit\n"
        game = table.Table(board)
        said = game.play(typed) + "recorded 1\n"
        self.assertEqual(self.tried(said, game.record(), typed), [])
        self.assertEqual(self.tried(said, "posgame-record 1\n", typed), ["another record"])
        self.assertEqual(len(self.tried(said.replace("[X]", " X "), game.record(), typed)), 1)
        self.assertEqual(self.tried(said, game.record(), typed, 5), ["status 5"])

    def tried(self, said: str, record: str, typed: bytes, status: int = 0) -> list[str]:
        """What is found of a stand-in that prints and stores these texts."""
        with tempfile.TemporaryDirectory() as room:
            folder = pathlib.Path(room)
            (folder / "said").write_text(said)
            (folder / "record").write_text(record)
            program = folder / "program"
            program.write_text(f"#!/bin/sh\ncp {room}/record $3\ncat {room}/said\nexit {status}\n")
            program.chmod(0o755)
            return table.tried(str(program), GRID, typed)


class Screens(unittest.TestCase):
    def test_rows(self) -> None:
        rows = table.plays()
        against = [f"against-{it}" for it in ("pairs", "cuts", "a-potential", "moves", "a-search")]
        names = ["grid", "bridg-it", "ring", "plane", "undo", "left", *against]
        self.assertEqual([it.name for it in rows], names)
        for row in rows:
            self.assertTrue((kit.EXAMPLES / row.words[0]).exists())
            self.assertTrue((table.SCREENS / f"{row.name}.txt").exists())

    def test_terminal(self) -> None:
        if shutil.which("tmux") is None:
            self.skipTest("tmux is not found")
        with tempfile.TemporaryDirectory() as room:
            program = pathlib.Path(room) / "program"
            program.write_text("#!/bin/sh\nprintf 'X claims: '\nread it\necho \"it was $it\"\n")
            program.chmod(0o755)
            play = table.Play("echo", [], ["b1"])
            shown = table.shown_of(str(program), play)
        self.assertEqual(shown, "X claims: b1\nit was b1\nstatus 0")


PAIR = table.Board("maker-breaker", 3, [[0, 1], [0, 2]])
PROMISE = "I play X and win, whatever you claim.\n"
BODIES = [["over"], ["move", "2", "0"], ["move", "1", "0"], ["all", "1:1", "2:2"],
          ["move", "0", "3"]]


class Duels(unittest.TestCase):
    def played(self, output: str, *lines: str) -> duel.Duel:
        found = duel.Duel(PAIR, ["x", "x", "win"], BODIES, output)
        found.play("".join(f"{it}\n" for it in lines).encode())
        return found

    def test_whole(self) -> None:
        board, more = table.Table(PAIR), table.Table(PAIR)
        board.claim(0)
        for point in (0, 1, 2):
            more.claim(point)
        output = ("the proof: I take 0.\n" + PROMISE + board.screen()
                  + "the proof: you took 1, I take 2.\n" + PROMISE + more.screen())
        found = self.played(output, "1")
        self.assertEqual(found.due, output)
        self.assertEqual(found.record(), "posgame-record 1\nmove 0\nmove 1\nmove 2\n")
        self.assertTrue(found.is_held())

    def test_undo(self) -> None:
        board = table.Table(PAIR)
        board.claim(0)
        first = "the proof: I take 0.\n" + PROMISE + board.screen()
        found = self.played(first, "undo", "?", "quit")
        self.assertEqual(found.due, first + table.REFUSALS["nothing"] + board.turn()
                         + PAIR.goals() + table.HELP + duel.MEANINGS + board.turn())

    def test_end_of_input(self) -> None:
        board = table.Table(PAIR)
        board.claim(0)
        first = "the proof: I take 0.\n" + PROMISE + board.screen()
        self.assertEqual(self.played(first).due, first + "\n")

    def test_rules(self) -> None:
        found = self.played("pairs: I take 0.\n")
        self.assertTrue(found.due.startswith("the proof: I take 0.\n"))

    def test_other_points(self) -> None:
        self.assertEqual(self.played("the proof: I take 7.\n").table.moves, [])
        self.assertFalse(duel.Duel(PAIR, ["x", "y", "win"], BODIES, "").owes())


class Computers(unittest.TestCase):
    def played(self, output: str, *lines: str, board: table.Board = PAIR) -> computer.Versus:
        found = computer.Versus(board, "x", "x", output, computer.values_of(board))
        found.play("".join(f"{it}\n" for it in lines).encode())
        return found

    def test_whole(self) -> None:
        board, more = table.Table(PAIR), table.Table(PAIR)
        board.claim(0)
        for point in (0, 1, 2):
            more.claim(point)
        output = ("I take 0: proved to keep the value.\n" + board.screen()
                  + "I take 2: not proved.\n" + more.screen())
        found = self.played(output, "1")
        self.assertEqual(found.due, output)
        self.assertEqual(found.wrong, [])
        self.assertEqual(found.record(), "posgame-record 1\nmove 0\nmove 1\nmove 2\n")

    def test_untrue(self) -> None:
        found = self.played("I take 1: proved to keep the value.\n")
        self.assertEqual(found.wrong, ["after [] the point 1 doesn't keep the value"])

    def test_illegal(self) -> None:
        for output in ("I take 7: not proved.\n", "I take 0: proved.\n", "X claims: "):
            self.assertEqual(self.played(output).wrong, ["after [] no legal point"])

    def test_undo(self) -> None:
        board = table.Table(PAIR)
        board.claim(1)
        first = "I take 1: not proved.\n" + board.screen()
        found = self.played(first, "undo", "quit")
        self.assertEqual(found.due, first + table.REFUSALS["nothing"] + board.turn())

    def test_graph(self) -> None:
        triangle = table.Board("switching", 3, [], graph=(3, [(0, 1), (0, 2), (1, 2)]))
        found = self.played("I take 1: not proved.\n", board=triangle)
        self.assertEqual(found.wrong, ["after [] the point 1 isn't proved"])
