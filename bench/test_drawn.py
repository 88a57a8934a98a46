"""Tests of bench/drawn.py: `python3 -m unittest discover -s bench`. Expected values are worked by
hand. Unproved.
"""
from __future__ import annotations

import random
import unittest
from typing import Iterable

import drawn


def place(x: Iterable[int], y: Iterable[int], turn: str = "x") -> drawn.Place:
    """Returns the place with these points."""
    return drawn.Place(frozenset(x), frozenset(y), turn)


class Boards(unittest.TestCase):
    board = drawn.Board(5, [(0, 1), (1, 2, 3)])

    def test_moves_and_rows(self) -> None:
        self.assertEqual(place([], []).after(3), place([3], [], "y"))
        self.assertEqual(place([3], [], "y").after(0), place([3], [0]))
        self.assertEqual(drawn.row(place([4, 0], [3], "y"), "over"), "0 4|3|y|over\n")
        self.assertEqual(self.board.free(place([4], [0])), [1, 2, 3])
        self.assertEqual(self.board.text(place([4], [0])),
                         "posgame 1\nkind maker-breaker\npoints 5\nline 0 1\nline 1 2 3\n"
                         "x 4\ny 0\nturn x\n")

    def test_score(self) -> None:
        for x, y, score in (([0], [2], None), ([0, 1], [2], True), ([0], [1], False),
                            ([0, 2, 3], [1, 4], False)):
            self.assertEqual(self.board.score(place(x, y)), score)

    def test_potential(self) -> None:
        # The lines weigh 2 and 1, of 8; point 1 is on both.
        self.assertTrue(self.board.is_low(place([], [])))
        # They weigh 4 and 1, and point 1 counts once more if X is to move.
        self.assertFalse(self.board.is_low(place([0], [])))
        self.assertTrue(self.board.is_low(place([0], [], "y")))
        self.assertFalse(self.board.is_low(place([0, 2, 3], [], "y")))

    def test_pairs(self) -> None:
        self.assertEqual(self.board.pairs(place([], [])), "pairs 0-1 2-3")
        self.assertEqual(self.board.pairs(place([], [0])), "pairs 1-2")
        self.assertIsNone(self.board.pairs(place([0], [])))
        self.assertIsNone(drawn.Board(3, [(0, 1), (0, 2)]).pairs(place([], [])))

    def test_leaf(self) -> None:
        draw = random.Random(1)
        self.assertEqual(self.board.leaf(draw, place([0], [1])), "over")
        self.assertIsNone(self.board.leaf(draw, place([0, 1], [2])))
        self.assertIsNone(self.board.leaf(draw, place([0], [])))
        self.assertEqual(self.board.leaf(draw, place([0], [], "y")), "potential")
        self.assertIn(self.board.leaf(draw, place([], [])), ("pairs 0-1 2-3", "potential"))


class Nodes(unittest.TestCase):
    def test_replies_and_move(self) -> None:
        board, nodes = drawn.Board(4, [(0, 1)]), ["|0 2|x|over\n"]
        self.assertTrue(drawn.put_replies(random.Random(1), board, nodes, place([2], [3])))
        numbers = [nodes.index(it) for it in ("0 2|3|y|potential\n", "1 2|3|y|potential\n")]
        self.assertEqual(sorted(numbers), [1, 2])
        self.assertEqual(nodes[3], "2|3|x|all 0:{} 1:{}\n".format(*numbers))
        drawn.put_move(board, nodes, place([2], [3]))
        self.assertEqual(nodes[4:], ["2||y|move 3 3\n"])

    def test_no_replies(self) -> None:
        nodes: list[str] = []
        for board, it in ((drawn.Board(4, [(0, 1)]), place([2], [1])),
                          (drawn.Board(4, [(0, 1)]), place([0], [2]))):
            self.assertFalse(drawn.put_replies(random.Random(1), board, nodes, it))
        self.assertEqual(nodes, [])

    def test_drawn(self) -> None:
        lines = drawn.drawn_lines(3, 9, [2, 5, 9])
        self.assertEqual([len(set(it)) for it in lines], [2, 5, 9])
        self.assertEqual((lines, lines[2]), (drawn.drawn_lines(3, 9, [2, 5, 9]), list(range(9))))
        draw = random.Random(1)
        found = drawn.drawn_place(draw, drawn.Board(9, lines), 3)
        self.assertEqual((len(found.x), len(found.y), found.turn), (3, 3, "x"))
        lines = drawn.paired_lines(draw, 9, 3, [2, 4, 5, 3])
        self.assertEqual([len(set(it)) for it in lines], [2, 4, 5, 3])
        self.assertEqual(len({v for it in lines[:3] for v in it[:2]}), 6)
        self.assertEqual(lines[3][:2], lines[0])


class Files(unittest.TestCase):
    def test_kinds(self) -> None:
        kinds = {"over", "move", "all", "pairs", "potential"}
        for make, due in ((lambda: drawn.five_kinds(200), kinds),
                          (lambda: drawn.pairs(3), {"pairs"}),
                          (lambda: drawn.all_replies(1, 2), {"all", "potential"})):
            game, certificate = make()
            nodes = [it.split("|") for it in certificate.splitlines() if "|" in it]
            self.assertEqual({it[3].split()[0] for it in nodes}, due)
            self.assertEqual(certificate.count("claim x y win\n"), drawn.CLAIMS)
            # The last node has the marks of the game.
            marks = [f"{side} {it}" for side, it in zip("xy", nodes[-1]) if it]
            self.assertEqual([it for it in game.splitlines() if it[:2] in ("x ", "y ")], marks)
            self.assertEqual((game, certificate), make())


if __name__ == "__main__":
    unittest.main()
