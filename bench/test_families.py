"""Tests of bench/families.py and of boards/families.txt: `python3 -m unittest discover -s bench`.
Expected values are worked by hand, or are those of well-known counts. Unproved.
"""
from __future__ import annotations

import itertools
import unittest

import families
import kit

# How many boards each family has that docs/BOARDS.md has always listed.
FIRST = {"noughts-and-crosses": 12, "animals-maker-breaker": 84, "animals-maker-maker": 84,
         "animals-avoider-enforcer": 84, "bridg-it": 22, "boxes-maker-breaker": 72,
         "boxes-avoider-begins": 72, "boxes-enforcer-begins": 72, "connectivity": 26}


def lines_of(text: str) -> list[list[int]]:
    """Returns the lines of a game file."""
    rows = [it.split() for it in text.splitlines()]
    return [[*map(int, words)] for key, *words in rows if key == "line"]


class Animals(unittest.TestCase):
    def test_counts(self) -> None:
        # The numbers of free polyominoes.
        self.assertEqual([len(families.animals_of(it)) for it in range(1, 7)],
                         [1, 1, 2, 5, 12, 35])

    def test_names(self) -> None:
        words = [it for cells in range(1, 6) for it in families.animals_of(cells)]
        self.assertEqual(sorted(words), sorted(families.NAMES.keys() - {"11110/00011"}))
        self.assertIn("11110/00011", families.animals_of(6))

    def test_each_once(self) -> None:
        images = [frozenset(map(kit.word_of, kit.turned(
            (i, j) for i, row in enumerate(word.split("/")) for j, mark in enumerate(row)
            if mark == "1"))) for word in families.animals_of(6)]
        self.assertEqual(len(set(images)), 35)
        for one, other in itertools.combinations(images, 2):
            self.assertFalse(one & other)

    def test_bias(self) -> None:
        board, = families.generated("animals maker-breaker 2 3 2")
        self.assertEqual((board.name, board.row, board.column),
                         ("domino-3x3", ("domino `11`",), "3 by 3"))
        self.assertEqual(board.text, kit.game("maker-breaker", "grid 3 3", "bias 2", "shape 11"))

    def test_one(self) -> None:
        board, = families.generated("animal maker-breaker 11110/00011 9")
        self.assertEqual(board.name, "Snaky-9x9")
        self.assertIn("shape 11110/00011\n", board.text)


class Lines(unittest.TestCase):
    def test_cubes(self) -> None:
        # ((n + 2)^3 - n^3) / 2 lines.
        self.assertEqual([len(families.cube_lines(it)) for it in (2, 3, 4)], [28, 49, 76])
        for line in families.cube_lines(3):
            self.assertEqual(len({*line}), 3)

    def test_planes(self) -> None:
        for order in 2, 3, 5:
            lines = families.plane(order, False)
            count = order ** 2 + order + 1
            self.assertEqual((len(lines), {*map(len, lines)}), (count, {order + 1}))
            for one, other in itertools.combinations(lines, 2):
                self.assertEqual(len({*one} & {*other}), 1)
            lines = families.plane(order, True)
            self.assertEqual((len(lines), {*map(len, lines)}), (order ** 2 + order, {order}))
            self.assertEqual(len({it for line in lines for it in line}), order ** 2)

    def test_cliques(self) -> None:
        self.assertEqual(len(families.cliques(4, 6)), 15)
        self.assertEqual({*map(len, families.cliques(4, 6))}, {6})

    def test_modular(self) -> None:
        # A pair of a middle and a step up to its sign, if the modulus is odd and 3 doesn't divide.
        for modulus in 5, 7, 11:
            self.assertEqual(len(families.modular(3, modulus)), modulus * (modulus - 1) // 2)
        for length, modulus in (3, 6), (3, 8), (4, 9), (5, 12):
            lines = {frozenset(line) for line in families.modular(length, modulus)}
            self.assertEqual(len(lines), len(families.modular(length, modulus)))
            self.assertEqual({len(line) for line in lines}, {length})
            self.assertEqual({frozenset((at + 1) % modulus for at in line) for line in lines},
                             lines)
            self.assertLessEqual({*map(frozenset, families.progressions(length, modulus))}, lines)

    def test_paths_are_least(self) -> None:
        for side in 1, 2, 3, 4:
            lines = [*map(frozenset, families.paths(side))]
            self.assertEqual(len({*lines}), len(lines))
            for one, other in itertools.combinations(lines, 2):
                self.assertFalse(one <= other or other <= one)

    def test_hex_has_a_winner(self) -> None:
        # Of each full board of 3 by 3 either side joins its borders; the columns' side by the
        # board's reflection.
        lines = [frozenset(line) for line in families.paths(3)]
        turned = [frozenset(cell % 3 * 3 + cell // 3 for cell in line) for line in lines]
        for chosen in itertools.product((False, True), repeat=9):
            mine = {cell for cell in range(9) if chosen[cell]}
            theirs = {*range(9)} - mine
            self.assertNotEqual(any(it <= mine for it in lines),
                                any(it <= theirs for it in turned))


class Families(unittest.TestCase):
    def test_first_boards(self) -> None:
        found = {it.name: len(it.boards) for it in families.families()[:len(FIRST)]}
        self.assertEqual(found, FIRST)
        self.assertEqual(sum(FIRST.values()), 528)

    def test_names_and_places(self) -> None:
        for family in families.families():
            names = [it.name for it in family.boards]
            self.assertEqual(len({*names}), len(names), family.name)
            for board in family.boards:
                self.assertRegex(board.key, r"^[\w-]+/[\w-]+$")
                self.assertEqual(len(board.row), len(family.rows), board.key)
                self.assertEqual(families.board_of(board.key), board)
            places = [(it.row, it.column) for it in family.boards]
            self.assertEqual(len({*places}), len(places), family.name)

    def test_no_board_twice(self) -> None:
        texts = [it.text for family in families.families() for it in family.boards]
        self.assertEqual(len({*texts}), len(texts))

    def test_boxes(self) -> None:
        board, = families.generated("boxes avoider-enforcer y 2 3 1")
        self.assertEqual((board.name, board.row, board.column),
                         ("2-of-3-bias-1", ("2", "3"), "1 a turn"))
        self.assertEqual(lines_of(board.text), [[0, 1, 2], [3, 4, 5]])
        self.assertTrue(board.text.endswith("\nturn y\n"))

    def test_box_game(self) -> None:
        board, = families.generated("box-game y 2 2 3")
        self.assertEqual((board.name, board.row, board.column),
                         ("2-of-2-bias-3", ("2", "2"), "3 a turn"))
        self.assertEqual(board.text, kit.game(
            "maker-breaker", "points 4", "bias 3",
            *kit.line_rows([(0, 2), (0, 3), (1, 2), (1, 3)]), turn="y"))
        board, = families.generated("box-game x 3 2 1")
        self.assertNotIn("bias", board.text)
        # Of all points one side fills a line, or else the other a box.
        for marks in itertools.product((False, True), repeat=6):
            mine = {at for at in range(6) if marks[at]}
            self.assertNotEqual(any({*line} <= mine for line in lines_of(board.text)),
                                any(not {at, at + 1} & mine for at in (0, 2, 4)))

    def test_progressions(self) -> None:
        board, = families.generated("progression maker-breaker 3 5 2")
        self.assertEqual((board.name, board.row), ("3-to-5-maker-breaker", ("3", "5")))
        rows = kit.line_rows([(0, 1, 2), (0, 2, 4), (1, 2, 3), (2, 3, 4)])
        self.assertEqual(board.text, kit.game("maker-breaker", "points 5", "bias 2", *rows))
        board, = families.generated("progression-modulo maker-maker 3 4")
        self.assertEqual((board.name, board.row, board.column),
                         ("3-modulo-4-maker-maker", ("3", "4"), "Maker-Maker"))
        self.assertEqual(lines_of(board.text), families.modular(3, 4))

    def test_options(self) -> None:
        stanza = ["family f", "title t", "about a", "known k", "rows r", "settle a-* --nodes 5",
                  "settle * --nodes 7 --entries 9", "boards complete 2"]
        family = families.family(stanza)
        self.assertEqual([family.options(it) for it in ("a-3x3", "b-3x3")],
                         ["--nodes 5", "--nodes 7 --entries 9"])
        self.assertEqual(families.family(stanza[:5] + stanza[7:]).options("a-3x3"), "")

    def test_rectangles_lie(self) -> None:
        names = [it.name for it in families.generated("in-row maker-maker 3 3-4 3-4")]
        self.assertEqual(names, [f"3-on-{it}-maker-maker" for it in ("3x3", "3x4", "4x4")])


if __name__ == "__main__":
    unittest.main()
