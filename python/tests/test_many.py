"""Many games at a time, and one game split into many."""
from __future__ import annotations

import pathlib
import tempfile
import unittest
from typing import List, Optional

from posgame import (FileError, Game, Limits, RunFailed, Solution, Split, settle_many, solve_many)
from posgame.programs import is_there

ROWS = [(0, 1, 2), (3, 4, 5), (6, 7, 8), (0, 3, 6), (1, 4, 7), (2, 5, 8), (0, 4, 8), (2, 4, 6)]
FANO = [(0, 1, 2), (0, 3, 4), (0, 5, 6), (1, 3, 5), (1, 4, 6), (2, 3, 6), (2, 4, 5)]


def decided(answer: object) -> Solution:
    """Returns an answer that must be a decided one."""
    assert isinstance(answer, Solution) and answer.decided, answer
    return answer


class Solving(unittest.TestCase):
    """`solve_many`."""

    def test_errors_take_the_place_of_answers(self) -> None:
        games = {"good": Game.from_lines(FANO), "bad": Game("posgame 1\nkind chess\n")}
        answers = dict(solve_many(games, jobs=2))
        self.assertEqual(decided(answers["good"]).answer, "maker")
        self.assertIsInstance(answers["bad"], FileError)

    def test_lists_and_none(self) -> None:
        games = (Game.from_lines([range(n)]) for n in (1, 2))
        self.assertEqual(sorted((key, decided(it).answer) for key, it in solve_many(games)),
                         [(0, "maker"), (1, "breaker")])
        self.assertEqual(list(solve_many([])), [])

    def test_other_errors_are_raised(self) -> None:
        class Broken(Game):
            """A game that cannot be solved."""

            def solve(self, positions: Optional[int] = None, images: bool = False) -> Solution:
                raise ZeroDivisionError
        with self.assertRaises(ZeroDivisionError):
            list(solve_many([Broken.from_lines([[0]])]))
        for jobs in (0, -1):
            with self.assertRaises(ValueError):
                list(solve_many([], jobs=jobs))

    def test_left_early(self) -> None:
        begun: List[Game] = []

        class Noted(Game):
            """A game that notes when it is solved."""

            def solve(self, positions: Optional[int] = None, images: bool = False) -> Solution:
                begun.append(self)
                return super().solve(positions, images)
        answers = solve_many([Noted.from_lines([[n]]) for n in range(20)], jobs=1)
        self.assertIsInstance(next(answers)[1], Solution)
        answers.close()
        self.assertLess(len(begun), 20)


class Settling(unittest.TestCase):
    """`settle_many`."""

    def setUp(self) -> None:
        if not is_there("posgame-settle"):
            self.skipTest("posgame-settle is not found")

    def test_answers(self) -> None:
        games = {"good": Game.from_lines(ROWS, kind="maker-maker"),
                 "plane": Game.from_lines(FANO), "bad": Game("posgame 1\nkind chess\n"),
                 "graph": Game.from_graph([(0, 1), (0, 1)])}
        answers = dict(settle_many(games, jobs=2, positions=100_000, images=True))
        self.assertEqual([decided(answers[key]).answer for key in ("good", "plane")],
                         ["draw", "maker"])
        for key in ("good", "plane"):
            solution = decided(answers[key])
            self.assertEqual(solution.check(), solution.check_again())
        for key in ("bad", "graph"):
            self.assertIsInstance(answers[key], FileError)

    def test_the_budget_is_for_each_game(self) -> None:
        games = [Game.from_lines(ROWS, kind="maker-maker"), Game.from_lines([[0]])] * 2
        answers = dict(settle_many(games, jobs=2, positions=1, entries=1_000, nodes=99))
        for key in (0, 2):
            answer = answers[key]
            assert isinstance(answer, Solution)
            self.assertEqual((answer.answer, answer.positions), ("unknown", 1))
            self.assertEqual(answer.limits, Limits(positions=1, entries=1_000, nodes=99))
        self.assertEqual([decided(answers[key]).answer for key in (1, 3)], ["maker"] * 2)

    def test_limits_out_of_range(self) -> None:
        answers = dict(settle_many([Game.from_lines([[0]])], positions=0))
        self.assertIsInstance(answers[0], RunFailed)


class Splitting(unittest.TestCase):
    """`Game.split` and `Split`."""

    def setUp(self) -> None:
        if not is_there("posgame-settle"):
            self.skipTest("posgame-settle is not found")
        temporary = tempfile.TemporaryDirectory(prefix="posgame-")
        self.addCleanup(temporary.cleanup)
        self.folder = pathlib.Path(temporary.name, "deep", "pieces")
        self.game = Game.from_grid(5, 5, shape="110/011/010")

    def test_parts_are_settled_and_joined(self) -> None:
        split = self.game.split(self.folder, most=40)
        parts = split.parts()
        self.assertEqual(list(parts), [f"{n:05}" for n in range(1, len(parts) + 1)])
        self.assertEqual(sorted(split.needed()), list(parts))
        self.assertEqual((split.join().answer, split.join().limits), ("unknown", Limits()))
        answers = dict(split.settle(jobs=2, positions=10_000))
        self.assertEqual(sorted(answers), list(parts))
        self.assertEqual({decided(it).answer for it in answers.values()}, {"breaker"})
        self.assertEqual(split.needed(), {})
        for images in (False, True):
            solution = split.join(images=images)
            self.assertEqual((solution.answer, solution.positions), ("breaker", 0))
            self.assertEqual(solution.check(), solution.check_again())
        self.assertEqual(split.join(nodes=1).answer, "unknown")

    def test_labels_are_those_of_the_game(self) -> None:
        game = Game.from_lines([[one, two] for one in "ab" for two in "cde"], kind="maker-maker")
        split = game.split(self.folder)
        self.assertEqual({it.labels for it in split.parts().values()} | {game.labels},
                         {game.labels})

    def test_another_machine_goes_on(self) -> None:
        first = list(self.game.split(self.folder, most=40).needed().items())
        for turn in (0, 1):
            there = Split(Game(self.game.text), self.folder)
            for name, answer in settle_many(dict(first[turn::2])):
                there.store(name, decided(answer))
        names = {path.name for path in self.folder.iterdir()}
        self.assertEqual(names, {"plan"} | {f"{name}.{end}" for name, _ in first
                                            for end in ("game", "cert")})
        self.assertEqual(Split(self.game, self.folder).join().answer, "breaker")

    def test_what_stays_open_is_split_further(self) -> None:
        game = Game.from_lines(ROWS, kind="maker-maker")
        split = game.split(self.folder, most=5)
        before = len(split.parts())
        for _, answer in split.settle(positions=1):
            self.assertEqual(getattr(answer, "answer"), "unknown")
        split.store("00001", FileError("game G6 line 4"))
        self.assertEqual(list(self.folder.glob("*.cert")), [])
        self.assertGreater(split.further(most=20), 0)
        self.assertGreater(len(split.parts()), before)
        for _, answer in split.settle(positions=10_000):
            decided(answer)
        self.assertEqual(decided(split.join()).answer, "draw")

    def test_a_certificate_of_another_game_counts_for_nothing(self) -> None:
        split = self.game.split(self.folder, most=40)
        for name in split.parts():
            split.store(name, Game.from_lines([[0]]).solve())
        self.assertEqual(split.join().answer, "unknown")
        self.assertEqual(sorted(split.needed()), sorted(split.parts()))

    def test_errors(self) -> None:
        cut = Game.from_graph([(0, 1), (0, 1)], terminals=(0, 1))
        with self.assertRaises(RunFailed) as raised:
            cut.split(self.folder)
        self.assertEqual((raised.exception.text, raised.exception.status),
                         ("plan: none for this game", 4))
        self.game.split(self.folder, most=40)
        with self.assertRaises(RunFailed) as raised:
            Game.from_lines(ROWS).split(self.folder)
        self.assertEqual(raised.exception.text, "plan: of another game, or too large")
        with self.assertRaises(RunFailed) as raised:
            self.game.split(self.folder, most=0)
        self.assertEqual(raised.exception.text, "words: no meaning")
        with self.assertRaises(RunFailed) as raised:
            Split(self.game, self.folder / "none").join()
        self.assertEqual(raised.exception.status, 5)

    def test_a_plan_with_a_fault(self) -> None:
        split = self.game.split(self.folder, most=40)
        (self.folder / "plan").write_text("posgame-plan 1\nchess\n", encoding="ascii")
        for call in (split.join, split.needed, split.further):
            with self.assertRaises(FileError) as raised:
                call()
            error = raised.exception
            self.assertEqual((error.file, error.code, error.line), ("plan", "P3", 2))


if __name__ == "__main__":
    unittest.main()
