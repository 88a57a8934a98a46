"""Games made by scripts, and the program's answers."""
from __future__ import annotations

import doctest
import itertools
import os
import pathlib
import pickle
import subprocess
import tempfile
import unittest
import xml.dom.minidom
from typing import Callable, List
from unittest import mock

import posgame
import posgame.errors
import posgame.game
import posgame.many
import posgame.results
from posgame import FileError, Game, Limits, MoveRefused, PosgameError, Rejected, RunFailed
from posgame.programs import Run, answer_of, find, is_there

from beside import EXAMPLES, TOP

ROWS = [(0, 1, 2), (3, 4, 5), (6, 7, 8), (0, 3, 6), (1, 4, 7), (2, 5, 8), (0, 4, 8), (2, 4, 6)]
FANO = [(0, 1, 2), (0, 3, 4), (0, 5, 6), (1, 3, 5), (1, 4, 6), (2, 3, 6), (2, 4, 5)]


class Making(unittest.TestCase):
    """The texts of games made by scripts."""

    def test_labels_are_in_order(self) -> None:
        game = Game.from_lines([["c", "a"], ["b", "a"]], x=["b"])
        self.assertEqual(game.labels, ("a", "b", "c"))
        self.assertEqual(game.text.splitlines()[2:], ["points 3", "line 2 0", "line 1 0", "x 1",
                                                      "turn x"])

    def test_points_without_a_line(self) -> None:
        self.assertIn("points 5\n", Game.from_lines([[0, 1]], points=5).text)
        self.assertEqual(Game.from_lines([[2]], points=range(1, 4)).labels, (1, 2, 3))

    def test_grid(self) -> None:
        game = Game.from_grid(5, 4, shape=["11/11", "111"], bias=2, y=[3])
        self.assertEqual(game.text.splitlines()[2:], ["grid 5 4", "bias 2", "shape 11/11",
                                                      "shape 111", "y 3", "turn x"])
        self.assertEqual(len(game.labels), 20)

    def test_edges_of_a_list(self) -> None:
        game = Game.from_graph([("s", "a"), ("a", "t"), ("a", "t")], terminals=("s", "t"))
        self.assertEqual(game.labels, (("s", "a"), ("a", "t"), ("a", "t", 1)))
        self.assertIn("terminals 1 2\nedge 1 0\nedge 0 2\nedge 0 2\n", game.text)

    def test_vectors(self) -> None:
        game = Game.from_vectors([(1, 0), (0, 3)], "11", turn="y")
        self.assertEqual(game.text, "posgame-vectors 1\nrows 2\ntarget 11\nvector 10\nvector 01\n"
                                    "turn y\n")

    def test_points_of_marks(self) -> None:
        game = Game.from_lines(iter([iter("ab")]), x=iter("c"), y=iter("a"))
        self.assertEqual(game.labels, ("a", "b", "c"))
        self.assertEqual(game.text.splitlines()[2:], ["points 3", "line 0 1", "x 2", "y 0",
                                                      "turn x"])

    def test_what_is_not_listed(self) -> None:
        makes: List[Callable[[], Game]] = [
            lambda: Game.from_lines([[1, 2]], points=[1, 1, 2]),
            lambda: Game.from_lines([["a", "b"]], points=["a"]),
            lambda: Game.from_lines([[0, 3]], points=3),
            lambda: Game.from_grid(2, 2, lines=[[0, 4]]),
            lambda: Game.from_grid(2, 2, "1", x=[9]),
            lambda: Game.from_graph([(0, 1)], x=[(1, 2)]),
            lambda: Game.from_graph([(0, 1), (0, 1), (0, 1, 1)]),
            lambda: Game.from_graph([(0, 1), (1, 2)], vertices=2),
            lambda: Game("posgame 1\nkind maker-breaker\npoints 3\n", labels="ab")]
        for make in makes:
            with self.assertRaises(ValueError):
                make()

    def test_vertices_without_an_edge(self) -> None:
        self.assertIn("vertices 4\n", Game.from_graph([(0, 1)], vertices=4).text)
        game = Game.from_graph([("s", "a")], terminals=("s", "t"))
        self.assertIn("vertices 3\nterminals 1 2\nedge 1 0\n", game.text)
        self.assertEqual(game.solve().answer, "cut")

    def test_errors_are_those_of_the_program(self) -> None:
        for game, text in [(Game.from_grid(300, 300, "1"), "game G10 line 3"),
                           (Game.from_lines([[0]], kind="chess"), "game G4 line 2"),
                           (Game.from_lines([[]], points=2), "game G9 line 4"),
                           (Game.from_lines([[0]], turn="x # \u2014"), "game G2 line 5"),
                           (Game.from_grid(3, 3, "10/01"), "game G13 line 4")]:
            with self.assertRaises(FileError) as raised:
                game.solve()
            self.assertEqual(raised.exception.text, text)

    def test_any_bytes_are_kept(self) -> None:
        with tempfile.TemporaryDirectory() as folder:
            path = pathlib.Path(folder, "a.game")
            path.write_bytes(b"posgame 1\r\n# \xff\xe2\x80\x94\n")
            game = Game.read(path)
            game.write(path)
            self.assertEqual(path.read_bytes(), b"posgame 1\r\n# \xff\xe2\x80\x94\n")
            with self.assertRaises(FileError) as raised:
                game.solve()
            self.assertEqual(raised.exception.text, "game G2 line 1")

    def test_files(self) -> None:
        for path in sorted(EXAMPLES.glob("*.game")):
            with tempfile.TemporaryDirectory() as folder:
                game = Game.read(path)
                game.write(pathlib.Path(folder, "copy"))
                self.assertEqual(pathlib.Path(folder, "copy").read_bytes(), path.read_bytes())
                self.assertGreater(len(game.labels), 1)


class Networkx(unittest.TestCase):
    """Graphs of networkx, if it is installed."""

    def test_graphs(self) -> None:
        try:
            import networkx  # type: ignore[import]
        except ImportError:
            self.skipTest("networkx is not installed")
        wheel = networkx.wheel_graph(6)
        self.assertEqual(Game.from_graph(wheel, terminals=(0, 1), turn="y").solve().answer, "short")
        double = networkx.MultiGraph([(0, 1), (0, 1)])
        game = Game.from_graph(double)
        self.assertEqual(game.labels, ((0, 1, 0), (0, 1, 1)))
        self.assertEqual(game.solve().answer, "maker")


class Answers(unittest.TestCase):
    """What the program answers."""

    def test_kinds(self) -> None:
        for kind, answer in [("maker-breaker", "maker"), ("maker-maker", "draw"),
                             ("avoider-enforcer", "enforcer")]:
            solution = Game.from_lines(ROWS, kind=kind).solve()
            self.assertEqual((solution.answer, solution.decided), (answer, True))
            self.assertEqual(solution.check(), solution.check_again())

    def test_unknown(self) -> None:
        solution = Game.from_lines(ROWS, kind="maker-maker").solve(positions=1)
        self.assertEqual((solution.answer, solution.positions, solution.decided),
                         ("unknown", 1, False))
        self.assertEqual(solution.limits, Limits(positions=1))

    def test_settled(self) -> None:
        if not is_there("posgame-settle"):
            self.skipTest("posgame-settle is not found")
        game = Game.from_lines(ROWS, kind="maker-maker")
        for images in (False, True):
            solution = game.settle(entries=100_000, images=images)
            self.assertEqual((solution.answer, solution.decided), ("draw", True))
            self.assertGreater(solution.positions or 0, 0)
            self.assertIsNone(solution.limits)
            self.assertEqual(solution.check(), solution.check_again())
        solution = game.settle(positions=1)
        self.assertEqual((solution.answer, solution.positions, solution.decided),
                         ("unknown", 1, False))
        self.assertEqual(solution.limits, Limits(positions=1))
        with self.assertRaises(RunFailed) as raised:
            game.settle(nodes=0)
        self.assertEqual((raised.exception.text, raised.exception.status), ("words: no meaning", 2))
        edges = [(0, 1), (0, 1)]
        solution = Game.from_graph(edges, terminals=(0, 1)).settle()
        self.assertEqual((solution.answer, solution.positions), ("short", None))
        with self.assertRaises(FileError):
            Game.from_graph(edges).settle()

    def test_moves(self) -> None:
        if not is_there("posgame-settle"):
            self.skipTest("posgame-settle is not found")
        rows = [["a", "b"], ["a", "c"], ["a", "d"]]
        moves = Game.from_lines(rows, turn="y").moves(entries=100_000)
        self.assertEqual([(it.point, it.answer) for it in moves.trials],
                         [("a", "breaker"), ("b", "maker"), ("c", "maker"), ("d", "maker")])
        self.assertEqual(moves.best, ("a",))
        self.assertTrue(all(it.nodes for it in moves.trials))
        for trial in moves.trials:
            after = Game.from_lines(rows, points=["a", "b", "c", "d"], y=[trial.point])
            self.assertEqual(after.solve().answer, trial.answer)
        over = Game.from_lines(rows, x=["a", "b"]).moves()
        self.assertEqual((over.trials, over.best), ((), ()))
        moves = Game.from_lines(ROWS, kind="maker-maker").moves(positions=1)
        self.assertEqual((moves.trials[0].answer, moves.trials[0].nodes, moves.best),
                         ("unknown", None, None))
        edges = [("s", "t"), ("s", "v")]
        cut = Game.from_graph(edges, terminals=("s", "t"), turn="y").moves()
        self.assertEqual(([it.answer for it in cut.trials], cut.best),
                         (["cut", "short"], (("s", "t"),)))
        with self.assertRaises(RunFailed):
            Game.from_lines(rows).moves(nodes=0)
        with self.assertRaises(FileError):
            Game.from_graph(edges).moves()

    def test_images(self) -> None:
        solution = Game.from_grid(3, 3, lines=ROWS).solve(images=True)
        self.assertTrue(str(solution.certificate).startswith("posgame-cert 3\n"))
        self.assertEqual(solution.check(), solution.check_again())

    def test_report(self) -> None:
        game = Game.from_lines(ROWS, bias=2)
        solution = game.solve()
        report = game.report(str(solution.certificate))
        self.assertEqual((report.kind, report.points, report.lines, report.bias),
                         ("maker-breaker", 9, 8, 2))
        self.assertEqual(sum(claim.nodes for claim in report.claims), solution.nodes)

    def test_reviews(self) -> None:
        game = Game.from_lines(ROWS, kind="maker-maker")
        review = game.review([4, 1, 2, 6, 0, 8, 7, 3, 5])
        self.assertEqual([(one.move, one.point, one.before, one.after) for one in review.losses],
                         [(1, 1, "draw", "x"), (4, 0, "x", "draw")])
        self.assertEqual((review.moves, review.open_at), (9, None))
        review = game.review([4], positions=1)
        self.assertEqual((review.moves, review.open_at, review.positions), (None, 0, 1))

    def test_options_of_families(self) -> None:
        for game in (Game.from_graph([(0, 1), (0, 1)]), Game.from_vectors(["1", "1"], "1"),
                     Game.from_graph([(0, 1), (0, 1)], terminals=(0, 1))):
            solution = game.solve(positions=1, images=True)
            self.assertEqual((solution.answer in ("maker", "short"), solution.check()),
                             (True, solution.check_again()))

    def test_files_of_a_proof(self) -> None:
        solution = Game.from_lines(FANO).solve()
        with tempfile.TemporaryDirectory() as folder:
            solution.game.write(pathlib.Path(folder, "G"))
            solution.write(pathlib.Path(folder, "C"))
            done = subprocess.run([find("posgame"), "check", "G", "C"], cwd=folder, text=True,
                                  stdout=subprocess.PIPE, check=False)
            self.assertEqual(done.stdout, "accepted x x win\n")


class Errors(unittest.TestCase):
    """The program's text, and what it means."""

    def test_game(self) -> None:
        with self.assertRaises(FileError) as raised:
            Game.read(EXAMPLES / "rosette-with-a-slip.game").solve()
        error = raised.exception
        self.assertEqual((error.file, error.code, error.line, error.status), ("game", "G6", 4, 3))
        self.assertEqual(error.text, "game G6 line 4")
        self.assertIn("number", error.meaning)

    def test_rejected(self) -> None:
        game = Game.read(EXAMPLES / "corners.game")
        certificate = (EXAMPLES / "corners-a-pair-missing.cert").read_text()
        for check in (game.check, game.check_again, game.report):
            with self.assertRaises(Rejected) as raised:
                check(certificate)
            error = raised.exception
            self.assertEqual((error.code, error.claim, error.node), ("J6", 0, 0))

    def test_errors_travel(self) -> None:
        for error in (posgame.errors.error_of("game G6 line 4", 3), RunFailed("status 7", "memory"),
                      posgame.errors.error_of("rejected S2 claim 1", 4), MoveRefused("refused: x")):
            again = pickle.loads(pickle.dumps(error))
            self.assertEqual((type(again), str(again), vars(again)),
                             (type(error), str(error), vars(error)))

    def test_words(self) -> None:
        game = Game.from_lines(FANO)
        with self.assertRaises(RunFailed) as raised:
            game.play(str(game.solve().certificate), "y")
        self.assertEqual((raised.exception.text, raised.exception.status),
                         ("words: no claim for side y", 2))
        self.assertEqual(raised.exception.meaning,
                         "no claim of Y in the certificate has the game's turn")
        with self.assertRaises(RunFailed) as raised:
            game.solve(positions=0)
        self.assertEqual(raised.exception.text, "words: no meaning")

    def test_silent_ends(self) -> None:
        for status, meaning in [(7, "out of memory"), (5, "a file could not be read")]:
            with self.assertRaises(RunFailed) as raised:
                answer_of(Run("lost 1 1 draw x\n", status, None), [0, 1])
            self.assertEqual((raised.exception.text, raised.exception.meaning),
                             (f"status {status}", meaning))

    def test_what_no_file_or_argument_can_be(self) -> None:
        game = Game.from_lines(FANO)
        for text in ("\ud800", "\udc80\ud800"):
            for call in (Game(text).solve, lambda: game.check(text),
                         lambda: game.check_again(text)):
                with self.assertRaises(FileError):
                    call()
        with self.assertRaises(RunFailed):
            game.play(str(game.solve().certificate), "\0")

    def test_no_review_of_the_family(self) -> None:
        with self.assertRaises(FileError) as raised:
            Game.from_vectors(["1"], "1").review([0])
        self.assertEqual(raised.exception.text, "game G3 line 1")

    def test_no_proof(self) -> None:
        solution = Game.from_lines(ROWS, kind="maker-maker").solve(positions=1)
        for method in (solution.check, solution.check_again):
            with self.assertRaises(PosgameError) as raised:
                method()
            self.assertEqual(str(raised.exception), "no certificate: the answer is unknown")

    def test_record(self) -> None:
        with self.assertRaises(FileError) as raised:
            Game.from_lines(ROWS).review([0, 0])
        self.assertEqual(raised.exception.text, "record F5 line 3")

    def test_meanings_are_complete(self) -> None:
        counts = {"G": 14, "C": 6, "J": 13, "I": 4, "S": 3, "V": 5, "F": 7, "P": 6}
        for letter, count in counts.items():
            for number in range(1, count + 1):
                self.assertIn(f"{letter}{number}", posgame.errors.MEANINGS)


class Playing(unittest.TestCase):
    """Plays against the program."""

    def test_every_list_of_replies(self) -> None:
        game = Game.from_lines([["m", "a"], ["m", "b"]])
        certificate = str(game.solve().certificate)
        for reply in ("a", "b"):
            play = game.play(certificate, "x")
            self.assertEqual((play.claim, play.opening), (("x", "win"), ("m",)))
            self.assertEqual(play.answer(reply), ("b" if reply == "a" else "a",))
            self.assertEqual((play.over, play.result), (True, "maker"))

    def test_refused_and_back(self) -> None:
        play = Game.read(EXAMPLES / "corners.game").play(
            (EXAMPLES / "corners-pairs.cert").read_text(), "y")
        self.assertEqual(play.answer(1), (2,))
        with self.assertRaises(MoveRefused):
            play.answer(1)
        with self.assertRaises(MoveRefused):
            play.answer(99)
        self.assertEqual((list(play.replies), play.answer(0)), ([1], (4,)))
        play.back()
        self.assertEqual(list(play.replies), [1])
        self.assertEqual((play.answer(0), play.answer(5)), ((4,), (6,)))
        self.assertEqual(play.result, "breaker")
        with self.assertRaises(MoveRefused):
            play.answer(3)
        while play.replies:
            play.back()
        with self.assertRaises(MoveRefused):
            play.back()

    def test_turns_of_two_points(self) -> None:
        game = Game.from_lines([[0, 1], [2, 3]], bias=2, kind="avoider-enforcer")
        certificate = (EXAMPLES / "two-boxes-moves.cert").read_text()
        play = game.play(certificate, "y")
        self.assertEqual((play.answer(3), play.answer(2)), ((0, 1), ()))
        self.assertEqual(play.result, "enforcer")

    def test_families(self) -> None:
        game = Game.from_graph([(0, 1), (1, 2), (0, 2)])
        play = game.play(str(game.solve().certificate), "x")
        moves = play.opening + play.answer([edge for edge in game.labels
                                            if edge not in play.opening][0])
        self.assertEqual((len(moves), play.result), (2, "maker"))


class Pictures(unittest.TestCase):
    """Pictures by the second program, if it is found."""

    def test_pictures(self) -> None:
        if not is_there("posgame-draw"):
            self.skipTest("posgame-draw is not found")
        solution = Game.from_lines(FANO).solve()
        folded = Game.from_grid(3, 3, lines=ROWS).solve(images=True)
        for picture in (solution.game._repr_svg_(), solution._repr_svg_(), folded._repr_svg_()):
            root = xml.dom.minidom.parseString(str(picture)).documentElement
            self.assertEqual(root.tagName, "svg")

    def test_vectors(self) -> None:
        if not is_there("posgame-draw"):
            self.skipTest("posgame-draw is not found")
        game = Game.read(EXAMPLES / "six-vectors.game")
        self.assertIn("<title>Game on vectors</title>", str(game._repr_svg_()))
        self.assertIn("<title>Short wins: position 0</title>", str(game.solve()._repr_svg_()))

    def test_options(self) -> None:
        if not is_there("posgame-draw"):
            self.skipTest("posgame-draw is not found")
        game = Game.from_grid(3, 3, lines=ROWS, x=[0])
        self.assertIn('class="line"', str(game.picture()))
        self.assertNotIn('class="line"', str(game.picture(options=["--no-lines"])))
        sheet = str(game.picture(options=["--blank=6", "--size=300"]))
        self.assertIn('width="300"', sheet)
        self.assertNotIn('class="of-x"', sheet)
        self.assertIn('height="', str(game.solve().picture(options=["--size", "300"])))
        with self.assertRaises(RunFailed) as raised:
            game.picture(options=["--no-picture"])
        self.assertEqual(raised.exception.text, "words: no meaning")

    def test_errors(self) -> None:
        if not is_there("posgame-draw"):
            self.skipTest("posgame-draw is not found")
        game = Game.from_lines([[0, 1]])
        with self.assertRaises(FileError):
            Game("chess\n").picture()
        with self.assertRaises(FileError):
            game.picture("posgame-cert 1\n")
        with self.assertRaises(RunFailed) as raised:
            game.picture(game.solve().certificate, "7.0")
        self.assertEqual(raised.exception.text, "words: no such node")
        for node in ("--size=3", "-h", "\0"):
            with self.assertRaises(RunFailed):
                game.picture(game.solve().certificate, node)
        bad = game.picture("posgame-cert 1\nclaim x y win\nnodes 1\n||x|pairs 0-0\n")
        self.assertIn("J6", str(bad))


class Books(unittest.TestCase):
    """Books by the second program, if it is found."""

    def setUp(self) -> None:
        if not is_there("posgame-draw"):
            self.skipTest("posgame-draw is not found")

    def test_sections(self) -> None:
        solution = Game.from_lines([[0, 1], [2, 3]]).solve()
        book = solution.book()
        self.assertTrue(book.startswith("<!DOCTYPE html>"))
        self.assertEqual(book.count("<section "), solution.nodes + 1)

    def test_errors(self) -> None:
        game = Game.from_lines([[0, 1]])
        with self.assertRaises(Rejected) as raised:
            game.book("posgame-cert 1\nclaim x y win\nnodes 1\n||x|pairs 0-0\n")
        self.assertEqual(raised.exception.code, "J6")
        with self.assertRaises(FileError):
            game.book("posgame-cert 1\n")


class Examples(unittest.TestCase):
    """The examples of the docstrings, and those of docs/PYTHON.md."""

    def test_docstrings(self) -> None:
        for module in (posgame, posgame.game, posgame.many, posgame.errors, posgame.results):
            done = doctest.testmod(module)
            self.assertEqual(done.failed, 0)
            self.assertGreater(done.attempted, 0)

    def test_page(self) -> None:
        for program in ("posgame-draw", "posgame-settle"):
            if not is_there(program):
                self.skipTest(f"{program} is not found")
        here = os.getcwd()
        chosen = {name: os.path.abspath(os.environ[name]) for name in ("POSGAME",)
                  if os.environ.get(name)}
        chosen["PYTHONPATH"] = str(TOP / "python")  # For the processes that the page begins.
        with tempfile.TemporaryDirectory() as folder, mock.patch.dict(os.environ, chosen):
            os.chdir(folder)
            try:
                done = doctest.testfile(str(TOP / "docs" / "PYTHON.md"), module_relative=False)
            finally:
                os.chdir(here)
            names = ["answers.html", "fano.cert", "fano.game", "fano.svg", "pieces",
                     "puzzles.html", "triangles"]
            self.assertEqual(sorted(os.listdir(folder)), names)
        self.assertGreater(done.attempted, 10)
        self.assertEqual(done.failed, 0)


class Cliques(unittest.TestCase):
    """A graph game by its edges as points, as in docs/PYTHON.md."""

    def test_triangles(self) -> None:
        edges = list(itertools.combinations(range(5), 2))
        triangles = [[(a, b), (a, c), (b, c)] for a, b, c in itertools.combinations(range(5), 3)]
        game = Game.from_lines(triangles, points=edges)
        self.assertEqual(game.labels, tuple(edges))
        self.assertEqual(game.solve().answer, "maker")


if __name__ == "__main__":
    unittest.main()
