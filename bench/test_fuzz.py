"""Tests of bench/fuzz.py and its parts, over stand-ins for the programs:
`python3 -m unittest discover -s bench`. Expected values are worked by hand. Unproved.
"""
from __future__ import annotations

import contextlib
import io
import pathlib
import random
import shutil
import sys
import types
import unittest
from typing import Optional
from unittest import mock

import fuzz
import fuzz_programs
import fuzz_readers
import kit
import mutants
import small_files

GAME = b"posgame 1\nkind maker-breaker\npoints 3\nline 0 1\nline 1 2\nturn x\n"
CERTIFICATE = b"posgame-cert 1\nclaim x x win\nnodes 1\n||x|threat 1 0 2\n"


class Readers(unittest.TestCase):
    def record(self, *events: str, game: bytes = GAME) -> str:
        known = small_files.game_of(game)
        assert known
        return small_files.record_fault(known, "\n".join(["posgame-record 1", *events]).encode())

    def test_records(self) -> None:
        self.assertEqual(self.record("move 0", "back", "move 2", ""), "")
        for events, due in (
                (["move 3"], "F5 line 2"), (["move 0", "move 0"], "F5 line 3"),
                (["back"], "F6 line 2"), (["move 1", "back", "back"], "F6 line 4"),
                (["move 01"], "F4 line 2"), (["move "], "F4 line 2"), (["move  1"], "F3 line 2"),
                (["", "move 1"], "F3 line 2"), (["move 1", "move 0", "move 2", "move 0"],
                                                "F5 line 5"),
                (["move 0", "back"] * 5_000 + ["move 0"], "F7 line 10002"),
                (["move 0", "back"] * 5_000 + ["back"], "F6 line 10002")):
            self.assertEqual(self.record(*events), f"record {due}", events[:4])
        known = small_files.game_of(GAME)
        assert known
        self.assertEqual(small_files.record_fault(known, b""), "record F2 line 1")
        self.assertEqual(small_files.record_fault(known, b"x" * 1_048_577), "record F1 line 0")

    def test_layouts(self) -> None:
        for text, due in (
                ("# at 0 0 0\n\nat 0 0 0\n  at 1  4 0\nat 2 0 2", ""), ("at 0 0 0", "L7 line 0"),
                ("at 3 0 0", "L3 line 1"), ("at 0 0 0\nat 0 9 9", "L4 line 2"),
                ("at 0 1000 0", "L5 line 1"), ("at 0 0 0\nat 1 3 1", "L6 line 2"),
                ("at 0 0 0\nat 1 3 2\nat 2 7 1", ""), ("at 0 0", "L2 line 1"),
                ("at 0 00 0", "L2 line 1"), ("\tat 0 0 0", "L2 line 1")):
            fault = small_files.layout_fault(3, text.encode())
            self.assertEqual(fault, due and f"layout {due}", text)

    def test_plans(self) -> None:
        for rows, due in (
                (["decided", "game 1", "image 1 1", "moves 0:0 4:1 5:2"], ""), (["moves"], ""),
                (["decided 1"], "P3 line 2"), (["image 1"], "P3 line 2"), (["game"], "P3 line 2"),
                (["game 0"], "P4 line 2"), (["decided", "image 8 0"], "P4 line 3"),
                (["decided", "moves 0:0:0"], "P4 line 3"), (["decided", "moves "], "P4 line 3"),
                (["moves 0:0"], "P5 line 2"), (["decided", "game 7 1:1"], "P5 line 3"),
                (["decided"] * 100_001, "P6 line 100002")):
            fault = small_files.plan_fault("\n".join(["posgame-plan 1", *rows]).encode())
            self.assertEqual(fault, due and f"plan {due}", rows[:3])
        self.assertEqual(small_files.plan_fault(b"posgame-plan 2\n"), "plan P2 line 1")

    def test_verdicts(self) -> None:
        self.assertEqual(small_files.verdict_of(GAME, CERTIFICATE), "accepted x x win")
        self.assertEqual(small_files.verdict_of(GAME, CERTIFICATE, "vec"), "game G3 line 1")
        self.assertTrue(small_files.is_posgame(b"\n# a\n" + GAME))
        self.assertFalse(small_files.is_posgame(b"posgame-span 1\n"))


class Arguments(unittest.TestCase):
    def meaning(self, program: str, words: str) -> mutants.Meaning:
        return mutants.meaning_of(program, words.split(" ") if words else [])

    def test_posgame(self) -> None:
        for words, due in (("solve G C --images --positions=5", ("solve", ["C"])),
                           ("solve G C --images=", ("", [])), ("check G C --images", ("", [])),
                           ("solve --images G C --images", ("", [])),
                           ("--images solve G --positions=5 C", ("solve", ["C"])),
                           ("record G R", ("record", ["R"])), ("review --positions 7 G R",
                                                              ("review", [])),
                           ("span solve G C", ("span solve", ["C"])), ("", ("", [])),
                           ("gen bridge 3 G C", ("gen", ["G", "C"])), ("G\udcff", mutants.NOTHING)):
            self.assertEqual(self.meaning("posgame", words), due, words)

    def test_settle(self) -> None:
        for words, due in (("G C --json --nodes 3", ("settle", ["C"])), ("G C --most=3",
                                                                       mutants.NOTHING),
                           ("moves G --json", ("moves", [])), ("moves G --images", mutants.NOTHING),
                           ("split G D --most=10000", ("split", ["D"])),
                           ("split G D --most=10001", mutants.NOTHING),
                           ("join G D C --images", ("join", ["C"])), ("-- moves G",
                                                                    ("settle", ["G"])),
                           ("--progress moves G", mutants.NOTHING), ("G moves --json",
                                                                     ("settle", ["moves"])),
                           ("G C --positions -3", mutants.NOTHING), ("G --help", ("help", []))):
            self.assertEqual(self.meaning("posgame-settle", words), due, words)

    def test_draw_and_play(self) -> None:
        for words, due in (("G", "picture"), ("--book G C --depth 2", "book"), ("--book G", ""),
                           ("G C 0 --move 1", ""), ("G C --blank 2", ""), ("G --depth 1", ""),
                           ("G C 0 --no-lines --size=5", "picture"), ("--size=0 G", "")):
            self.assertEqual(self.meaning("posgame-draw", words), (due, []), words)
        for words, writes in (("G --record=R", ("table", ["R"])), ("G C --side x", ("table", [])),
                              ("G --side x", mutants.NOTHING), ("G C --computer x",
                                                              mutants.NOTHING),
                              ("G --turn z", mutants.NOTHING), ("", mutants.NOTHING)):
            self.assertEqual(self.meaning("posgame-play", words), writes, words)


class Patterns(unittest.TestCase):
    def fits(self, command: str, status: int, text: str) -> Optional[bool]:
        pattern = mutants.due(command, status)
        return None if pattern is None else bool(mutants.re.fullmatch(pattern, text))

    def test_texts(self) -> None:
        for command, status, text, due in (
                ("check", 4, "rejected I2 claim 0 node 3\n", True),
                ("check", 4, "rejected I5 claim 0 node 3\n", False), ("check", 9, "", None),
                ("review", 0, "lost 2 4 draw x\nreviewed 5\n", True), ("review", 9, "", None),
                ("record", 0, "standing 1\nrefused: over\nrecorded 1\n", True),
                ("moves", 1, "0 unknown after 3 positions\nbest unknown\n", True),
                ("join", 1, "unknown after 0 positions\nneeded 1 positions\n00001.game open\n",
                 True),
                ("book", 4, "rejected S2 claim 1\n", True), ("picture", 0, "<svg ></svg>\n", True),
                ("table", 12, "layout: not for this game\n", True), ("table", 9, "", None)):
            self.assertEqual(self.fits(command, status, text), due, (command, text))


@unittest.skipUnless(shutil.which("time"), "there is no time")
class Runs(unittest.TestCase):
    def found(self, script: str, words: str, name: str = "posgame") -> list[str]:
        """What is found of a run of a script that stands for a program."""
        with kit.files(program=f"#!/bin/sh\n{script}\n") as top:
            (top / "program").chmod(0o755)
            folder = top / "room"
            folder.mkdir()
            mutants.write(folder, G=GAME, C=CERTIFICATE)
            program = mutants.Program(str(top / "program"), folder, name)
            return mutants.wrongs(program, words.split())[0]

    def test_a_right_run(self) -> None:
        self.assertEqual(self.found("echo accepted x x win", "check G C"), [])
        self.assertEqual(self.found("echo new > C; echo result maker", "solve G C"), [])
        self.assertEqual(self.found("echo said >&2; exit 5", "G", "posgame-draw"), [])
        self.assertEqual(self.found("echo a > folder/plan; echo b > folder/00001.game; "
                                    "echo positions 1 depth 1", "split G folder",
                                    "posgame-settle"), [])

    def test_wrong_runs(self) -> None:
        for script, words, name, due in (
                ("kill -11 $$", "check G C", "posgame", "signal 11"),
                ("exit 9", "check G C", "posgame", "status 9"),
                ("echo rejected J14 claim 0 node 0; exit 4", "check G C", "posgame", "status 4"),
                ("echo accepted x x win; echo new > O", "check G C", "posgame", "O changed"),
                ("echo accepted x x win; echo e >&2", "check G C", "posgame", "standard error"),
                ("echo accepted x x win; touch C.posgame-part0", "check G C", "posgame",
                 "C.posgame-part0 changed"),
                ("echo new > C; echo unknown after 3 positions; exit 1", "solve G C", "posgame",
                 "C changed"),
                ("exit 5", "G", "posgame-draw", "nothing on standard error"),
                ("echo a > folder/00001.cert; echo positions 1 depth 1", "split G folder",
                 "posgame-settle", "folder/00001.cert changed"),
                ("echo words: no meaning; exit 2", "check G C", "posgame", "status 2")):
            found = self.found(script, words, name)
            self.assertTrue(any(it.startswith(due) for it in found), (script, found))


class Cases(unittest.TestCase):
    def test_mutations_depend_on_the_seed_alone(self) -> None:
        made = [[mutants.mutated(random.Random(f"{it}"), GAME, mutants.KEYS) for it in range(40)]
                for _ in range(2)]
        self.assertEqual(made[0], made[1])
        self.assertGreater(len(set(made[0])), 20)

    def test_so_many_cases(self) -> None:
        given = types.SimpleNamespace(part="posgame", seed=2, first=7, keep=None, pairs=None)
        drawn, tools = list[float](), types.SimpleNamespace(runs=[], posgame=mutants.Program(
            "missing", pathlib.Path("missing"), is_quick=True))

        def case(draw: random.Random, *_: object) -> list[str]:
            drawn.append(draw.random())
            tools.runs.extend([0, 0])
            return []

        with mock.patch.multiple(fuzz, kept_pairs=lambda *_: {}, cases_of=lambda _: ([case], False),
                                 held=lambda _: {}):
            for runs, cases, due in ((5, 0, 10), (5, 4, 11), (1, 4, 11)):
                found = fuzz.run_cases(types.SimpleNamespace(**vars(given), runs=runs, cases=cases),
                                       tools)
                self.assertEqual(found, ([], due))
        self.assertEqual(len(set(drawn)), 4)

    def test_a_case_without_runs(self) -> None:
        with mock.patch.object(fuzz, "run_cases", return_value=([], 1)), \
                mock.patch("sys.argv", ["fuzz.py", sys.executable, "--cases", "1"]), \
                mock.patch.dict("os.environ"), \
                contextlib.redirect_stdout(io.StringIO()) as shown:
            self.assertEqual(fuzz.main(), 0)
        self.assertIn("| cases | 1 |", shown.getvalue())

    def test_numbers_that_python_does_not_read(self) -> None:
        for number, more, due in ((b"7", 1, b"8"), (b"0", -1, b"0"), (b"9" * 5_000, 1,
                                                                    b"9" * 5_000)):
            self.assertEqual(mutants.changed(number, more), due)
        data = b"7" * 5_000
        self.assertEqual(mutants.numbers_changed(random.Random(1), data, []), data)

    def test_disagreements(self) -> None:
        ends = {"check": (4, "rejected J6 claim 0 node 7\n"), "play": (4, "rejected J6 claim 0 "
                "node 7\n"), "report": (4, '{"claim":0,"node":7,"reject":"J6"}\n')}
        self.assertEqual(fuzz.disagreements(ends), [])
        ends["report"] = 4, '{"claim":0,"node":6,"reject":"J6"}\n'
        self.assertEqual(len(fuzz.disagreements(ends)), 1)
        ends["play"] = 0, "result maker\n"
        self.assertEqual(len(fuzz.disagreements(ends)), 2)

    def test_claims_and_pictures(self) -> None:
        claims = fuzz_programs.due_claims
        self.assertEqual(claims("maker", "y", False), "accepted y x win\n")
        self.assertEqual(claims("first-mover", "x", False), "accepted x x win\naccepted y y win\n")
        self.assertEqual(claims("draw", "x", True), "accepted x y draw\naccepted x x draw\n")
        rejected = "rejected J6 claim 0 node 7"
        shown = "<svg><title>Position 7: rejected J6</title></svg>"
        self.assertEqual(fuzz_programs.beside_check(rejected, 4, shown, False), [])
        self.assertEqual(len(fuzz_programs.beside_check(rejected, 0, shown, False)), 1)
        self.assertEqual(len(fuzz_programs.beside_check(rejected, 4, shown, True)), 1)
        self.assertEqual(fuzz_programs.xml_fault("<svg><g/></svg>"), [])
        self.assertEqual(len(fuzz_programs.xml_fault("<svg><g></svg>")), 1)
        self.assertEqual(len(fuzz_programs.wide_lines("X claims: " + "a" * 81)), 1)
        self.assertEqual(fuzz_programs.wide_lines("X claims: " + "a" * 80), [])

    def test_errors_of_the_package(self) -> None:
        def raising(error: Exception) -> object:
            raise error

        ended = fuzz_readers.ended_well
        self.assertEqual(ended("a", lambda: 3), (True, []))
        error = fuzz_readers.PosgameError("text")
        self.assertEqual(ended("a", lambda: raising(error)), (None, []))
        self.assertEqual(ended("a", lambda: raising(KeyError("k"))),
                         (False, ["a: KeyError: 'k'"]))

    @unittest.skipUnless(shutil.which("node"), "there is no node")
    def test_the_page(self) -> None:
        asked = {"valid": True, "status": 4, "said": "rejected J6 claim 0 node 0\n",
                 "certificate": "", "record": ""}
        shown = fuzz_readers.node().ask(game=GAME.decode(), **asked)
        self.assertEqual((shown["text"], shown["places"]), (GAME.decode(), ""))
        self.assertRegex(shown["fault"], "claim 0, node 0: .*J6")

    def test_what_a_folder_holds(self) -> None:
        with kit.files() as folder:
            mutants.write(folder, G=b"g", ä=b"")
            (folder / "folder" / "plan").write_bytes(b"p")
            self.assertEqual(mutants.held(folder), {
                "G": b"g", "O": b"other", "ä": b"", "folder": None, "folder/plan": b"p"})

    def test_files_of_findings(self) -> None:
        with kit.files() as folder:
            fuzz.keep(folder / "case", {"G": b"g", "folder": None, "folder/plan": b"p"}, ["why"])
            self.assertEqual(sorted(it.name for it in pathlib.Path(folder, "case").iterdir()),
                             ["G", "folder__plan", "found.txt"])


if __name__ == "__main__":
    unittest.main()
