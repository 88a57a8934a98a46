"""Tests of bench/boards.py and bench/catalogue.py, and of what is stored in boards/:
`python3 -m unittest discover -s bench`. Expected values are worked by hand. Unproved.
"""
from __future__ import annotations

import argparse
import contextlib
import dataclasses
import io
import json
import os
import pathlib
import re
import sys
import tempfile
import unittest
from typing import Optional
from unittest import mock

import boards
import catalogue
import families
import kit
from settling import second

# Stands for `posgame solve` and `posgame check`: it prints SAID or CHECKED, and stores STORED.
POSGAME = """#!/bin/sh
[ "$1" = check ] && echo "$CHECKED" && exit 0
echo "$SAID"
[ -n "$STORED" ] || exit 1
echo "$STORED" > "$3"
"""
# Stands for posgame-settle: it prints LINE, and stores SETTLED.
SETTLE = """#!/bin/sh
echo "$LINE"
[ -n "$SETTLED" ] || exit 1
echo "$SETTLED" > "$2"
"""
BOARD = "animals-maker-breaker/domino-3x3"
THREAT = kit.certificate(kit.claim("x x win", "||x|threat 0 1 3\n"))[:-1]
ROW = catalogue.Row("hex", "1x1-maker-breaker", "maker-breaker", 1, "maker", 1, 1, "maker",
                    "x x win", 1, 2, 34, None, 0.25, "posgame 1.0.0", "--positions 20000", "ab",
                    "cd", catalogue.NOT_KNOWN)
OPEN_ROW = dataclasses.replace(
    ROW, result="unknown", claim="", version=None, nodes=None, bytes=None, expanded=7,
    found_by="posgame-settle 1.0.0", budgets="--positions 7", certificate_sha256="")


def line(answer: str, result: str, **more: object) -> str:
    """Returns the line of JSON of posgame-settle."""
    return json.dumps({"answer": answer, "expanded": 5, "result": result, "version": "1.2.3",
                       **more})


def filled(count: int, bias: int) -> int:
    """Returns how many points so many boxes have, at most, of which the filler fills one if the
    hitter begins, by the rule of Chvátal and Erdős."""
    return 0 if count == 1 else count * (filled(count - 1, bias) + bias) // (count - 1)


class Rows(unittest.TestCase):
    def test_there_and_back(self) -> None:
        for row in ROW, OPEN_ROW:
            self.assertEqual(catalogue.row_of(row.cells()), row)
            self.assertEqual([*catalogue.problems(row)], [])
        self.assertEqual(OPEN_ROW.cells()["bytes"], "")
        with self.assertRaises(ValueError):
            catalogue.row_of({**ROW.cells(), "points": ""})

    def test_what_is_missing(self) -> None:
        for name in "claim", "version", "nodes", "bytes", "certificate_sha256":
            empty: dict[str, object] = {name: "" if name in ("claim", "certificate_sha256")
                                        else None}
            self.assertTrue([*catalogue.problems(dataclasses.replace(ROW, **empty))], name)
        self.assertTrue([*catalogue.problems(dataclasses.replace(ROW, game_sha256=""))])
        self.assertTrue([*catalogue.problems(dataclasses.replace(OPEN_ROW, expanded=None))])
        self.assertTrue([*catalogue.problems(dataclasses.replace(OPEN_ROW, nodes=3))])

    def test_claims(self) -> None:
        other = dataclasses.replace(ROW, claim="x y win")
        self.assertEqual([*catalogue.problems(other)],
                         ["the claims x y win don't imply maker"])
        self.assertEqual(catalogue.implied("avoider-enforcer", "enforcer", ["y x win"]), "avoider")
        self.assertEqual(catalogue.implied("maker-maker", "x", ["x y draw"]), "")
        self.assertEqual(catalogue.implied("connectivity", "either", ["x y win", "y y win"]),
                         "breaker")

    def test_known(self) -> None:
        for known, count in (("breaker: somewhere", 1), ("maker: somewhere", 0),
                             ("breaker: somewhere, but of another board", 0)):
            self.assertEqual(len([*catalogue.problems(dataclasses.replace(ROW, known=known))]),
                             count)
        self.assertEqual(catalogue.known("hex/3x3-maker-breaker"), "maker: Nash")
        self.assertEqual(catalogue.known("progressions/4-to-9-maker-maker"), "not known to us")
        self.assertEqual(catalogue.known("connectivity/complete-3"), "first-mover: Lehman 1964")
        self.assertEqual(catalogue.known("connectivity/complete-12"), "maker: Lehman 1964")

    def test_box_game(self) -> None:
        self.assertEqual([filled(count, 2) for count in (1, 2, 3, 4, 5)], [0, 4, 9, 14, 20])
        family, = families.chosen("box-game-hitter-begins")
        for board in family.boards:
            count, size, bias = map(int, re.findall(r"\d+", board.name))
            due = "breaker" if count * size <= filled(count, bias) else "maker"
            self.assertEqual(catalogue.known(board.key), f"{due}: Chvátal and Erdős 1978")

    def test_differences(self) -> None:
        same = dataclasses.replace(ROW, seconds=9.0, found_by="posgame 2.0.0")
        self.assertEqual([*boards.differences(same, ROW)], [])
        other = dataclasses.replace(ROW, certificate_sha256="ef")
        self.assertEqual([*boards.differences(other, ROW)],
                         [f"{ROW.key}: certificate_sha256 ef, and cd in boards.csv"])
        self.assertEqual(len([*boards.differences(ROW, None)]), 1)


class Files(unittest.TestCase):
    def test_whole_or_not_at_all(self) -> None:
        with kit.files(old="old") as folder:
            catalogue.store(folder / "a" / "new", b"new")
            self.assertEqual((folder / "a" / "new").read_bytes(), b"new")
            with mock.patch("os.replace", side_effect=OSError):
                with self.assertRaises(OSError):
                    catalogue.store(folder / "old", b"other")
            self.assertEqual((folder / "old").read_bytes(), b"old")
            self.assertEqual(sorted(it.name for it in folder.iterdir()), ["a", "old"])

    def test_rows_in_order(self) -> None:
        last = families.families()[-1].boards[-1]
        of_last = dataclasses.replace(ROW, family=last.family, name=last.name)
        stray = dataclasses.replace(ROW, name="stray")
        with kit.files() as folder:
            path = folder / "rows.csv"
            self.assertEqual(catalogue.read_rows(path), {})
            catalogue.write_rows({it.key: it for it in (of_last, stray, OPEN_ROW)}, path)
            self.assertEqual([*catalogue.read_rows(path).values()], [OPEN_ROW, of_last])


class Page(unittest.TestCase):
    def test_section(self) -> None:
        family, = families.chosen("hex")
        rows = {ROW.key: ROW}
        other = dataclasses.replace(OPEN_ROW, name="3x3-maker-breaker")
        rows[other.key] = other
        lines = catalogue.section(family, rows)
        self.assertIn("| 1 by 1 | Maker | 2 | 0.25 |", lines)
        self.assertIn("| 3 by 3 | unknown |  | 0.25 |", lines)
        self.assertIn("| 4 by 4 |  |  |  |", lines)
        self.assertIn("- open after `posgame-settle --positions 7`: 3x3-maker-breaker (7)", lines)
        self.assertIn("1 of 4 settled", " ".join(lines))
        self.assertIn("2 of them weren't tried yet.", " ".join(lines))

    def test_families_without_rows(self) -> None:
        text = catalogue.page({ROW.key: ROW})
        self.assertIn("1 boards in 1 families, tried by `bench/boards.py`: 1 are settled", text)
        self.assertIn("| cubes | 9 | Noughts and crosses in a cube |", text)
        self.assertNotIn("| hex |", text)


@unittest.skipUnless(os.path.exists("/usr/bin/time"), "there is no /usr/bin/time")
class Jobs(unittest.TestCase):
    def setUp(self) -> None:
        temporary = tempfile.TemporaryDirectory()
        self.addCleanup(temporary.cleanup)
        self.folder = pathlib.Path(temporary.name)
        for name, text in ("posgame", POSGAME), ("settle", SETTLE):
            (self.folder / name).write_text(text, encoding="ascii")
            (self.folder / name).chmod(0o755)
        self.given = argparse.Namespace(
            posgame=str(self.folder / "posgame"), settle=str(self.folder / "settle"), seconds=0,
            out=str(self.folder / "out"), board=BOARD, budgets="--positions 9")
        self.paths = boards.Paths.of(self.given.out, BOARD)

    def job(self, **values: str) -> tuple[int, str]:
        """Runs the job by the stand-ins; returns its status, and what it prints."""
        given = {"SAID": "", "STORED": "", "LINE": "", "SETTLED": "",
                 "CHECKED": "accepted x x win", **values}
        output = io.StringIO()
        with mock.patch.dict(os.environ, given), contextlib.redirect_stdout(output):
            return boards.job(self.given), output.getvalue()

    def row(self) -> Optional[catalogue.Row]:
        """Returns the row that was stored, if there is one."""
        return boards.found_rows([BOARD], self.given.out).get(BOARD)

    def test_solved(self) -> None:
        status, said = self.job(SAID="result maker", STORED=THREAT)
        self.assertEqual((status, said[:len(BOARD) + 7]), (0, f"{BOARD}: maker"))
        row, stored = self.row(), self.paths.certificate.read_bytes()
        assert row
        self.assertEqual(
            (row.kind, row.begins, row.points, row.lines, row.result, row.claim, row.version),
            ("maker-breaker", "maker", 9, 12, "maker", "x x win", 1))
        self.assertEqual((row.nodes, row.bytes, row.expanded, row.budgets, row.known),
                         (1, len(stored), None, "--positions 20000", "maker: elementary"))
        self.assertEqual(row.game_sha256, catalogue.sum_of(self.paths.game.read_bytes()))
        self.assertEqual(row.certificate_sha256, catalogue.sum_of(stored))

    def test_settled(self) -> None:
        status, _ = self.job(SAID="unknown after 3 positions", SETTLED=THREAT,
                             LINE=line("value", "maker"))
        row = self.row()
        assert row
        self.assertEqual((status, row.result, row.expanded, row.found_by, row.budgets),
                         (0, "maker", 5, "posgame-settle 1.2.3", "--positions 9"))

    def test_open(self) -> None:
        status, _ = self.job(SAID="unknown after 3 positions", LINE=line("none", "unknown"))
        row = self.row()
        assert row
        self.assertEqual((status, row.is_open, row.expanded, row.bytes, row.certificate_sha256),
                         (0, True, 5, None, ""))

    def test_no_row(self) -> None:
        for values in ({"SAID": "result maker"}, {"SAID": "other", "STORED": THREAT},
                       {"SAID": "result breaker", "STORED": THREAT},
                       {"SAID": "result maker", "STORED": THREAT, "CHECKED": "rejected J6"},
                       {"SAID": "result maker", "STORED": THREAT.replace("0 1 3", "0 1 2")},
                       {"SAID": "unknown after 3 positions", "LINE": line("value", "maker")},
                       {"SAID": "unknown after 3 positions", "SETTLED": THREAT,
                        "LINE": line("none", "unknown")}):
            self.job(SAID="result maker", STORED=THREAT)
            status, said = self.job(**values)
            self.assertEqual((status, self.row()), (1, None), values)
            self.assertRegex(said, f"^wrong: {BOARD}: ")

    def run_all(self, resume: bool, parallel: bool) -> list[str]:
        """Runs the jobs of the family hex by a stand-in for this script; returns the boards that
        it got, and those whose rows are there."""
        script = self.folder / "script"
        script.write_text("import pathlib, sys\n"
                          f"log = pathlib.Path({str(self.folder / 'log')!r})\n"
                          "log.open('a').write(sys.argv[-1] + '\\n')\n"
                          f"row = pathlib.Path({self.given.out!r}, sys.argv[-1] + '.json')\n"
                          "row.parent.mkdir(exist_ok=True)\n"
                          "row.write_text('')\n", encoding="ascii")
        keys = [it.key for it in families.chosen("hex")[0].boards]
        (self.folder / "log").write_text("")
        given = argparse.Namespace(**{**vars(self.given), "resume": resume, "jobs": 2,
                                      "family": "hex", "open": False})
        with mock.patch.object(boards, "SCRIPT", script), \
                mock.patch.object(kit, "has_parallel", return_value=parallel):
            boards.run_jobs(keys, given)
        self.assertTrue(all(boards.Paths.of(given.out, key).row.exists() for key in keys))
        return sorted((self.folder / "log").read_text().split())

    def test_goes_on(self) -> None:
        keys = sorted(it.key for it in families.chosen("hex")[0].boards)
        self.assertEqual(self.run_all(False, False), keys)
        self.assertEqual(self.run_all(True, False), [])
        boards.Paths.of(self.given.out, keys[1]).row.unlink()
        self.assertEqual(self.run_all(True, False), keys[1:2])
        self.assertEqual(self.run_all(False, False), keys)

    @unittest.skipUnless(kit.has_parallel(), "there is no GNU parallel")
    def test_goes_on_by_parallel(self) -> None:
        keys = sorted(it.key for it in families.chosen("hex")[0].boards)
        self.assertEqual(self.run_all(False, True), keys)
        self.assertEqual(self.run_all(True, True), [])
        log = pathlib.Path(self.given.out, "joblog-hex")
        lines = log.read_text().splitlines(True)
        log.write_text("".join(lines[:3]))
        self.assertEqual(len(self.run_all(True, True)), len(keys) - 2)


@unittest.skipUnless(catalogue.CSV.exists(), "there is no boards.csv")
class Stored(unittest.TestCase):
    """What is in boards/, and docs/BOARDS.md."""

    def setUp(self) -> None:
        self.rows = catalogue.read_rows()
        self.boards = {it.key: it for family in families.families() for it in family.boards}

    def test_rows(self) -> None:
        for key, row in self.rows.items():
            self.assertEqual([*catalogue.problems(row)], [], key)
            self.assertEqual(row.known, catalogue.known(key), key)
            text = self.boards[key].text.encode()
            self.assertEqual(row.game_sha256, catalogue.sum_of(text), key)
            game = second.read_game(text, text.split()[0].decode())
            self.assertEqual((row.points, row.lines, row.bias),
                             (game.points, len(game.lines), game.bias), key)

    def test_order_and_form(self) -> None:
        with kit.files() as folder:
            catalogue.write_rows(self.rows, folder / "rows.csv")
            self.assertEqual((folder / "rows.csv").read_bytes(), catalogue.CSV.read_bytes())

    def test_first_boards(self) -> None:
        first = [it.key for family in families.families()[:9] for it in family.boards]
        self.assertEqual(len(first), 528)
        self.assertLessEqual(sum(self.rows[key].is_open for key in first), 32)

    def test_each_board_has_a_row(self) -> None:
        self.assertEqual({*self.boards} ^ {*self.rows}, set())

    def test_certificates(self) -> None:
        paths = [*catalogue.CERTIFICATES.rglob("*.cert")]
        found = {str(it.relative_to(catalogue.CERTIFICATES))[:-5]: it for it in paths}
        due = {key for key, row in self.rows.items() if row.bytes and row.bytes <= catalogue.KEPT}
        self.assertEqual({*found}, due)
        for key, path in found.items():
            self.assertEqual(self.rows[key].certificate_sha256,
                             catalogue.sum_of(path.read_bytes()), key)

    def test_size(self) -> None:
        out = families.FOLDER / "out"
        sizes = [it.stat().st_size for it in families.FOLDER.rglob("*")
                 if it.is_file() and out not in it.parents]
        self.assertLess(sum(sizes), 1_400 * len(self.rows))

    def test_page(self) -> None:
        self.assertEqual(catalogue.PAGE.read_text(encoding="utf-8"), catalogue.page(self.rows))


class Options(unittest.TestCase):
    def test_no_such_family(self) -> None:
        output = io.StringIO()
        with mock.patch.object(sys, "argv", ["boards.py", "--list", "--family", "hex,none"]), \
                contextlib.redirect_stdout(output):
            self.assertEqual(boards.main(), 1)
        self.assertEqual(output.getvalue(), "wrong: there is no family 'none'\n")

    def test_budgets(self) -> None:
        board = families.board_of("animals-avoider-enforcer/el-4x4")
        row = dataclasses.replace(OPEN_ROW, family=board.family, name=board.name)
        family, = families.chosen(board.family)
        for rows, due in (({row.key: row}, "--positions 7"), ({}, family.options("el-4x4")),
                          ({row.key: dataclasses.replace(row, found_by="posgame 1.0.0")},
                           family.options("el-4x4"))):
            with mock.patch.object(catalogue, "read_rows", return_value=rows):
                self.assertEqual(boards.usual(board), due)
        with mock.patch.object(catalogue, "read_rows", return_value={}):
            self.assertEqual(boards.usual(families.board_of("hex/2x2-maker-breaker")),
                             boards.SETTLE)

    def test_list(self) -> None:
        output = io.StringIO()
        with mock.patch.object(sys, "argv", ["boards.py", "--list", "--family", "hex"]), \
                contextlib.redirect_stdout(output):
            self.assertEqual(boards.main(), 0)
        self.assertEqual(output.getvalue().split(), [f"hex/{it}x{it}-maker-breaker"
                                                     for it in (1, 2, 3, 4)])


if __name__ == "__main__":
    unittest.main()
