"""The second checker beside the program, and by the tables of crates/test_stories."""
from __future__ import annotations

import itertools
import pathlib
import re
import shutil
import subprocess
import sys
import tempfile
import unittest
from typing import Optional
from unittest import mock

import posgame.check as second

import stories
from beside import (EXAMPLES, TOP, damaged_pairs, differences, example_pairs, second_verdict,
                    Pair)

COUNT = 2_000


def fault_of_form(form: stories.Form) -> Optional[str]:
    """Returns the error of a text as a file of its kind, or none."""
    family = "posgame-span" if form.family == "span" else "posgame"
    try:
        if form.text.startswith(b"posgame-cert") or form.text.startswith(b"posgame-span-cert") \
                or (form.due or "").startswith("certificate"):
            second.read_certificate(form.text, family)
        else:
            second.read_game(form.text, family)
    except second.Fault as fault:
        return str(fault)
    return None


class Tables(unittest.TestCase):
    """What the rows of the script expect, without the program."""

    def test_forms(self) -> None:
        forms = [form for form in stories.forms(stories.entries()) if len(form.text) < 1_000_000]
        self.assertGreater(len(forms), 400)
        for form in forms:
            with self.subTest(text=form.text[:200]):
                self.assertEqual(fault_of_form(form), form.due)

    def test_faults_of_nodes(self) -> None:
        count = 0
        for text, due in stories.faulty_nodes(stories.entries()):
            count += 1
            with self.subTest(due=due):
                game, certificate = text
                self.assertEqual(second_verdict(Pair(game, certificate, ""))[0], [due])
        self.assertGreater(count, 300)

    def test_rows(self) -> None:
        count = 0
        for row in stories.checks(stories.entries()):
            words = row.words.split()
            is_check = len(words) in (3, 4) and words[-3] == "check" and bool(row.says)
            if is_check and all(name in row.files for name in words[-2:]):
                count += 1
                with self.subTest(words=row.words, says=row.says):
                    pair = Pair(row.files[words[-2]], row.files[words[-1]], "")
                    self.assertEqual(second_verdict(pair)[0], row.says)
        self.assertGreater(count, 200)


class Beside(unittest.TestCase):
    """The same verdicts as those of `posgame check`."""

    def test_examples(self) -> None:
        pairs = example_pairs()
        self.assertGreater(len(pairs), 40)
        self.assertEqual(differences(pairs), [])

    def test_damaged_certificates(self) -> None:
        pairs = itertools.islice(damaged_pairs(example_pairs(), seed=1), COUNT)
        self.assertEqual(differences(pairs), [])

    def test_differences_are_seen(self) -> None:
        pair = example_pairs()[0]
        with mock.patch.object(second, "check", return_value=["accepted x x draw"]):
            self.assertEqual(len(differences([pair])), 1)


    def test_chain_of_images(self) -> None:
        nodes = ["1|0|x|threat 2"]
        nodes += [f"1|{2 * (n % 2)}|x|image 1 {n - 1}" for n in range(1, 6_000)]
        nodes += ["1||y|all 0:5998 2:5999"] * 6_000 + ["||x|move 1 11999"]
        game = b"posgame 1\nkind maker-breaker\ngrid 3 1\nline 0 1\nline 1 2\nturn x\n"
        text = "\n".join(["posgame-cert 3", "claim x x win", f"nodes {len(nodes)}", *nodes])
        pair = Pair(game, text.encode(), "chain")
        self.assertEqual(second_verdict(pair).lines, ["accepted x x win"])
        self.assertEqual(differences([pair]), [])


class Page(unittest.TestCase):
    """The files that docs/FORMATS.md shows, and what it says of them."""

    def setUp(self) -> None:
        page = (TOP / "docs" / "FORMATS.md").read_text(encoding="utf-8")
        self.games: list[bytes] = []
        self.pairs: list[Pair] = []
        shown = re.compile(r"^```text\n((?:#[^\n]*\n)*posgame.*?)^```", re.MULTILINE | re.DOTALL)
        for text in shown.findall(page):
            file = text.encode()
            if text.startswith("posgame-cert"):
                self.pairs.append(Pair(self.games[-1], file, text.splitlines()[0]))
            elif re.search(r"^posgame(-span|-vectors)? 1$", text, re.MULTILINE):
                self.games.append(file)

    def test_examples(self) -> None:
        self.assertEqual((len(self.games), len(self.pairs)), (9, 3))
        for game in self.games:
            family = second.lines_of(game[game.index(b"posgame"):])[0].split()[0]
            second.read_game(game, family)
        for pair in self.pairs:
            self.assertEqual(second_verdict(pair).lines, ["accepted x x win"])
        self.assertEqual(differences(self.pairs), [])

    def test_faults(self) -> None:
        folded = next(it for it in self.pairs if it.certificate.startswith(b"posgame-cert 3"))
        rows = [(b"image 1 0", b"image 2 0", "I3 claim 0 node 1"),
                (b"image 1 0", b"image 4 0", "I2 claim 0 node 1"),
                (b"threat 2", b"threat 0", "J10 claim 0 node 0"),
                (b"grid 3 1", b"points 3", "I2 claim 0 node 1")]
        for old, new, due in rows:
            pair = Pair(*(it.replace(old, new) for it in folded[:2]), name=due)
            self.assertEqual(second_verdict(pair).lines, [f"rejected {due}"])
            self.assertEqual(differences([pair]), [])


class Alone(unittest.TestCase):
    """The checker as one file, at most 600 lines, and as a command."""

    def test_size(self) -> None:
        text = pathlib.Path(second.__file__).read_text(encoding="utf-8")
        self.assertLessEqual(len(text.splitlines()), 600)
        imports = {line for line in text.splitlines() if line.startswith(("import ", "from "))}
        self.assertEqual(imports, {"from __future__ import annotations", "import math",
                                   "import pathlib", "import re", "import sys",
                                   "from typing import Any, Iterable, Iterator, NamedTuple"})

    def test_command(self) -> None:
        names = [("corners.game", "corners-pairs.cert", "accepted x y win\n", 0),
                 ("corners.game", "corners-too-heavy.cert", "rejected J7 claim 0 node 0\n", 4),
                 ("rosette-with-a-slip.game", "corners-pairs.cert", "game G6 line 4\n", 3),
                 ("corners.game", "there-is-none.cert", "", 5)]
        with tempfile.TemporaryDirectory(prefix="posgame-") as folder:
            shutil.copy(second.__file__, folder)
            for game, certificate, text, status in names:
                done = subprocess.run(
                    [sys.executable, f"{folder}/check.py", str(EXAMPLES / game),
                     str(EXAMPLES / certificate)], stdout=subprocess.PIPE, text=True, check=False)
                self.assertEqual((done.stdout, done.returncode), (text, status))

    def test_module(self) -> None:
        words = [sys.executable, "-m", "posgame.check", "corners.game", "corners-pairs.cert"]
        package = str(pathlib.Path(second.__file__).resolve().parents[1])
        done = subprocess.run(words, cwd=EXAMPLES, env={"PYTHONPATH": package, "PATH": ""},
                              capture_output=True, text=True, check=False)
        self.assertEqual((done.stdout, done.stderr), ("accepted x y win\n", ""))


if __name__ == "__main__":
    unittest.main()
