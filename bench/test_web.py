"""Tests of what web/ has in C, and of the library of crates/pg_web as C calls it:
`python3 -m unittest discover -s bench`. The library's tests take the library that `python3
web/library.py crates/pg_web/out/libpg_web.a` has built, which takes minutes; without it they are
skipped, and so they are in the gate. Unproved.
"""
from __future__ import annotations

import pathlib
import shutil
import subprocess
import tempfile
import unittest

import kit

WEB = kit.TOP / "web"
LIBRARY = kit.TOP / "crates" / "pg_web" / "out" / "libpg_web.a"
# Runs of the example, each the files that it is given and its words.
RUNS = [
    ("diamond.game", ["posgame", "solve", "diamond.game", "made.cert"]),
    ("diamond.game diamond-trees-and-cuts.cert",
     ["posgame", "check", "diamond.game", "diamond-trees-and-cuts.cert"]),
    ("noughts-and-crosses.game breaker-in-the-centre.cert",
     ["posgame", "check", "noughts-and-crosses.game", "breaker-in-the-centre.cert"]),
    ("diamond.game", ["posgame", "solve", "there-is-none.game", "made.cert"]),
    ("diamond.game", ["posgame", "no-such-command"]),
    ("diamond.game", ["posgame", "gen", "rows", "3", "made.game"]),
]


def c_of_kit() -> pathlib.Path:
    """Returns the library in C of the kit whose command `rt` is on the path."""
    command = shutil.which("rt")
    if command is None:
        raise unittest.SkipTest("there is no command rt")
    return pathlib.Path(command).resolve().parent.parent / "c" / "liblibc_c.a"


def compiled(into: pathlib.Path, *words: str) -> pathlib.Path:
    """Compiles by the C compiler, with all warnings as errors."""
    flags = ["-std=gnu11", "-Wall", "-Wextra", "-Werror", "-g"]
    subprocess.run(["gcc", *flags, *words, "-o", str(into)], cwd=WEB, check=True)
    return into


@unittest.skipUnless(shutil.which("gcc"), "there is no gcc")
class Heap(unittest.TestCase):
    def test_heap(self) -> None:
        with tempfile.TemporaryDirectory() as room:
            program = compiled(pathlib.Path(room) / "test", "-O1", "-fno-builtin", "-DTESTED",
                               "-fsanitize=address,undefined", "test_heap.c", "heap.c",
                               "builtins.c")
            ran = subprocess.run([str(program)], capture_output=True, text=True)
            self.assertEqual((ran.returncode, ran.stderr), (0, ""))


@unittest.skipUnless(shutil.which("gcc"), "there is no gcc")
class Callers(unittest.TestCase):
    """What calls the library, as far as the library isn't needed."""

    def test_without_warnings(self) -> None:
        with tempfile.TemporaryDirectory() as room:
            for source in "example.c", "tests/answer.c":
                with self.subTest(source=source):
                    compiled(pathlib.Path(room) / "object", "-O2", "-c", source)


@unittest.skipUnless(shutil.which("gcc"), "there is no gcc")
class Example(unittest.TestCase):
    """The example in C, compared with the program."""

    program: pathlib.Path
    room: tempfile.TemporaryDirectory[str]

    @classmethod
    def setUpClass(cls) -> None:
        if not kit.built("posgame").is_file():
            raise unittest.SkipTest("there is no program to compare with: `rt ci` builds it")
        if not LIBRARY.is_file():
            raise unittest.SkipTest("there is no library: web/library.py builds it")
        cls.room = tempfile.TemporaryDirectory()
        cls.addClassCleanup(cls.room.cleanup)
        cls.program = compiled(pathlib.Path(cls.room.name) / "example", "-O2", "example.c",
                               str(LIBRARY), str(c_of_kit()))

    def native(self, words: list[str], given: list[str]) -> tuple[int, bytes]:
        """Returns the status of the program, and what the example should print."""
        with tempfile.TemporaryDirectory() as name:
            room = pathlib.Path(name)
            for file in given:
                shutil.copy(kit.EXAMPLES / file, room)
            ran = subprocess.run([str(kit.built("posgame")), *words[1:]], cwd=room,
                                 capture_output=True)
            due = ran.stdout
            for word in words:
                if (room / word).is_file():
                    held = (room / word).read_bytes()
                    due += f"{word} {len(held)}\n".encode() + held
            return ran.returncode, due

    def test_runs(self) -> None:
        for files, words in RUNS:
            with self.subTest(words=words):
                given = files.split()
                ran = subprocess.run([str(self.program), *given, "--", *words],
                                     cwd=kit.EXAMPLES, capture_output=True)
                self.assertEqual((ran.returncode, ran.stdout), self.native(words, given))

    def test_no_program(self) -> None:
        ran = subprocess.run([str(self.program), "--", "posgame-sing", "solve"])
        self.assertEqual(ran.returncode, 21)
        ran = subprocess.run([str(self.program)])
        self.assertEqual(ran.returncode, 21)
