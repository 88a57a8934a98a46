"""The wheel that pip installs, built as pip builds it, and where the programs are found."""
from __future__ import annotations

import os
import pathlib
import subprocess
import sys
import tarfile
import tempfile
import unittest
import zipfile
from unittest import mock

from posgame import Game, ProgramMissing
from posgame.programs import NAMES, find

from beside import TOP

sys.path.append(str(TOP / "python" / "build_backend"))
import posgame_build  # type: ignore[import]  # noqa: E402

SCRIPT = """
import posgame
from posgame import check
assert posgame.__file__.startswith({folder!r}), posgame.__file__
game = posgame.Game.from_lines([[0, 1]])
print(*game.check_again("posgame-cert 1\\nclaim x y win\\nnodes 1\\n||x|pairs 0-1\\n"))
"""


class Package(unittest.TestCase):
    """The archives."""

    def setUp(self) -> None:
        temporary = tempfile.TemporaryDirectory(prefix="posgame-")
        self.addCleanup(temporary.cleanup)
        self.folder = pathlib.Path(temporary.name)

    def test_wheel(self) -> None:
        version = (TOP / "VERSION").read_text(encoding="utf-8").strip()
        wheel = self.folder / posgame_build.build_wheel(str(self.folder))
        self.assertEqual(wheel.name, f"posgame-{version}-py3-none-any.whl")
        with zipfile.ZipFile(wheel) as archive:
            names = archive.namelist()
            text = archive.read(f"posgame-{version}.dist-info/METADATA").decode()
        self.assertIn("posgame/py.typed", names)
        modules = {f"posgame/{path.name}" for path in TOP.glob("python/posgame/*.py")}
        self.assertLess(modules, set(names))
        self.assertIn(f"\nVersion: {version}\n", text)
        self.assertIn("\nLicense: MIT OR Apache-2.0\n", text)
        done = subprocess.run([sys.executable, "-c", SCRIPT.format(folder=str(wheel))],
                              cwd=self.folder, env={"PYTHONPATH": str(wheel)}, text=True,
                              capture_output=True, check=False)
        self.assertEqual((done.stdout, done.stderr),
                         ("Claim(turn='x', side='y', goal='win')\n", ""))

    def test_same_bytes(self) -> None:
        wheels = []
        for name in ("one", "two"):
            (self.folder / name).mkdir()
            wheel = posgame_build.build_wheel(str(self.folder / name))
            wheels.append((self.folder / name / wheel).read_bytes())
        self.assertEqual(wheels[0], wheels[1])

    def test_other_archives(self) -> None:
        with tarfile.open(self.folder / posgame_build.build_sdist(str(self.folder))) as archive:
            names = {name.partition("/")[2] for name in archive.getnames()}
        self.assertLess({"pyproject.toml", "build_backend/posgame_build.py", "posgame/check.py"},
                        names)
        wheel = self.folder / posgame_build.build_editable(str(self.folder))
        with zipfile.ZipFile(wheel) as packed:
            self.assertEqual(packed.read("posgame.pth").decode(), f"{TOP / 'python'}\n")


class Found(unittest.TestCase):
    """Where the programs are found."""

    def setUp(self) -> None:
        temporary = tempfile.TemporaryDirectory(prefix="posgame-")
        self.addCleanup(temporary.cleanup)
        self.folder = pathlib.Path(temporary.name).resolve()

    def put(self, name: str) -> str:
        """Puts a program into the folder; returns its path."""
        path = self.folder / name
        path.parent.mkdir(parents=True, exist_ok=True)
        path.write_text("#!/bin/sh\nexit 5\n", encoding="utf-8")
        path.chmod(0o755)
        return str(path)

    def test_by_the_variable(self) -> None:
        paths = [self.put(f"{it}/out/{it}") for it in ("posgame", "posgame_draw", "posgame_settle")]
        for value in (paths[0], str(self.folder)):
            with mock.patch.dict(os.environ, {"POSGAME": value, "PATH": ""}):
                self.assertEqual([find(it) for it in NAMES], paths)

    def test_on_the_path(self) -> None:
        paths = [self.put(it) for it in NAMES]
        with mock.patch.dict(os.environ, {"POSGAME": "", "PATH": f"/nowhere:{self.folder}"}):
            self.assertEqual([find(it) for it in NAMES], paths)

    def test_a_wrong_variable_is_an_error(self) -> None:
        self.put("posgame")
        wrong = str(self.folder / "there-is-none")
        with mock.patch.dict(os.environ, {"POSGAME": wrong, "PATH": str(self.folder)}):
            with self.assertRaises(ProgramMissing) as raised:
                Game.from_lines([[0]]).solve()
        self.assertIn(wrong, str(raised.exception))


if __name__ == "__main__":
    unittest.main()
