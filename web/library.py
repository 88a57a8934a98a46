"""Builds the static library of crates/pg_web over the libraries that `rt ci` proved, without
proving them again: web/library.py [--module FILE] ARCHIVE. With --module it keeps the LLVM module
that the kit's compiler was given.

The status is 0 if the library is built, 3 if a tool or a proved library isn't there, which is said
in a line on standard error, and else that of the kit's command. Unproved.
"""
from __future__ import annotations

import argparse
import importlib
import os
import pathlib
import shutil
import subprocess
import sys
import tempfile
from typing import Any, Optional

TOP = pathlib.Path(__file__).resolve().parent.parent
CRATE = TOP / "crates" / "pg_web"
MISSING = 3

# Stands in for the kit's clang: keeps each LLVM module that it is given, and calls the true one.
KEEPER = """#!/bin/bash
for word in "$@"; do
    case $word in *.bc | *.ll) [ ! -f "$word" ] || cp "$word" "{into}/$$.${{word##*.}}" ;; esac
done
exec "{clang}" "$@"
"""


class Missing(Exception):
    """Something that isn't there."""


def kit() -> pathlib.Path:
    """Returns the folder of the kit whose command `rt` is on the path."""
    command = shutil.which("rt")
    if command is None:
        raise Missing("there is no command rt: the library is built by its kit")
    return pathlib.Path(command).resolve().parent.parent


def crate_of(folder: pathlib.Path) -> Any:
    """Returns the crate as the kit's own scripts see it."""
    sys.path.insert(0, str(folder / "bin"))
    rtlib = importlib.import_module("rtlib")
    os.chdir(CRATE)
    crate = rtlib.Crate(str(CRATE), rtlib.root_above(str(CRATE)), {})
    for below in crate.below():
        if not os.path.isfile(f"{below.rlib}/format"):
            raise Missing(f"{below.name} isn't proved here: run rt ci at the top first")
    return crate


def keeper(folder: pathlib.Path, room: pathlib.Path) -> pathlib.Path:
    """Makes a toolchain that is the kit's but for clang, which keeps modules in `room`/kept."""
    made, into = room / "toolchain", room / "kept"
    (made / "bin").mkdir(parents=True)
    into.mkdir()
    (made / "lib").symlink_to(folder / "toolchain" / "lib")
    for tool in (folder / "toolchain" / "bin").iterdir():
        if tool.name != "clang":
            (made / "bin" / tool.name).symlink_to(tool)
    clang = made / "bin" / "clang"
    clang.write_text(KEEPER.format(into=into, clang=folder / "toolchain" / "bin" / "clang"))
    clang.chmod(0o755)
    return made


def build(archive: pathlib.Path, module: Optional[pathlib.Path]) -> int:
    """Builds the archive, and keeps the module under this name; returns the status."""
    folder = kit()
    crate = crate_of(folder)
    archive.parent.mkdir(parents=True, exist_ok=True)
    with tempfile.TemporaryDirectory() as name:
        room = pathlib.Path(name)
        words = [str(folder / "bin" / "rattle"), "build", *crate.words(["--jobs", "1"])]
        words += ["--toolchain", str(keeper(folder, room)), "--backend", "llvm"]
        status = subprocess.run([*words, "-o", str(archive)], stdout=sys.stderr).returncode
        kept = sorted((room / "kept").iterdir(), key=lambda it: it.stat().st_size)
        if status == 0 and module is not None:
            if not kept:
                raise Missing("this kit's compiler hands no LLVM module to its clang")
            shutil.copyfile(kept[-1], module)
    return status


def main() -> int:
    parser = argparse.ArgumentParser(description=__doc__.split(":", maxsplit=1)[0])
    parser.add_argument("--module", type=pathlib.Path, help="where the LLVM module is kept")
    parser.add_argument("archive", type=pathlib.Path, help="where the library goes")
    asked = parser.parse_args()
    module = asked.module and asked.module.resolve()
    try:
        return build(asked.archive.resolve(), module)
    except Missing as missing:
        print(f"web/library.py: {missing}", file=sys.stderr)
        return MISSING


if __name__ == "__main__":
    sys.exit(main())
