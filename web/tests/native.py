#!/usr/bin/env python3
"""Runs a native program on many inputs, and prints each run as a line of JSON: its words, input
and files, and the status, output and files that it left. `compare.mjs` has the module answer the
same, and compares.

    web/tests/native.py rows [PROGRAM]               posgame: the rows of crates/test_stories
    web/tests/native.py random [PROGRAM] [--runs N]  posgame: runs of bench/fuzz.py
    web/tests/native.py settle [PROGRAM]             posgame-settle: the games of examples/
    web/tests/native.py draw [PROGRAM] [--solver S]  posgame-draw: these games with certificates

Of a row what its script tells is printed too. A run that a request answers otherwise, as
docs/FORMATS.md says, is printed as one that isn't real. Random runs are left out if they write
standard error or end otherwise than the program does, and if their words name what the system
refuses as a plain file: in memory any name is one. `draw` takes each game with each certificate of
examples/ and with what the solver, posgame, stores of it, whole and damaged. Unproved.
"""
from __future__ import annotations

import base64
import json
import os
import pathlib
import random
import re
import sys
from typing import Iterator, Optional

TOP = pathlib.Path(__file__).resolve().parents[2]
sys.path.insert(0, str(TOP / "bench"))

import fuzz  # noqa: E402
import kit  # noqa: E402
import stories  # noqa: E402

LONGEST = 255
# Runs that a request answers otherwise than the program. In the first the system's files refuse
# that a file takes the place of one that is read. In the second `--book` is the name of a file in a
# request, because the certificate's name is lacking.
ONLY_IN_MEMORY = {"recording: the record takes the game's place", "a book of a game alone"}
# What posgame-settle is asked of each game. The last lines have no meaning.
SETTLED = """\
G C --positions=3000
G C --positions=3000 --images --json
G C --positions=2 --json
G C --positions=3000 --entries=50 --nodes=5
moves G --positions=300
moves G --positions=300 --entries=50 --nodes=100 --json
moves G --positions=1 --json
G
moves
moves G --images
G C --positions=0
G C --json --json
G C --nodes=200001 --positions=1
G C other
"""
# How many nodes of a claim are drawn, and how many damaged files.
DRAWN, DAMAGED = 10, 600
# Nodes that no certificate has.
NO_NODES = "999999", "9.0", "x", "0.", "", "1.1.1"


def packed(data: bytes) -> str:
    """Returns bytes as text."""
    return base64.b64encode(data).decode()


def held(folder: pathlib.Path) -> dict[str, str]:
    """Returns the plain files of a folder."""
    return {it.name: packed(it.read_bytes()) for it in sorted(folder.iterdir()) if it.is_file()}


class Runs:
    """A native program and its runs in a folder, each of which is printed."""

    def __init__(self, name: str, path: str, folder: pathlib.Path) -> None:
        self.name, self.path, self.folder = name, path, folder

    def run(self, name: str, words: list[str], typed: bytes = b"",
            told: Optional[stories.Told] = None) -> kit.Run:
        """Runs the program, and prints the run with what is told of it."""
        before = held(self.folder)
        run = kit.run(self.path, *words, typed=typed, folder=self.folder)
        self.show(name, words, typed, before, run, told)
        return run

    def show(self, name: str, words: list[str], typed: bytes, before: dict[str, str],
             run: kit.Run, told: Optional[stories.Told] = None) -> None:
        """Prints a run."""
        print(json.dumps({
            "name": name, "words": [self.name, *words], "input": packed(typed), "before": before,
            "is_real": name not in ONLY_IN_MEMORY, "status": run.status, "output": run.output,
            "after": held(self.folder), "told": told and {
                "status": told.status, "log": told.log,
                "files": {it: (word, packed(text)) for it, (word, text) in told.files.items()}}}))


def rows(program: str) -> None:
    """Prints the runs of all rows."""
    for row in stories.rows():
        with kit.files() as folder:
            for name, data in row.files.items():
                (folder / name).write_bytes(data)
            runs = Runs("posgame", program, folder)
            for it in row.runs:
                runs.run(row.name, it.words, it.typed, it.told)


def is_plain(folder: pathlib.Path, words: list[str]) -> bool:
    """Tells whether no word may be a name that isn't one of a plain file, or isn't UTF-8, and
    whether no record takes the place of its game."""
    names = [it.encode("utf-8", "surrogateescape") for it in words]
    is_own = "record" in words and any(words.count(it) > 1 for it in words)
    return not is_own and not any(
        b"/" in it or len(it) > LONGEST or not it or (folder / os.fsdecode(it)).is_dir()
        or "\udc80" <= max(os.fsdecode(it)) <= "\udcff" for it in names)


class Printing(fuzz.Program):
    """The program, of which each run is printed."""

    count, left = 0, 0

    def run(self, words: list[str], typed: bytes = b"") -> kit.Run:
        before = held(self.folder)
        is_same = is_plain(self.folder, words)
        run = super().run(words, typed)
        if is_same and run.status >= 0 and not run.errors:
            self.count += 1
            runs = Runs("posgame", self.path, self.folder)
            runs.show(f"random {self.count}", words, typed, before, run)
        else:
            self.left += 1
        return run


def random_runs(program: str, count: int, seed: int) -> None:
    """Prints so many runs, or a few more, of cases that bench/fuzz.py draws."""
    with kit.files() as folder:
        quiet = fuzz.Program(program, folder)
        pairs = fuzz.pairs_of_examples(quiet)
        printing, number = Printing(program, folder), 0
        while printing.count < count:
            draw = random.Random(f"{seed} {number}")
            draw.choice(fuzz.CASES)(draw, printing, pairs)
            number += 1
    print(f"{printing.count} runs, {printing.left} left out", file=sys.stderr)


def examples(kind: str) -> Iterator[tuple[str, bytes]]:
    """Yields the name and the bytes of each file of examples/ of a kind."""
    for path in sorted(kit.EXAMPLES.glob(f"*.{kind}")):
        yield path.name, path.read_bytes()


def settle(program: str) -> None:
    """Prints what the games of examples/ are settled to."""
    for name, game in examples("game"):
        for words in map(str.split, SETTLED.splitlines()):
            with kit.files() as folder:
                (folder / "G").write_bytes(game)
                Runs("posgame-settle", program, folder).run(name, words)


def nodes_of(certificate: bytes) -> list[str]:
    """Returns words that name nodes: some of each claim, and some that aren't there."""
    words = list(NO_NODES)
    for claim, count in enumerate(map(int, re.findall(rb"^nodes (\d+)$", certificate, re.M))):
        last = min(count, 10**6)
        chosen = {last * it // DRAWN for it in range(DRAWN)} | {last - 1, last}
        words += [f"{claim}.{it}" for it in sorted(chosen)]
    return [*words, *(it[2:] for it in words if it.startswith("0."))]


def draw_pair(runs: Runs, name: str, game: bytes, certificate: bytes) -> None:
    """Prints the book of a pair of files and its picture, and those of nodes, one alone if the
    certificate is refused."""
    (runs.folder / "G").write_bytes(game)
    (runs.folder / "C").write_bytes(certificate)
    runs.run(name, ["--book", "G", "C"])
    is_drawn = runs.run(name, ["G", "C"]).status == 0
    for word in nodes_of(certificate) if is_drawn else ["0"]:
        runs.run(name, ["G", "C", word])


def draw(program: str, solver: str) -> None:
    """Prints the pictures and the books of games and certificates."""
    games, certificates = dict(examples("game")), dict(examples("cert"))
    with kit.files() as folder:
        runs, solving = Runs("posgame-draw", program, folder), fuzz.Program(solver, folder)
        runs.run("a book of a game alone", ["--book", "G"])
        for words in [], ["G"], ["G", "C", "0", "0"], ["none", "C"]:
            runs.run("no files", words)
        for name, game in games.items():
            (folder / "G").write_bytes(game)
            family = kit.family_of(game.decode())
            runs.run(name, ["G"])
            for told in certificates:
                draw_pair(runs, f"{name} {told}", game, certificates[told])
            for flags in [], [] if family else ["--images"]:
                solving.run([*family, "solve", "G", "S", *flags])
                if (folder / "S").exists():
                    draw_pair(runs, f"{name} solved", game, (folder / "S").read_bytes())
                    (folder / "S").unlink()
        pairs = fuzz.pairs_of_examples(solving)
        for number in range(DAMAGED):
            draws = random.Random(number)
            family = draws.choice(["", *kit.FAMILIES])
            game, certificate = draws.choice(pairs[family])
            keys, signs = ((fuzz.FAMILY_KEYS, fuzz.FAMILY_SIGNS) if family
                           else (fuzz.KEYS, fuzz.SIGNS))
            fuzz.write(folder)
            (folder / "O").unlink()
            draw_pair(runs, f"damaged {number}",
                      fuzz.mutated(draws, game, keys) if draws.randrange(4) == 0 else game,
                      fuzz.mutated(draws, certificate, signs))


def program_of(given: Optional[str], name: str) -> str:
    """Returns the program that is given, or else the one that is built."""
    return given or kit.program_path(str(kit.built(name)))


def main() -> int:
    words = kit.parser(__doc__, None)
    words.add_argument("part", choices=["rows", "random", "settle", "draw"])
    words.add_argument("program", nargs="?", type=kit.program_path)
    words.add_argument("--solver", type=kit.program_path)
    words.add_argument("--runs", type=int, default=5_000)
    words.add_argument("--seed", type=int, default=1)
    given = words.parse_args()
    if given.part == "rows":
        rows(program_of(given.program, "posgame"))
    elif given.part == "random":
        random_runs(program_of(given.program, "posgame"), given.runs, given.seed)
    elif given.part == "settle":
        settle(program_of(given.program, "posgame_settle"))
    else:
        draw(program_of(given.program, "posgame_draw"), program_of(given.solver, "posgame"))
    return 0


if __name__ == "__main__":
    raise SystemExit(main())
