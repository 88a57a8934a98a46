#!/usr/bin/env python3
"""Settles boards by posgame-settle, and compares results, nodes, seconds and memory with limits.

    bench/settling.py [PROGRAM] [--posgame PROGRAM] [--only WORD] [--jobs N]
    bench/settling.py [PROGRAM] [--posgame PROGRAM] --random N [--only WORD] [--jobs N]

bench/settling.txt has the boards. The result must be the one that is said there; a certificate may
have one and a half times as many nodes, and a run may take three times as many seconds of a
processor. A run takes at most 1,000 MB. `posgame check` and the second checker, in python/, must
accept each certificate.

With --random, N small games of each kind are drawn, always the same. The result must be the one of
brute force (`LineGame` in bench/kit.py), with images and without, and both checkers must accept the
certificates. Runs with a budget of 1 must give this result too, or end with status 1 and store
nothing. Then arguments and files that mean nothing must end as the documents say, and faulty game
files as `posgame solve` ends on them. Unproved.
"""
from __future__ import annotations

import argparse
import collections
import concurrent.futures
import itertools
import pathlib
import re
import sys
from typing import Iterable, Iterator, NamedTuple

import families
import kit
import same_search

sys.path[:0] = [str(kit.TOP / "python")]

import posgame.check as second  # noqa: E402

MEGABYTES = 1_000
# How many times the nodes and the seconds of bench/settling.txt are allowed.
NODES, SECONDS = 1.5, 3
# The results of each kind, by the score of brute force: a draw, a win of X, a win of Y.
RESULTS = {"maker-breaker": ("", "maker", "breaker"), "maker-maker": ("draw", "x", "y"),
           "avoider-enforcer": ("", "avoider", "enforcer")}
BUDGETS = ("--positions", "--entries", "--nodes")
ROW = re.compile(r"^(\S+) (shape|row|boxes) (\S+) (\d+) (\d+)(?: ([xy]))?: (\w+) (\d+) (\S+)$",
                 re.MULTILINE)


class Board(NamedTuple):
    """A row of bench/settling.txt."""

    name: str
    text: str
    result: str
    nodes: int
    seconds: float


class Settled(NamedTuple):
    """How a run ended: what it printed, what it stored, and what is wrong with the certificate."""

    run: kit.Run
    stored: bool
    wrong: list[str]

    @property
    def result(self) -> str:
        """The word after `result`, or else what was printed, or how the run ended."""
        found = re.match(r"result (\w+)\nexpanded \d+ nodes \d+\n$", self.run.output)
        return found[1] if found else self.run.said or f"status {self.run.status}"

    @property
    def is_open(self) -> bool:
        """Whether the game stays open, as the documents say it."""
        said = re.fullmatch(r"unknown after \d+ positions\n", self.run.output)
        return said is not None and self.run.status == 1 and not self.stored

    @property
    def counts(self) -> list[int]:
        """How many positions were expanded, and how many nodes were stored."""
        return [*map(int, re.findall(r"(?:expanded|nodes|after) (\d+)", self.run.output))]


def boxes(count: int, size: int, bias: int, turn: str) -> tuple[str, list[str]]:
    """Returns the name and the rows of a game of boxes without common points."""
    first = "Avoider" if turn == "x" else "Enforcer"
    name = f"{count} boxes of {size}, bias {bias}, {first} begins"
    return name, families.box_rows(count, size, bias)


def board(words: Iterable[str]) -> Board:
    """Returns the board of a row.

    >>> it = board("maker-breaker row 4 4 6  breaker 7158 0.33".split(" "))
    >>> it.name, it.text.count("line"), it.result, it.nodes
    ('4 in a row, 4 by 6, Maker-Breaker', 24, 'breaker', 7158)
    >>> board("avoider-enforcer boxes 6 2 3 y avoider 8055 0.05".split(" ")).name
    '6 boxes of 2, bias 3, Enforcer begins, Avoider-Enforcer'
    """
    kind, family, what, one, two, turn, result, nodes, seconds = words
    if family == "boxes":
        name, rows = boxes(int(what), int(one), int(two), turn)
    else:
        rows = [f"grid {two} {one}", f"shape {what}"]
        if family == "row":
            rows[1:] = kit.line_rows(kit.in_row(int(one), int(two), int(what)))
        name = families.NAMES[what] if family == "shape" else f"{what} in a row"
        name += f", {one} by {two}"
    text = kit.game(kind, *rows, turn=turn or "x")
    return Board(f"{name}, {kit.KINDS[kind]}", text, result, int(nodes), float(seconds))


def checkers(posgame: str, game: pathlib.Path, certificate: pathlib.Path) -> Iterator[str]:
    """Yields what is wrong by each of the two checkers with a certificate."""
    words = kit.family_of(game.read_text(encoding="ascii"))
    done = kit.run(posgame, *words, "check", game, certificate)
    if not done.is_accepted:
        yield f"check: {done.said or done.errors:.200}"
    try:
        second.check(game.read_bytes(), certificate.read_bytes())
    except second.Fault as fault:
        yield f"again: {fault}"


def settle(given: argparse.Namespace, text: str, *flags: object, most: int = 0) -> Settled:
    """Settles a game, and has the certificate checked, if one was stored."""
    with kit.files(game=text) as folder:
        paths = folder / "game", folder / "certificate"
        done = kit.run(given.program, *paths, *flags, most=most)
        stored = paths[1].exists()
        wrong = [*checkers(given.posgame, *paths)] if stored else []
        if stored != (done.status == 0):
            wrong.append(f"status {done.status}, and {'a' if stored else 'no'} certificate")
        return Settled(done, stored, wrong)


def settled_board(it: Board, given: argparse.Namespace) -> Settled:
    """Settles a board, in ten times its limit of seconds and some more."""
    return settle(given, it.text, most=int(10 * SECONDS * it.seconds) + 20)


def settle_boards(given: argparse.Namespace) -> int:
    """Prints the table of the boards, and returns the status."""
    rows = [board(it) for it in ROW.findall(kit.data("settling.txt"))]
    rows = [*kit.named(given.only, rows)]
    table = kit.Table("board", "result", "expanded", "nodes", "limit", kit.Column("s", ".2f"),
                      kit.Column("limit", ".2f"), kit.Column("MB", limit=MEGABYTES))
    with concurrent.futures.ThreadPoolExecutor(given.jobs) as pool:
        for row, it in zip(rows, pool.map(settled_board, rows, itertools.repeat(given))):
            nodes, seconds = int(NODES * row.nodes), SECONDS * row.seconds
            wrong = it.wrong + [f"{it.result}, not {row.result}"] * (it.result != row.result)
            expanded, stored = (*it.counts, None, None)[:2]
            table.row(row.name, it.result, expanded, stored and (stored, nodes), nodes,
                      (it.run.processor, seconds), seconds, it.run.megabytes, wrong=wrong)
    return table.end()


class Small(NamedTuple):
    """A small game with its result by brute force."""

    name: str
    text: str
    kind: str
    result: str


def small_game(kind: str, number: int) -> Small:
    """Draws a game of 4 to 9 points, and decides it by brute force.

    >>> it = small_game("maker-breaker", 1)
    >>> it.name, it.result, it.text == small_game("maker-breaker", 1).text
    ('maker-breaker, random game 1', 'breaker', True)
    """
    draws = kit.Draws(1 + number + 1_000_000 * [*kit.KINDS].index(kind))
    text = same_search.random_game(draws, kind, 9)
    found: dict[str, list[list[int]]] = collections.defaultdict(list)
    for key, *words in map(str.split, text.splitlines()[2:-1]):
        found[key].append([int(it) for it in words])
    turn, (bias,) = text.split()[-1], *found.get("bias", [[1]])
    game = kit.LineGame(kind, *found["points"][0], found["line"], bias)
    x, y = (frozenset(*found.get(side, [[]])) for side in "xy")
    score = game.value(x, y, turn, bias if turn == "y" else 1)
    return Small(f"{kind}, random game {number}", text, kind, RESULTS[kind][score])


def tried(it: Small, given: argparse.Namespace) -> tuple[str, list[str], int]:
    """Settles a small game. Returns its kind, what is wrong, and how many budgets of 1 left it
    open."""
    wrong, still_open = [], 0
    for flags in "", "--images", *(f"{it} 1" for it in BUDGETS):
        done = settle(given, it.text, *flags.split())
        is_open = done.is_open and flags.endswith(" 1")
        still_open += is_open
        problems = [*done.wrong]
        problems += [] if is_open or done.result == it.result else [f"not {it.result}"]
        if flags == "--positions 1" and max(done.counts[:1], default=0) > 1:
            problems.append("more than one position")
        if flags == "--nodes 1" and max(done.counts[1:], default=0) > 1:
            problems.append("more than one node")
        wrong += [f"{it.name} {flags}: {done.result}, {problem}" for problem in problems]
    return it.kind, wrong, still_open


BOARD = kit.game("maker-breaker", "points 3", "line 0 1", "line 1 2")
# Arguments without a meaning; GAME and CERT are names of files.
WORDS = ("", "GAME", "GAME CERT CERT", "GAME CERT --position 5", "GAME CERT --positions",
         "GAME CERT --positions 0", "GAME CERT --positions 100000001", "GAME CERT --positions 1.5",
         "GAME CERT --positions -1", "GAME CERT --entries 0", "GAME CERT --entries 100000001",
         "GAME CERT --nodes 0", "GAME CERT --nodes 200001", "GAME CERT --nodes x",
         "GAME CERT --positions 5 --positions 5", "GAME CERT --images=1", "solve GAME CERT",
         "GAME CERT --side x")
# Arguments with a meaning.
MEANT = ("GAME CERT", "--positions=5 GAME CERT --entries 9 --nodes=7", "--images -- GAME CERT",
         "GAME --positions 100000000 CERT", "--entries 100000000 --nodes 200000 GAME CERT")
# Faulty game files.
FAULTS = ("", "posgame 2\n", BOARD.replace("posgame 1", "posgame-span 1"), "\tx\n",
          BOARD.replace("turn", "turns"), BOARD.replace("line 0 1", "bias 1 1"),
          BOARD.replace("line 0 1", "line 0 3"), BOARD.replace("line 0 1", "line 0 0"),
          BOARD.replace("line 0 1", "line"), BOARD.replace("points 3", "points 257"),
          BOARD.replace("turn x\n", ""), BOARD + "line 0 1\n",
          BOARD.replace("points 3", "grid 3 1\nshape 10/01"), kit.switching((3, []), (1, 1)),
          "#" * 4_194_305)


def ended(words: Iterable[object], folder: pathlib.Path) -> tuple[str, int, list[str]]:
    """Runs a program; returns what it prints, its status, and the files that it leaves."""
    done = kit.run(*words, folder=folder)
    return done.output, done.status, sorted(it.name for it in folder.iterdir())


def words_and_files(given: argparse.Namespace) -> Iterator[str]:
    """Yields what is wrong with runs on arguments and files that mean nothing, and on some that
    do."""
    for words in WORDS:
        with kit.files(GAME=BOARD) as folder:
            found = ended([given.program, *words.split()], folder)
        if found != ("", 2, ["GAME"]):
            yield f"{words or 'no words'}: {found!r:.200}"
    for text in FAULTS:
        with kit.files(GAME=text) as folder:
            found = ended([given.program, "GAME", "CERT"], folder)
            due = ended([given.posgame, "solve", "GAME", "CERT"], folder)
        if found != due or due[1] != 3:
            yield f"{text!r:.60}: {found!r:.200} in place of {due!r:.200}"
    for words, status in (("none CERT", 5), (". CERT", 5), ("GAME none/CERT", 6), ("GAME .", 6)):
        with kit.files(GAME=BOARD) as folder:
            found = ended([given.program, *words.split()], folder)
        if found != ("", status, ["GAME"]):
            yield f"{words}: {found!r:.200}"
    for words in MEANT:
        with kit.files(GAME=BOARD) as folder:
            found = ended([given.program, *words.split()], folder)
        if found[1:] != (0, ["CERT", "GAME"]) or not found[0].startswith("result maker\n"):
            yield f"{words}: {found!r:.200}"


def try_random(given: argparse.Namespace) -> int:
    """Settles random games, prints a table of them, and returns the status."""
    games = [small_game(kind, number) for kind in kit.KINDS if given.only in kind
             for number in range(given.random)]
    with concurrent.futures.ThreadPoolExecutor(given.jobs) as pool:
        done = [*pool.map(tried, games, itertools.repeat(given))]
    table = kit.Table("random games", "games", "runs", "open with a budget of 1")
    for kind, name in kit.KINDS.items():
        of_kind = [it for it in done if it[0] == kind]
        table.row(name, len(of_kind), 5 * len(of_kind), sum(it[2] for it in of_kind))
        table.wrong += [problem for it in of_kind for problem in it[1]]
    wrong = [*words_and_files(given)]
    count = len(WORDS) + len(FAULTS) + len(MEANT) + 4
    print(f"\n{count} runs on arguments and files: {len(wrong)} not as expected")
    table.wrong += wrong
    return table.end()


def main() -> int:
    given = kit.options(
        __doc__, "posgame_settle", posgame=(str(kit.built("posgame")), "the program posgame"),
        only=("", "rows with this word in their name"), jobs=(1, "runs at once"),
        random=(0, "how many random games of each kind"))
    given.posgame = kit.program_path(given.posgame)
    return try_random(given) if given.random else settle_boards(given)


if __name__ == "__main__":
    raise SystemExit(main())
