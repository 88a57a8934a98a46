#!/usr/bin/env python3
"""Splits games, settles their positions in two processes, and joins the certificates.

    bench/joining.py [PROGRAM] [--posgame PROGRAM] [--only WORD]

Boards: the game is split, and then in rounds the most telling positions that are needed are
settled, those that stay open are split further, and what certificates there are is joined, until
that settles the game. Both checkers must accept the joined certificate.

`killed`: in each of twenty runs, workers are killed at random moments and begin again; whatever
certificates there are, joining gives the same result or none, and at the end the same bytes.

`broken off`: in each of twenty runs, `split` is killed at a random moment and begins again: each
file is there whole or not at all, the plan only with all others, and at the end all have the same
bytes.

`many`: 10,000 positions are split and joined within 60 seconds and 500 MB; the time in which they
are settled doesn't count. Unproved.
"""
from __future__ import annotations

import argparse
import concurrent.futures
import os
import pathlib
import random
import re
import signal
import subprocess
import tempfile
import time
from typing import Iterator, NamedTuple, Optional, Sequence

import families
import kit
import settling

WORKERS = 2
SECONDS, MEGABYTES = 60, 500
# How many positions are settled between two joins, and after how many rounds a board is given up.
BATCH, ROUNDS = 16, 400
KILLS = 20
NEED = re.compile(r"^(\d{5})\.game (missing|faulty|foreign|open)$", re.MULTILINE)


class Board(NamedTuple):
    """A board: its row, the text of its game, how many positions it is split into at most, the
    limits of a run on one of them, the result, and after how many seconds a run is killed at
    most."""

    name: str
    text: str
    most: int
    limits: tuple[str, ...]
    result: str
    longest: float


def boards() -> list[Board]:
    """Returns the boards. Of the first two, workers are killed."""
    fatty = next(families.animal("maker-breaker", "110/011/010", 5))
    paths = next(families.hex_board("maker-breaker", 5))
    plane = next(families.planes("avoider-enforcer", "projective", 3))
    few = ("--positions", "2000")
    return [Board("F pentomino, 5 by 5, Maker-Breaker", fatty.text, 40, (), "breaker", 0.02),
            Board("Hex as lines, 5 by 5, Maker-Breaker", paths.text, 400, few, "maker", 0.2),
            Board("projective plane of order 3, Avoider-Enforcer", plane.text, 400, few,
                  "enforcer", 0.1)]


class Folder:
    """A game, and the folder into which it is split."""

    def __init__(self, given: argparse.Namespace, top: pathlib.Path, text: str) -> None:
        self.given, self.game, self.folder = given, top / "game", top / "folder"
        self.joined = top / "joined"
        self.game.write_text(text, encoding="ascii")
        self.folder.mkdir()
        self.seconds = {"split": 0.0, "settle": 0.0, "join": 0.0}
        self.megabytes = 0

    def call(self, command: str, *words: object) -> kit.Run:
        """Calls a command on the game and the folder, and adds up time and memory."""
        done = kit.run(self.given.program, command, self.game, self.folder, *words)
        self.seconds[command] += done.seconds
        self.megabytes = max(self.megabytes, done.megabytes)
        return done

    def split(self, most: int) -> int:
        """Splits the game, or the positions further that stay unknown; returns how many there
        are of new ones."""
        done = self.call("split", "--most", most)
        said = re.fullmatch(r"positions (\d+) depth \d+\n", done.output)
        if done.status or not said:
            raise ValueError(f"split: status {done.status}: {done.said or done.errors:.200}")
        return int(said[1])

    def join(self) -> kit.Run:
        """Joins what certificates there are."""
        self.joined.unlink(missing_ok=True)
        return self.call("join", self.joined)

    def command(self, name: str, limits: Sequence[str]) -> list[str]:
        """Returns the command that settles a position."""
        paths = [str(self.folder / f"{name}{end}") for end in (".game", ".cert")]
        return [self.given.program, *paths, *limits]

    def settle(self, names: Sequence[str], limits: Sequence[str]) -> None:
        """Settles positions, two at once."""
        begin = time.monotonic()
        with concurrent.futures.ThreadPoolExecutor(WORKERS) as pool:
            runs = pool.map(lambda it: kit.run(*self.command(it, limits)).status, names)
            if wrong := {*runs} - {0, 1}:
                raise ValueError(f"settle: statuses {wrong}")
        self.seconds["settle"] += time.monotonic() - begin


def result_of(done: kit.Run) -> str:
    """Returns the result that joining printed, or nothing."""
    said = re.match(r"result (\w+)\nexpanded 0 nodes \d+\n\Z", done.output)
    return said[1] if said else ""


def nodes_of(done: kit.Run) -> Optional[int]:
    """Returns how many nodes the joined certificate has."""
    said = re.search(r"nodes (\d+)", done.output)
    return int(said[1]) if said else None


def needed(done: kit.Run) -> list[str]:
    """Returns the positions that are needed, the most telling first."""
    said = re.match(r"unknown after 0 positions\nneeded (\d+) positions\n", done.output)
    names = [it[0] for it in NEED.findall(done.output)]
    if done.status != 1 or not said or int(said[1]) != len(names):
        raise ValueError(f"join: status {done.status}: {done.said or done.errors:.200}")
    return names


class Rounds(NamedTuple):
    """How a board was settled: the last join, and how many positions were written and settled, in
    how many rounds."""

    done: kit.Run
    positions: int
    runs: int
    rounds: int


def in_rounds(folder: Folder, board: Board) -> Rounds:
    """Splits, settles and joins until the game is settled."""
    positions, tried = folder.split(board.most), set[str]()
    for rounds in range(ROUNDS):
        done = folder.join()
        if done.status == 0:
            return Rounds(done, positions, len(tried), rounds)
        names = needed(done)
        left = [it for it in names if it not in tried][:BATCH]
        if left:
            folder.settle(left, board.limits)
            tried.update(left)
        elif not names or not (new := folder.split(board.most)):
            break
        else:
            positions += new
    return Rounds(done, positions, len(tried), rounds)


def settle_board(board: Board, given: argparse.Namespace, table: kit.Table) -> None:
    """Settles a board in rounds, and adds its row."""
    with tempfile.TemporaryDirectory() as name:
        folder = Folder(given, pathlib.Path(name), board.text)
        it = in_rounds(folder, board)
        result = result_of(it.done)
        wrong = [] if result == board.result else [f"{result or it.done.said}, not {board.result}"]
        if it.done.status == 0:
            wrong += settling.checkers(given.posgame, folder.game, folder.joined)
        table.row(board.name, result, it.positions, it.runs, it.rounds, nodes_of(it.done),
                  *folder.seconds.values(), folder.megabytes, wrong=wrong)


# Workers that are killed.


def work(folder: Folder, names: list[str], dice: random.Random, board: Board) -> None:
    """Settles positions in two processes, each of which is killed at a random moment by one chance
    in two; a position whose process was killed comes again."""
    running: list[tuple[str, subprocess.Popen[bytes], float]] = []
    while names or running:
        while names and len(running) < WORKERS:
            name = names.pop(0)
            words = folder.command(name, board.limits)
            process = subprocess.Popen(words, stdout=subprocess.DEVNULL)
            wait = dice.uniform(0, board.longest) if dice.random() < 0.5 else float("inf")
            running.append((name, process, time.monotonic() + wait))
        for it in [*running]:
            name, process, end = it
            if process.poll() is None and time.monotonic() < end:
                continue
            if process.poll() is None:
                process.send_signal(signal.SIGKILL)
                process.wait()
                names.append(name)
            running.remove(it)
        time.sleep(0.0005)


def killed_once(seed: int, given: argparse.Namespace, board: Board, due: bytes) -> Iterator[str]:
    """Kills workers in one run, and yields what changes by that: the result, or in the end a byte
    of the certificate."""
    dice = random.Random(seed)
    with tempfile.TemporaryDirectory() as name:
        folder = Folder(given, pathlib.Path(name), board.text)
        count = folder.split(board.most)
        names = [f"{it:05}" for it in range(1, count + 1)]
        dice.shuffle(names)
        for part in (names[:count // 2], names[count // 2:]):
            work(folder, [*part], dice, board)
            done = folder.join()
            if done.status != 1 and result_of(done) != board.result:
                yield f"run {seed}: {done.said}"
        if done.status or folder.joined.read_bytes() != due:
            yield f"run {seed}: another certificate: {done.said}"


def killed(board: Board, given: argparse.Namespace, table: kit.Table) -> None:
    """Kills workers at random in twenty runs, and adds the row."""
    with tempfile.TemporaryDirectory() as name:
        folder = Folder(given, pathlib.Path(name), board.text)
        count = folder.split(board.most)
        folder.settle([f"{it:05}" for it in range(1, count + 1)], board.limits)
        done = folder.join()
        due = folder.joined.read_bytes() if done.status == 0 else b""
    wrong = [] if due else [f"nothing to compare with: {done.said}"]
    for seed in range(KILLS):
        wrong += killed_once(seed, given, board, due)
    table.row(f"killed: {board.name}", result_of(done), count, count * (KILLS + 1), KILLS,
              nodes_of(done), None, None, None, None, wrong=wrong)


# Splitting that is broken off.


def files_in(folder: Folder) -> dict[str, bytes]:
    """Returns the bytes of the files in the folder, by their names."""
    return {path.name: path.read_bytes() for path in folder.folder.iterdir()}


def broken_off_once(seed: int, given: argparse.Namespace, board: Board, due: dict[str, bytes],
                    longest: float) -> Iterator[str]:
    """Kills a run that splits, and yields what is otherwise than `due`, then and at the end."""
    with tempfile.TemporaryDirectory() as name:
        folder = Folder(given, pathlib.Path(name), board.text)
        words = [given.program, "split", folder.game, folder.folder, "--most", str(board.most)]
        process = subprocess.Popen(words, stdout=subprocess.DEVNULL)
        time.sleep(random.Random(seed).uniform(0, longest))
        process.kill()
        process.wait()
        left = {it: text for it, text in files_in(folder).items() if ".posgame-part" not in it}
        if any(due.get(it) != text for it, text in left.items()):
            yield f"run {seed}: another file"
        if "plan" not in left:
            folder.split(board.most)
        if files_in(folder) != due:
            yield f"run {seed}: other files in the end"


def broken_off(given: argparse.Namespace, table: kit.Table) -> None:
    """Breaks splitting off at random in twenty runs, and adds the row."""
    board = boards()[1]
    with tempfile.TemporaryDirectory() as name:
        folder = Folder(given, pathlib.Path(name), board.text)
        count, due = folder.split(board.most), files_in(folder)
    wrong = [it for seed in range(KILLS)
             for it in broken_off_once(seed, given, board, due, folder.seconds["split"])]
    table.row(f"broken off: {board.name}", "", count, None, KILLS, None, folder.seconds["split"],
              None, None, folder.megabytes, wrong=wrong)


# Many positions.


def many(given: argparse.Namespace, table: kit.Table) -> None:
    """Splits a board into 10,000 positions and joins them, and adds the row."""
    text = kit.game("maker-breaker", "points 28", *kit.line_rows(families.progressions(4, 28)))
    with tempfile.TemporaryDirectory() as name:
        folder = Folder(given, pathlib.Path(name), text)
        count = folder.split(10_000)
        folder.settle([f"{it:05}" for it in range(1, count + 1)], ("--positions", "10000"))
        done = folder.join()
        wrong = [] if done.status <= 1 else [f"join: {done.said or done.errors:.200}"]
        seconds = folder.seconds["split"] + folder.seconds["join"]
        if seconds > SECONDS:
            wrong.append(f"{seconds:.1f} s above {SECONDS}")
        if done.status == 0:
            wrong += settling.checkers(given.posgame, folder.game, folder.joined)
        table.row("many: 4 terms of 1 to 28", result_of(done) or "unknown", count, count, 1,
                  nodes_of(done), *folder.seconds.values(), (folder.megabytes, MEGABYTES),
                  wrong=wrong)


def main() -> int:
    given = kit.options(
        __doc__, "posgame_settle", posgame=(str(kit.built("posgame")), "the program posgame"),
        only=("", "rows with this word in their name"))
    given.posgame = kit.program_path(given.posgame)
    os.environ["LC_ALL"] = "C"
    table = kit.Table("board", "result", "positions", "runs", "rounds", "nodes",
                      kit.Column("split s", ".2f"), kit.Column("settle s", ".1f"),
                      kit.Column("join s", ".2f"), kit.Column("MB", limit=MEGABYTES))
    for board in boards():
        if given.only in board.name:
            settle_board(board, given, table)
    for board in boards()[:2]:
        if given.only in f"killed: {board.name}":
            killed(board, given, table)
    for part in (broken_off, many):
        if given.only in part.__name__.replace("_", " "):
            part(given, table)
    return table.end()


if __name__ == "__main__":
    raise SystemExit(main())
