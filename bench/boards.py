#!/usr/bin/env python3
"""Settles the boards of boards/families.txt, and compares what comes of them with
boards/boards.csv.

    bench/boards.py --jobs N [--family NAMES] [--resume] [--write] [--open] [--budgets OPTIONS]
    bench/boards.py --board FAMILY/NAME
    bench/boards.py --list [--family NAMES]
    bench/boards.py --page

Each board is a job: `posgame solve` gets it first, and `posgame-settle` if that leaves it open.
Both `posgame check` and the second checker, in python/, must accept the certificate, and its claims
must imply the result. The game, the certificate and the row are stored below --out, whole or not at
all, the row last. GNU parallel runs the jobs if it is there, with a joblog, and with --resume goes
on where it was stopped; else this script does both by itself.

At the end all cells but the seconds and the program must be those of boards.csv. --write stores the
rows there in place of the old ones, keeps small certificates in boards/certificates/, and writes
docs/BOARDS.md; --page only writes that page. The options of posgame-settle are --budgets, or else
those in boards.csv, those of the family, or the usual ones; --open takes only boards that are open
in boards.csv or aren't there. Budgets are counts; --seconds stops a job that takes more of a
processor, and such a job leaves no row. Unproved.
"""
from __future__ import annotations

import argparse
import concurrent.futures
import dataclasses
import json
import pathlib
import re
import shlex
import subprocess
import sys
from typing import Iterator, Optional, Sequence

import catalogue
import families
import kit
import settling
from settling import second

POSITIONS = 20_000
SETTLE = "--positions 1000000 --entries 1000000"
ANSWER = re.compile(r"(?:result|class) (\S+)|unknown after (\d+) positions")
SCRIPT = pathlib.Path(__file__).resolve()


class Failed(Exception):
    """Why a job has no row."""


@dataclasses.dataclass(frozen=True)
class Paths:
    """The files of a job: the game, the certificate, and the row of the CSV in JSON."""

    game: pathlib.Path
    certificate: pathlib.Path
    row: pathlib.Path

    @classmethod
    def of(cls, out: str, key: str) -> Paths:
        """Returns the paths of a board below a folder."""
        return cls(*(pathlib.Path(out, f"{key}.{it}") for it in ("game", "cert", "json")))


@dataclasses.dataclass(frozen=True)
class Found:
    """What a run found: the result, how many positions were expanded, if that was printed, the
    seconds of a processor, the program with its version, and its budgets."""

    result: str
    expanded: Optional[int]
    seconds: float
    found_by: str
    budgets: str


# One board.


def by_posgame(paths: Paths, text: str, given: argparse.Namespace) -> Found:
    """Solves a game by posgame."""
    is_on_lines = re.search("^kind (?!switching)", text, re.MULTILINE)
    budgets = f"--positions {POSITIONS}" if is_on_lines else ""
    words = [*kit.family_of(text), "solve", paths.game, paths.certificate, *budgets.split()]
    done = kit.run(given.posgame, *words, most=given.seconds)
    found = ANSWER.fullmatch(done.said)
    if not found or done.status != (0 if found[1] else 1):
        raise Failed(f"posgame ended with status {done.status}: {done.said:.100}")
    version = (kit.TOP / "VERSION").read_text(encoding="ascii").strip()
    return Found(found[1] or catalogue.OPEN, int(found[2]) if found[2] else None, done.processor,
                 f"posgame {version}", budgets)


def by_settle(paths: Paths, budgets: str, given: argparse.Namespace) -> Found:
    """Settles a game by posgame-settle."""
    words = [paths.game, paths.certificate, *budgets.split(), "--json"]
    done = kit.run(given.settle, *words, most=given.seconds)
    if done.status not in (0, 1):
        raise Failed(f"posgame-settle ended with status {done.status}: {done.said:.100}")
    said = json.loads(done.output)
    if (said["answer"] == "none") != (done.status == 1):
        raise Failed(f"posgame-settle ended with status {done.status}: {done.said:.100}")
    return Found(said["result"], said["expanded"], done.processor,
                 f"posgame-settle {said['version']}", budgets)


def row_of(board: families.Board, found: Found, certificate: bytes) -> catalogue.Row:
    """Returns the row of a board, with the bytes of its certificate, or none if it stays open."""
    header = board.text.split()[0]
    game = second.read_game(board.text.encode(), header)
    kind = "connectivity" if header == "posgame-span" else game.kind
    begins = "either" if kind in catalogue.ON_GRAPHS else catalogue.SIDES[kind][game.turn == "y"]
    text = certificate.decode("ascii")
    claims = [it if it.count(" ") == 2 else f"{it} win"
              for it in re.findall(r"^claim (.*)$", text, re.MULTILINE)]
    nodes = sum(map(int, re.findall(r"^nodes (\d+)$", text, re.MULTILINE))) or len(claims)
    return catalogue.Row(
        board.family, board.name, kind, game.bias, begins, game.points, len(game.lines),
        found.result, "; ".join(claims), int(text.split()[1]) if text else None, nodes or None,
        len(certificate) or None, found.expanded, found.seconds, found.found_by, found.budgets,
        catalogue.sum_of(board.text.encode()), catalogue.sum_of(certificate) if text else "",
        catalogue.known(board.key))


def settled(board: families.Board, budgets: str, given: argparse.Namespace) -> catalogue.Row:
    """Settles a board, has the certificate checked, stores the row, and returns it."""
    paths = Paths.of(given.out, board.key)
    for path in dataclasses.astuple(paths):
        path.unlink(missing_ok=True)
    catalogue.store(paths.game, board.text.encode())
    found = by_posgame(paths, board.text, given)
    if found.result == catalogue.OPEN:
        found = by_settle(paths, budgets, given)
    certificate = paths.certificate.read_bytes() if paths.certificate.exists() else b""
    row = row_of(board, found, certificate)
    wrong = [*catalogue.problems(row)]
    wrong += settling.checkers(given.posgame, paths.game, paths.certificate) if certificate else []
    if wrong:
        raise Failed("; ".join(wrong))
    catalogue.store(paths.row, json.dumps(row.cells(), indent=1).encode())
    return row


def usual(board: families.Board) -> str:
    """Returns the options of posgame-settle for a board, if none are given: those of its row in
    boards.csv, of its family, or the usual ones."""
    row, (family,) = catalogue.read_rows().get(board.key), families.chosen(board.family)
    stored = row.budgets if row and row.found_by.startswith("posgame-settle ") else ""
    return stored or family.options(board.name) or SETTLE


def job(given: argparse.Namespace) -> int:
    """Settles the board --board, and returns the status."""
    board = families.board_of(given.board)
    try:
        row = settled(board, given.budgets or usual(board), given)
    except Failed as why:
        return kit.end([f"{board.key}: {why}"])
    print(f"{board.key}: {row.result}, {row.found_by}, {row.seconds:.2f} s", flush=True)
    return 0


# Many boards.


def command(given: argparse.Namespace) -> list[str]:
    """Returns the command of a job, without its board."""
    same = ("posgame", "settle", "out", "seconds", "budgets")
    words = [f"--{name}={getattr(given, name)}" for name in same if getattr(given, name)]
    return [sys.executable, str(SCRIPT), *words]


def without_row(keys: Sequence[str], given: argparse.Namespace) -> list[str]:
    """Returns the boards whose jobs have stored no row."""
    return [key for key in keys if not Paths.of(given.out, key).row.exists()]


def by_parallel(keys: Sequence[str], given: argparse.Namespace) -> None:
    """Runs the jobs by GNU parallel, whose joblog says which have ended; if there is no joblog,
    those of boards without a row."""
    name = "-".join(["joblog", *[given.family] * (given.family != ""), *["open"] * given.open])
    log = pathlib.Path(given.out, name)
    words = ["parallel", f"--jobs={given.jobs}", f"--joblog={log}"]
    goes_on = given.resume and log.exists()
    words += ["--resume-failed"] if goes_on else []
    left = keys if goes_on else without_row(keys, given)
    subprocess.run([*words, f"{shlex.join(command(given))} --board {{}}"],
                   input="".join(f"{key}\n" for key in left), text=True, check=False)


def by_itself(keys: Sequence[str], given: argparse.Namespace) -> None:
    """Runs the jobs of boards without a row."""
    def run(key: str) -> None:
        subprocess.run([*command(given), "--board", key], check=False)

    with concurrent.futures.ThreadPoolExecutor(given.jobs) as pool:
        list(pool.map(run, without_row(keys, given)))


def run_jobs(keys: Sequence[str], given: argparse.Namespace) -> None:
    """Runs the jobs of these boards; without --resume, all of them."""
    pathlib.Path(given.out).mkdir(parents=True, exist_ok=True)
    for key in [] if given.resume else keys:
        Paths.of(given.out, key).row.unlink(missing_ok=True)
    (by_parallel if kit.has_parallel() else by_itself)(keys, given)


def found_rows(keys: Sequence[str], out: str) -> dict[str, catalogue.Row]:
    """Returns the rows that jobs have stored, by the keys of their boards."""
    paths = {key: Paths.of(out, key).row for key in keys}
    return {key: catalogue.row_of(json.loads(path.read_text(encoding="utf-8")))
            for key, path in paths.items() if path.exists()}


def differences(row: catalogue.Row, old: Optional[catalogue.Row]) -> Iterator[str]:
    """Yields what differs between a row and that of boards.csv."""
    if old is None:
        yield f"{row.key}: boards.csv has no such row"
        return
    cells = old.cells()
    for name, text in row.cells().items():
        if name not in ("seconds", "found_by") and text != cells[name]:
            yield f"{row.key}: {name} {text}, and {cells[name]} in boards.csv"


def write(rows: dict[str, catalogue.Row], out: str) -> None:
    """Stores rows in boards.csv, small certificates, and the page."""
    for key, row in rows.items():
        kept = catalogue.CERTIFICATES / f"{key}.cert"
        kept.unlink(missing_ok=True)
        if row.bytes and row.bytes <= catalogue.KEPT:
            catalogue.store(kept, Paths.of(out, key).certificate.read_bytes())
    catalogue.write_rows({**catalogue.read_rows(), **rows})
    write_page()


def write_page() -> None:
    """Writes docs/BOARDS.md."""
    catalogue.store(catalogue.PAGE, catalogue.page(catalogue.read_rows()).encode())


def settle_all(given: argparse.Namespace) -> int:
    """Settles the boards of a family, or of all; returns the status."""
    old = catalogue.read_rows()
    of_family = {it.title: [board.key for board in it.boards if not given.open
                            or board.key not in old or old[board.key].is_open]
                 for it in families.chosen(given.family)}
    keys = [key for those in of_family.values() for key in those]
    run_jobs(keys, given)
    rows = found_rows(keys, given.out)
    for title, those in of_family.items():
        done = [rows[key] for key in those if key in rows]
        print(f"{title}: {sum(not it.is_open for it in done)} of {len(those)} settled, "
              f"{sum(it.seconds for it in done):.0f} s of a processor", flush=True)
    wrong = [f"{key}: no row" for key in keys if key not in rows]
    if given.write:
        write(rows, given.out)
    else:
        wrong += [it for key, row in rows.items() for it in differences(row, old.get(key))]
    return kit.end(wrong)


def main() -> int:
    given = kit.options(
        __doc__, None, jobs=(1, "jobs at once"), family=("", "these families alone, with commas"),
        board=("", "this board alone, FAMILY/NAME"), list=(False, "print the boards"),
        resume=(False, "go on after a run that was stopped"), write=(False, "store the rows"),
        open=(False, "boards that are open or have no row alone"),
        page=(False, "write docs/BOARDS.md"), out=(str(families.FOLDER / "out"), "the folder"),
        posgame=(str(kit.built("posgame")), "the program posgame"),
        settle=(str(kit.built("posgame_settle")), "the program posgame-settle"),
        budgets=("", "options of posgame-settle, in one word"),
        seconds=(0, "the most processor seconds of a run, or 0"))
    try:
        families.chosen(given.family)
    except KeyError as name:
        return kit.end([f"there is no family {name}"])
    if given.page:
        write_page()
        return 0
    if given.list:
        print(*(board.key for it in families.chosen(given.family) for board in it.boards), sep="\n")
        return 0
    given.posgame, given.settle = map(kit.program_path, (given.posgame, given.settle))
    return job(given) if given.board else settle_all(given)


if __name__ == "__main__":
    raise SystemExit(main())
