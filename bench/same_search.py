#!/usr/bin/env python3
"""Compares two programs posgame, such as those before and after a change of the search.

    bench/same_search.py OLD NEW [--random N] [--seed N] [--only WORD] [--positions N] [--jobs N]

Both solve the boards of boards/families.txt and N random games on lines of all kinds and biases.
What they print, their statuses and their certificates must be the same to the byte. `review` prints
what is expanded, so it is compared too, on a record of random moves of each random game in which Y
claims one point a turn. The status is 1 if anything differs. Unproved.
"""
from __future__ import annotations

import argparse
import concurrent.futures
import itertools
import os
import re
from collections.abc import Iterator

import families
import kit

KINDS = ("maker-breaker", "maker-maker", "avoider-enforcer")


def random_game(draws: kit.Draws, kind: str = "", most: int = 15) -> str:
    """Draws a game of 4 to `most` points with 1 to 24 lines, some of them with marks; its kind too,
    unless it is given.

    >>> print(random_game(kit.Draws(1)).splitlines()[:2])
    ['posgame 1', 'kind avoider-enforcer']
    """
    kind, points = kind or KINDS[draws.below(3)], 4 + draws.below(most - 3)
    bias = 1 + draws.below(3) * draws.below(2) * (kind != "maker-maker")
    size = 2 + draws.below(min(4, points - 2))
    lines = kit.scatter(draws.below(2**20), points, 1 + draws.below(24), size)
    marks = [{v for v in range(points) if draws.below(8) == 0} for _ in range(2)]
    marks = [marks[0], marks[1] - marks[0]] if draws.below(2) else [set(), set()]
    rows = [f"points {points}", *[f"bias {bias}"] * (bias > 1), *kit.line_rows(lines)]
    return kit.game(kind, *rows, *kit.mark_rows(*marks), turn="xy"[draws.below(2)])


def record(text: str, draws: kit.Draws) -> str:
    """Draws up to six moves to different free points of a game.

    >>> text = kit.game("maker-breaker", "points 3", "line 0 1", "x 2")
    >>> print(record(text, kit.Draws(1)), end="")
    posgame-record 1
    move 0
    move 1
    """
    points = int(re.findall(r"^points (\d+)$", text, re.MULTILINE)[0])
    taken = {int(v) for row in re.findall(r"^[xy] (.*)$", text, re.MULTILINE) for v in row.split()}
    free = [v for v in range(points) if v not in taken]
    moves = [free.pop(draws.below(len(free))) for _ in range(min(6, len(free)))]
    return "".join(["posgame-record 1\n", *(f"move {v}\n" for v in moves)])


def answers(program: str, text: str, moves: str, flags: list[object]) -> list[object]:
    """Returns what a program answers: what it prints with its status, and what it stores."""
    with kit.files(game=text, record=moves) as folder:
        paths, stored = (folder / "game", folder / "certificate"), folder / "certificate"
        solved = kit.run(program, *kit.family_of(text), "solve", *paths, *flags)
        told: list[object] = [solved.output, solved.status]
        told.append(stored.read_bytes() if stored.exists() else None)
        if moves:
            reviewed = kit.run(program, "review", folder / "game", folder / "record", *flags)
            told += [reviewed.output, reviewed.status]
        return told


def compared(case: tuple[str, str, str], given: argparse.Namespace) -> str:
    """Returns what differs between the programs on a game with a record, or nothing."""
    name, text, moves = case
    has_lines = re.search("^kind (?!switching)", text, re.MULTILINE)
    flags: list[object] = ["--positions", given.positions] if has_lines else []
    old, new = (answers(it, text, moves, flags) for it in (given.old, given.new))
    return "" if old == new else f"{name}: {old!r:.200} and {new!r:.200}"


def cases(given: argparse.Namespace) -> Iterator[tuple[str, str, str]]:
    """Yields the games, each with its name and a record, which may be empty."""
    for family in families.families():
        if given.only in family.title:
            yield from ((it.key, it.text, "") for it in family.boards)
    draws = kit.Draws(given.seed)
    for k in range(given.random):
        text = random_game(draws)
        moves = "" if "\nbias " in text else record(text, draws)
        yield f"random game {k}", text, moves


def main() -> int:
    words = kit.parser(__doc__, None)
    words.add_argument("old", metavar="OLD", type=kit.program_path, help="one program")
    words.add_argument("new", metavar="NEW", type=kit.program_path, help="the other one")
    words.add_argument("--random", type=int, default=500, help="how many random games")
    words.add_argument("--seed", type=int, default=1, help="from which they are drawn")
    words.add_argument("--only", default="", help="families with this in their title")
    words.add_argument("--positions", type=int, default=2_000, help="most positions a question")
    words.add_argument("--jobs", type=int, default=os.cpu_count(), help="runs at once")
    given = words.parse_args()
    all_cases = [*cases(given)]
    with concurrent.futures.ThreadPoolExecutor(given.jobs) as pool:
        found = [*pool.map(compared, all_cases, itertools.repeat(given))]
    wrong = [it for it in found if it]
    print(f"{len(found)} games, {len(wrong)} differ")
    return kit.end(wrong)


if __name__ == "__main__":
    raise SystemExit(main())
