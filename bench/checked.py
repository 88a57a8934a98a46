#!/usr/bin/env python3
"""Counts how often a review calls the checker: as often as it finds a certificate.

    bench/checked.py [PROGRAM]

No clause can show that a review checks what it relies on, since solving promises that it is valid.
Callgrind counts the calls, by the name of the checker's function, in runs of `posgame review`. By
`posgame solve` the script finds how many there must be: it solves the position before the first
move, and each later one unless the last certificate has a node with that position in each of its
claims. Its examples are tried by `bench/test_examples.py`. Unproved.
"""
from __future__ import annotations

import re

import drawn
import kit
from memory import TEXTS

# The function that begins each check of a whole certificate.
CHECKER = "pg_check::checking::Checking::begin"
NOUGHTS = kit.game("maker-maker", "points 9", *kit.line_rows(kit.in_row(3, 3, 3)))
# Each row: what the game is, its file, and the moves.
ROWS = [
    ("two lines", TEXTS["TWO_LINES"], [1, 2, 0]),
    ("two lines, no move", TEXTS["TWO_LINES"], []),
    ("Avoider and Enforcer", TEXTS["AVOIDED"], [0, 1, 2]),
    ("a triangle", TEXTS["TRIANGLE"], [1, 2, 0]),
    ("noughts and crosses, without a slip", NOUGHTS, [4, 0, 8, 1, 2, 6]),
    ("noughts and crosses, with a slip of each side", NOUGHTS, [0, 1, 4, 8, 2, 6, 3]),
]


def is_known(certificate: str, place: drawn.Place) -> bool:
    """Tells whether each claim of a certificate has a node at the place.

    >>> known = "posgame-cert 1\\nclaim y x win\\nnodes 1\\n0 1||y|over\\n"
    >>> [is_known(known, drawn.Place(frozenset([1, 0]), frozenset(), turn)) for turn in "xy"]
    [False, True]
    """
    begin = "\n" + drawn.row(place, "").rstrip("\n")
    return all(begin in claim for claim in certificate.split("\nclaim ")[1:])


def solved(program: str, game: str, place: drawn.Place) -> str:
    """Solves a game without marks at a place, and returns the certificate."""
    rows = [*game.splitlines()[:-1], *kit.mark_rows(place.x, place.y), f"turn {place.turn}", ""]
    return kit.solved(program, "\n".join(rows))[1]


def due(program: str, game: str, moves: list[int]) -> int:
    """Returns how many certificates a review of the moves relies on."""
    place = drawn.Place(frozenset(), frozenset(), game.split()[-1])
    known, found = solved(program, game, place), 1
    for point in moves:
        place = place.after(point)
        if not is_known(known, place):
            known, found = solved(program, game, place), found + 1
    return found


def calls(counts: str) -> int:
    """Returns how often the checker was called, by the file that callgrind wrote.

    >>> calls(f"fn=(1) main\\n0 9\\ncfn=(2) {CHECKER}\\ncalls=3 0\\n0 9\\nfn=(2)\\n0 9\\n")
    3
    """
    checkers = re.findall(rf"^c?fn=\((\d+)\) {CHECKER}", counts, re.M)
    if not checkers:
        raise SystemExit(f"the program has no function {CHECKER}, or didn't call it")
    called = re.findall(r"^cfn=\((\d+)\).*\ncalls=(\d+)", counts, re.M)
    return sum(int(times) for number, times in called if number in checkers)


def counted(program: str, game: str, moves: list[int]) -> tuple[int, str]:
    """Returns how often a review of the moves calls the checker, and what it prints."""
    record = "\n".join(["posgame-record 1", *(f"move {point}" for point in moves), ""])
    with kit.files(game=game, record=record) as folder:
        words, counts = (program, "review", folder / "game", folder / "record"), folder / "counts"
        said = kit.count(*words, counts=counts).output
        return calls(counts.read_text(encoding="utf-8")), said


def main() -> int:
    """Prints a line for each row, and returns 1 if a number of calls isn't as it should be."""
    program = kit.options(__doc__).program
    table = kit.Table("review", "certificates checked")
    for name, game, moves in ROWS:
        wanted, (found, said) = due(program, game, moves), counted(program, game, moves)
        wrong = [f"{found} checked, and not {wanted}"] * (found != wanted)
        wrong += [f"not reviewed: {said}"] * (not said.endswith(f"reviewed {len(moves)}"))
        table.row(name, found, wrong=wrong)
    return table.end()


if __name__ == "__main__":
    raise SystemExit(main())
