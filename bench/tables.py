"""The tables that books of connectivity games and of games on vectors must have, read from the
files of a game and of a certificate apart from the crates. `bench/pages.py` compares them."""
from __future__ import annotations

from typing import NamedTuple

NAMES = {"posgame-span": ("Maker", "Breaker"), "posgame-vectors": ("Short", "Cut")}
HEADS = {"posgame-span": ["Edge", "Between", "Whose", "In the proof"],
         "posgame-vectors": ["Vector", "Entries", "Whose", "Set"]}


class Points(NamedTuple):
    """The points of a game: its kind, what each is, and the sides' points."""

    kind: str
    words: list[str]
    sides: tuple[set[int], set[int]]


def rows_of(text: str) -> list[list[str]]:
    """Returns the words of each line of a file that has any and is no remark."""
    lines = (line.split("#")[0].split() for line in text.splitlines())
    return [line for line in lines if line]


def points_of(game: str) -> Points:
    """Returns the points of a game of one of the two kinds."""
    rows = rows_of(game)
    words = [" and ".join(row[1:]) for row in rows if row[0] in ("edge", "vector")]
    x, y = ({int(it) for row in rows if row[0] == side for it in row[1:]} for side in "xy")
    return Points(rows[0][0], words, (x, y))


def bodies_of(cert: str) -> list[list[str]]:
    """Returns the words of each claim's body."""
    rows = [line.rsplit("|", 1)[-1].split() for line in cert.splitlines()]
    return [row for row in rows if row and row[0] in ("trees", "cuts", "parts")]


def role(body: list[str], number: int, ends: list[str]) -> str:
    """Returns what a point is in a claim, by the words of the claim's body."""
    if body[0] == "parts":
        parts = [body[1 + int(end)] for end in ends]
        return "inside a part" if parts[0] == parts[1] else "between parts"
    words, name = body[1:], str(number)
    if words[0] == "first":
        if words[1] == name:
            return "claimed first"
        words = words[2:]
    middle = words.index("/")
    return "first" if name in words[:middle] else "second" if name in words[middle:] else ""


def whose(points: Points, number: int) -> str:
    """Returns whose a point is."""
    for side, name in zip(points.sides, NAMES[points.kind]):
        if number in side:
            return name
    return "free"


def tables_of(game: str, cert: str) -> list[list[list[str]]]:
    """Returns the table of each claim's page, with the headings of its columns."""
    points = points_of(game)
    return [[HEADS[points.kind]] + [
        [str(number), words, whose(points, number), role(body, number, words.split(" and "))]
        for number, words in enumerate(points.words)] for body in bodies_of(cert)]


def is_family(game: str) -> bool:
    """Returns whether a game's file is one of the two kinds."""
    rows = rows_of(game)
    return bool(rows) and rows[0][0] in HEADS
