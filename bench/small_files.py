"""Readers of records, layouts and plans by docs/FORMATS.md, with which bench/fuzz.py compares the
programs. They share nothing with the crates; games are read by the second checker,
python/posgame/check.py. Tried by `bench/test_fuzz.py`. Unproved.
"""
from __future__ import annotations

import re
import sys
from typing import Callable, Iterable, Iterator, Optional

import kit

sys.path.insert(0, str(kit.TOP / "python"))

from posgame import check  # noqa: E402

MOST_RECORD, MOST_LAYOUT, MOST_PLAN = 1_048_576, 1_048_576, 16_777_216
MOST_EVENTS, MOST_POSITIONS, MOST_NODE, MOST_POINT = 10_000, 100_000, 99_999, 1_023
MOST_PLACE, MOST_MAP = 999, 7


def first_fault(letter: str, name: str, most: int, data: bytes,
                read: Callable[[list[str]], Iterator[tuple[int, int]]]) -> str:
    """The text of the first fault that a reader of lines yields as its line and number, or of the
    file's size; nothing if there is none."""
    line, number = (0, 1) if len(data) > most else next(read(check.lines_of(data)), (0, 0))
    return f"{name} {letter}{number} line {line}" if number else ""


def least(faults: dict[int, object]) -> int:
    """The least number whose fault is there, or 0."""
    return min((number for number, is_there in faults.items() if is_there), default=0)


def game_of(data: bytes) -> Optional[check.Game]:
    """The game of a file of `posgame 1`, or None if it has a fault."""
    try:
        return check.read_game(data, "posgame")
    except check.Fault:
        return None


def verdict_of(game: bytes, certificate: bytes, family: Optional[str] = None) -> str:
    """What the second checker says of a pair of files; where a family is named, as the command of
    that family reads them."""
    headers = {"": "posgame", "span": "posgame-span", "vec": "posgame-vectors"}
    try:
        if family is not None:
            check.read_game(game, headers[family])
        return "\n".join(check.check(game, certificate))
    except check.Fault as fault:
        return str(fault)


class Session:
    """The positions of a game after the moves that stand."""

    def __init__(self, game: check.Game) -> None:
        self.game, self.places = game, [game.start(game.turn)]

    def can_play(self, point: int) -> bool:
        """Tells whether a point can be played now."""
        now = self.places[-1]
        return (0 <= point < self.game.points and self.game.outcome(now) is None
                and not (now.x | now.y) >> point & 1)

    def play(self, point: int) -> None:
        """Plays a point."""
        self.places.append(self.game.after(self.places[-1], point))


def record_fault(game: check.Game, data: bytes) -> str:
    """The text of a record's first fault, or nothing."""
    def read(lines: list[str]) -> Iterator[tuple[int, int]]:
        session = Session(game)
        if lines[:1] != ["posgame-record 1"]:
            yield 1, 2
        for at, line in enumerate(lines[1:], 2):
            words = line.split(" ")
            is_move = words[0] == "move" and len(words) == 2
            point = check.number_of(words[1]) if is_move else -1
            is_back = line == "back"
            number = least({3: not is_move and not is_back, 4: is_move and point < 0,
                            5: is_move and not session.can_play(point),
                            6: is_back and len(session.places) == 1, 7: at - 1 > MOST_EVENTS})
            if number:
                yield at, number
            elif is_move:
                session.play(point)
            else:
                session.places.pop()

    return first_fault("F", "record", MOST_RECORD, data, read)


def layout_fault(points: int, data: bytes) -> str:
    """The text of a layout's first fault, or nothing."""
    def read(lines: list[str]) -> Iterator[tuple[int, int]]:
        places = dict[int, tuple[int, int]]()
        for at, line in enumerate(lines, 1):
            words = [it for it in line.split(" ") if it]
            if not words or line.startswith("#"):
                continue
            numbers = [check.number_of(it) for it in words[1:]]
            is_form = words[0] == "at" and len(numbers) == 3 and min(numbers) >= 0
            point, column, row = numbers if is_form else (0, 0, 0)
            near = any(abs(column - a) < 4 and abs(row - b) < 2 for a, b in places.values())
            number = least({2: not is_form, 3: point >= points, 4: point in places,
                            5: max(column, row) > MOST_PLACE, 6: near})
            if number:
                yield at, number
            places[point] = column, row
        if len(places) < points:
            yield 0, 7

    return first_fault("L", "layout", MOST_LAYOUT, data, read)


def are_pairs(words: Iterable[str]) -> tuple[bool, list[int]]:
    """Tells whether words are moves of a plan, and returns the positions that they name."""
    pairs = [[check.number_of(part) for part in it.split(":")] for it in words]
    is_form = all(len(it) == 2 and 0 <= it[0] <= MOST_POINT and 0 <= it[1] <= MOST_NODE
                  for it in pairs)
    return is_form, [it[-1] for it in pairs]


def plan_fault(data: bytes) -> str:
    """The text of a plan's first fault, or nothing."""
    needs = {"decided": range(1), "image": range(2, 3), "game": range(1, 10**6),
             "moves": range(10**6)}

    def read(lines: list[str]) -> Iterator[tuple[int, int]]:
        if lines[:1] != ["posgame-plan 1"]:
            yield 1, 2
        for at, line in enumerate(lines[1:]):
            name, *words = line.split(" ")
            is_form, is_fit, named = len(words) in needs.get(name, ()), True, list[int]()
            if name in ("game", "moves") and is_form:
                is_fit, named = are_pairs(words[1:] if name == "game" else words)
            if name == "game" and is_form:
                is_fit = is_fit and 1 <= check.number_of(words[0]) <= MOST_NODE
            if name == "image" and is_form:
                numbers = [check.number_of(it) for it in words]
                is_fit = 0 <= numbers[0] <= MOST_MAP and 0 <= numbers[1] <= MOST_NODE
                named = numbers[1:]
            number = least({3: not is_form, 4: not is_fit, 5: any(it >= at for it in named),
                            6: at >= MOST_POSITIONS})
            if number:
                yield at + 2, number

    return first_fault("P", "plan", MOST_PLAN, data, read)


def is_posgame(data: bytes) -> bool:
    """Tells whether a file is read as one of `posgame 1`, by its first significant line."""
    found = re.search(rb"^(?! *$|#)(.*)$", data, re.MULTILINE)
    return bool(found and found[1].split() == [b"posgame", b"1"])
