#!/usr/bin/env python3
"""Plays against posgame-play --computer on small boards, and looks whether what it says is true.

    bench/computer.py [PROGRAM] [--lines N] [--seed N]

Lines of commands, names, numbers and bytes are typed for each side of each board, and for each side
that may begin. The script computes what the program must print and store from the rules in
docs/FORMATS.md, but for the points that the program claims: it takes those from the output. It
looks whether they are legal and the same at the same position, and, by values that it finds by
brute force, whether each that is said to be proved keeps the value of the position. In a switching
game each must be proved, and in the middle of a turn none. The status is 1 if anything differs.
Tried by `bench/test_table.py`. Nothing here is proved.
"""
from __future__ import annotations

import random
import re
from typing import Callable, Optional

import kit
import table

PROOFS = {"proved to keep the value": True, "not proved": False}
BOARDS = {
    "a grid": table.Board("maker-breaker", 9, kit.in_row(3, 3, 3), 3),
    "noughts and crosses": table.Board("maker-maker", 9, kit.in_row(3, 3, 3), 3),
    "a grid of 4 by 3": table.Board("maker-maker", 12, kit.in_row(3, 4, 3), 4),
    "two points a turn": table.Board("maker-breaker", 9, kit.in_row(3, 3, 3), 3, 2),
    "a ring": table.Board("avoider-enforcer", 10, kit.scatter(5, 10, 20, 4)),
    "Bridg-It": table.Board("switching", 5, [], graph=kit.bridge(2)),
    "a graph": table.Board("switching", 10, [], graph=kit.complete(5)),
}


def values_of(board: table.Board) -> Callable[[kit.Position], int]:
    """Returns what finds the score of a position at best play, by brute force."""
    if not board.graph:
        game = kit.LineGame(board.kind, board.points, board.lines, board.bias)
        return lambda position: game.value(*position)
    wins = kit.set_game(board.points, lambda x: board.joins(x, frozenset()) == 1)
    return lambda position: 1 if wins(position[0], position[1], position[2] == "x") else -1


class Versus(table.Rival):
    """A game against the program by a search, and the score of each position."""

    def __init__(self, board: table.Board, side: str, turn: str, output: str,
                 value: Callable[[kit.Position], int]) -> None:
        super().__init__(board, side, turn, output)
        self.value, self.wrong = value, list[str]()
        self.known: dict[kit.Position, tuple[int, bool]] = {}

    def told(self, said: str) -> Optional[tuple[int, bool]]:
        """Returns the point that the program claims by its output, which goes on after this, and
        whether it is said to be proved; if it is legal."""
        found = re.match(r"I take (\S+): (.*)\.\n", self.output[len(self.due) + len(said):])
        point = self.table.point(found[1]) if found else None
        if point is None or point >= self.board.points or point in self.table.moves:
            return None
        return (point, PROOFS[found[2]]) if found and found[2] in PROOFS else None

    def judge(self, point: int, is_proved: bool) -> None:
        """Notes what is wrong with what the program says of a point."""
        position = self.table.places[-1]
        x, y, turn, left = position
        place = f"after {self.table.moves}"
        if self.known.setdefault(position, (point, is_proved)) != (point, is_proved):
            self.wrong.append(f"{place} another point than before")
        kept = self.value(self.table.game.after(*position, point)) == self.value(position)
        if is_proved and not kept:
            self.wrong.append(f"{place} the point {point} doesn't keep the value")
        if left != (self.board.bias if turn == "y" else 1):
            lowest = min(set(range(self.board.points)) - x - y)
            if is_proved or point != lowest:
                self.wrong.append(f"{place} another point than the lowest")
        elif self.board.graph and not is_proved:
            self.wrong.append(f"{place} the point {point} isn't proved")

    def settle(self) -> str:
        """Makes the moves that the program owes, and returns what is printed, with the board."""
        said = ""
        while self.owes():
            found = self.told(said)
            if found is None:
                self.wrong.append(f"after {self.table.moves} no legal point")
                break
            point, is_proved = found
            self.judge(point, is_proved)
            proof = next(words for words, it in PROOFS.items() if it == is_proved)
            said += f"I take {self.board.name(point)}: {proof}.\n"
            self.table.claim(point)
        return said + self.table.screen()

    def undo(self) -> str:
        """Takes back the person's last point and what came after it, and returns what is
        printed."""
        turns = [turn for _, _, turn, _ in self.table.places[:-1]]
        theirs = [at for at, turn in enumerate(turns) if turn != self.side]
        if not theirs:
            return table.REFUSALS["nothing"] + self.table.turn()
        while len(self.table.moves) > theirs[-1]:
            self.table.take_back()
        return self.settle()


def tried(program: str, board: table.Board, side: str, turn: str, typed: bytes,
          value: Callable[[kit.Position], int]) -> tuple[Versus, list[str]]:
    """Returns a run with this input, and what is wrong in it or in its record."""
    stored = table.stored(program, board, typed, "--computer", side, "--turn", turn)
    versus = Versus(board, side, turn, stored.run.output, value)
    due = versus.play(typed)
    return versus, stored.wrong(due, versus.record()) + versus.wrong


def main() -> int:
    given = kit.options(__doc__, "posgame_play",
                        lines=(60, "how many lines are typed in a game"), seed=1)
    shown = kit.Table("board", "side", "begins", "points", "proved")
    for name, board in BOARDS.items():
        value = values_of(board)
        for side, turn in (("x", "x"), ("x", "y"), ("y", "x"), ("y", "y")):
            draw = random.Random(f"{given.seed} {name} {side} {turn}")
            wrong, proofs = list[str](), list[bool]()
            for _ in range(10):
                lines = [table.drawn_line(draw, board) for _ in range(given.lines)]
                typed = b"".join(line + b"\n" for line in lines)
                versus, more = tried(given.program, board, side, turn, typed, value)
                wrong += more
                proofs += [is_proved for _, is_proved in versus.known.values()]
            shown.row(name, side, turn, len(proofs), sum(proofs), wrong=wrong)
    return shown.end()


if __name__ == "__main__":
    raise SystemExit(main())
