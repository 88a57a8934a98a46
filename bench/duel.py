#!/usr/bin/env python3
"""Plays against posgame-play with certificates, by lines most of which mean nothing.

    bench/duel.py [PROGRAM] [--solver PROGRAM] [--lines N] [--seed N]

A solver (posgame) proves each game. Lines of commands, names, numbers and bytes are then typed at
posgame-play with the certificate, for each side with a claim and each side that may begin. The
script computes what the program must print and store from the rules in docs/FORMATS.md, but for the
points that the program claims: it takes those from the output, looks whether they are legal and the
same after the same replies, and whether a game that is over has reached the claim's goal. The rule
that is named with each point is that of the node at which the claim then is: the script reads the
nodes of the certificate, and follows them. The status is 1 if anything differs. Tried by
`bench/test_table.py`. Nothing here is proved.
"""
from __future__ import annotations

import random
import re
from typing import Optional

import kit
import table

GOALS = {"win": "win", "draw": "don't lose"}
# What a node's body is called when the program moves by it.
RULES = {"move": "the proof", "pairs": "pairs", "potential": "weights", "trees": "two trees",
         "cuts": "two cuts", "threat": "threats"}
MEANINGS = """The words before my moves say by which rule I keep my promise:
the proof  the move that the certificate names here
pairs      each open line has a pair: if you take one of it, I take the other
weights    a point of greatest weight, or of least weight if I avoid lines
two trees  an edge of one of two sets, each of which joins what X is to join
two cuts   an edge of one of two sets, each of which parts what O is to part
threats    an attack that you must answer, or the point that fills a line
"""


def bodies_of(proof: str, claim: str) -> list[list[str]]:
    """Returns the words of the bodies of a claim's nodes.

    >>> bodies_of("claim x x win\\nnodes 2\\n0|1|x|over\\n|1|x|move 0 0\\n", "x x win")
    [['over'], ['move', '0', '0']]
    """
    _, rows = proof.split(f"claim {claim}\n", 1)
    return [it.rsplit("|", 1)[1].split() for it in rows.split("\nclaim ")[0].splitlines()[1:]]


class Guide:
    """Where the program is in its claim, of which the bodies are known: at a node, first the
    last."""

    def __init__(self, bodies: list[list[str]]) -> None:
        self.bodies, self.at = bodies, len(bodies) - 1

    def rule(self) -> str:
        """Returns by which rule the program moves."""
        return RULES[self.bodies[self.at][0]]

    def move(self) -> None:
        """Follows the program's move."""
        body = self.bodies[self.at]
        if body[0] == "move":
            self.at = int(body[2])

    def reply(self, point: int) -> None:
        """Follows a reply."""
        body = self.bodies[self.at]
        if body[0] == "all":
            self.at = next(int(it.split(":")[1]) for it in body[1:] if it.startswith(f"{point}:"))


class Duel(table.Rival):
    """A game against the program by a certificate, of which the bodies of the claim are known."""

    MEANINGS = MEANINGS

    def __init__(self, board: table.Board, claim: list[str], bodies: list[list[str]],
                 output: str) -> None:
        turn, side, self.goal = claim
        self.bodies = bodies
        self.owns: dict[tuple[int, ...], list[int]] = {}
        super().__init__(board, side, turn, output)

    def start(self) -> None:
        """Begins the game."""
        super().start()
        self.replies, self.guide = list[int](), Guide(self.bodies)

    def told(self, said: str) -> Optional[int]:
        """Returns the point that the program claims by its output after a text, if it is legal."""
        found = re.match(r".*I take (\S+)\.\n", self.output[len(self.due) + len(said):])
        point = self.table.point(found[1]) if found else None
        is_legal = point is not None and point < self.board.points and point not in self.table.moves
        return point if is_legal else None

    def settle(self) -> str:
        """Makes the moves that the program owes, and returns what is printed, with the board."""
        known = self.owns.get(tuple(self.replies))
        own, said = list[int](), ""
        while self.owes():
            point = self.told(said) if known is None else known[len(own)]
            if point is None:
                break
            is_answer = self.replies and not own
            reply = f"you took {self.board.name(self.replies[-1])}, " if is_answer else ""
            said += f"{self.guide.rule()}: {reply}I take {self.board.name(point)}.\n"
            self.guide.move()
            self.table.claim(point)
            own.append(point)
        self.owns[tuple(self.replies)] = own
        letter = "X" if self.side == "x" else "O"
        promise = f"I play {letter} and {GOALS[self.goal]}, whatever you claim.\n"
        return said + promise + self.table.screen()

    def reply(self, point: int) -> None:
        """Notes that the person has claimed a point."""
        self.replies.append(point)
        self.guide.reply(point)

    def undo(self) -> str:
        """Takes the last reply back, and returns what is printed."""
        if not self.replies:
            return table.REFUSALS["nothing"] + self.table.turn()
        replies = self.replies[:-1]
        self.start()
        said = self.settle()
        for point in replies:
            said = self.claim(point)
        return said

    def is_held(self) -> bool:
        """Returns whether the goal is reached, if the game is over."""
        score = self.table.score()
        if score is None:
            return True
        own = score if self.side == "x" else -score
        return own > (0 if self.goal == "win" else -1)


def tried(program: str, board: table.Board, proof: str, claim: list[str],
          typed: bytes) -> list[str]:
    """Returns what differs in a run with this input, and in its record."""
    turn, side, _ = claim
    stored = table.stored(program, board, typed, "--side", side, "--turn", turn, proof=proof)
    duel = Duel(board, claim, bodies_of(proof, " ".join(claim)), stored.run.output)
    wrong = stored.wrong(duel.play(typed), duel.record())
    return wrong + ([] if duel.is_held() else ["the goal isn't reached"])


def typed_lines(draw: random.Random, board: table.Board, count: int) -> bytes:
    """Draws an input in which each claim is taken back, so that many lines are read."""
    lines = list[bytes]()
    while len(lines) < count:
        lines += [table.drawn_line(draw, board), b"undo"]
    return b"".join(line + b"\n" for line in lines)


def main() -> int:
    given = kit.options(__doc__, "posgame_play", solver=(str(kit.built("posgame")), "posgame"),
                        lines=(12_000, "how many lines are typed at each board"), seed=1)
    shown = kit.Table("board", "claim", "lines", "games")
    for name, board in table.BOARDS.items():
        proof = kit.solved(given.solver, board.text())[1]
        for claim in re.findall("^claim (.*)$", proof, re.MULTILINE):
            draw, games = random.Random(f"{given.seed} {name} {claim}"), 20
            wrong = tried(given.program, board, proof, claim.split(),
                          typed_lines(draw, board, given.lines))
            for at in range(games):
                lines = [table.drawn_line(draw, board) for _ in range(60)] + [b"quit"] * (at % 2)
                wrong += tried(given.program, board, proof, claim.split(), b"\n".join(lines))
            shown.row(name, claim, given.lines + 60 * games, games + 1, wrong=wrong)
    return shown.end()


if __name__ == "__main__":
    raise SystemExit(main())
