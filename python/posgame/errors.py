"""Errors: the program's own text, what it means, and the exit status (docs/FORMATS.md)."""
from __future__ import annotations

import re
from typing import Optional

MEANINGS = {
    "G1": "the game file is too long",
    "G2": "a byte of the game file is not printable ASCII",
    "G3": "the first line of the game file is not a header, or is that of another kind of game",
    "G4": "the key is unknown, or the argument of `kind` or `turn` is none of its words",
    "G5": "the key does not belong to this kind, is out of order, or a key is missing before it",
    "G6": "the number of arguments is wrong, or an argument is no number",
    "G7": "a point or a vertex is out of range",
    "G8": "a point is repeated",
    "G9": "a line has no point, or too many",
    "G10": "a count is out of its limits",
    "G11": "the two terminals are the same vertex",
    "G12": "the game file ends before `turn`",
    "G13": "the shape or the vector is malformed",
    "G14": "games in which Y claims several points a turn have no review",
    "C1": "the certificate file is too long",
    "C2": "the first line of the certificate file is not a header",
    "C3": "a line does not have the expected form",
    "C4": "a number is missing, out of range or out of order",
    "C5": "a node line is where none is expected, or is missing",
    "C6": "there are too many claims or nodes",
    "J1": "the node names a node whose number is not below its own",
    "J2": "a mark or the turn does not fit the game, or a child is not the position after the move",
    "J3": "the wrong side is to move for this body",
    "J4": "the point is not free, or the replies are not exactly the free points",
    "J5": "the game is not over or its outcome misses the goal, or there are moves after the end",
    "J6": "the pairs do not satisfy their condition",
    "J7": "the potential does not satisfy its condition",
    "J8": "the trees do not satisfy their condition",
    "J9": "the cuts do not satisfy their condition",
    "J10": "the points are not a winning threat sequence",
    "J11": "the last node is not the game's position at the beginning of the claim's turn",
    "J12": "the body is not allowed for this kind, bias, side and goal",
    "J13": "the position is worse for the claimer than the one that it rests on",
    "I1": "the node names a node whose number is not below its own",
    "I2": "the map does not fit the game",
    "I3": "the position is not the image of the other, or a mark is not a point of the game",
    "I4": "the claim has too many nodes without images",
    "S1": "trees claim a win of Y, or parts one of X",
    "S2": "the trees do not satisfy their condition",
    "S3": "the parts do not satisfy their condition",
    "V1": "a claim on vectors is one node of version 1 with trees or cuts",
    "V2": "the node is not the game's position with the claim's turn",
    "V3": "trees claim a win of Y, cuts one of X, or the goal is not `win`",
    "V4": "the trees do not satisfy their condition",
    "V5": "the cuts do not satisfy their condition",
    "F1": "the record file is too long",
    "F2": "the first line of the record file is not a header",
    "F3": "a line of the record is neither a move nor `back`",
    "F4": "the word after `move` is no number",
    "F5": "the move cannot be played there",
    "F6": "there is no move to take back",
    "F7": "the record has too many events",
    "P1": "the plan is too long",
    "P2": "the first line of the plan is not a header",
    "P3": "a line of the plan does not have one of the four forms",
    "P4": "a number is missing or out of range, or a move has no colon",
    "P5": "a position is named that does not come before the line",
    "P6": "the plan has too many positions",
    "plan: none for this game": "a switching game is decided without a search, and not split",
    "plan: of another game, or too large": "the plan in the folder does not fit the game",
    "refused: taken": "the point is not free",
    "refused: no such point": "the number is not below the number of points",
    "refused: not a number": "the reply is no number",
    "refused: over": "the game is over",
    "refused: nothing to take back": "all replies are taken back",
    "words: no meaning": "the command is not valid, as if a number is out of its range",
    "words: no claim for side x": "no claim of X in the certificate has the game's turn",
    "words: no claim for side y": "no claim of Y in the certificate has the game's turn",
    "words: no such node": "the certificate has no such claim or node",
}
# What an exit status means if nothing is printed of the failure itself.
STATUSES = {5: "a file could not be read", 6: "a file could not be written", 7: "out of memory",
            11: "the system refused the command", 70: "the program is not built"}


class PosgameError(Exception):
    """An error with the program's own text, its meaning, and the exit status if there is one."""

    def __init__(self, text: str, meaning: str = "", status: Optional[int] = None) -> None:
        super().__init__(text, meaning, status)
        self.text, self.meaning, self.status = text, meaning, status

    def __str__(self) -> str:
        return f"{self.text}: {self.meaning}" if self.meaning else self.text


class ProgramMissing(PosgameError):
    """The program is neither in POSGAME, nor on PATH, nor beside the package."""


class RunFailed(PosgameError):
    """A run that ended without an answer: the command is not valid, no plan fits the game, a read
    or write failed, or memory ran out."""


class FileError(PosgameError):
    """An error of form in a game, a certificate, a record or a plan: its code and its line."""

    def __init__(self, text: str, meaning: str = "", status: Optional[int] = None) -> None:
        super().__init__(text, meaning, status)
        words = text.split()
        self.file, self.code, self.line = words[0], words[1], int(words[3])


class Rejected(PosgameError):
    """A certificate that is not valid: the code of its first error, the claim and the node."""

    def __init__(self, text: str, meaning: str = "", status: Optional[int] = None) -> None:
        super().__init__(text, meaning, status)
        words = text.split()
        self.code, self.claim = words[1], int(words[3])
        self.node = int(words[5]) if len(words) > 5 else 0


class MoveRefused(PosgameError):
    """A reply that the program refuses."""


def error_of(text: str, status: Optional[int] = None) -> PosgameError:
    """Returns the error that a text of the program reports.

    >>> error_of("game G6 line 4").line
    4
    >>> print(error_of("rejected J6 claim 0 node 7"))
    rejected J6 claim 0 node 7: the pairs do not satisfy their condition
    """
    words = text.split()
    code = words[1] if len(words) > 1 else ""
    if re.fullmatch(r"(game|certificate|record|plan) [GCFP]\d+ line \d+", text):
        return FileError(text, MEANINGS.get(code, ""), status)
    if re.fullmatch(r"rejected [JISV]\d+ claim \d+( node \d+)?", text):
        return Rejected(text, MEANINGS.get(code, ""), status)
    if text.startswith("refused: "):
        return MoveRefused(text, MEANINGS.get(text, ""), status)
    meaning = MEANINGS.get(text, STATUSES.get(status or 0, ""))
    return RunFailed(text or f"status {status}", meaning, status)
