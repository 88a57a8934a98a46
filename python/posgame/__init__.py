"""Positional games for scripts: made, solved, played and drawn by posgame, and checked again.

>>> from posgame import Game
>>> fano = [(0, 1, 2), (0, 3, 4), (0, 5, 6), (1, 3, 5), (1, 4, 6), (2, 3, 6), (2, 4, 5)]
>>> solution = Game.from_lines(fano, turn="y").solve()
>>> solution.answer
'breaker'
>>> solution.check_again()
(Claim(turn='y', side='y', goal='win'),)

The answers are those of the proved programs, which are found by the environment variable POSGAME,
on PATH, or in the clone that contains this package. Nothing of the package itself is proved.
"""
from .errors import (FileError, MoveRefused, PosgameError, ProgramMissing, Rejected, RunFailed)
from .game import Game, Play
from .many import settle_many, solve_many
from .results import Claim, Limits, Loss, Moves, Report, ReportedClaim, Review, Solution, Trial
from .split import Split

__all__ = ["Claim", "FileError", "Game", "Limits", "Loss", "MoveRefused", "Moves", "Play",
           "PosgameError", "ProgramMissing", "Rejected", "Report", "ReportedClaim", "Review",
           "RunFailed", "Solution", "Split", "Trial", "settle_many", "solve_many"]
