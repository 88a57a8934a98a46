"""What the methods of a game return."""
from __future__ import annotations

import os
import pathlib
from dataclasses import asdict, dataclass, field
from typing import TYPE_CHECKING, Hashable, Iterable, List, Optional, Tuple, Union

from .errors import PosgameError
from .programs import bytes_of

if TYPE_CHECKING:
    from .game import Game


@dataclass(frozen=True)
class Claim:
    """With `turn` to move, `side` reaches `goal` from the game's marks.

    `turn` and `side` are "x" or "y"; `goal` is "win", or "draw" for a draw or better.
    """
    turn: str
    side: str
    goal: str


@dataclass(frozen=True)
class Limits:
    """The limits that were given to a search, all of them counts: the positions that it expands,
    those that it keeps at a time, and the nodes of the certificate.

    If one is none, the program has a limit of its own (docs/FORMATS.md).
    """
    positions: Optional[int] = None
    entries: Optional[int] = None
    nodes: Optional[int] = None

    def words(self) -> List[str]:
        """Returns the options of `posgame-settle` for these limits.

        >>> Limits(positions=500).words()
        ['--positions=500']
        """
        return [f"--{name}={limit}" for name, limit in asdict(self).items() if limit is not None]


@dataclass(frozen=True)
class Solution:
    """The answer of `Game.solve`, `Game.settle` or `Split.join`, with its proof.

    `answer` is the winner ("maker", "breaker", "x", "y", "avoider", "enforcer"), "draw", a class
    ("short", "cut", "maker", "breaker", "first-mover"), or "unknown". `positions` is how many
    positions were expanded; none if the program does not print it: `posgame solve` does for an
    unknown answer alone, and `posgame-settle` for all but classes. Of an unknown answer,
    `certificate` is none, and `limits` are those that were given.

    >>> from posgame import Game
    >>> solution = Game.from_lines([[0, 1], [0, 2]]).solve()
    >>> solution.answer, solution.decided, solution.nodes
    ('maker', True, 1)
    """
    game: "Game" = field(repr=False)
    answer: str
    certificate: Optional[str] = field(default=None, repr=False)
    positions: Optional[int] = None
    limits: Optional[Limits] = field(default=None, repr=False)

    @property
    def decided(self) -> bool:
        """Whether the answer is known, and proved by the certificate."""
        return self.certificate is not None

    @property
    def nodes(self) -> int:
        """The number of nodes of the certificate, 0 without one; of a claim on a connectivity game
        one."""
        lines = (self.certificate or "").splitlines()
        return sum("|" in line or line.startswith(("trees", "parts")) for line in lines)

    def _proof(self) -> str:
        """Returns the certificate, or raises an error if there is none."""
        if self.certificate is None:
            raise PosgameError("no certificate", "the answer is unknown")
        return self.certificate

    def check(self) -> Tuple[Claim, ...]:
        """Checks the certificate by the program; returns its claims."""
        return self.game.check(self._proof())

    def check_again(self) -> Tuple[Claim, ...]:
        """Checks the certificate by `posgame.check`, which shares nothing with the program."""
        return self.game.check_again(self._proof())

    def write(self, path: Union[str, "os.PathLike[str]"]) -> None:
        """Writes the certificate file, as the program wrote it to the byte."""
        pathlib.Path(path).write_bytes(bytes_of(self._proof()))

    def picture(self, node: Optional[str] = None, options: Iterable[str] = ()) -> Optional[str]:
        """Returns a node of the certificate as SVG (`Game.picture`), or the game without one."""
        return self.game.picture(self.certificate, node, options)

    def book(self) -> str:
        """Returns the certificate as a book, one page of HTML (`Game.book`)."""
        return self.game.book(self._proof())

    def _repr_svg_(self) -> Optional[str]:
        return self.picture()


@dataclass(frozen=True)
class Trial:
    """A move, and what is known of the position after it.

    `answer` is its value, a winner or "draw", or "unknown"; `positions` is how many positions were
    expanded, and `nodes` how many nodes the certificate has that proves the value.
    """
    point: Hashable
    answer: str
    positions: int
    nodes: Optional[int] = None


@dataclass(frozen=True)
class Moves:
    """The legal moves of a game, and those that keep its value.

    `best` is none if the value after some move is unknown.
    """
    trials: Tuple[Trial, ...]
    best: Optional[Tuple[Hashable, ...]]


@dataclass(frozen=True)
class Loss:
    """A move after which the value of the game is worse for the side that moved.

    `move` is the number of the move, from 0; `before` and `after` are values of the game.
    """
    move: int
    point: Hashable
    before: str
    after: str


@dataclass(frozen=True)
class Review:
    """The moves of a record that lost value, and how many moves it has.

    If the position after `open_at` moves stays open after `positions` expanded positions, the
    review ends there, and `moves` is none.
    """
    losses: Tuple[Loss, ...]
    moves: Optional[int]
    open_at: Optional[int] = None
    positions: Optional[int] = None


@dataclass(frozen=True)
class ReportedClaim:
    """A claim, and how many nodes of the certificate prove it."""
    turn: str
    side: str
    goal: str
    nodes: int


@dataclass(frozen=True)
class Report:
    """The sizes of a game and the claims of a valid certificate.

    `lines` is none for a switching game, and `vertices` for a game on lines.
    """
    kind: str
    points: int
    claims: Tuple[ReportedClaim, ...]
    lines: Optional[int] = None
    vertices: Optional[int] = None
    bias: int = 1
