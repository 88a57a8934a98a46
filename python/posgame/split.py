"""A game split into positions, which are settled by runs of their own, on any machine."""
from __future__ import annotations

import os
import pathlib
import platform
import re
from typing import Dict, Generator, Iterable, Optional, Sequence, Tuple

from .game import Game, Path
from .many import Answer, settle_many
from .programs import Run, answer_of, text_of
from .results import Limits, Solution


class Split:
    """A game and a folder into which it is split (docs/MANY.md, "One hard board").

    The folder contains the positions as game files, `00001.game` and so on, and a plan of the moves
    that lead to them. The certificate of `00012.game` is `00012.cert` beside it. The folder may be
    shared by machines, and its games settled by any engine: all that is known is in its files, so
    `Split(game, folder)` goes on anywhere with what `game.split(folder)` began.

    A part is called by its name without the ending, such as "00012". Its points have the labels of
    the game.
    """

    def __init__(self, game: Game, folder: Path) -> None:
        self.game, self.folder = game, pathlib.Path(folder).absolute()

    def further(self, most: Optional[int] = None) -> int:
        """Splits the game, or the parts further that are still needed; returns how many were
        written, at most `most`, or 1,000 if it is none."""
        self.folder.mkdir(parents=True, exist_ok=True)
        words = ["split", "GAME", str(self.folder)]
        words += [f"--most={most}"] if most is not None else []
        return int(answer_of(self.game._settled(words), [0]).lines[0].split()[1])

    def parts(self) -> Dict[str, Game]:
        """Returns all parts, settled or not."""
        names = [path.stem for path in self.folder.glob("*.game")]
        return self._named(sorted(name for name in names if re.fullmatch("[0-9]{5}", name)))

    def needed(self) -> Dict[str, Game]:
        """Returns the parts that are still needed for an answer, the most telling first."""
        lines = [line.split() for line in self._joined(Limits()).lines]
        return self._named([words[0][:-len(".game")] for words in lines
                            if words[0].endswith(".game")])

    def settle(self, jobs: Optional[int] = None, positions: Optional[int] = None,
               entries: Optional[int] = None, nodes: Optional[int] = None) \
            -> Generator[Tuple[str, Answer], None, None]:
        """Settles the needed parts by `settle_many`, and stores each certificate as soon as it is
        there; then yields the name of the part and the answer."""
        for name, answer in settle_many(self.needed(), jobs, positions, entries, nodes):
            self.store(name, answer)
            yield name, answer

    def store(self, name: str, answer: Answer) -> None:
        """Stores the certificate of a part, whole or not at all; nothing if it is not decided."""
        if not isinstance(answer, Solution) or not answer.decided:
            return
        hidden = self.folder / f".{name}.{platform.node()}.{os.getpid()}"
        try:
            answer.write(hidden)
            hidden.replace(self.folder / f"{name}.cert")
        finally:
            hidden.unlink(missing_ok=True)

    def join(self, nodes: Optional[int] = None, images: bool = False) -> Solution:
        """Joins the certificates of the parts to one of the game, by `posgame-settle join`.

        It has at most `nodes` nodes, and the program has judged it. `images` as in `Game.solve`. If
        the certificates do not suffice, the answer is unknown: then settle what is still needed
        with higher limits, or split it further. It is also unknown if more nodes are needed.
        """
        limits = Limits(nodes=nodes)
        return self.game._solution(self._joined(limits, ["--images"] if images else ()), limits)

    def _joined(self, limits: Limits, options: Sequence[str] = ()) -> Run:
        """Returns the run that joins the certificates."""
        words = ["join", "GAME", str(self.folder), "CERT", *options, *limits.words()]
        return answer_of(self.game._settled(words), [0, 1])

    def _named(self, names: Iterable[str]) -> Dict[str, Game]:
        """Returns the parts of these names."""
        texts = {name: (self.folder / f"{name}.game").read_bytes() for name in names}
        return {name: Game(text_of(text), self.game.labels) for name, text in texts.items()}

    def __repr__(self) -> str:
        return f"<Split of {self.game!r} in {self.folder}>"
