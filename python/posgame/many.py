"""Many games at a time."""
from __future__ import annotations

import atexit
import os
import queue
import threading
from typing import Any, Callable, Generator, Iterable, List, Mapping, Optional, Tuple, Union

from .errors import PosgameError
from .game import Game
from .programs import Runs, belonging_to
from .results import Solution

Games = Union[Iterable[Game], Mapping[Any, Game]]
Answer = Union[Solution, PosgameError]
Answers = Generator[Tuple[Any, Answer], None, None]


def solve_many(games: Games, jobs: Optional[int] = None, positions: Optional[int] = None,
               images: bool = False) -> Answers:
    """Solves many games, `jobs` at a time, and yields each answer as soon as it is there.

    `games` is a mapping, or a list, whose keys are the indices. Yields the key and the solution,
    or the error that this game raised; the others are solved all the same. If the loop over the
    answers is left early, or interrupted, all runs end, and no further game is begun.

    >>> games = {n: Game.from_lines([range(n)]) for n in (1, 2)}
    >>> sorted((n, solution.answer) for n, solution in solve_many(games, jobs=2))
    [(1, 'maker'), (2, 'breaker')]
    """
    return _each(games, lambda game: game.solve(positions, images), jobs)


def settle_many(games: Games, jobs: Optional[int] = None, positions: Optional[int] = None,
                entries: Optional[int] = None, nodes: Optional[int] = None,
                images: bool = False) -> Answers:
    """Settles many games as `solve_many` solves them, by the longer search of `posgame-settle`.

    The limits of `Game.settle` apply to each game by itself: at most `positions` positions of it
    are expanded.
    """
    return _each(games, lambda game: game.settle(positions, entries, nodes, images), jobs)


def _each(games: Games, call: Callable[[Game], Solution], jobs: Optional[int]) -> Answers:
    """Calls a function of each game, `jobs` at a time, and yields what it returns or raises."""
    named = dict(games) if isinstance(games, Mapping) else dict(enumerate(games))
    if jobs is not None and jobs < 1:
        raise ValueError("jobs is below 1")
    crew = _Crew(named, call)
    try:
        crew.begin(min(jobs or os.cpu_count() or 1, len(named)))
        for _ in named:
            yield crew.answer()
    finally:
        crew.end()


class _Crew:
    """The threads that call a function of each game, and the runs that they began.

    They are daemons, so that an end of the whole script does not wait for games that are left: it
    ends their runs, as long as threads still go on.
    """

    def __init__(self, games: Mapping[Any, Game], call: Callable[[Game], Solution]) -> None:
        self._call, self._runs = call, Runs()
        self._threads: List[threading.Thread] = []
        self._left: "queue.SimpleQueue[Tuple[Any, Game]]" = queue.SimpleQueue()
        self._answers: "queue.SimpleQueue[Tuple[Any, Any]]" = queue.SimpleQueue()
        for item in games.items():
            self._left.put(item)

    def begin(self, count: int) -> None:
        """Starts so many threads."""
        atexit.register(self.end)
        for _ in range(count):
            thread = threading.Thread(target=self._work, daemon=True)
            thread.start()
            self._threads.append(thread)

    def answer(self) -> Tuple[Any, Answer]:
        """Returns the next answer with its key, once it is there."""
        key, answer = self._answers.get()
        if not isinstance(answer, (Solution, PosgameError)):
            raise answer
        return key, answer

    def end(self) -> None:
        """Ends all runs, and then the threads."""
        atexit.unregister(self.end)
        self._runs.end()
        for thread in self._threads:
            thread.join()

    def _work(self) -> None:
        """Calls the function of one game after another."""
        with belonging_to(self._runs):
            while not self._runs.ended:
                try:
                    key, game = self._left.get_nowait()
                except queue.Empty:
                    break
                self._answers.put((key, self._outcome(game)))

    def _outcome(self, game: Game) -> Union[Solution, BaseException]:
        """Returns what the function of a game returns or raises."""
        try:
            return self._call(game)
        except BaseException as error:  # It is raised, or yielded, in the thread of the caller.
            return error
