"""Games made by scripts, handed to the program, and its answers."""
from __future__ import annotations

import json
import os
import pathlib
import re
from typing import (TYPE_CHECKING, Any, Dict, Hashable, Iterable, List, Mapping, Optional,
                    Sequence, Tuple, Union)

from .errors import error_of
from .programs import Run, answer_of, bytes_of, is_there, run, text_of
from .results import Claim, Limits, Loss, Moves, Report, ReportedClaim, Review, Solution, Trial

if TYPE_CHECKING:
    from .split import Split

FAMILIES = {"posgame-span": "span", "posgame-vectors": "vec"}
MOST_POINTS = 1_000  # No game of any kind has more.
Path = Union[str, "os.PathLike[str]"]


class Game:
    """A game: the text of its file, and a label for each point.

    Points are numbered from 0 in the files. The label of a point is what the script calls it; all
    methods take and return labels. If a script gives no labels, they are the numbers.

    >>> game = Game.from_lines([[0, 1], [0, 2]])
    >>> print(game.text, end="")
    posgame 1
    kind maker-breaker
    points 3
    line 0 1
    line 0 2
    turn x
    """

    def __init__(self, text: str, labels: Optional[Sequence[Hashable]] = None) -> None:
        """Makes a game of the text of a game file; the program checks its form later."""
        self.text = text
        named = range(_points(text)) if labels is None else labels
        self.labels: Tuple[Hashable, ...] = tuple(named)
        self._numbers = _numbered(self.labels)
        if len(self.labels) < _points(text):
            raise ValueError("there are fewer labels than points")

    @classmethod
    def from_lines(cls, lines: Iterable[Iterable[Hashable]],
                   points: Union[int, Iterable[Hashable], None] = None,
                   kind: str = "maker-breaker", turn: str = "x", bias: int = 1,
                   x: Iterable[Hashable] = (), y: Iterable[Hashable] = ()) -> "Game":
        """Makes a game on lines, that is winning sets of any hashable points.

        `points` is how many points there are, numbered from 0, or lists them; without it they are
        those of the lines and marks, in order. `kind` is "maker-breaker", "maker-maker" or
        "avoider-enforcer". Y claims `bias` points a turn; x and y are the points taken so far.

        >>> game = Game.from_lines([["a", "b"], ["b", "c"]], turn="y")
        >>> game.labels
        ('a', 'b', 'c')
        """
        sets, own, other = [list(line) for line in lines], list(x), list(y)
        labels = _listed(points, [v for line in [*sets, own, other] for v in line])
        size = ["points", str(len(labels))]
        return cls._of_lines(kind, [size], bias, sets, labels, turn, own, other)

    @classmethod
    def from_grid(cls, width: int, height: int, shape: Union[str, Iterable[str]] = (),
                  lines: Iterable[Iterable[int]] = (), kind: str = "maker-breaker",
                  turn: str = "x", bias: int = 1, x: Iterable[int] = (),
                  y: Iterable[int] = ()) -> "Game":
        """Makes a game on a board of cells; the cell in row r and column c is r * width + c.

        `shape` is a polyomino such as "110/011", or several: all its placements are lines, turned
        and reflected. `lines` adds other lines.

        >>> Game.from_grid(3, 3, shape="110/011").solve().answer
        'maker'
        """
        shapes = [shape] if isinstance(shape, str) else list(shape)
        head = [["grid", str(width), str(height)]]
        tail = [["shape", one] for one in shapes]
        sets, cells = [list(line) for line in lines], range(min(width * height, MOST_POINTS))
        return cls._of_lines(kind, head, bias, sets, cells, turn, x, y, tail)

    @classmethod
    def _of_lines(cls, kind: str, head: List[List[str]], bias: int,
                  lines: Sequence[Sequence[Hashable]], labels: Sequence[Hashable], turn: str,
                  x: Iterable[Hashable], y: Iterable[Hashable],
                  tail: Sequence[List[str]] = ()) -> "Game":
        numbers = _numbered(labels)
        said = [["posgame", "1"], ["kind", kind], *head]
        said += [["bias", str(bias)]] if bias != 1 else []
        said += [["line", *_words(numbers, line)] for line in lines]
        return cls(_spelled(said + list(tail) + _end(numbers, turn, x, y)), labels)

    @classmethod
    def from_graph(cls, graph: Any, terminals: Optional[Tuple[Hashable, Hashable]] = None,
                   turn: str = "x", x: Iterable[Hashable] = (), y: Iterable[Hashable] = (),
                   vertices: Union[int, Iterable[Hashable], None] = None) -> "Game":
        """Makes a game on a graph of networkx, or on a list of edges.

        With `terminals` it is the switching game between these two vertices, and without them the
        connectivity game. The label of an edge is as the graph has it, (u, v) or (u, v, key); of
        edges that are listed, edges with the same ends are labelled (u, v), (u, v, 1) and so on.
        `vertices` lists the vertices, or says how many there are, numbered from 0; without it they
        are those of the graph, or the ends of the edges that are listed. Directions are ignored.

        >>> Game.from_graph([(0, 1), (1, 2), (0, 2)]).solve().answer
        'first-mover'
        """
        ends = list(terminals or ())
        if hasattr(graph, "edges") and hasattr(graph, "nodes"):
            edges = list(graph.edges(keys=True) if graph.is_multigraph() else graph.edges)
            corners = _listed(list(graph.nodes) if vertices is None else vertices, [])
        else:
            edges = _told_apart([tuple(edge) for edge in graph])
            corners = _listed(vertices, [end for edge in edges for end in edge[:2]] + ends)
        places, numbers = _numbered(corners), _numbered(edges)
        head = [["posgame", "1"], ["kind", "switching"]] if ends else [["posgame-span", "1"]]
        head += [["vertices", str(len(corners))]]
        head += [["terminals", *_words(places, ends)]] if ends else []
        head += [["edge", *_words(places, edge[:2])] for edge in edges]
        return cls(_spelled(head + _end(numbers, turn, x, y)), edges)

    @classmethod
    def from_vectors(cls, vectors: Iterable[Union[str, Sequence[int]]],
                     target: Union[str, Sequence[int]], turn: str = "x",
                     x: Iterable[int] = (), y: Iterable[int] = ()) -> "Game":
        """Makes the switching game on vectors over two elements: X wants the target as a sum.

        A vector is a word of signs such as "101", or a sequence of numbers that are read modulo 2.

        >>> Game.from_vectors(["100", "010", "001", "110", "101", "011"], "111").solve().answer
        'short'
        """
        rows = [_signs(vector) for vector in vectors]
        head = [["posgame-vectors", "1"], ["rows", str(len(_signs(target)))],
                ["target", _signs(target)], *(["vector", row] for row in rows)]
        return cls(_spelled(head + _end(_numbered(range(len(rows))), turn, x, y)))

    @classmethod
    def read(cls, path: Path) -> "Game":
        """Reads a game file."""
        return cls(text_of(pathlib.Path(path).read_bytes()))

    def write(self, path: Path) -> None:
        """Writes the game file."""
        pathlib.Path(path).write_bytes(bytes_of(self.text))

    def _run(self, words: Sequence[str], files: Mapping[str, str] = {}, typed: str = "") -> Run:
        data = {name: bytes_of(text) for name, text in {"GAME": self.text, **files}.items()}
        family = FAMILIES.get(_header(self.text)) if words[0] in ("solve", "check", "play") else ""
        return run("posgame", ([family] if family else []) + list(words), data, typed)

    def solve(self, positions: Optional[int] = None, images: bool = False) -> Solution:
        """Decides the game by `posgame solve`, which proves its answer by a certificate.

        At most `positions` positions are expanded, 20,000 if it is none. With `images`, nodes that
        are reflections or turns of others are written as such. Neither plays a part in games on
        graphs and vectors, which are always decided.

        >>> Game.from_lines([[0, 1, 2], [2, 3, 4], [4, 5, 0]]).solve()
        Solution(answer='breaker', positions=None)
        """
        is_searched = _header(self.text) not in FAMILIES
        words = ["solve", "GAME", "CERT"] + (["--images"] if images and is_searched else [])
        words += ["--positions", str(positions)] if positions is not None and is_searched else []
        return self._solution(self._run(words), Limits(positions))

    def settle(self, positions: Optional[int] = None, entries: Optional[int] = None,
               nodes: Optional[int] = None, images: bool = False) -> Solution:
        """Decides a game that `solve` leaves open, by the longer search of `posgame-settle`.

        At most `positions` positions are expanded, and `entries` of them kept at a time; the
        certificate has at most `nodes` nodes. If one is none, the program has a limit of its own.
        `images` as in `solve`. It takes games on lines and switching games.
        """
        words = ["GAME", "CERT"] + (["--images"] if images else [])
        limits = Limits(positions, entries, nodes)
        return self._solution(self._settled(words + limits.words()), limits)

    def split(self, folder: Path, most: Optional[int] = None) -> "Split":
        """Splits the game by its moves into at most `most` positions, 1,000 if it is none, by
        `posgame-settle split`. They are stored in a folder, which is made if it is not there.

        In a folder into which the game was split before, those of its positions are split further
        that have no certificate yet and can still matter.
        """
        from .split import Split
        split = Split(self, folder)
        split.further(most)
        return split

    def moves(self, positions: Optional[int] = None, entries: Optional[int] = None,
              nodes: Optional[int] = None) -> Moves:
        """Returns the value after each legal move, and the moves that keep the value of the game,
        by `posgame-settle moves`. The limits of `settle` apply to each move by itself.

        >>> Game.from_lines([["a", "b"], ["a", "c"], ["a", "d"]], turn="y").moves().best
        ('a',)
        """
        words = ["moves", "GAME", "--json", *Limits(positions, entries, nodes).words()]
        said = json.loads(answer_of(self._settled(words), [0, 1]).text)
        trials = tuple(Trial(self.labels[move["point"]], move["result"], move["expanded"],
                             move.get("nodes")) for move in said["moves"])
        best = said["best"]
        return Moves(trials, None if best is None else tuple(self.labels[v] for v in best))

    def _settled(self, words: List[str]) -> Run:
        """Returns the run of `posgame-settle` on the game with these arguments."""
        done = run("posgame-settle", words, {"GAME": bytes_of(self.text)})
        if done.status == 2:
            raise error_of("words: no meaning", done.status)
        return done

    def _solution(self, done: Run, limits: Limits) -> Solution:
        """Returns the answer of a run that solves the game within limits."""
        lines = [line.split() for line in answer_of(done, [0, 1]).lines]
        if done.status == 1:
            return Solution(self, "unknown", None, int(lines[0][2]), limits)
        expanded = int(lines[1][1]) if len(lines) > 1 else None
        return Solution(self, lines[0][1], text_of(done.certificate or b""), expanded)

    def check(self, certificate: str) -> Tuple[Claim, ...]:
        """Checks a certificate by `posgame check`; returns its claims, or raises why it fails.

        >>> game = Game.from_lines([[0, 1], [0, 2]])
        >>> game.check("posgame-cert 1\\nclaim x x win\\nnodes 1\\n||x|threat 0 1 2\\n")
        (Claim(turn='x', side='x', goal='win'),)
        """
        done = answer_of(self._run(["check", "GAME", "CERT"], {"CERT": certificate}), [0])
        return tuple(Claim(*line.split()[1:]) for line in done.lines)

    def check_again(self, certificate: str) -> Tuple[Claim, ...]:
        """Checks a certificate by `posgame.check`, which shares nothing with the program.

        >>> game = Game.from_lines([[0, 1], [0, 2]])
        >>> game.check_again("posgame-cert 1\\nclaim x x win\\nnodes 1\\n||x|threat 0 1\\n")
        Traceback (most recent call last):
            ...
        posgame.errors.FileError: certificate C3 line 4: a line does not have the expected form
        """
        from . import check as second
        try:
            lines = second.check(bytes_of(self.text), bytes_of(certificate))
        except second.Fault as fault:
            raise error_of(str(fault)) from None
        return tuple(Claim(*line.split()[1:]) for line in lines)

    def report(self, certificate: str) -> Report:
        """Returns the sizes of the game and the claims of a valid certificate (`posgame report`),
        of a game on lines or a switching game."""
        done = self._run(["report", "GAME", "CERT"], {"CERT": certificate})
        if done.status == 4 and done.text.startswith("{"):
            said = json.loads(done.text)
            text = f"rejected {said['reject']} claim {said['claim']} node {said['node']}"
            raise error_of(text, done.status)
        said = json.loads(answer_of(done, [0]).text)
        said["claims"] = tuple(ReportedClaim(**claim) for claim in said["claims"])
        return Report(**said)

    def play(self, certificate: str, side: str) -> "Play":
        """Lets the program play a side by a certificate with a claim of it and the game's turn.

        >>> game = Game.from_lines([[0, 1], [0, 2]])
        >>> play = game.play(game.solve().certificate, "x")
        >>> play.opening, play.answer(1), play.result
        ((0,), (2,), 'maker')
        """
        return Play(self, certificate, side)

    def review(self, moves: Iterable[Hashable], positions: Optional[int] = None) -> Review:
        """Returns which of the moves played from the game's position lost value.

        >>> noughts = Game.from_lines([[0, 1, 2], [3, 4, 5], [6, 7, 8], [0, 3, 6], [1, 4, 7],
        ...                            [2, 5, 8], [0, 4, 8], [2, 4, 6]], kind="maker-maker")
        >>> noughts.review([4, 1]).losses
        (Loss(move=1, point=1, before='draw', after='x'),)
        """
        record = ["posgame-record 1"] + [f"move {self._number(v)}" for v in moves]
        words = ["review", "GAME", "RECORD"]
        words += ["--positions", str(positions)] if positions is not None else []
        done = self._run(words, {"RECORD": "\n".join(record) + "\n"})
        said = [line.split() for line in answer_of(done, [0, 1]).lines]
        losses = tuple(Loss(int(one[1]), self.labels[int(one[2])], one[3], one[4])
                       for one in said if one[0] == "lost")
        last = said[-1]
        return Review(losses, int(last[1])) if done.status == 0 else \
            Review(losses, None, int(last[2]), int(last[4]))

    def picture(self, certificate: Optional[str] = None, node: Optional[str] = None,
                options: Iterable[str] = ()) -> Optional[str]:
        """Returns the game as SVG, or a node of a certificate, by `posgame-draw`.

        `node` is "K" or "C.K", node K of claim C; without it the root of the first claim is drawn.
        `options` are further arguments of `posgame-draw`, such as "--no-lines" or "--blank=6".
        Returns none if `posgame-draw` is not found. A certificate that is not valid is drawn at its
        first error.
        """
        files = {"GAME": self.text, **({"CERT": certificate} if certificate is not None else {})}
        words = [*options, "--", *files] + ([node] if node is not None else [])
        if not is_there("posgame-draw"):
            return None
        done = run("posgame-draw", words, {name: bytes_of(text) for name, text in files.items()})
        return done.text if done.text.startswith("<") else answer_of(done, []).text

    def book(self, certificate: str) -> str:
        """Returns a valid certificate as a book, by `posgame-draw --book`: one page of HTML, whose
        sections are the positions of the proof, with pictures and links.

        A certificate that is not valid raises Rejected.
        """
        files = {"GAME": bytes_of(self.text), "CERT": bytes_of(certificate)}
        return answer_of(run("posgame-draw", ["--book", "GAME", "CERT"], files), [0]).text

    def _repr_svg_(self) -> Optional[str]:
        return self.picture()

    def _number(self, label: Hashable) -> int:
        """Returns the number of a point."""
        if label not in self._numbers:
            raise error_of("refused: no such point")
        return self._numbers[label]

    def __repr__(self) -> str:
        return f"<Game on {len(self.labels)} points>"


class Play:
    """A play against the program: `answer` takes the other side's points, and returns the moves.

    The program plays by a fixed rule, so each answer is a run of all replies from the beginning.
    `claim` is the claim by which it plays, `opening` its moves before the first reply, `result` the
    winner, or "draw", once the game is over, and `replies` the replies so far.
    """

    def __init__(self, game: Game, certificate: str, side: str) -> None:
        self.game, self.certificate, self.side = game, certificate, side
        self.replies: List[Hashable] = []
        self.result: Optional[str] = None
        self._told: List[int] = []
        lines = self._replay([])
        words = lines[0].split()
        self.claim = (words[1], words[2])
        self.opening = self._moves(lines)

    def _replay(self, replies: Sequence[Hashable]) -> List[str]:
        """Returns the lines of a run with these replies; sets the result."""
        typed = "".join(f"{self.game._number(reply)}\n" for reply in replies)
        done = self.game._run(["play", "GAME", "CERT", f"--side={self.side}"],
                              {"CERT": self.certificate}, typed)
        lines = answer_of(done, [0, 8]).lines
        refusals = [line for line in lines if line.startswith("refused: ")]
        if refusals:
            raise error_of(refusals[-1], done.status)
        self.result = lines[-1].split()[1] if lines[-1].startswith("result ") else None
        return lines

    def _moves(self, lines: Sequence[str]) -> Tuple[Hashable, ...]:
        """Returns the moves of the program that are new in these lines."""
        moves = [int(line.split()[1]) for line in lines if line.startswith("move ")]
        new, self._told = moves[len(self._told):], moves
        return tuple(self.game.labels[v] for v in new)

    @property
    def over(self) -> bool:
        """Whether the game is over."""
        return self.result is not None

    def answer(self, point: Hashable) -> Tuple[Hashable, ...]:
        """Plays a point for the other side; returns the moves by which the program answers.

        They are none if the other side claims a further point in its turn, or the game is over. A
        point that is taken raises MoveRefused, and nothing is played.
        """
        if self.over:
            raise error_of("refused: over")
        lines = self._replay([*self.replies, point])
        self.replies.append(point)
        return self._moves(lines)

    def back(self) -> None:
        """Takes the last reply back, with the moves that answered it."""
        if not self.replies:
            raise error_of("refused: nothing to take back")
        self.replies.pop()
        self._told = []
        self._moves(self._replay(self.replies))


def _spelled(said: Iterable[Iterable[str]]) -> str:
    """Returns lines of words as a text."""
    return "".join(" ".join(words) + "\n" for words in said)


def _end(numbers: Mapping[Hashable, int], turn: str, x: Iterable[Hashable],
         y: Iterable[Hashable]) -> List[List[str]]:
    """Returns the last lines of a game file: the marks, if there are any, and the turn."""
    marks = [[key, *_words(numbers, points)] for key, points in (("x", x), ("y", y))]
    return [line for line in marks if len(line) > 1] + [["turn", turn]]


def _numbered(labels: Iterable[Hashable]) -> Dict[Hashable, int]:
    """Returns the number of each label; they must differ."""
    numbers: Dict[Hashable, int] = {}
    for number, label in enumerate(labels):
        if numbers.setdefault(label, number) != number:
            raise ValueError(f"{label!r} is listed twice")
    return numbers


def _words(numbers: Mapping[Hashable, int], labels: Iterable[Hashable]) -> List[str]:
    """Returns the numbers of labels as words."""
    listed = list(labels)
    for label in listed:
        if label not in numbers:
            raise ValueError(f"{label!r} is not listed")
    return [str(numbers[label]) for label in listed]


def _listed(said: Union[int, Iterable[Hashable], None],
            found: Iterable[Hashable]) -> List[Hashable]:
    """Returns labels: so many numbers from 0, or those that are listed; without either, those that
    are found."""
    if said is None:
        return _in_order(found)
    return list(range(said) if isinstance(said, int) else said)


def _in_order(points: Iterable[Hashable]) -> List[Hashable]:
    """Returns points once each, ascending if they can be compared, else as they come."""
    once: List[Any] = list(dict.fromkeys(points))
    try:
        return sorted(once)
    except TypeError:
        return once


def _told_apart(edges: Sequence[Tuple[Any, ...]]) -> List[Tuple[Any, ...]]:
    """Returns edges as labels: one that was there before gets the number of its like."""
    counts: Dict[Tuple[Any, ...], int] = {}
    labels = []
    for edge in edges:
        before = counts.get(edge, 0)
        counts[edge] = before + 1
        labels.append(edge if before == 0 else (*edge, before))
    return labels


def _signs(vector: Union[str, Sequence[int]]) -> str:
    """Returns a vector as a word of signs."""
    return vector if isinstance(vector, str) else "".join(str(int(one) % 2) for one in vector)


def _lines(text: str) -> List[List[str]]:
    """Returns the words of each line that is neither empty nor a comment."""
    return [line.split() for line in text.split("\n") if line.split() and line[0] != "#"]


def _header(text: str) -> str:
    """Returns the first word of a game file."""
    lines = _lines(text)
    return lines[0][0] if lines else ""


def _points(text: str) -> int:
    """Returns how many points a game file has, 0 if it does not say it well."""
    count = 0
    for key, *words in _lines(text):
        if key in ("edge", "vector"):
            count += 1
        elif key in ("points", "grid") and all(re.fullmatch("[0-9]{1,9}", it) for it in words):
            sizes = [int(word) for word in words]
            count = sizes[0] if key == "points" and sizes else 0
            count = sizes[0] * sizes[1] if key == "grid" and len(sizes) == 2 else count
    return min(count, MOST_POINTS)
