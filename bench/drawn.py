"""Certificates of Breaker's win that a seeded generator draws, for the part `drawn` of
bench/games.py: their games have lines of several lengths, the nodes of a claim are drawn one by
one, and children come in any order. Tried by `python3 -m unittest discover -s bench`. Unproved.
"""
from __future__ import annotations

import random
from typing import Iterable, Iterator, NamedTuple, Optional

import kit

Files = tuple[str, str]
# A claim has at most 100,000 nodes, and a certificate 8 claims and 200,000 nodes.
CLAIMS = 8


class Place(NamedTuple):
    """The points of X and of Y, and the side to move."""

    x: kit.Points
    y: kit.Points
    turn: str

    def after(self, point: int) -> Place:
        """Returns the place after a move, one point a turn."""
        if self.turn == "x":
            return Place(self.x | {point}, self.y, "y")
        return Place(self.x, self.y | {point}, "x")


def row(place: Place, body: str) -> str:
    """Returns the line of a node."""
    sides = (kit.field(sorted(it)) for it in place[:2])
    return f"{'|'.join([*sides, place.turn, body])}\n"


class Board:
    """A game on lines, in which Y wants a point of each."""

    def __init__(self, points: int, lines: Iterable[Iterable[int]]) -> None:
        self.points = frozenset(range(points))
        self.lines = [frozenset(line) for line in lines]
        self.longest = max(map(len, self.lines))

    def text(self, place: Place) -> str:
        """Returns the game file with these marks."""
        rows = kit.line_rows(map(sorted, self.lines)), kit.mark_rows(*place[:2])
        return kit.game("maker-breaker", f"points {len(self.points)}", *rows[0], *rows[1])

    def free(self, place: Place) -> list[int]:
        """Returns the free points in ascending order."""
        return sorted(self.points - place.x - place.y)

    def score(self, place: Place) -> Optional[bool]:
        """Tells whether X has filled a line, if the game is over."""
        if any(line <= place.x for line in self.lines):
            return True
        is_over = not self.free(place) or all(line & place.y for line in self.lines)
        return False if is_over else None

    def is_low(self, place: Place) -> bool:
        """Tells whether the potential is low enough for Y: the weights of the lines without a point
        of Y and, if X is to move, of the free point that has most of them."""
        total, weights = 0, dict.fromkeys(self.points, 0)
        for line in self.lines:
            if not line & place.y:
                left = line - place.x
                total += 1 << self.longest - len(left)
                for point in left:
                    weights[point] += 1 << self.longest - len(left)
        return total + (place.turn == "x") * max(weights.values()) < 1 << self.longest

    def pairs(self, place: Place) -> Optional[str]:
        """Returns a pair of free points for each line without a point of Y, or None if the lowest
        of each line that no other pair has are too few."""
        used, words = set(place.x), ["pairs"]
        for line in self.lines:
            if not line & place.y:
                own = sorted(line - used)[:2]
                if len(own) < 2:
                    return None
                words.append("{}-{}".format(*own))
                used.update(own)
        return kit.field(words)

    def leaf(self, draw: random.Random, place: Place) -> Optional[str]:
        """Returns a body that needs no other node and shows that Y wins, if one is found."""
        score = self.score(place)
        if score is not None:
            return None if score else "over"
        bodies = [self.pairs(place), "potential" if self.is_low(place) else None]
        return draw.choice([*filter(None, bodies)] or [None])


def drawn_lines(seed: int, points: int, sizes: Iterable[int]) -> list[kit.Line]:
    """Draws a line of each of these sizes."""
    draw = random.Random(seed)
    return [sorted(draw.sample(range(points), size)) for size in sizes]


def drawn_place(draw: random.Random, board: Board, free: int) -> Place:
    """Draws a place with X to move and so many free points, half of the others X's."""
    points = sorted(board.points)
    draw.shuffle(points)
    middle = (len(points) - free) // 2
    return Place(frozenset(points[:middle]), frozenset(points[middle:len(points) - free]), "x")


def put_replies(draw: random.Random, board: Board, nodes: list[str], place: Place) -> bool:
    """Adds a node with all replies at a place, and below it those after the replies, in any order.
    Tells whether it did so: the game may be over, and a reply may have no leaf."""
    leaves = {v: board.leaf(draw, place.after(v)) for v in board.free(place)}
    if board.score(place) is not None or None in leaves.values():
        return False
    order = sorted(leaves)
    draw.shuffle(order)
    numbers = {v: len(nodes) + k for k, v in enumerate(order)}
    nodes += [row(place.after(v), str(leaves[v])) for v in order]
    nodes.append(row(place, kit.field(["all", *(f"{v}:{numbers[v]}" for v in sorted(leaves))])))
    return True


def put_move(board: Board, nodes: list[str], place: Place) -> None:
    """Adds a node with a move to a place that the last node has, if Y can have made one."""
    for point in sorted(place.y):
        before = Place(place.x, place.y - {point}, "y")
        if board.score(before) is None:
            nodes.append(row(before, f"move {point} {len(nodes) - 1}"))
            break


def claims(board: Board, nodes: list[str], root: Place) -> Files:
    """Returns the game with the marks of the root, and a certificate with claims of these nodes."""
    claim = kit.claim(f"{root.turn} y win", "".join(nodes))
    return board.text(root), kit.certificate(*[claim] * CLAIMS)


def five_kinds(count: int = 24_980) -> Files:
    """Draws nodes of over, move, all, pairs and potential on 16 points, so many a claim or a few
    more."""
    draw = random.Random(41)
    board = Board(16, drawn_lines(42, 16, [3, 4, 5, 6] * 3))
    nodes: list[str] = []
    while True:
        place = drawn_place(draw, board, draw.choice((1, 2, 3, 4, 8)))
        body = board.leaf(draw, place)
        nodes += [row(place, body)] if body else []
        if put_replies(draw, board, nodes, place):
            if len(nodes) >= count:
                return claims(board, nodes, place)
            put_move(board, nodes, place)


def paired_lines(draw: random.Random, points: int, pairs: int,
                 sizes: Iterable[int]) -> list[kit.Line]:
    """Draws lines of these sizes, which begin with so many disjoint pairs in turn; their other
    points are drawn."""
    order = list(range(points))
    draw.shuffle(order)
    lines = []
    for k, size in enumerate(sizes):
        own = order[k % pairs * 2:][:2]
        lines.append(own + draw.sample(sorted({*order} - {*own}), size - 2))
    return lines


def pairs(count: int = 800) -> Files:
    """Draws nodes of pairs on 256 points, so many a claim: of some pairs X has a point and Y the
    other."""
    draw, nodes, most = random.Random(43), [], 120  # type: random.Random, list[str], int
    lines = paired_lines(draw, 256, most, [2, 3, 4, 5, 6, 7] * 45)
    for _ in range(count):
        played = draw.sample(lines[:most], draw.randrange(20))
        x, y = (frozenset(line[k] for line in played) for k in (0, 1))
        own = [f"{line[0]}-{line[1]}" for line in lines[:most] if line not in played]
        draw.shuffle(own)
        nodes.append(row(Place(x, y, "x"), kit.field(["pairs", *own])))
    return claims(Board(256, lines), nodes, Place(x, y, "x"))


def all_replies(blocks: int = 14, times: int = 24) -> Files:
    """Draws nodes with all 254 replies on 256 points, so many a claim and each several times, and
    below them potentials in any order."""
    draw, nodes = random.Random(44), []  # type: random.Random, list[str]
    board = Board(256, drawn_lines(45, 256, [7, 8, 9, 10, 12] * 9))
    for _ in range(blocks):
        root = drawn_place(draw, board, 254)
        leaves = board.free(root)
        draw.shuffle(leaves)
        numbers = {v: len(nodes) + k for k, v in enumerate(leaves)}
        nodes += [row(root.after(v), "potential") for v in leaves]
        words = ["all", *(f"{v}:{numbers[v]}" for v in sorted(leaves))]
        nodes += [row(root, kit.field(words))] * times
    return claims(board, nodes, root)
