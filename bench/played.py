"""The tree of play of a switching game's certificate, worked out apart from the crates by the rules
of docs/FORMATS.md for answers by trees and by cuts. `bench/pages.py` compares books with it.
Tried by `python3 -m unittest discover -s bench`. Unproved.
"""
from __future__ import annotations

from typing import Iterable, NamedTuple, Optional

import kit

# The most pages that a book has for a tree of play.
MOST = 400
Edges = frozenset[int]


class Graph(NamedTuple):
    """A multigraph with two terminals. The number after the last edge is an edge between them."""

    s: int
    t: int
    ends: list[kit.Edge]

    def joins(self, edges: Iterable[int], u: int, v: int) -> bool:
        """Tells whether the edges join two vertices."""
        met, grows = {u}, True
        known = [self.ends[k] for k in edges]
        while grows:
            more = {b for a, b in known if a in met} | {a for a, b in known if b in met}
            grows = not more <= met
            met |= more
        return v in met


class Place(NamedTuple):
    """The edges of X and of Y, and the side to move."""

    x: Edges
    y: Edges
    turn: str

    def after(self, edge: int) -> Place:
        """Returns the place after a move."""
        if self.turn == "x":
            return Place(self.x | {edge}, self.y, "y")
        return Place(self.x, self.y | {edge}, "x")


class Sets(NamedTuple):
    """The two sets by which a side plays, and the reply that it is to answer."""

    one: Edges
    other: Edges
    last: int


class Play(NamedTuple):
    """A graph, and the side that plays by trees (x) or by cuts (y)."""

    graph: Graph
    side: str

    def free(self, place: Place) -> list[int]:
        """Returns the free edges in ascending order."""
        return [k for k in range(len(self.graph.ends) - 1) if k not in place.x | place.y]

    def is_over(self, place: Place) -> bool:
        """Tells whether X has joined the terminals or can't any more."""
        s, t = self.graph.s, self.graph.t
        left = {*place.x, *self.free(place)}
        return self.graph.joins(place.x, s, t) or not self.graph.joins(left, s, t)

    def mends(self, place: Place, own: Edges, last: int, edge: int) -> bool:
        """Tells whether the edge makes good what the set has lost by the last reply: whether it
        crosses from the one part of a tree to the other, or parts what the reply has joined."""
        u, v = self.graph.ends[last]
        if self.side == "x":
            left = place.x | own - {last}
            a, b = self.graph.ends[edge]
            return self.graph.joins(left, u, a) != self.graph.joins(left, u, b)
        left = frozenset(range(len(self.graph.ends))) - place.y - own
        return self.graph.joins(left, u, v) and not self.graph.joins(left - {edge}, u, v)

    def answer(self, place: Place, sets: Sets) -> int:
        """Returns the edge that the side claims."""
        for own, others in ((sets.one, sets.other), (sets.other, sets.one)):
            if sets.last in own:
                candidates = sorted(others & {*self.free(place)})
                fits = [k for k in candidates if self.mends(place, own, sets.last, k)]
                return (fits or self.free(place))[0]
        return self.free(place)[0]

    def follow(self, place: Place, sets: Sets) -> dict[int, Sets]:
        """Returns the edges that are played next, with the sets after each."""
        if self.is_over(place):
            return {}
        if place.turn != self.side:
            return {k: sets._replace(last=k) for k in self.free(place)}
        edge = self.answer(place, sets)
        gone = {sets.last, edge}
        return {edge: sets._replace(one=sets.one - gone, other=sets.other - gone)}

    def places(self, start: Place, sets: Sets) -> dict[Place, list[int]]:
        """Returns the positions of the tree of play in the order in which they are met, with the
        edges that are played next at each, and none if there are too many."""
        todo, known = [(start, sets)], {start}
        tree: dict[Place, list[int]] = {}
        for place, left in todo:
            if len(todo) > MOST:
                return {}
            follow = self.follow(place, left)
            tree[place] = [*follow]
            for edge, after in follow.items():
                if place.after(edge) not in known:
                    known.add(place.after(edge))
                    todo.append((place.after(edge), after))
        return tree

    def body(self, place: Place, numbers: dict[Place, int], follow: list[int]) -> str:
        """Returns the body of a node of the tree."""
        if not follow:
            return "over"
        if place.turn == self.side:
            return f"move {follow[0]} {numbers[place.after(follow[0])]}"
        return kit.field(["all", *(f"{k}:{numbers[place.after(k)]}" for k in follow)])

    def rows(self, start: Place, sets: Sets) -> list[str]:
        """Returns the lines of the tree's nodes, the root's last, and none if there are too
        many."""
        tree = self.places(start, sets)
        numbers = {place: len(tree) - 1 - k for k, place in enumerate(tree)}
        return [f"{kit.field(sorted(place.x))}|{kit.field(sorted(place.y))}|{place.turn}|"
                f"{self.body(place, numbers, follow)}\n"
                for place, follow in reversed(tree.items())]


def graph_of(game: str) -> Optional[Graph]:
    """Returns the graph of a switching game's file, with the edge between the terminals as the
    last, and None for other games."""
    words = [line.split("#")[0].split() for line in game.splitlines()]
    if ["kind", "switching"] not in words:
        return None
    s, t = next((int(row[1]), int(row[2])) for row in words if row[:1] == ["terminals"])
    ends = [(int(row[1]), int(row[2])) for row in words if row[:1] == ["edge"]]
    return Graph(s, t, [*ends, (s, t)])


def claim_rows(graph: Graph, head: str, node: str) -> Optional[list[str]]:
    """Returns the lines of the tree of a claim of one node, if that rests on trees or cuts."""
    x, y, turn, body = node.split("|")
    name, *words = body.split()
    if name not in ("trees", "cuts"):
        return None
    last = len(graph.ends) - 1
    middle = words.index("/")
    one = {last if word == "e" else int(word) for word in words[:middle]}
    other = {int(word) for word in words[middle + 1:]}
    start = Place(frozenset(map(int, x.split())), frozenset(map(int, y.split())), turn)
    sets = Sets(frozenset(one), frozenset(other), last)
    return Play(graph, head.split()[2]).rows(start, sets)


def played(game: str, cert: str) -> str:
    """Returns the certificate as its book shows it: as the tree of play if each claim of it is one
    node with trees or cuts and the tree has few nodes, and otherwise as it is."""
    graph = graph_of(game)
    heads = [line for line in cert.splitlines() if line.startswith("claim ")]
    nodes = [line for line in cert.splitlines() if "|" in line and not line.startswith("#")]
    if graph is None or len(heads) != len(nodes):
        return cert
    trees = [claim_rows(graph, *it) for it in zip(heads, nodes)]
    if not all(trees) or sum(len(it or []) for it in trees) > MOST:
        return cert
    parts = [f"{head}\nnodes {len(tree)}\n{''.join(tree)}"
             for head, tree in zip(heads, trees) if tree]
    return "posgame-cert 1\n" + "".join(parts)
