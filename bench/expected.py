#!/usr/bin/env python3
"""Finds what the test crates expect, without anything of the crates. Unproved.

    bench/expected.py criteria | plain | families | counts | values | totals | reviews | names
"""
from __future__ import annotations

import collections
import functools
import itertools
import random
from typing import Any, Callable, Iterable, Optional, Sequence

import kit
from kit import Points

POINTS = 5
BOARDS = kit.boards("; 01 02; 01 02 03; 01 23; 012 234; 01 12 23 34 04; 0 123; 012 012 013 024 34")
GRAPHS = kit.boards("; 01; 01 01; 02 21; 02 21 01 22; 02 02 21 21; 02 03 23 21 31; 02 23 32 31 01")
GOOD = {("x", "win"): (1,), ("x", "draw"): (0, 1), ("y", "win"): (-1,), ("y", "draw"): (-1, 0)}


class Game(kit.LineGame):
    """A game on lines with the criteria for its goals."""

    def weight(self, base: int, harmless: Points, x: Points, y: Points, v: int = -1) -> int:
        """The weight of the lines without a harmless point, or of those through a point."""
        longest = max(map(len, self.lines), default=0)
        return sum(base ** (longest - len(line - x - y)) for line in self.lines
                   if not line & harmless and (v < 0 or v in line))

    def potential(self, side: str, x: Points, y: Points, turn: str, left: int) -> bool:
        """Whether the weights of the lines show that the other side, or Avoider, fills none."""
        free, base = self.free(x, y), 1 + self.bias
        if self.kind == "avoider-enforcer":
            base, last = 2, None
            for _ in free:
                last = turn
                *_, turn, left = self.after(x, y, turn, left, 0)
            total = (2 if last == "x" else 1) * self.weight(2, y, x, y)
        else:
            harmless = x if side == "x" else y
            through = max((self.weight(base, harmless, x, y, v) for v in free), default=0)
            times = self.bias - left if turn == side else self.bias
            total = self.weight(base, harmless, x, y) + times * through
        return total < base ** max(map(len, self.lines), default=0)

    def pairing(self, side: str, pairs: Any, x: Points, y: Points, turn: str, left: int) -> bool:
        """Whether these disjoint pairs hold for the side."""
        points, free = {v for pair in pairs for v in pair}, set(self.free(x, y))
        is_avoider = self.kind == "avoider-enforcer"
        if is_avoider and (self.bias > 1 or len(free - points) != (turn == "x")):
            return False
        harmless = y if side == "y" or is_avoider else x
        return points <= free and all(
            line & harmless or any(set(pair) <= line for pair in pairs) for line in self.lines)

    def attacks(self, side: str, depth: int, x: Points, y: Points, turn: str, left: int) -> bool:
        """Whether the side to move fills a line by attacks with at most `depth` replies."""
        may = self.score(x, y) is None and (turn == "x" or self.kind == "maker-maker")
        return may and self.attack(*((x, y) if turn == "x" else (y, x)), depth)


def counted(criterion: Callable[..., bool], sets: list[Any], kind: str, side: str,
           goal: str = "win", bias: int = 1) -> list[int]:
    """On each board, how often a criterion holds, and at how many positions the goal is reached, by
    the side or, if that is empty, by the side to move."""
    found = []
    for game in (Game(kind, POINTS, lines, bias) for lines in BOARDS):
        held = forced = 0
        for position in game.positions():
            own = side or position[2]
            reached = game.value(*position) in GOOD[own, goal]
            holding = sum(criterion(game, own, *it, *position) for it in sets)
            assert reached or not holding, (kind, game.lines, position)
            held, forced = held + holding, forced + reached
        found += held, forced
    return found


PAIR_SETS = [(pairs,) for count in range(POINTS // 2 + 1)
             for pairs in itertools.combinations(itertools.combinations(range(POINTS), 2), count)
             if len({v for pair in pairs for v in pair}) == 2 * count]
potential_counts = functools.partial(counted, Game.potential, [()])
pair_counts = functools.partial(counted, Game.pairing, PAIR_SETS)


class GraphGame:
    """A switching game between the vertices 0 and 1; the number of edges is the extra edge."""

    def __init__(self, ends: list[kit.Edge]) -> None:
        self.ends, self.count = ends + [(0, 1)], len(ends)
        self.x_wins = kit.set_game(self.count, functools.partial(self.joins, edge=self.count))

    @functools.lru_cache(None)
    def joins(self, edges: Points, edge: int) -> bool:
        """Whether the edges join the ends of the edge."""
        top = kit.tops(4, map(self.ends.__getitem__, edges))
        return top[self.ends[edge][0]] == top[self.ends[edge][1]]

    def trees(self, x: Points, y: Points, a: Points, b: Points) -> bool:
        """Whether each of two sets with X's edges joins the ends of the other set's edges."""
        return all(self.joins(x | mine, f) for mine, other in ((a, b), (b, a))
                   for f in other | {self.count})

    def cuts(self, x: Points, y: Points, a: Points, b: Points) -> bool:
        """Whether each edge of a set is a bridge of what is left without the other set."""
        rest, extra = frozenset(range(self.count + 1)) - y, {self.count}
        return all(not self.joins(rest - mine - {f}, f)
                   for mine, other in ((a, b | (extra - a)), (b, a | extra)) for f in other)

    def counts(self) -> tuple[int, int, int]:
        """How many positions X wins, and how many pairs of sets are trees and cuts."""
        won = trees = cuts = 0
        for x, y in kit.marked(self.count):
            pairs = [(a, b) for a, b in kit.marked(self.count) if not (a | b) & (x | y)]
            more = [(a | {self.count}, b) for a, b in pairs]
            for turn in "xy":
                of_x, of_y = (sum(test(x, y, a, b) for a, b in pairs + more * (turn == side))
                              for side, test in (("x", self.trees), ("y", self.cuts)))
                wins = self.x_wins(x, y, turn == "x")
                assert (of_x > 0, of_y > 0) == (wins, not wins), (self.ends, x, y, turn)
                won, trees, cuts = won + wins, trees + of_x, cuts + of_y
        return won, trees, cuts


def criteria() -> None:
    """Prints the numbers of claims, attacks and trees-and-cuts of test_criteria: at how many
    positions of small games a criterion holds, as docs/DEFINITIONS.md says it, and at how many the
    value by brute force reaches its goal. Stops if one holds and the goal isn't reached, and in a
    switching game if the side that wins has no trees or no cuts."""
    breaker, race, avoider = kit.KINDS
    for bias in (1, 2, 3):
        print("Breaker's potential, bias", bias, potential_counts(breaker, "y", bias=bias))
        print("Breaker's pairs, bias", bias, pair_counts(breaker, "y", bias=bias))
        print("Avoider's potential, bias", bias, potential_counts(avoider, "x", bias=bias))
    print("Avoider's pairs", pair_counts(avoider, "x"))
    for side in "xy":
        print("potential in a race,", side, potential_counts(race, side, "draw"))
        print("pairs in a race,", side, pair_counts(race, side, "draw"))
    # Of each board, how many positions are won at once, by attacks, and at all.
    for kind, name in ((breaker, "breaker"), (race, "race")):
        at_once, attacks = (counted(Game.attacks, [(depth,)], kind, "") for depth in (0, 3))
        print("threat lines,", name, [*zip(at_once[::2], attacks[::2], attacks[1::2])])
    for ends in GRAPHS:
        print("positions that X wins, trees, cuts on", ends, GraphGame(ends).counts())


THREAT_BOARDS = kit.boards(
    "01 02; 012 234; 01 12 23 34 04; 0 123 345; 012 123 234 345 045; 012 034 135 245;"
    "012 034 056 135 146 236 245; 01 023 245 246")


def depths(kind: str, lines: list[tuple[int, ...]]) -> list[int]:
    """How many positions have a shortest threat line of each length, and how many have none."""
    game, found = kit.LineGame(kind, 1 + max(map(max, lines)), lines), [0] * 5
    for x, y in kit.marked(game.points):
        if game.score(x, y) is None:
            for own, foe in [(x, y), (y, x)] if game.kind == "maker-maker" else [(x, y)]:
                found[next((depth for depth in range(4) if game.attack(own, foe, depth)), 4)] += 1
    return found


def joins(vertices: int, ends: Sequence[kit.Edge], points: Points) -> bool:
    """Whether the edges of the set join every two vertices."""
    return len(set(kit.tops(vertices, map(ends.__getitem__, points)))) == 1


def sums(target: int, vectors: Sequence[int], points: Points) -> bool:
    """Whether the target is a sum of some vectors of the set."""
    known = {0}
    for v in points:
        known |= {old ^ vectors[v] for old in known}
    return target in known


def wins(passes: Callable[..., bool], goals: Iterable[int], things: Iterable[Any], count: int,
         has_marks: bool = True) -> str:
    """In how many games on `count` of the things, in which X wants some of them to pass a test with
    one of the goals, at all marks or at none, X wins whoever moves, Y does, the mover does, and the
    other does."""
    found: collections.Counter[tuple[bool, ...]] = collections.Counter()
    chosen = itertools.combinations_with_replacement(things, count)
    for goal, points in itertools.product(goals, chosen):
        x_wins = kit.set_game(count, functools.partial(passes, goal, points))
        found.update(tuple(x_wins(*marks, x_moves) for x_moves in (True, False))
                     for marks in itertools.islice(kit.marked(count), None if has_marks else 1))
    assert not found[False, True]
    whose = (True, True), (False, False), (True, False), (False, True)
    return kit.field(found[it] for it in whose) + ","


def connectivity(vertices: int, count: int, has_marks: bool = True) -> str:
    """The counts over all choices of edges."""
    pairs = itertools.combinations_with_replacement(range(vertices), 2)
    return wins(joins, [vertices], pairs, count, has_marks)


# The counts over all lists of so many vectors, and all targets.
vectors = functools.partial(wins, sums, range(8), range(8))


def plain() -> None:
    """Prints the numbers of test_plain. First those of src/threat_rows.rt: at how many positions of
    small games the shortest threat line of the side to move forces none, one, two or three replies,
    and at how many there is none. Then, for connectivity games on two to four vertices and games on
    vectors of three entries, how many games X wins whoever moves, Y does, and the side to move
    does, over all choices of points in order and all marks; and the same for five points without
    marks."""
    for kind, name in (("maker-breaker", "maker and breaker"), ("maker-maker", "maker and maker")):
        rows = (kit.field(depths(kind, lines)) + " 0;" for lines in THREAT_BOARDS)
        print(f"{name}:", "".join(rows))
    for vertices, limit in ((2, 6), (3, 6), (4, 5)):
        print(vertices, "vertices:", "".join(connectivity(vertices, it) for it in range(limit)))
    print("4 vertices, 5 edges, no marks:", connectivity(4, 5, False))
    print("vectors:", "".join(vectors(count) for count in range(5)))
    print("5 vectors, no marks:", vectors(5, False))


def exist(lines: list[kit.Line], free: set[int]) -> bool:
    """Whether each line can have two of the points of its own."""
    return not lines or any(exist(lines[1:], free - set(pair)) for pair in
                            itertools.combinations(sorted(set(lines[0]) & free), 2))


def blocks(lines: list[kit.Line], free: set[int]) -> bool:
    """Whether a line is left without two points if each takes the lowest two that are left."""
    for line in lines:
        left = sorted(set(line) & free)
        if len(left) < 2:
            return True
        free = free - set(left[:2])
    return False


def kind_of(points: int, lines: list[kit.Line], taken: set[int], own: set[int]) -> Optional[str]:
    """What a family shows, or None if it has less than two lines that need a pair."""
    wanted, free = [line for line in lines if not own & set(line)], set(range(points)) - taken - own
    if len(wanted) < 2:
        return None
    if exist(wanted, free):
        return "blocked" if blocks(wanted, free) else "plain"
    is_enough = 2 * len(wanted) <= len(free) and all(len(set(it) & free) >= 2 for it in wanted)
    return "short" if is_enough else "few"


def families() -> None:
    """Prints a table of test_rows: whether disjoint pairs exist, found by trying all choices. A row
    is a position of Maker-Breaker: `maker-breaker POINTS x 1:LINES:X:Y:ANSWER`. Lines with a point
    of Y need no pair. Half of the rows have no pairs, and most of these pass both counts (enough
    free points for all, two for each line); half of the others block a matcher that keeps its first
    choices."""
    draw = random.Random(1935)
    due = {"plain": 13, "blocked": 13, "short": 22, "few": 4}
    while any(due.values()):
        points = draw.randint(4, 12)
        lines = [sorted(draw.sample(range(points), draw.randint(2, min(points, 4))))
                 for _ in range(draw.randint(2, 7))]
        own = set(draw.sample(range(points), 1)) if draw.random() < 0.25 else set()
        taken = {v for v in range(points) if v not in own and draw.random() < 0.05}
        kind = kind_of(points, lines, taken, own)
        if kind and due[kind] and (len(lines) > 2 or draw.random() < 0.3):
            due[kind] -= 1
            row = kit.short_game("maker-breaker", points, lines).rstrip(":\n")
            marks = (kit.field(sorted(it)) for it in (taken, own))
            print(row, *marks, "yes" if kind in ("plain", "blocked") else "no", sep=":")


def counts() -> None:
    """Prints a table of test_rows: in how many ways a polyomino lies on a board. No shape is moved:
    on each board all connected sets of four or of five cells are counted for the least of the eight
    images of each. A row is WORD:COUNTS, with the counts on the boards 4 by 4, 4 by 5, 4 by 6, 5 by
    4 and so on to 6 by 6 (width by height)."""
    for size in (4, 5):
        boards = []
        for width, height in itertools.product(range(4, 7), repeat=2):
            cells = set(itertools.product(range(height), range(width)))
            sets = {frozenset([cell]) for cell in cells}
            for _ in range(size - 1):
                sets = {it | {cell} for it in sets for cell in kit.beside(it) & cells}
            boards.append(collections.Counter(min(kit.turned(shape)) for shape in sets))
        for shape in sorted(set().union(*boards)):
            print(f"{kit.word_of(shape)}:{','.join(str(board[shape]) for board in boards)}")


# The kinds in the order in which they are drawn, with the letters for the scores 0, 1 and -1.
LETTERS = {"maker-breaker": "-mb", "avoider-enforcer": "-ae", "maker-maker": "dxy"}
KINDS = list(LETTERS)
WORDS = {"m": "maker x", "b": "breaker y", "a": "avoider x", "e": "enforcer y",
         "x": "x x", "y": "y y", "d": "draw -"}
OTHER = {"x": "y", "y": "x"}
SQUARE = {kind: kit.LineGame(kind, 9, kit.in_row(3, 3, 3)) for kind in KINDS}
Marks = list[Optional[str]]


def letter(board: kit.LineGame, position: kit.Position) -> str:
    """The letter of the value of a position."""
    return LETTERS[board.kind][board.value(*position)]


def board_rows(board: kit.LineGame) -> str:
    """The rows of the file on points and lines."""
    rows = [f"points {board.points}"] + [f"bias {board.bias}"] * (board.bias > 1)
    return ";".join(rows + kit.line_rows(map(sorted, board.lines)))


def position_rows(x: kit.Points, y: kit.Points, turn: str, _: int) -> str:
    """The rows of the file on marks and the side to move."""
    return ";".join(kit.mark_rows(x, y) + [f"turn {turn}"])


def position(board: kit.LineGame, marks: Marks, turn: str) -> kit.Position:
    """The position in which each point has its mark."""
    x, y = (frozenset(v for v, mark in enumerate(marks) if mark == side) for side in "xy")
    return x, y, turn, board.bias if turn == "y" else 1


def drawn_lines(draws: kit.Draws, points: int, most: int) -> list[set[int]]:
    """One to `most` lines, each with some of the points."""
    return [{v for v in range(points) if draws.below(5) < 2} or {0}
            for _ in range(draws.below(most) + 1)]


def drawn_marks(draws: kit.Draws, points: int, limit: int) -> Marks:
    """For each point X's mark, Y's, or none, by a number below the limit."""
    return [{0: "x", 1: "y"}.get(draws.below(limit)) for _ in range(points)]


def game(number: int, kind: str, bias: int, least: int = 3, most: int = 6,
         has_marks: bool = True) -> tuple[kit.LineGame, kit.Position]:
    """A game of `least` to six points with at most `most` lines, drawn from its number."""
    draws = kit.Draws(number)
    points = draws.below(7 - least) + least
    lines = drawn_lines(draws, points, most)
    marks = drawn_marks(draws, points, 10) if has_marks else []
    board = kit.LineGame(kind, points, lines, 1 if kind == "maker-maker" else bias)
    return board, position(board, marks, "xy"[draws.below(2)])


def drawn_pair(number: int) -> tuple[kit.LineGame, kit.Position, kit.Position]:
    """Two positions of a Maker-Breaker game."""
    draws = kit.Draws(number)
    points = draws.below(3) + 4
    lines = drawn_lines(draws, points, 6)
    turn, worse = "xy"[draws.below(2)], "xy"[draws.below(2)]
    board = kit.LineGame(KINDS[0], points, lines, 1 + number % 3)
    marks = drawn_marks(draws, points, 8)
    sides = [{**dict.fromkeys(range(8), worse), 23: OTHER[worse]}.get(draws.below(24))
             for _ in range(points)]
    others = [mark if side is None else None if mark == side else OTHER[side]
              for mark, side in zip(marks, sides)]
    other_turn = turn if draws.below(12) else OTHER[turn]
    return board, position(board, marks, turn), position(board, others, other_turn)


GAMES = [game(number, KINDS[number % 3], bias) for bias, count in ((1, 300), (2, 120))
         for number in range(count)]
GAMES += [game(number, KINDS[number % 2], 2 + number // 2 % 2, 4, 10, False)
          for number in range(200)]
PAIRS = list(map(drawn_pair, range(200)))


def pair(board: kit.LineGame, first: kit.Position, second: kit.Position) -> str:
    """The letter of a pair of positions."""
    value = letter(board, second)
    winner = "mb".index(value)
    is_no_worse = (first[winner] >= second[winner] and first[1 - winner] <= second[1 - winner]
                   and first[2] == second[2])
    assert not is_no_worse or letter(board, first) == value
    return value if is_no_worse else "xy"[winner]


def pair_line(board: kit.LineGame, first: kit.Position, second: kit.Position) -> str:
    """The line of a pair of positions."""
    value = pair(board, first, second)
    word, side = WORDS[value].split() if value in "mb" else ("rejected", value)
    x, y, turn, left = kit.field(sorted(first[0])), kit.field(sorted(first[1])), *first[2:]
    body = f"{x}|{y}|{turn}{left if left > 1 else ''}|"
    positions = f"{position_rows(*first)}={position_rows(*second)}"
    return f"pair {word} {turn} {side} win={board_rows(board)}={positions}={body}"


def drawn_record(number: int) -> tuple[str, kit.LineGame, list[str], list[kit.Position]]:
    """A review of noughts and crosses: its name, the game, the events, and the positions."""
    board = SQUARE[CHANCE.choice(sorted(SQUARE))]
    points = CHANCE.sample(range(9), CHANCE.choice([0, 0, 0, 2, 3]))
    half = (len(points) + 1) // 2
    events = []
    trail = [(frozenset(points[:half]), frozenset(points[half:]), CHANCE.choice("xy"), 1)]
    for _ in range(CHANCE.randint(1, 14)):
        if len(trail) > 1 and CHANCE.random() < 0.25:
            trail.pop()
            events.append("back")
        elif board.score(*trail[-1][:2]) is None:
            v = CHANCE.choice(board.free(*trail[-1][:2]))
            trail.append(board.after(*trail[-1], v))
            events.append(f"move {v}")
        else:
            break
    return f"a review of noughts and crosses, {number}: {board.kind}", board, events, trail


CHANCE = random.Random(20261128)
RECORDS = list(map(drawn_record, range(1, 201)))


def names() -> None:
    """Prints what test_stories says of the reviews."""
    for name, *_ in RECORDS:
        print(f"ok {name}")


def reviews() -> None:
    """Prints 200 rows of test_stories on noughts and crosses. In each kind with lines the board
    begins empty or with some marks, with either side to move; moves are taken back now and then.
    Values are found by trying all plays."""
    for name, board, events, trail in RECORDS:
        begin = position_rows(*trail[0]).replace(";", "; ")
        print(f"\nrow {name}\nfile G posgame 1; kind {board.kind}; @three; {begin};\nfile R",
              *(f"{it};" for it in ["posgame-record 1", *events]))
        print("run review G R\nstatus 0")
        for number, (p, q) in enumerate(zip(trail, trail[1:])):
            before, now = board.value(*p), board.value(*q)
            if (now < before) if p[2] == "x" else (now > before):
                point, = (q[0] | q[1]) - (p[0] | p[1])
                words = [WORDS[letter(board, it)].split()[0] for it in (p, q)]
                print(f"says lost {number} {point} {kit.field(words)}")
        print(f"says reviewed {len(trail) - 1}")


def values() -> None:
    """Prints the lines `value` and `pair` of test_stories. There are 300 games with a point a turn,
    the first 120 of them with two points for Y except in Maker-Maker, 200 with two or three points
    for Y and without marks, and 200 pairs of positions, drawn from their numbers as seeds."""
    for board, place in GAMES:
        rows = f"kind {board.kind};{board_rows(board)};{position_rows(*place)};"
        print(f"value {WORDS[letter(board, place)]}={rows}")
    print(*itertools.starmap(pair_line, PAIRS), sep="\n")


def totals() -> None:
    """Prints how many of these games and pairs have each value: m and b for Maker and Breaker, a
    and e for Avoider and Enforcer, x, y and d for Maker-Maker and its draw. A pair is m or b if the
    first position is no worse for the winner of the second, and else that winner, x or y."""
    for name, letters, found in (("games", "mbaexyd", [*itertools.starmap(letter, GAMES)]),
                                 ("pairs", "mbxy", [*itertools.starmap(pair, PAIRS)])):
        print(f"{name}:", *(f"{it} {found.count(it)}" for it in letters))


if __name__ == "__main__":
    raise SystemExit(kit.call_part(
        __doc__, None, criteria, plain, families, counts, values, totals, reviews, names))
