"""A second checker of posgame certificates. It shares nothing with the program, and is not proved.

It is written from docs/FORMATS.md and docs/DEFINITIONS.md alone, to be checked by eye: each rule is
next to the sentence of these documents that it computes. A set of points is an integer whose bit v
is 1 if point v is a member; a set of lines likewise. Edges and vectors are points too. E is the
extra edge between the terminals, or the target; it is the last of a list of edges or vectors.
"""
from __future__ import annotations

import math
import pathlib
import re
import sys
from typing import Any, Iterable, Iterator, NamedTuple

ON_LINES = {"kind": 1, "points": 2, "grid": 2, "line": 4, "shape": 4, "x": 5, "y": 6, "turn": 7}
BIASED = {**ON_LINES, "bias": 3}
ON_GRAPHS = {"kind": 1, "vertices": 2, "terminals": 3, "edge": 4, "x": 5, "y": 6, "turn": 7}
# The keys of a game file with their ranks, by the kind, or by the header before the kind is known.
KEYS = {"posgame": {**BIASED, **ON_GRAPHS}, "maker-breaker": BIASED, "maker-maker": ON_LINES,
        "avoider-enforcer": BIASED, "switching": ON_GRAPHS,
        "posgame-span": {"vertices": 2, "edge": 4, "x": 5, "y": 6, "turn": 7},
        "posgame-vectors": {"rows": 2, "target": 3, "vector": 4, "x": 5, "y": 6, "turn": 7}}
NEEDED = {"switching": {1, 2, 3}, "posgame-span": {2}, "posgame-vectors": {2, 3}}  # Else {1, 2}.
CHOICES = {"kind": ("maker-breaker", "maker-maker", "avoider-enforcer", "switching"),
           "turn": ("x", "y")}
LIMITS = {"points": 256, "grid": 256, "vertices": 500, "rows": 128, "bias": 7}
# The form of each body, save for its numbers, and the first version that has it.
SETS = "( (?!/( |$))[^ ]*)* /( (?!/( |$))[^ ]*)*"
FORMS = {name: (re.compile(name + form), version) for name, form, version in [
    ("over", "", 1), ("move", " [^ ]* [^ ]*", 1), ("all", "( [^ :]*:[^ :]*)*", 1),
    ("pairs", "( [^ -]*-[^ -]*)*", 1), ("potential", "", 1), ("trees", SETS, 1), ("cuts", SETS, 1),
    ("threat", " [^ ]*( [^ ]* [^ ]*)*", 1), ("weaker", " [^ ]*", 2), ("image", " [^ ]* [^ ]*", 3)]}
TURNS = {"x": ("x", 1), "y": ("y", 1), **{f"y{n}": ("y", n) for n in range(2, 8)}}
NUMBERS, E = {str(number): number for number in range(100_000)}, -1

class Fault(Exception):
    """An error of a file or a certificate: its number, and at last the text of `posgame check`."""

class Position(NamedTuple):
    """X's points, Y's points, the turn, and how many points the side to move still claims."""
    x: int
    y: int
    turn: str
    left: int

class Node(NamedTuple):
    """A position and its body: its points in order (of two sets the first; an image's map; numbers
    of parts), the nodes that it names (the edge behind `first`), and the second of two sets."""
    position: Position
    body: str
    points: list[int]
    children: list[int]
    second: list[int]

class Claim(NamedTuple):
    """From the game's marks with this turn, this side reaches this goal."""
    turn: str
    side: str
    goal: str
    nodes: list[Node]

def refuse(number: int, when: object) -> None:
    """Raises the error of this number if there is one."""
    if when:
        raise Fault(number)

def number_of(word: str) -> int:
    """Returns the number of one to nine digits without a leading zero; -1 for other words."""
    return int(word) if re.fullmatch("0|[1-9][0-9]{0,8}", word) else -1

def lines_of(data: bytes) -> list[str]:
    """Returns the lines of a file; a line feed at its end begins no further line."""
    lines = data.decode("latin-1").split("\n")
    return lines[:-1] if lines[-1] == "" else lines

def members(points: int) -> Iterator[int]:
    """Yields the members of a set, ascending."""
    while points:
        lowest = points & -points
        yield lowest.bit_length() - 1
        points ^= lowest

def set_of(points: Iterable[int]) -> int:
    """Returns the set of some points, E left out."""
    return sum(1 << v for v in set(points) if v != E)

def size(members_of: int) -> int:
    """Returns how many members a set has."""
    return bin(members_of).count("1")

class Game:
    """A game of any kind, and the rules by which it is played (DEFINITIONS, "Games")."""

    def __init__(self, family: str) -> None:
        self.kind, self.family, self.turn, self.x, self.y = family, family, "", 0, 0
        self.points, self.vertices, self.rows, self.bias, self.grid = 0, 0, 0, 1, (0, 0)
        self.lines: list[int] = []
        self.through = [0] * 256  # The lines through each point.
        self.longest = self.sum = 0  # The greatest size of a line, and the sum of all sizes.
        self.elements: list[Any] = []  # Edges by their ends; or vectors, the first sign lowest.
        self.extra: Any = None  # The terminals, or the target.

    def add_lines(self, lines: list[int]) -> None:
        """Adds lines: at most 20,000 in all, of 400,000 points together."""
        for line in lines:
            for v in members(line):
                self.through[v] |= 1 << len(self.lines)
            self.lines.append(line)
            self.longest, self.sum = max(self.longest, size(line)), self.sum + size(line)
        refuse(10, len(self.lines) > 20_000 or self.sum > 400_000)

    def start(self, turn: str) -> Position:
        """Returns the game's marks at the beginning of a side's turn."""
        return Position(self.x, self.y, turn, self.bias if turn == "y" else 1)

    def after(self, p: Position, v: int) -> Position:
        """The mover has v too. If `left` is above 1, it falls by 1 and the turn stays; otherwise
        the turn passes, and `left` becomes the bias of the other side."""
        x, y = (p.x | 1 << v, p.y) if p.turn == "x" else (p.x, p.y | 1 << v)
        turn = p.turn if p.left > 1 else "y" if p.turn == "x" else "x"
        return Position(x, y, turn, p.left - 1 or self.start(turn).left)

    def all_but(self, points: int) -> int:
        """Returns the points of the game outside a set."""
        return (1 << self.points) - 1 & ~points

    def live(self, points: int) -> int:
        """Returns the set of lines without a point of a set."""
        touched = 0
        for v in members(points):
            touched |= self.through[v]
        return (1 << len(self.lines)) - 1 & ~touched

    def by_free(self, lines: int, free: int) -> list[int]:
        """Splits a set of lines by their numbers of free points: entry f has those with f."""
        split = [lines] + [0] * (self.longest + 1)
        for v in members(free):
            through = self.through[v]
            split = [same & ~through | fewer & through for same, fewer in zip(split, [0] + split)]
        return split

    def new(self, given: Iterable[int], asked: Iterable[int]) -> list[bool]:
        """Returns which edges or vectors are new after those given and those asked before: these
        do not join the edge's ends, or the vector is no sum of them without carry."""
        part, base = list(range(self.vertices)), dict[int, int]()
        elements = self.elements + [self.extra]
        def is_new(number: int) -> bool:
            if self.family == "posgame-vectors":
                vector = elements[number]
                while vector.bit_length() in base:
                    vector ^= base[vector.bit_length()]
                base.update({vector.bit_length(): vector} if vector else {})
                return bool(vector)
            a, b = [part[end] for end in elements[number]]
            part[:] = [b if one == a else one for one in part] if a != b else part
            return bool(a != b)
        for number in given:
            is_new(number)
        return [is_new(number) for number in asked]

    def outcome(self, p: Position) -> str | None:
        """Returns who has won, `draw`, or none if the game is not over."""
        if self.kind == "switching":  # X's edges join the terminals, or those not Y's do not.
            if not self.new(members(p.x), [E])[0]:
                return "x"
            return "y" if self.new(members(self.all_but(p.y)), [E])[0] else None
        avoiding, full = self.kind == "avoider-enforcer", not self.all_but(p.x | p.y)
        if self.live(self.all_but(p.x)):  # X has filled a line: Avoider loses, others win.
            return "y" if avoiding else "x"
        if self.kind == "maker-maker":  # A side has filled a line, or no point is free.
            return "y" if self.live(self.all_but(p.y)) else "draw" if full else None
        # Every line has a point of Y, or no point is free.
        return None if self.live(p.y) and not full else "x" if avoiding else "y"

# Game files (FORMATS, "Game files").
def placements(word: str, grid: tuple[int, int]) -> list[int]:
    """Returns all translations of a shape's images under the four turns and the reflection, each
    once; G13 if the word is no shape."""
    rows, (width, height), lines = word.split("/"), grid, set()
    cells = [(r, c) for r, row in enumerate(rows) for c, sign in enumerate(row) if sign == "1"]
    linked = set(cells[:1])
    for _ in cells:
        linked |= {(r, c) for r, c in cells
                   if linked & {(r, c + 1), (r, c - 1), (r + 1, c), (r - 1, c)}}
    refuse(13, set(word) - set("01/") or len(set(map(len, rows))) > 1 or not cells)
    refuse(13, len(linked) < len(cells))
    for image in range(8):
        turned = [(c, r) if image & 4 else (r, c) for r, c in cells]
        turned = [(-r if image & 2 else r, -c if image & 1 else c) for r, c in turned]
        (top, bottom), (left, right) = [(min(side), max(side)) for side in zip(*turned)]
        lines |= {set_of((r + down) * width + c + over for r, c in turned)
                  for down in range(-top, height - bottom) for over in range(-left, width - right)}
    return sorted(lines, key=lambda line: list(members(line)))

def read_line(game: Game, key: str, words: list[str], ranks: set[int]) -> None:
    """Adds a line to the game, after lines with keys of these ranks; raises its least error."""
    refuse(4, key not in KEYS[game.family] or words and words[0] not in CHOICES.get(key, words))
    rank, most = KEYS[game.kind].get(key, 0), 33 if game.bias > 1 else 100
    refuse(5, rank < max(ranks, default=1) or rank in ranks and rank != 4)
    refuse(5, {one for one in NEEDED.get(game.kind, {1, 2}) if one < rank} - ranks)
    refuse(5, key == "shape" and game.grid == (0, 0))
    pointed, ends, signs = ("line", "x", "y"), ("edge", "terminals"), ("vector", "target")
    refuse(6, key not in pointed and len(words) != (2 if key in ends + ("grid",) else 1))
    word = words[0] if key in signs or key in ("kind", "shape", "turn") else ""
    numbers = [] if word else [number_of(one) for one in words]
    refuse(6, -1 in numbers)
    within = game.vertices if key in ends else game.points
    refuse(7, key in ends + pointed and max(numbers, default=-1) >= within)
    points, product = set_of(numbers) if key in pointed else 0, math.prod(numbers)
    refuse(8, key in pointed and len(set(numbers)) < len(numbers) or key == "y" and points & game.x)
    refuse(9, key == "line" and not 1 <= len(numbers) <= most)
    refuse(9, key == "shape" and word.count("1") > most)
    refuse(10, key in LIMITS and not (2 if key == "vertices" else 1) <= product <= LIMITS[key])
    refuse(10, key in ("edge", "vector") and game.points == 1_000)
    if key in ("line", "shape"):
        game.add_lines([points] if key == "line" else placements(word, game.grid))
    refuse(11, key == "terminals" and numbers[0] == numbers[1])
    refuse(13, key in signs and (len(word) != game.rows or set(word) - set("01")))
    ranks.add(rank)
    if key in ("edge", "vector"):
        game.points += 1
        game.elements.append(int(word[::-1], 2) if word else numbers)
    elif key in ("terminals", "target"):
        game.extra = int(word[::-1], 2) if word else numbers
    elif key not in ("line", "shape"):
        game.grid = (numbers[0], numbers[1]) if key == "grid" else game.grid
        key = "points" if key == "grid" else key
        setattr(game, key, word or (points if key in pointed else product))

def read_game(data: bytes, family: str) -> Game:
    """Returns the game of a file with the header of a family; raises the first error."""
    game, ranks, begun, at = Game(family), set[int](), False, 0
    try:
        refuse(1, len(data) > 4_194_304)
        for at, line in enumerate(lines_of(data), 1):
            refuse(2, not (line.isascii() and line.isprintable()))
            words = line.split()
            if words and line[0] != "#":
                refuse(3, not begun and words != [family, "1"])
                if begun:
                    read_line(game, words[0], words[1:], ranks)
                begun = True
        at = 0
        refuse(12 if begun else 3, 7 not in ranks)
        return game
    except Fault as fault:
        raise Fault(f"game G{fault} line {at}") from None

# Certificate files (FORMATS, "Certificate files", "Certificates of connectivity games").
def numbers_of(words: list[str], limit: int) -> list[int]:
    """Returns the numbers of words; C4 if one is none, or not below the limit."""
    numbers = [NUMBERS.get(word, limit) for word in words]
    refuse(4, max(numbers, default=-1) >= limit)
    return numbers

def ascending(words: list[str], limit: int = 1_024) -> list[int]:
    """Returns the points of words, which must ascend."""
    points = numbers_of(words, limit)
    refuse(4, sorted(set(points)) != points)
    return points

def read_node(line: str, version: int) -> Node:
    """Returns the node of a line."""
    refuse(5, "|" not in line)
    fields = line.split("|")
    name = fields[-1].split(" ", 1)[0]
    form, since = FORMS.get(name, (FORMS["over"][0], 1))
    refuse(3, len(fields) != 4 or fields[2] not in TURNS)
    refuse(3, version < since or not form.fullmatch(fields[3]))
    x, y = [set_of(ascending(field.split(" "))) if field else 0 for field in fields[:2]]
    refuse(4, x & y)
    position = Position(x, y, *TURNS[fields[2]])
    words = fields[3].replace({"all": ":", "pairs": "-"}.get(name, " "), " ").split(" ")[1:]
    if name in ("trees", "cuts"):
        extra, slash = [E] if words[0] == "e" else [], words.index("/")
        first = extra + ascending(words[len(extra):slash])
        return Node(position, name, first, [], ascending(words[slash + 1:]))
    points = words[::2] if name == "all" else words[:{"move": 1, "image": 1, "weaker": 0}.get(name)]
    children = words[1::2] if name == "all" else words[len(points):]
    numbers = numbers_of(points, 8 if name == "image" else 1_024)
    refuse(4, name == "all" and sorted(set(numbers)) != numbers)
    return Node(position, name, numbers, numbers_of(children, 100_000), [])

def read_span_body(line: str) -> Node:
    """Returns the body of a claim on a connectivity game, with no position of its own."""
    name, *words = line.split(" ")
    refuse(3, name not in ("trees", "parts"))
    if name == "parts":
        return Node(Position(0, 0, "", 0), name, numbers_of(words, 1_000), [], [])
    first = words[1:2] if words[:1] == ["first"] else []
    words = words[2 * len(first):]
    refuse(3, words.count("/") != 1)
    slash = words.index("/")
    one, two = ascending(words[:slash], 1_000), ascending(words[slash + 1:], 1_000)
    return Node(Position(0, 0, "", 0), name, one, numbers_of(first, 1_000), two)

def read_certificate(data: bytes, family: str) -> tuple[int, list[Claim]]:
    """Returns the version and the claims of a file for a family; raises the first error."""
    spans, claims, at, total = family == "posgame-span", list[Claim](), 0, 0

    def next_line() -> str:
        """Returns the next line; at the end an empty one, which is never expected."""
        nonlocal at
        at += 1
        return lines[at - 1] if at <= len(lines) else ""
    try:
        refuse(1, len(data) > (4_194_304 if spans else 268_435_456))
        lines = lines_of(data)
        found = re.fullmatch("posgame-(span-)?cert ([123])", next_line())
        version = int(found[2]) if found and (found[1] == "span-") == spans else 0
        refuse(2, version > {"posgame": 3, "posgame-vectors": 2}.get(family, 1) or not version)
        while at < len(lines) or not claims:
            line = next_line()
            refuse(5, "|" in line and not spans)
            refuse(3, not re.fullmatch("claim [xy] [xy]" + " (win|draw)" * (not spans), line))
            refuse(6, len(claims) == 8)
            turn, side, goal = f"{line} win".split(" ")[1:4]
            claims.append(Claim(turn, side, goal, []))
            words = ["nodes", "1"] if spans else next_line().split(" ")
            refuse(3, len(words) != 2 or words[0] != "nodes")
            count = number_of(words[1])
            refuse(4, count < 1)
            total += count
            refuse(6, count > 100_000 or total > 200_000)
            for _ in range(count):
                line = next_line()
                claims[-1].nodes.append(read_span_body(line) if spans else read_node(line, version))
        return version, claims
    except Fault as fault:
        raise Fault(f"certificate C{fault} line {at}") from None

# What a body must satisfy (DEFINITIONS, "Criteria"; FORMATS, "When a certificate is valid").
def pairs_hold(game: Game, p: Position, side: str, node: Node) -> bool:
    """Pairs (Hales and Jewett): of free points, all different."""
    free, paired, covered = game.all_but(p.x | p.y), set_of(node.points), 0
    if len(set(node.points)) < len(node.points) or paired & ~free:
        return False
    # Each line without a point of the claimer, in Avoider-Enforcer without one of Y, contains both
    # points of some pair.
    for a, b in zip(node.points[::2], node.points[1::2]):
        covered |= game.through[a] & game.through[b]
    avoiding = game.kind == "avoider-enforcer"
    if game.live(p.y if avoiding or side == "y" else p.x) & ~covered:
        return False
    # In Avoider-Enforcer every free point is in a pair, but for exactly one if X is to move.
    return not avoiding or size(free & ~paired) == (1 if p.turn == "x" else 0)

def potential_holds(game: Game, p: Position, side: str, _: Node) -> bool:
    """Breaker's potential (Erdős and Selfridge; Beck), or Avoider's."""
    free, avoiding = game.all_but(p.x | p.y), game.kind == "avoider-enforcer"
    # A line without a point of the claimer, in Avoider-Enforcer without one of Y, weighs 1 + q, in
    # Avoider-Enforcer 2, to the power of K less its free points.
    base = 2 if avoiding else 1 + game.bias
    limit: int = base ** game.longest
    lines = game.by_free(game.live(p.y if avoiding or side == "y" else p.x), free)

    def weight(through: int) -> int:
        return sum(size(some & through) * base ** (game.longest - number)
                   for number, some in enumerate(lines) if some)
    total = weight(-1)
    if avoiding:
        # The sum, twice if X takes the last free point, is less than 2 to the power of K. From its
        # next turn on, X takes the first of each 1 + q points.
        count = size(free) - (p.left if p.turn == "y" else 0)
        return total * (2 if count > 0 and (count - 1) % (1 + game.bias) == 0 else 1) < limit
    # Here c is q if the other side is to move, and otherwise q less the points that the claimer
    # still claims in its turn. The weights of these lines and c times the greatest weight of a
    # free point, that is of the lines through it, sum to less than 1 + q to the power of K.
    c = game.bias - p.left if p.turn == side else game.bias
    greatest = max((weight(game.through[v]) for v in members(free if c else 0)), default=0)
    return total + c * greatest < limit

def sets_are_free(game: Game, p: Position, node: Node, mover: str) -> bool:
    """The sets are of free edges, none in both; `e` needs this side to move."""
    named = [v for v in node.points + node.second if v != E]
    return len(set(named)) == len(named) and not set_of(named) & ~game.all_but(p.x | p.y) \
        and (E not in node.points or p.turn == mover)

def trees_hold(game: Game, p: Position, _: str, node: Node) -> bool:
    """Trees (Lehman): X's edges with either set join the ends of the other's edges and of E."""
    return sets_are_free(game, p, node, "x") and not any(
        any(game.new([*members(p.x), *own], [*other, E]))
        for own, other in ((node.points, node.second), (node.second, node.points)))

def cuts_hold(game: Game, p: Position, _: str, node: Node) -> bool:
    """Cuts, the dual of trees."""
    # Take the edges that are not Y's, and `e`, and leave one set out: each edge of the other is a
    # bridge, that is those beside it do not join its ends; and so is `e`, unless it is left out
    # itself. The same holds if the other set is left out. Some edges are all bridges exactly if
    # each is new when they are added one by one after the rest: of a cycle the last is not new.
    return sets_are_free(game, p, node, "y") and all(
        all(game.new(members(game.all_but(p.y | set_of(out + other))), {*other, E} - {*out}))
        for out, other in ((node.points, node.second), (node.second, node.points)))

def is_threat_line(game: Game, p: Position, side: str, node: Node) -> bool:
    """Threat lines (Allis, van den Herik and Huntjens): attack, reply, attack and so on."""
    if game.outcome(p):  # The claimer is to move, and p is not over.
        return False
    own, other = (p.x, p.y) if side == "x" else (p.y, p.x)
    for attack, reply in zip(node.points[::2], node.points[1::2] + [E]):
        # Each attack takes a free point, and the last fills a line for the claimer.
        if not game.all_but(own | other) & 1 << attack:
            return False
        own |= 1 << attack
        filled, free = game.live(game.all_but(own)), game.all_but(own | other)
        if reply == E:
            return bool(filled)
        # Each other fills none, and leaves a line with all points the claimer's but the reply,
        # which is free; in Maker-Maker no line is then all the other side's but for one free point.
        if filled or not free & 1 << reply \
                or not game.by_free(game.live(other), free)[1] & game.through[reply] \
                or game.kind == "maker-maker" and game.by_free(game.live(own), free)[1]:
            return False
        other |= 1 << reply
    return False

CRITERIA = {"pairs": (6, pairs_hold), "potential": (7, potential_holds), "trees": (8, trees_hold),
            "cuts": (9, cuts_hold), "threat": (10, is_threat_line)}

def is_allowed(game: Game, claim: Claim, body: str) -> bool:
    """Returns whether a body is allowed for the kind, bias, side and goal."""
    maker_breaker, race, avoiding, switching = [game.kind == kind for kind in CHOICES["kind"]]
    side, one = claim.side, game.bias == 1
    potential = (maker_breaker and side == "y" or race and claim.goal == "draw"
                 or avoiding and side == "x")
    return {"pairs": potential and (one or not avoiding), "potential": potential,
            "trees": switching and side == "x", "cuts": switching and side == "y",
            "threat": one and (race or maker_breaker and side == "x"),
            "weaker": maker_breaker}.get(body, True)

def faults(game: Game, claim: Claim, k: int) -> Iterator[int]:
    """Yields the errors J1 to J13 of node k, ascending; after the first, they mean nothing."""
    _, side, goal, nodes = claim
    p, body, points, children, _ = nodes[k]
    allowed, moves = is_allowed(game, claim, body), body in ("move", "all")
    free = game.all_but(p.x | p.y)
    if allowed and any(j >= k for j in children):
        yield 1
    if (p.x | p.y) >> game.points or p.left > game.start(p.turn).left or moves and any(
            free & 1 << v and nodes[j].position != game.after(p, v)
            for v, j in zip(points, children)):
        yield 2
    if allowed and body in ("move", "all", "threat") and (p.turn == side) == (body == "all"):
        yield 3
    if moves and (set_of(points) != free if body == "all" else not set_of(points) & free):
        yield 4
    outcome = game.outcome(p) if moves or body == "over" else None
    if outcome not in (side, goal if goal == "draw" else side) if body == "over" else outcome:
        yield 5
    if allowed and body in CRITERIA and not CRITERIA[body][1](game, p, side, nodes[k]):
        yield CRITERIA[body][0]
    if k == len(nodes) - 1 and p != game.start(claim.turn):
        yield 11
    if not allowed:
        yield 12
    # p is worse for the claimer than the child's position: that has another turn, or another number
    # of points left; or the claimer lacks a point in p, or the other side has one more.
    q = nodes[children[0]].position if body == "weaker" else p
    lost, gained = (q.x & ~p.x, p.y & ~q.y) if side == "x" else (q.y & ~p.y, p.x & ~q.x)
    if p[2:] != q[2:] or lost or gained:
        yield 13

# Images of nodes (FORMATS, "Version 3: images of nodes").
def moved(game: Game, m: int, v: int) -> int:
    """Returns the point to which v goes under map m; a number that is no cell stays."""
    width, height = game.grid
    if not 0 <= v < width * height:
        return v
    row, column = divmod(v, width)[::-1 if m & 4 else 1]
    row, column = height - 1 - row if m & 2 else row, width - 1 - column if m & 1 else column
    return row * width + column

def image_of(game: Game, m: int, p: Position) -> Position:
    """Returns the image of a position: of each side's points, with the same turn."""
    x, y = [set_of(moved(game, m, v) for v in members(points)) for points in (p.x, p.y)]
    return Position(x, y, p.turn, p.left)

def fits(game: Game, m: int) -> bool:
    """Returns whether map m of the game's grid takes the lines onto the lines, with repeats."""
    exists = game.grid != (0, 0) and (m < 4 or game.grid[0] == game.grid[1])
    return exists and sorted(game.lines) == sorted(
        set_of(moved(game, m, v) for v in members(line)) for line in game.lines)

def flaws(game: Game, nodes: list[Node], k: int, fitting: list[bool]) -> Iterator[int]:
    """Yields the errors I1 to I3 of node k, ascending; after the first, they mean nothing."""
    p, body, points, children, _ = nodes[k]
    if any(j >= k for j in children):
        yield 1
    if body == "image" and not fitting[points[0]]:
        yield 2
    if p != image_of(game, points[0], nodes[children[0]].position) if body == "image" \
            else (p.x | p.y) >> game.points:
        yield 3

def unfold(game: Game, claim: Claim) -> tuple[Claim, list[int]]:
    """Returns the claim without images (its replies in any order), and whence each node came."""
    def settled(j: int, k: int) -> tuple[int, int]:
        # The map that does m first and then k: if k has e = 1, the a and b of m change places.
        j, m = plain[j]
        return j, k ^ (m & 4 | (m & 1) << 1 | (m & 2) >> 1 if k & 4 else m)
    plain: list[tuple[int, int]] = []  # For each node the plain one under it, and by which map.
    for j, (_, body, points, children, _) in enumerate(claim.nodes):
        plain.append(settled(children[0], points[0]) if body == "image" else (j, 0))
    todo = [settled(len(claim.nodes) - 1, 0)]
    met = set(todo)
    while todo:
        j, k = todo.pop()
        further = {settled(child, k) for child in claim.nodes[j].children} - met
        met |= further
        todo += further
    place = {copy: number for number, copy in enumerate(sorted(met))}
    nodes = [node._replace(position=image_of(game, k, node.position),
                           points=[moved(game, k, v) for v in node.points],
                           children=[place[settled(child, k)] for child in node.children])
             for node, k in ((claim.nodes[j], k) for j, k in place)]
    return claim._replace(nodes=nodes), [j for j, _ in place]

def unfold_all(game: Game, claims: list[Claim]) -> list[tuple[Claim, list[int]]]:
    """Returns all claims without images; raises the first error I1 to I3, else I4."""
    fitting, unfolded, total = [fits(game, m) for m in range(8)], [], 0
    for c, claim in enumerate(claims):
        for k in range(len(claim.nodes)):
            for flaw in flaws(game, claim.nodes, k, fitting):
                raise Fault(f"rejected I{flaw} claim {c} node {k}")
    for c, claim in enumerate(claims):
        unfolded.append(unfold(game, claim))
        total += len(unfolded[c][1])
        if len(unfolded[c][1]) > 100_000 or total > 200_000:
            raise Fault(f"rejected I4 claim {c} node {len(claim.nodes) - 1}")
    return unfolded

# Connectivity games and games on vectors (FORMATS, the section of that name).
def span_fault(game: Game, claim: Claim) -> int:
    """Returns the least of the errors S1 to S3 of a claim on a connectivity game, or 0."""
    turn, side, _, (node,) = claim
    p, (_, body, one, first, two) = game.start(turn), node
    if (side == "x") != (body == "trees"):
        return 1
    if body == "trees":
        # `first` and the members of both sets are different free edges; `first` needs X to move;
        # X's edges, `first` and either set join every two vertices.
        free = sets_are_free(game, p, node._replace(points=first + one), "x")
        return 0 if free and not (first and turn == "y") and all(
            sum(game.new([], [*members(p.x), *first, *some])) == game.vertices - 1
            for some in (one, two)) else 2
    if len(one) != game.vertices:  # There is one number for each vertex.
        return 3
    # Of q different numbers, a edges of X and c free edges with ends of different numbers, q is at
    # least 2, a at most q - 2, c at most 2 (q - 2 - a), with Y to move one more.
    across = set_of(v for v, (a, b) in enumerate(game.elements) if one[a] != one[b])
    q, a, c = len(set(one)), size(across & p.x), size(across & game.all_but(p.x | p.y))
    return 3 if q < 2 or a > q - 2 or c > 2 * (q - 2 - a) + (turn == "y") else 0

def vector_fault(game: Game, claim: Claim, version: int) -> int:
    """Returns the least of the errors V1 to V5 of a claim on a game on vectors, or 0."""
    turn, side, goal, (node, *others) = claim
    if version != 1 or others or node.body not in ("trees", "cuts"):
        return 1
    if node.position != game.start(turn):
        return 2
    if (side == "x") != (node.body == "trees") or goal != "win":
        return 3
    number, holds = (4, trees_hold) if node.body == "trees" else (5, cuts_hold)
    return 0 if holds(game, node.position, side, node) else number

def check(game_file: bytes, certificate_file: bytes) -> list[str]:
    """Returns the lines `accepted` of a valid certificate; raises the text of the first error."""
    begun = [line.split()[0] for line in lines_of(game_file) if line.split() and line[0] != "#"]
    family = begun[0] if begun and begun[0] in NEEDED else "posgame"
    game = read_game(game_file, family)
    version, claims = read_certificate(certificate_file, family)
    plain = unfold_all(game, claims) if version == 3 \
        else [(claim, list(range(len(claim.nodes)))) for claim in claims]
    for c, (claim, origins) in enumerate(plain):
        if family == "posgame-span" and span_fault(game, claim):
            raise Fault(f"rejected S{span_fault(game, claim)} claim {c}")
        if family == "posgame-vectors" and vector_fault(game, claim, version):
            raise Fault(f"rejected V{vector_fault(game, claim, version)} claim {c} node 0")
        for k, origin in enumerate(origins if family == "posgame" else []):
            for fault in faults(game, claim, k):
                raise Fault(f"rejected J{fault} claim {c} node {origin}")
    return [f"accepted {claim.turn} {claim.side} {claim.goal}" for claim in claims]

def main(words: list[str]) -> int:
    """Prints the verdict on the files GAME and CERT; returns the status of `posgame check`."""
    if len(words) != 2:
        print("words: no meaning")
        return 2
    try:
        print(*check(*[pathlib.Path(word).read_bytes() for word in words]), sep="\n")
        return 0
    except OSError:
        return 5
    except Fault as fault:
        print(fault)
        return 3 if str(fault).startswith("game") else 4

if __name__ == "__main__":
    sys.exit(main(sys.argv[1:]))
