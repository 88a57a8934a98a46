#!/usr/bin/env python3
"""Measures posgame on large games and certificates: instructions, seconds and memory. Unproved.

    bench/games.py [PROGRAM] PART [--only WORD]

Instructions are counted by callgrind; searches and certificates are measured without it too. What
reading a game takes is measured by a check of an empty certificate.
"""
from __future__ import annotations

import itertools
import pathlib
import random
import re
from typing import Any, Callable, Iterable, Iterator, Optional

import drawn as drawings
import kit


def bipartite(left: int, right: int) -> kit.Graph:
    """Each of the first vertices is joined to each of the others."""
    return left + right, [(i, left + j) for i in range(left) for j in range(right)]


def pairs_over(steps: Iterable[kit.Edge], edges: int = 1000) -> kit.Graph:
    """Pairs of edges over the steps, and over the first of them again, on one vertex more."""
    steps = list(steps)
    return len(steps) + 1, [steps[i % len(steps)] for i in range(edges // 2) for _ in range(2)]


def mixed(graph: kit.Graph) -> kit.Graph:
    """The same graph, its edges in an order drawn at random."""
    ends = list(graph[1])
    random.Random(21).shuffle(ends)
    return graph[0], ends


PATH = pairs_over((v, v + 1) for v in range(499))
# Of each switching game its name, its graph and its terminals.
SWITCHING: list[tuple[str, kit.Graph, kit.Edge]] = [
    ("Bridg-it of 22 rows", kit.bridge(22), (0, 1)),
    ("the same, its edges mixed", mixed(kit.bridge(22)), (0, 1)),
    ("1,000 random edges on 480 vertices", kit.scattered(20, 480, 1000), (0, 1)),
    ("complete bipartite, 2 and 498", bipartite(2, 498), (0, 1)),
    ("complete bipartite, 31 and 32", bipartite(31, 32), (0, 62)),
    ("500 pairs over a path of 500", PATH, (0, 499)),
    ("the same, its edges mixed", mixed(PATH), (0, 499)),
    ("500 pairs over a star of 500", pairs_over((0, v + 1) for v in range(499)), (1, 2)),
]


def classes(program: str, only: str) -> int:
    """Solves large switching games. The instructions are those of `classify`, with all that it
    calls, and of the whole run. The certificate that is stored must be accepted."""
    table = kit.Table("board", "edges", "class", ("`classify`, instructions", ",.0f", 2e7),
                      "whole run", ("s", ".3f"), "KB")
    for name, graph, terminals in kit.named(only, SWITCHING):
        with kit.files(game=kit.switching(graph, terminals)) as folder:
            words, counts = (folder / "game", folder / "certificate"), folder / "counts"
            whole = kit.count(program, "solve", *words, counts=counts).instructions
            listed = kit.listing(counts, "--inclusive=yes", "--threshold=100")
            inner = re.search(r"^\s*([\d,]+).*classify", listed, re.MULTILINE)
            done = kit.run(program, "solve", *words)
            wrong = [] if kit.run(program, "check", *words).is_accepted else ["not accepted"]
        table.row(name, len(graph[1]), done.said.removeprefix("class "),
                  int(inner[1].replace(",", "")) if inner else whole, whole, done.seconds,
                  done.kilobytes, wrong=wrong)
    return table.end()


# Searches: of each its name, the kind, points and lines of the board, the answer that is due, and
# the limit of million instructions.
SEARCHES = [
    ("Maker-Maker, 4 by 4, 100/111", "maker-maker", 16, kit.placements(4, 4, "100/111"),
     "result x", 115),
    ("Maker-Breaker, 5 by 5, 1111", "maker-breaker", 25, kit.placements(5, 5, "1111"),
     "unknown after 3999 positions", 130),
    ("Maker-Breaker, 28 scattered lines of 4", "maker-breaker", 24, kit.scatter(13, 24, 28, 4),
     "unknown after 4166 positions", 220),
    ("Maker-Breaker, 16 by 16, five in a row", "maker-breaker", 256, sorted(kit.in_row(16, 16, 5)),
     "unknown after 390 positions", 240),
    ("Maker-Breaker, 100 scattered lines of 6", "maker-breaker", 40, kit.scatter(20, 40, 100, 6),
     "unknown after 2499 positions", 170),
    ("Maker-Maker, 24 scattered lines of 4", "maker-maker", 16, kit.scatter(7, 16, 24, 4),
     "result draw", 330),
    ("Avoider-Enforcer, 3,000 scattered lines of 9", "avoider-enforcer", 100,
     kit.scatter(33, 100, 3000, 9), "unknown after 999 positions", 1600),
]


def searches(program: str, only: str) -> int:
    """Solves seven boards. The functions that take most of a count above its limit are shown."""
    table = kit.Table("board", "answer", ("million instructions", ",.1f"), "limit",
                      ("to read", ".1f"), ("s", ".3f"), ("KB", ",", 30_000))
    for name, kind, points, lines, answer, limit in kit.named(only, SEARCHES):
        text = kit.game(kind, f"points {points}", *kit.line_rows(lines))
        with kit.files(game=text) as folder:
            words = program, "solve", folder / "game", folder / "stored"
            done, whole, read, counts = kit.run(*words), None, None, folder / "counts"
            wrong = [] if done.said.startswith(answer) else [f"not {answer}"]
            if kit.has_valgrind():
                read = kit.count(program, "check", words[2], "/dev/null").instructions / 1e6
                whole = kit.count(*words, counts=counts).instructions / 1e6
            if whole and whole > limit:
                wrong += re.findall(r"^ *[\d,]+ \(.*$", kit.listing(counts), re.MULTILINE)[1:13]
        table.row(name, done.said, (whole, limit), limit, read, done.seconds, done.kilobytes,
                  wrong=wrong)
    return table.end()


# Families: the number of rows, the target and the vectors, each a number of so many bits.
Vectors = tuple[int, int, list[int]]


def drawn_vectors(seed: int, count: int, weight: Optional[int]) -> Vectors:
    """Vectors of 128 rows drawn at random, with so many ones or, without a weight, bit by bit."""
    draw = random.Random(seed)
    target, *vectors = [kit.bits(draw.sample(range(128), weight)) if weight
                        else draw.getrandbits(128) for _ in range(count + 1)]
    return 128, target, vectors


def parted(seed: int, many: int, few: int) -> Vectors:
    """Random vectors on the first 60 rows, which don't matter, and vectors with two ones on the
    others, as the target is."""
    draw = random.Random(seed)
    vectors = [draw.getrandbits(60) for _ in range(many)]
    vectors += [kit.bits(draw.sample(range(60, 128), 2)) for _ in range(few)]
    draw.shuffle(vectors)
    return 128, kit.bits(draw.sample(range(60, 128), 2)), vectors


def graphic(graph: kit.Graph) -> Vectors:
    """The edges of a graph as vectors: the ones are at the two ends, except for vertex 0."""
    target, *vectors = [kit.bits(w - 1 for w in {u} ^ {v} if w > 0) for u, v in [(0, 1), *graph[1]]]
    return graph[0] - 1, target, vectors


def vector_text(game: Vectors, turn: str) -> str:
    """The file of a game on vectors."""
    target, *signs = [f"{vector:0{game[0]}b}"[::-1] for vector in [game[1], *game[2]]]
    heads = "posgame-vectors 1", f"rows {game[0]}", f"target {target}"
    return "\n".join([*heads, *map("vector {}".format, signs), f"turn {turn}", ""])


def family_games() -> Iterator[tuple[str, ...]]:
    """Yields the name of each game, its file, and that of a game that must have the same class."""
    yield "complete graph, 45 vertices", kit.span(kit.complete(45), "y")
    yield "complete graph, 25 vertices, tripled", kit.span(kit.complete(25, 3), "y")
    yield "grid, 22 by 22", kit.span(kit.grid(22, 22), "x")
    for many, turn in (500, "x"), (400, "x"), (200, "y"):
        graph = kit.scattered(22, many, 1000, is_joined=True)
        yield f"1,000 random edges on {many} vertices", kit.span(graph, turn)
    yield "doubled path of 500 vertices, two edges", kit.span(kit.doubled_path(500, 1000), "y")
    for seed, count, weight, turn in (
            (23, 1000, None, "y"), (24, 250, None, "x"), (25, 256, None, "y"),
            (26, 1000, 2, "y"), (27, 220, 2, "x"), (28, 1000, 3, "y")):
        name = f"vectors of {weight} ones" if weight else "random vectors"
        yield f"{count:,} {name}", vector_text(drawn_vectors(seed, count, weight), turn)
    units = 128, 2**128 - 1, [1 << k % 128 for k in range(1000)]
    yield "1,000 unit vectors", vector_text(units, "y")
    yield "890 random vectors of 60 rows, 110 of two ones", vector_text(parted(29, 890, 110), "x")
    for turn in "xy":
        board = kit.bridge(11)
        yield (f"Bridg-it of 11 rows as vectors, {turn.upper()} to move",
               vector_text(graphic(board), turn), kit.switching(board))


def dearest(folder: pathlib.Path, words: Iterable[object], typed: str) -> tuple[int, int]:
    """How many moves a player makes, and the instructions of the dearest, with its reply."""
    flags = ["--dump-before=*Player::make_move*"]
    kit.count(*words, counts=folder / "counts", typed=typed, flags=flags)
    pattern = re.compile(r"^part: (\d+)(?:\n.*)*?\nsummary: (\d+)", re.MULTILINE)
    texts = (it.read_text(encoding="ascii", errors="replace") for it in folder.glob("counts*"))
    moves = [int(it[2]) for it in map(pattern.search, texts) if it and int(it[1]) > 1]
    return len(moves), max(moves, default=0)


def measured(program: str, text: str, other: str = "") -> tuple[list[Any], list[str]]:
    """The cells of a game of a family, and what is wrong with them."""
    with kit.files(game=text, other=other) as folder:
        words, paths = (program, *kit.family_of(text)), (folder / "game", folder / "certificate")
        solve, check, play = ((*words, it, *paths) for it in ("solve", "check", "play"))
        commands = (*words, "check", paths[0], "/dev/null"), solve, check
        least, solved, checked = (kit.quickest(5, *it) for it in commands)
        reading, *counts = (kit.count(*it).instructions for it in commands)
        said, turn = solved.said.removeprefix("class "), text.split()[-1]
        points = len(re.findall("^(?:edge|vector) ", text, re.MULTILINE))
        side = {"maker": "x", "short": "x", "first-mover": turn}.get(said, "y")
        replies = "".join(f"{step * 617 % points}\n" for step in range(200))
        moves, dear = dearest(folder, (*play, "--side", side), replies)
        due = kit.run(program, "solve", folder / "other", paths[1]).said if other else solved.said
    costs = [cost for done, count in zip((solved, checked), counts) for cost in (
        (count - reading) / 1e6, max(done.seconds - least.seconds, 0) * 1000)]
    wrong = ["not accepted"] * (not checked.is_accepted) + [f"not {due}"] * (due != solved.said)
    return [said, *costs, moves, dear / 1e6, solved.kilobytes], wrong


def families(program: str, only: str) -> int:
    """Solves connectivity games and games on vectors, checks what is stored, and plays the side
    that wins against replies that go round the points. What reading takes is subtracted. Of the
    player's moves, each with the reply before it, the most expensive is shown. The vectors of a
    Bridg-it board must have the class of the board. Time is limited, and as many million
    instructions as 3,000 million a second make of it."""
    table = kit.Table("game", "class", ("solved, million instructions", ".4g", 600),
                      ("ms", ".4g", 200), ("checked, million", ".4g", 150), ("ms", ".4g", 50),
                      "moves", ("dearest, million", ".4g", 15), ("KB", ",", 16_000))
    for name, *texts in kit.named(only, family_games()):
        cells, wrong = measured(program, *texts)
        table.row(name, *cells, wrong=wrong)
    return table.end()


# Certificates: game and certificate; the small games have two lines.
POINTS, SMALL = 16, drawings.Board(16, [range(0, 9), range(7, 16)])
NOUGHTS = (kit.EXAMPLES / "noughts-and-crosses.game").read_text()


def put_tree(nodes: list[str], count: int) -> drawings.Place:
    """Adds nodes up to `count` of a game without lines on 16 points, in which Y claims a draw: full
    boards, then Y's last moves, then moves of X before these. Returns the place of the last."""
    most, every = (count + len(nodes)) // 2 + 1, SMALL.points
    full, late = ([frozenset(it) for it in itertools.combinations(range(POINTS), size)]
                  for size in (POINTS // 2, POINTS // 2 - 1))
    number: dict[drawings.Place, int] = {}

    def put(word: str, place: drawings.Place, *moves: str) -> None:
        number[place] = len(nodes)
        nodes.append(drawings.row(place, kit.field([word, *moves])))

    for x in full:
        put("over", drawings.Place(x, every - x, "x"))
    places = (drawings.Place(every - y - {v}, y, "y") for y in late for v in sorted(every - y))
    for place in itertools.islice(places, most - len(nodes)):
        put("move", place, *(f"{v} {number[place.after(v)]}" for v in SMALL.free(place)))
    places = (drawings.Place(every - y - {*pair}, y, "x") for y in late
              for pair in itertools.combinations(sorted(every - y), 2))
    for place in itertools.islice(places, count - len(nodes)):
        put("all", place, *(f"{v}:{number[place.after(v)]}" for v in SMALL.free(place)))
    assert len(nodes) == count
    return place


def maker_maker(*rows: str, points: int = 256) -> str:
    """Returns the game file of the size that is usual here."""
    return kit.game("maker-maker", f"points {points}", *rows)


def draws(nodes: str, times: int = 1, turns: str = "x") -> str:
    """Returns a certificate with a claim of a draw by Y for each of these turns."""
    return kit.certificate(*(kit.claim(f"{turn} y draw", nodes, times) for turn in turns))


def mixed_files(count: int = 100_000) -> drawings.Files:
    """Two claims of nodes of over, move, all, potential and pairs, the last two at random positions
    that have pairs."""
    draw, nodes = random.Random(1), []  # type: random.Random, list[str]
    while len(nodes) < 2 * count // 5:
        marks = draw.sample(range(POINTS), draw.choice((4, 6, 8)))
        place = drawings.Place(frozenset(marks[::2]), frozenset(marks[1::2]), "x")
        pairs = SMALL.pairs(place)
        if pairs:
            nodes.append(drawings.row(place, "potential" if len(nodes) % 2 else pairs))
    place = put_tree(nodes, count)
    rows = *kit.line_rows(map(sorted, SMALL.lines)), *kit.mark_rows(place.x, place.y)
    return maker_maker(*rows, points=POINTS), draws("".join(nodes), turns="xx")


def all_files(size: int = 100_000_000) -> drawings.Files:
    """Nodes of 250 replies each, at one position, and the nodes that they name."""
    children = "".join(f"0 1 2 {v}|3 4 5|y|potential\n" for v in range(6, 256))
    above = f"0 1 2|3 4 5|x|all {kit.field(f'{v}:{v - 6}' for v in range(6, 256))}\n"
    return maker_maker("x 0 1 2", "y 3 4 5"), draws(children + above * (size // len(above)))


def long_files(size: int = 268_435_456) -> drawings.Files:
    """A certificate of so many bytes with a fault of form in its last line."""
    node = f"||x|pairs{' 1000-1001' * 150}\n"
    count = (size - 100_000) // len(node) // 2
    claim = f"claim x y draw\nnodes {count}\n" + node * (count - 1)
    text = kit.certificate(claim, node, claim, "||x|pairs")
    return maker_maker(), text.ljust(size - 1, "-") + "\n"


def pair_files(size: int = 100_000_000) -> drawings.Files:
    """Two claims of nodes of 128 pairs."""
    node = f"||x|pairs {kit.field(f'{v}-{v + 1}' for v in range(0, 256, 2))}\n"
    lines = kit.line_rows((v, v + 1, (v + 7) % 256) for v in range(0, 256, 2))
    return maker_maker(*lines), draws(node, size // len(node) // 2, "xx")


def potential_files(count: int = 100) -> drawings.Files:
    """Potentials of 20,000 lines."""
    lines = kit.line_rows(sorted((v + 7 * i) % 256 for i in range(20)) for v in range(20_000))
    return maker_maker(*lines), draws("||x|potential\n", count)


def tree_files(rows: int = 21) -> drawings.Files:
    """Bridg-it with its two trees, as trees for X and as cuts for Y. The first goes along each row
    up to the diagonal, and down to it; the second has the other edges."""
    along = [j < i for i in range(rows) for j in range(rows)]
    down = [j > i for i in range(rows - 1) for j in range(1, rows)]
    sets = " / ".join(kit.field(k for k, it in enumerate(along + down) if it == own)
                      for own in (True, False))
    return kit.switching(kit.bridge(rows)), kit.certificate(
        kit.claim("x x win", f"||x|trees e {sets}\n"), kit.claim("y y win", f"||y|cuts e {sets}\n"))


# Of each pair of files the name, its function, and the size at which instructions are counted. Two
# are foreign: the game has no such points.
CERTIFICATES: list[tuple[Any, ...]] = [
    ("200,000 nodes of five kinds, 16 points", mixed_files, 100_000),
    ("100 MB of pairs, 256 points", pair_files, 3_000_000),
    ("100 MB of `all` with 250 replies, 256 points", all_files, 3_000_000),
    ("100 potentials of 20,000 lines, 400,000 points", potential_files),
    ("268,435,456 bytes, refused at the end", long_files),
    ("a byte more", lambda: long_files(268_435_457)),
    ("trees and cuts, 422 vertices, 841 edges", tree_files),
    ("200,000 small nodes, foreign", lambda: (NOUGHTS, draws("||x|pairs\n", 100_000, "xy"))),
    ("100 MB of pairs, foreign",
     lambda: (NOUGHTS, draws(f"||x|pairs{' 101-203' * 12_500}\n", 1_000))),
]


def checked(call: Callable[..., Any], program: str, game: str, stored: str) -> tuple[Any, int]:
    """Has `call` run or count a check of these files; returns what it returns, and the bytes."""
    with kit.files(game=game, certificate=stored) as folder:
        return call(program, "check", folder / "game", folder / "certificate"), len(stored)


def certificates(program: str, only: str) -> int:
    """Checks large certificates, reading included, and counts their instructions on a smaller file
    of the same kind. Two are read for a game that has no such points, and so refused."""
    table = kit.Table("certificate", "bytes", ("s", ".2f"), ("MB", ",", 24),
                      ("instructions a byte", ".0f", 80), "printed")
    for name, make, *small in kit.named(only, CERTIFICATES):
        (done, size), each = checked(kit.run, program, *make()), None
        if small and kit.has_valgrind():
            counted, part = checked(kit.count, program, *make(*small))
            each = counted.instructions / part
        printed = ", ".join(dict.fromkeys(done.output.splitlines()))
        table.row(name, size, done.seconds, done.megabytes, each, printed)
    return table.end()


# Certificates that are drawn, with the limit of instructions a byte.
DRAWN = [
    ("200,000 nodes of five kinds, 16 points", drawings.five_kinds, 55),
    ("pairs, 256 points", drawings.pairs, 57),
    ("`all` with 254 replies, 256 points", drawings.all_replies, 55),
]


def drawn(program: str, only: str) -> int:
    """Checks certificates that a seeded generator draws (bench/drawn.py), with a limit of
    instructions a byte for each. Their games have lines of several lengths."""
    table = kit.Table("certificate", "bytes", ("instructions a byte", ".1f"), "limit",
                      ("s", ".2f"), "MB")
    for name, make, limit in kit.named(only, DRAWN):
        files, each = make(), None
        done, size = checked(kit.run, program, *files)
        if kit.has_valgrind():
            each = checked(kit.count, program, *files)[0].instructions / size
        table.row(name, size, (each, limit), limit, done.seconds, done.megabytes,
                  wrong=[done.said] * (not done.is_accepted))
    return table.end()


# Files: lines of 20 points, and edges. Of each game its name, its text, and how posgame makes it.
LARGE = [sorted({(number * 7 + step * 11) % 256 for step in range(20)}) for number in range(20_000)]
EDGES = 500, [(number % 500, number * 7 % 500) for number in range(1_000)]
FILES = [
    ("20,000 lines, 400,000 points",
     kit.game("maker-breaker", "points 256", *kit.line_rows(LARGE)), ""),
    ("1,000 edges", kit.switching(EDGES, (0, 499), "y"), ""),
    ("256 points, 20000 lines", "", "scatter 1 256 20000 20"),
    ("464 vertices, 925 edges", "", "bridge 22"),
]


def files(program: str, only: str) -> int:
    """Reads the largest game files. Others of as many lines and points are made by posgame itself,
    and then read."""
    table = kit.Table("game", "how", "bytes", ("s", ".2f"), "MB")
    for name, text, words in kit.named(only, FILES):
        with kit.files(game=text) as folder:
            path, due = folder / "game", f"game {name.replace(',', '')}\n"
            made = f"made by `gen {words}`", ["gen", *words.split(), path], due
            read = "read", ["check", path, "/dev/null"], "certificate C2 line 1\n"
            for how, command, due in [made] * bool(words) + [read]:
                done = kit.run(program, *command)
                wrong = [] if done.output == due else [done.output]
                table.row(name, how, path.stat().st_size, done.seconds, done.megabytes, wrong=wrong)
    return table.end()


if __name__ == "__main__":
    raise SystemExit(kit.call_part(
        __doc__, "posgame", classes, searches, families, certificates, drawn, files,
        only=("", "rows with this word in their name")))
