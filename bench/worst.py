#!/usr/bin/env python3
"""Runs the programs on the worst small inputs that are known, within the limits of the formats, and
measures each run on one processor: processor seconds and greatest memory, each with its limit.

    bench/worst.py [PROGRAM] [--draw PROGRAM] [--settle PROGRAM] [--play PROGRAM] [--keep FOLDER]
                   [--rows LETTERS] [--slower X] [--growth N] [--clock]

Each row has a letter; letters choose some rows, and the options name the programs posgame-draw and
so on, whose rows are left out otherwise. The files of a row are made by a function of this script
in a temporary folder, or in FOLDER, where they stay. A run is ended at four times its limit of
seconds. The limits of seconds are for one machine, as those of bench/first_minutes.py are; on one
that is X times as slow they are X times as high. The status is 1 if a row is above a limit or ends
with another status than expected.

With --growth callgrind counts the instructions of a row at 1/(2 N) and at 1/N of its size instead,
if its files can be made smaller; with 0 for the size nothing at all. What comes on top of a run on
almost nothing should be twice as much at twice the size; a factor above 3 is wrong, or above 5 in
the row t, which decides as many games as there are edges. With --clock the counts are microseconds
of the processor, for programs that callgrind can't run. Unproved.
"""
from __future__ import annotations

import contextlib
import functools
import os
import pathlib
from typing import Callable, Iterable, NamedTuple

import kit

POINTS, SIDE, MAPS = 256, 16, 8
MOST_LINES, MOST_BYTES, MOST_GAME_BYTES = 20_000, 268_435_456, 4_194_304
GRID = f"grid {SIDE} {SIDE}"
# The files of a row by their names.
Texts = dict[str, str]


class Row(NamedTuple):
    """A run: its arguments, the function that makes its files, and its limits. What is typed is the
    text INPUT. A function that can make smaller files takes the part of the size that is due, and
    `growth` bounds what twice the size may cost."""

    letter: str
    what: str
    words: str
    make: Callable[..., Texts]
    seconds: float
    megabytes: int
    statuses: tuple[int, ...] = (0,)
    program: str = "posgame"
    growth: float = 3


def game(lines: Iterable[Iterable[int]], kind: str = "maker-breaker", turn: str = "x") -> str:
    """Returns a game file with all points and without marks."""
    return kit.game(kind, f"points {POINTS}", *kit.line_rows(lines), turn=turn)


def pairs(count: int, copies: int = 1) -> list[tuple[int, ...]]:
    """Returns pairs without a common point, each a number of times in a row."""
    return [(2 * i, 2 * i + 1) for i in range(count) for _ in range(copies)]


def pairs_often() -> Texts:
    """Makes a game of 128 pairs, each 156 times, and a record of 230 moves."""
    moves = [f"move {v}" for v in range(230)]
    return {"GAME": game(pairs(128, 156)), "RECORD": "\n".join(["posgame-record 1", *moves, ""])}


def pairs_twice() -> Texts:
    """Makes a game in which every move leaves Maker 127 pairs, each twice."""
    return {"GAME": game(pairs(128, 2), turn="y")}


def pairs_among_long() -> Texts:
    """Makes a game of 127 pairs and as many lines of 19 points as there may be."""
    long = [sorted((i + 13 * k) % POINTS for k in range(19)) for i in range(19_773)]
    return {"GAME": game([*pairs(127), *long])}


def threats() -> Texts:
    """Makes a game of 20,000 lines and a certificate whose nodes are threat lines of 127 attacks.

    Each attack threatens one pair; the last but one leaves the line that the last fills."""
    lines = pairs(126) + [(250, 252)] + [(254, 255)] * (MOST_LINES - 127)
    claim = kit.claim("x x win", f"||x|threat {kit.field(range(253))}\n", 400)
    return {"GAME": game(lines, "maker-maker"), "CERT": kit.certificate(claim)}


def long_pairs(version: int, size: int) -> Texts:
    """Makes a game of one line and a certificate with the same pair as often as the size allows."""
    head = kit.certificate(kit.claim("x y win", "||x|pairs\n"), version=version)[:-1]
    return {"GAME": kit.game("maker-breaker", "grid 2 2", "line 0 1 2 3"),
            "CERT": head + " 0-1" * ((size - len(head) - 1) // 4) + "\n"}


def shapes(word: str) -> Texts:
    """Makes a game file as large as there may be of a shape that fits nowhere on its board."""
    line, size = f"shape {word}", len(kit.game("maker-breaker", GRID))
    lines = [line] * ((MOST_GAME_BYTES - size) // (len(line) + 1))
    return {"GAME": kit.game("maker-breaker", GRID, *lines), "CERT": kit.certificate()}


def replies(count: int) -> str:
    """Returns the words of a body that names so many points but the first, all with child 0."""
    return kit.field(f"{v}:0" for v in range(1, count))


def replies_turned() -> Texts:
    """Makes a certificate of version 3, 75 MB of nodes that each name 1,024 points of a board of
    256, with the line of its border; all of them are met under eight maps."""
    others, ends = replies(1_024), (0, SIDE - 1)
    count = 75_000_000 // (len(others) + 16)
    border = [v for v in range(POINTS) if v // SIDE in ends or v % SIDE in ends]
    nodes = ["||x|over", *(f"||x|all 0:{k} {others}" for k in range(count)),
             *(f"||x|image {m} {count}" for m in range(MAPS)),
             f"||x|all {kit.field(f'{m}:{count + 1 + m}' for m in range(MAPS))}", ""]
    return {"GAME": kit.game("maker-breaker", GRID, *kit.line_rows([border])),
            "CERT": kit.certificate(kit.claim("x y win", "\n".join(nodes)), version=3)}


def many_replies() -> Texts:
    """Makes a certificate as large as there may be of nodes that each name 257 points."""
    node = f"||x|all 0:0 {replies(257)}\n"
    claim = kit.claim("x y win", node, (MOST_BYTES - 100) // len(node) // 2)
    return {**long_pairs(1, 400_000), "CERT": kit.certificate(claim, claim)}


def pairing(taken: int) -> str:
    """Returns pairs of points but that one, one for each row and each column of the board."""
    ways = [d for d in range(1, SIDE) if (taken // SIDE - taken % SIDE - d) % SIDE]
    words = []
    for i in range(SIDE):
        row = [SIDE * i + (i - d) % SIDE for d in ways[:2]]
        column = [SIDE * ((i + d) % SIDE) + i for d in ways[2:4]]
        words += [f"{a}-{b}" for a, b in (row, column)]
    return kit.field(words)


def image_of(point: int, number: int) -> int:
    """Returns where the map of that number takes a cell: rows and columns are exchanged if it is 4
    or more, then columns mirrored if its last bit is set, and rows if its second bit is."""
    row, column = divmod(point, SIDE)[:: -1 if number & 4 else 1]
    column = SIDE - 1 - column if number & 1 else column
    return SIDE * (SIDE - 1 - row if number & 2 else row) + column


def turned_pairs() -> Texts:
    """Makes a game of 20,000 rows and columns, and a certificate of version 3 that answers each of
    the 256 first moves by a pairing: 36 of these, and images of them."""
    lines = [[SIDE * i + k for k in range(SIDE)] for i in range(SIDE)]
    lines += [[SIDE * k + i for k in range(SIDE)] for i in range(SIDE)]
    nodes: list[str] = []
    found: dict[int, int] = {}
    for v in range(POINTS):
        if v not in found:
            source = found[v] = len(nodes)
            nodes.append(f"{v}||y|pairs {pairing(v)}")
            for m in range(1, MAPS):
                image = image_of(v, m)
                if image not in found:
                    found[image] = len(nodes)
                    nodes.append(f"{image}||y|image {m} {source}")
    nodes += [f"||x|all {kit.field(f'{v}:{found[v]}' for v in range(POINTS))}", ""]
    rows = kit.line_rows(lines * (MOST_LINES // len(lines)))
    return {"GAME": kit.game("maker-breaker", GRID, *rows),
            "CERT": kit.certificate(kit.claim("x y win", "\n".join(nodes)), version=3)}


def part_of(most: int, share: float) -> int:
    """Returns a part of a size, at least 2."""
    return max(2, round(most * share))


def session(share: float = 1) -> Texts:
    """Makes a game whose lines all have the first point, and 10,000 events: this point is claimed
    and taken back."""
    lines = [(0, 1 + i % 255) for i in range(part_of(MOST_LINES, share))]
    return {"GAME": game(lines), "INPUT": "0\nback\n" * 5_000}


def graph_moves(share: float = 1) -> Texts:
    """Makes a switching game of two vertices that matter and a doubled path of others, with a
    record of moves on the path."""
    edges = part_of(990, share)
    path = [(2 + i // 2, 3 + i // 2) for i in range(edges)]
    moves = [f"move {v}" for v in range(edges)]
    graph = edges // 2 + 4, [*path, (0, 1), (0, 1), (0, 1)]
    return {"GAME": kit.switching(graph),
            "GAME.record": "\n".join(["posgame-record 1", *moves, ""])}


def weights(share: float = 1) -> Texts:
    """Makes a game of long lines that a potential proves, and replies to play against it."""
    lines = kit.scatter(7, POINTS, part_of(4_000, share), 60)
    claim = kit.claim("x y win", "||x|potential\n")
    return {"GAME": game(lines), "CERT": kit.certificate(claim),
            "INPUT": kit.field(range(POINTS)).replace(" ", "\n")}


def pairs_undone(share: float = 1) -> Texts:
    """Makes a game that pairs prove, with replies of which the last is taken back again and
    again."""
    claim = kit.claim("x y win", f"||x|pairs {kit.field(f'{a}-{b}' for a, b in pairs(128))}\n")
    last, undone = 2 * part_of(100, share), part_of(4_000, share)
    typed = [*map(str, range(0, last, 2)), *["undo", str(last - 2)] * undone, "quit", ""]
    return {"GAME": game(pairs(128)), "CERT": kit.certificate(claim), "INPUT": "\n".join(typed)}


def parts(share: float = 1) -> Texts:
    """Makes a certificate of a connectivity game with as many parts as there may be."""
    words = part_of(2_090_000, share)
    text = f"posgame-span-cert 1\nclaim x y\nparts{' 0' * words}\n"
    return {"GAME": kit.span(kit.doubled_path(500, 1_000)), "CERT": text}


def forests(share: float = 1) -> Texts:
    """Makes a connectivity game on many vertices and edges, drawn."""
    edges = part_of(1_000, share)
    return {"GAME": kit.span(kit.scattered(3, max(edges // 2, 2), edges, True))}


def vectors(share: float = 1) -> Texts:
    """Makes a game on vectors of 128 entries, drawn."""
    draws = kit.Draws(5)
    rows = ["".join("01"[draws.below(2)] for _ in range(128)) for _ in range(part_of(1_000, share))]
    lines = ["posgame-vectors 1", "rows 128", f"target {'1' * 128}",
             *(f"vector {it}" for it in rows), "turn x", ""]
    return {"GAME": "\n".join(lines)}


def vector_nodes(share: float = 1) -> Texts:
    """Makes a certificate of a game on vectors whose first claim has as many nodes as there may
    be."""
    claim = kit.claim("x x win", "||x|trees e 0 / 1\n", part_of(100_000, share))
    return {**vectors(0.1), "CERT": kit.certificate(claim)}


def long_lines(share: float = 1) -> Texts:
    """Makes a game of as many drawn lines of 20 points as there may be."""
    return {"GAME": game(kit.scatter(1, POINTS, part_of(MOST_LINES, share), 20))}


def graph(share: float = 1) -> Texts:
    """Makes a switching game of many vertices and edges, drawn."""
    edges = part_of(1_000, share)
    return {"GAME": kit.switching(kit.scattered(3, max(edges // 2, 2), edges, True))}


def short_lines(share: float = 1) -> Texts:
    """Makes a game of as many drawn lines of 8 points as there may be, which no rule decides."""
    return {"GAME": game(kit.scatter(1, POINTS, part_of(MOST_LINES, share), 8))}


def few_lines() -> Texts:
    """Makes a game of drawn lines of 6 points, on which a search looks long for a proof."""
    return {"GAME": game(kit.scatter(1, POINTS, 2_000, 6))}


def two_moves(rows: list[str], width: int) -> str:
    """Returns a plan of positions after two moves, each as a row says."""
    groups = [range(i, min(i + width, len(rows))) for i in range(0, len(rows), width)]
    above = [f"moves {kit.field(f'{55 + v - it[0]}:{v}' for v in it)}" for it in groups]
    first = kit.field(f"{10 + i}:{len(rows) + i}" for i in range(len(groups)))
    return "\n".join(["posgame-plan 1", *rows, *above, f"moves {first}", ""])


def one_certificate(share: float = 1) -> Texts:
    """Makes a plan whose positions all name one game file, and its certificate of 100 KB, which is
    read to its end, and is then found to be of another position."""
    apart = kit.field(["0-1", "5-6", *(f"{v}-{v + 1}" for v in range(120, POINTS, 2))])
    claim = kit.claim("x y win", f"||x|pairs {apart}\n", 180)
    return {"GAME": game([range(5), range(5, 10)]), "00001.cert": kit.certificate(claim),
            "plan": two_moves(["game 1"] * part_of(1_000, share), 50)}


def decided_plan(share: float = 1) -> Texts:
    """Makes a plan of positions that are to be decided, of a game of many lines."""
    return {**short_lines(), "plan": two_moves(["decided"] * part_of(2_000, share), 200)}


def missing_plan(share: float = 1) -> Texts:
    """Makes a plan of positions that each name a file of their own, which isn't there."""
    rows = [f"game {i + 1}" for i in range(part_of(8_000, share))]
    return {"GAME": game([range(5)]), "plan": two_moves(rows, 200)}


def far_layout(share: float = 1) -> Texts:
    """Makes a game of 256 points, a layout whose last place is as far as it may be, and moves."""
    far = part_of(999, share ** 0.5)
    places = [f"at {v} {4 * (v % 16)} {2 * (v // 16)}" for v in range(POINTS - 1)]
    return {"GAME": game([(0, 255)]), "INPUT": "\n".join([*map(str, range(20)), "quit", ""]),
            "LAYOUT": "\n".join([*places, f"at {POINTS - 1} {max(far, 70)} {max(far, 40)}", ""])}


def many_pages(share: float = 1) -> Texts:
    """Makes a proof of 2,000 nodes, most of which have 255 replies."""
    lines = [[2 * i, 2 * i + 1] for i in range(128)]
    pairs_of_rest = kit.field(f"{a}-{b}" for a, b in lines)
    claim = kit.claim("x y win", f"||x|pairs {pairs_of_rest}\n", part_of(2_000, share))
    return {"GAME": game(lines), "CERT": kit.certificate(claim)}


def open_lines(share: float = 1) -> Texts:
    """Makes a game of many lines, and a person who asks for them again and again."""
    lines = [(0, 1 + i % 255) for i in range(part_of(MOST_LINES, share))]
    return {"GAME": game(lines), "INPUT": "lines\n" * 10_000}


SOME_PAIRS, MOST_PAIRS, IMAGE_PAIRS = (
    functools.partial(long_pairs, *it) for it in ((1, 400_000), (1, MOST_BYTES), (3, MOST_BYTES)))
# Shapes that are one cell too long, of as many cells as there may be, and with corners as far apart
# as the board's, which fit in eight ways.
SHORT, LONG, BOX = (functools.partial(shapes, it) for it in (
    "1" * (SIDE + 1), "1" * 100, "/".join(["1" * SIDE] + ["0" * (SIDE - 1) + "1"] * (SIDE - 1))))
SOLVE, CHECK, DRAW = "solve GAME OUT --positions 1", "check GAME CERT", "GAME CERT"
ROWS = [
    Row("b", "solve, pairs twice, Breaker first", SOLVE, pairs_twice, 5, 60, (1,)),
    Row("c", "solve, pairs 156 times", SOLVE, pairs_often, 2, 60, (1,)),
    Row("d", "solve, pairs and long lines", SOLVE, pairs_among_long, 2, 60, (1,)),
    Row("e", "review, pairs 156 times", "review GAME RECORD", pairs_often, 60, 60, (1,)),
    Row("g", "check, 400 nodes of 127 attacks", CHECK, threats, 2, 60),
    Row("a", "draw, 400 KB of pairs", DRAW, SOME_PAIRS, 2, 60, (4,), "draw"),
    Row("a", "draw, 268 MB of pairs", DRAW, MOST_PAIRS, 10, 60, (4,), "draw"),
    Row("f", "check, 4 MB of shapes too long", CHECK, SHORT, 1, 60, (3, 4)),
    Row("f", "check, 4 MB of shapes of 100 cells", CHECK, LONG, 1, 60, (3, 4)),
    Row("f", "check, 4 MB of shapes as large", CHECK, BOX, 1, 60, (3, 4)),
    Row("h", "check, 36 pairings and 220 images", CHECK, turned_pairs, 1, 60),
    Row("i", "check, 75 MB of 1,024 replies", CHECK, replies_turned, 10, 200, (4,)),
    Row("j", "play, 268 MB of 257 replies", "play GAME CERT --side y", many_replies, 10, 600, (4,)),
    Row("k", "check, 268 MB of pairs", CHECK, MOST_PAIRS, 10, 60, (4,)),
    Row("k", "check, 268 MB of pairs, version 3", CHECK, IMAGE_PAIRS, 10, 60, (4,)),
    Row("l", "record, 10,000 events on 20,000 lines", "record GAME OUT", session, 4.2, 10),
    Row("m", "review, 990 moves on a graph", "review GAME GAME.record", graph_moves, 0.2, 10),
    Row("n", "play, weights of 4,000 lines", "play GAME CERT --side y", weights, 0.2, 10),
    Row("o", "report, 268 MB of pairs", "report GAME CERT", MOST_PAIRS, 0.8, 10, (4,)),
    Row("p", "gen, 400,000 points in lines", "gen scatter 1 256 20000 20 OUT",
        lambda: {}, 0.2, 10),
    Row("q", "span check, 4 MB of parts", "span check GAME CERT", parts, 0.2, 20, (4,)),
    Row("q", "span solve, 1,000 edges", "span solve GAME OUT", forests, 0.2, 10),
    Row("r", "vec solve, 1,000 vectors", "vec solve GAME OUT", vectors, 0.2, 10),
    Row("r", "vec check, 100,000 nodes", "vec check GAME CERT", vector_nodes, 0.2, 120, (4,)),
    Row("s", "settle, 20,000 lines", "GAME OUT --positions 1", long_lines, 1.3, 20, (0,),
        "settle"),
    Row("s", "settle, 2,000 lines of 6", "GAME OUT --positions 1", few_lines, 16, 20, (1,),
        "settle"),
    Row("t", "moves, 1,000 edges", "moves GAME", graph, 3.6, 10, (0,), "settle", 5),
    Row("u", "split, 20,000 lines into 256", "split GAME . --most 300", short_lines, 5, 20, (0,),
        "settle"),
    Row("v", "join, 1,000 positions of one certificate", "join GAME . OUT", one_certificate,
        0.6, 10, (1,), "settle"),
    Row("v", "join, 2,000 positions decided", "join GAME . OUT", decided_plan, 6, 20, (1,),
        "settle"),
    Row("v", "join, 8,000 files missing", "join GAME . OUT", missing_plan, 0.2, 10, (1,), "settle"),
    Row("w", "draw, 20,000 lines", "GAME", long_lines, 0.2, 10, (0,), "draw"),
    Row("w", "draw, 100 sheets of 1,000 vectors", "--blank 100 GAME", vectors, 0.2, 60, (0,),
        "draw"),
    Row("w", "draw, a far layout", "--layout LAYOUT GAME", far_layout, 0.2, 10, (0,), "draw"),
    Row("w", "draw, a record of 990 moves", "GAME GAME.record", graph_moves, 0.2, 10, (0,),
        "draw"),
    Row("x", "draw, a book of 2,000 nodes", "--book GAME CERT", many_pages, 5, 3_400, (0,),
        "draw"),
    Row("y", "play at a table, a far layout", "GAME --layout LAYOUT", far_layout, 4, 10, (0,),
        "play"),
    Row("y", "play at a table, 10,000 times lines", "GAME", open_lines, 0.8, 10, (0,), "play"),
    Row("z", "play at a table, 4,000 points taken back", "GAME CERT", pairs_undone, 1.2, 10,
        (0,), "play"),
]


def write(folder: pathlib.Path, texts: Texts) -> str:
    """Writes the files of a row, and returns what is typed."""
    for name, text in texts.items():
        if name != "INPUT":
            (folder / name).write_text(text, encoding="ascii")
    return texts.get("INPUT", "")


def measured(program: str, row: Row, keep: str, limit: float) -> kit.Run:
    """Makes a row's files, and runs the program on them."""
    kept = pathlib.Path(keep, row.letter)
    with contextlib.nullcontext(kept) if keep else kit.files() as folder:
        folder.mkdir(parents=True, exist_ok=True)
        typed = write(folder, row.make())
        return kit.run(program, *row.words.split(), folder=folder, typed=typed,
                       most=int(4 * limit) + 1)


def counted(program: str, row: Row, share: float, is_timed: bool) -> int:
    """Returns the instructions, or else the microseconds, of a row at a share of its size."""
    with kit.files() as folder:
        typed = write(folder, row.make(share))
        if is_timed:
            runs = [kit.run(program, *row.words.split(), typed=typed, folder=folder, most=60)
                    for _ in range(2)]
            return round(1_000_000 * min(it.processor for it in runs))
        with kit.inside(folder):
            return kit.count(program, *row.words.split(), typed=typed).instructions


def growth(row: Row, program: str, part: int, is_timed: bool, table: kit.Table) -> None:
    """Counts a row at two sizes, and adds it to the table."""
    least, one, two = (counted(program, row, it, is_timed)
                       for it in (0, 1 / (2 * part), 1 / part))
    factor = (two - least) / max(one - least, 1)
    table.row(f"{row.letter}: {row.what}", least, one, two, (factor, row.growth))


def is_sized(row: Row) -> bool:
    """Tells whether the files of a row can be made smaller."""
    return getattr(row.make, "__defaults__", None) == (1,)


def main() -> int:
    given = kit.options(__doc__, draw=("", "the program posgame-draw"), rows=("", "their letters"),
                        settle=("", "the program posgame-settle"),
                        play=("", "the program posgame-play"),
                        keep=("", "the folder of the files"),
                        growth=(0, "count instructions at 1/(2 N) and 1/N of the size"),
                        clock=(False, "count microseconds instead"),
                        slower=(1.0, "how many times as slow the machine is"))
    os.sched_setaffinity(0, {min(os.sched_getaffinity(0))})
    os.environ.pop("COLUMNS", None)
    heads = ["nothing", "half", "whole", kit.Column("factor", ".2f")] if given.growth else \
        [kit.Column("s", ".2f"), kit.Column("limit", "g"), "MB", "limit"]
    table = kit.Table("row", *heads)
    programs = {"posgame": given.program, **{it: getattr(given, it) and kit.program_path(
        getattr(given, it)) for it in ("draw", "settle", "play")}}
    for row in (it for it in ROWS if not given.rows or it.letter in given.rows):
        name, program = f"{row.letter}: {row.what}", programs[row.program]
        if not program:
            table.row(name, f"not run, without posgame-{row.program}")
        elif given.growth:
            if is_sized(row):
                growth(row, program, given.growth, given.clock, table)
        else:
            limit = row.seconds * given.slower
            done = measured(program, row, given.keep, limit)
            wrong = [] if done.status in row.statuses else [f"status {done.status}"]
            table.row(name, (done.processor, limit), limit,
                      (done.megabytes, row.megabytes), row.megabytes, wrong=wrong)
    return table.end()


if __name__ == "__main__":
    raise SystemExit(main())
