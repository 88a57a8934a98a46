"""The boards of the catalogue in boards/: each family by its generator lines in
boards/families.txt, whose head says how they are read.

Imported by bench/boards.py and others; tried by bench/test_families.py. Unproved.
"""
from __future__ import annotations

import dataclasses
import fnmatch
import functools
import itertools
import re
from typing import Callable, Iterable, Iterator

import kit

FOLDER = kit.TOP / "boards"
# The usual names of animals (polyominoes).
NAMES = {
    "1": "one cell", "11": "domino", "111": "tic", "11/10": "el", "1111": "skinny",
    "11/11": "fatty", "111/010": "knobby", "111/100": "elly", "110/011": "tippy", "11111": "I",
    "1111/1000": "L", "1111/0100": "Y", "111/110": "P", "111/101": "U", "111/100/100": "V",
    "111/010/010": "T", "1110/0011": "N", "110/011/010": "F", "110/011/001": "W",
    "110/010/011": "Z", "010/111/010": "X", "11110/00011": "Snaky",
}


@dataclasses.dataclass(frozen=True)
class Board:
    """A board: its name, which is that of its files; the text of its game file; the first cells of
    its row in the table of its family; and the head of its columns there."""

    name: str
    text: str
    row: tuple[str, ...]
    column: str
    family: str = ""

    @property
    def key(self) -> str:
        """The family and the name."""
        return f"{self.family}/{self.name}"


@dataclasses.dataclass(frozen=True)
class Family:
    """A stanza of boards/families.txt: the family's name and title, what its boards are, what is
    known of them, the heads of the first columns of its table, the head of the column of nodes, the
    options of posgame-settle by patterns of names, and the generator lines."""

    name: str
    title: str
    about: str
    known: str
    rows: tuple[str, ...]
    counted: str
    settle: tuple[str, ...]
    lines: tuple[str, ...]

    @functools.cached_property
    def boards(self) -> tuple[Board, ...]:
        """The boards; they are made when they are first used."""
        boards = itertools.chain.from_iterable(map(generated, self.lines))
        return tuple(dataclasses.replace(it, family=self.name) for it in boards)

    def options(self, name: str) -> str:
        """Returns the options of posgame-settle for a board, or nothing: those of the first pattern
        that fits its name."""
        lines = (line.split(" ", 1) for line in self.settle)
        return next((words for pattern, words in lines if fnmatch.fnmatchcase(name, pattern)), "")


# Points and winning sets.


@functools.lru_cache(maxsize=None)
def animals_of(cells: int) -> tuple[str, ...]:
    """Returns the word of each animal of so many cells: that of the image which has a name, or else
    the greatest. They are sorted by their names.

    >>> animals_of(3), len(animals_of(6))
    (('11/10', '111'), 35)
    """
    of_size: set[kit.Cells] = {((0, 0),)}
    for _ in range(cells - 1):
        of_size = {min(kit.turned([*it, cell])) for it in of_size for cell in kit.beside(it)}
    images = [{*map(kit.word_of, kit.turned(it))} for it in of_size]
    words = [max(it & NAMES.keys() or it) for it in images]
    return tuple(sorted(words, key=lambda word: NAMES.get(word, word)))


def cube_lines(side: int) -> list[kit.Line]:
    """Returns the winning lines of noughts and crosses in a cube.

    >>> len(cube_lines(3)), cube_lines(1)
    (49, [[0]])
    """
    lines = set()
    steps = itertools.product((-1, 0, 1), repeat=3)
    for place, step in itertools.product(itertools.product(range(side), repeat=3), steps):
        cells = [[at + k * by for at, by in zip(place, step)] for k in range(side)]
        numbers = {x + side * y + side * side * z for x, y, z in cells}
        if len(numbers) == side and all(0 <= at < side for cell in cells for at in cell):
            lines.add(tuple(sorted(numbers)))
    return [list(line) for line in sorted(lines)]


def cliques(size: int, vertices: int) -> list[kit.Line]:
    """Returns the edges of each complete graph on `size` of the vertices; the edges of the whole
    graph are numbered as `kit.complete` lists them.

    >>> cliques(3, 4)
    [[0, 1, 2], [0, 3, 4], [1, 3, 5], [2, 4, 5]]
    """
    number = {edge: at for at, edge in enumerate(kit.complete(vertices)[1])}
    return [sorted(number[v, u] for u, v in itertools.combinations(chosen, 2))
            for chosen in itertools.combinations(range(vertices), size)]


def progressions(length: int, numbers: int) -> list[kit.Line]:
    """Returns the arithmetic progressions of so many of the first numbers, from 0.

    >>> progressions(3, 5)
    [[0, 1, 2], [0, 2, 4], [1, 2, 3], [2, 3, 4]]
    """
    steps = range(1, numbers)
    found = ([first + step * k for k in range(length)] for first in range(numbers)
             for step in steps)
    return sorted(line for line in found if line[-1] < numbers)


def modular(length: int, modulus: int) -> list[kit.Line]:
    """Returns the arithmetic progressions of so many different numbers modulo a number.

    >>> modular(3, 4)
    [[0, 1, 2], [0, 1, 3], [0, 2, 3], [1, 2, 3]]
    """
    found = ({(first + step * k) % modulus for k in range(length)} for first in range(modulus)
             for step in range(1, modulus))
    return [[*line] for line in sorted({tuple(sorted(it)) for it in found if len(it) == length})]


def plane(order: int, is_affine: bool) -> list[kit.Line]:
    """Returns the lines of the projective or the affine plane over the integers modulo a prime. A
    point is a nonzero vector of three entries whose first nonzero entry is 1; the affine plane
    lacks those whose first entry is 0.

    >>> plane(2, False)
    [[0, 1, 2], [0, 3, 4], [0, 5, 6], [1, 3, 5], [1, 4, 6], [2, 3, 6], [2, 4, 5]]
    >>> plane(2, True)
    [[0, 1], [0, 2], [0, 3], [1, 2], [1, 3], [2, 3]]
    """
    vectors = itertools.product(range(order), repeat=3)
    every = [it for it in vectors if next(filter(None, it), 0) == 1]
    points = [it for it in every if it[0] or not is_affine]
    lines = [[at for at, point in enumerate(points)
              if sum(a * b for a, b in zip(point, line)) % order == 0] for line in every]
    return sorted(line for line in lines if line)


def paths(side: int) -> list[kit.Line]:
    """Returns the least sets of cells that join the first row of a Hex board to the last.

    >>> paths(2)
    [[0, 2], [1, 2], [1, 3]]
    """
    def beside(cell: int) -> set[int]:
        row, column = divmod(cell, side)
        steps = (0, 1), (1, 0), (0, -1), (-1, 0), (1, -1), (-1, 1)
        return {(row + i) * side + column + j for i, j in steps
                if 0 <= row + i < side and 0 <= column + j < side}

    found, begun = [], [[cell] for cell in range(side)]
    while begun:
        path = begun.pop()
        if path[-1] >= side * (side - 1):
            found.append(sorted(path))
            continue
        near = set().union(*map(beside, path[:-1]), path, range(side))
        begun += [[*path, cell] for cell in sorted(beside(path[-1]) - near)]
    return sorted(found)


# Generators: each yields the boards of a generator line.


def bias_rows(bias: int) -> list[str]:
    """Returns the row of a bias, or none if it is 1."""
    return [f"bias {bias}"] * (bias > 1)


def on_points(kind: str, points: int, lines: Iterable[Iterable[int]], bias: int = 1,
              turn: str = "x") -> str:
    """Returns the file of a game on points without places."""
    heads = f"points {points}", *bias_rows(bias)
    return kit.game(kind, *heads, *kit.line_rows(lines), turn=turn)


def squares(kind: str, side: int) -> Iterator[Board]:
    """Noughts and crosses on a square."""
    lines = kit.line_rows(kit.in_row(side, side, side, by_direction=True))
    yield Board(f"{side}x{side}-{kind}", kit.game(kind, f"grid {side} {side}", *lines),
                (f"{side} by {side}",), kit.KINDS[kind])


def animals(kind: str, cells: int, side: int, bias: int = 1) -> Iterator[Board]:
    """All animals of so many cells on a square; Y claims `bias` cells a turn."""
    for word in animals_of(cells):
        name = NAMES.get(word, word)
        file = re.sub("[ /]", "-", name)
        row = f"{name} `{word}`" if word in NAMES else f"`{word}`"
        heads = [f"grid {side} {side}", *bias_rows(bias)]
        text = kit.game(kind, *heads, f"shape {word}")
        yield Board(f"{file}-{side}x{side}", text, (row,), f"{side} by {side}")


def animal(kind: str, word: str, side: int) -> Iterator[Board]:
    """One animal on a square."""
    boards = animals(kind, word.count("1"), side)
    yield next(it for it in boards if f"`{word}`" in it.row[0])


def in_row(kind: str, length: int, height: int, width: int) -> Iterator[Board]:
    """So many cells in a row on a rectangle that isn't higher than wide."""
    if height <= width:
        rows = kit.line_rows(kit.in_row(height, width, length))
        text = kit.game(kind, f"grid {width} {height}", *rows)
        yield Board(f"{length}-on-{height}x{width}-{kind}", text,
                    (str(length), f"{height} by {width}"), kit.KINDS[kind])


def box_rows(count: int, size: int, bias: int) -> list[str]:
    """Returns the rows of a game of boxes without common points.

    >>> box_rows(2, 2, 3)
    ['points 4', 'bias 3', 'line 0 1', 'line 2 3']
    """
    lines = kit.line_rows(range(size * k, size * (k + 1)) for k in range(count))
    return [f"points {count * size}", *bias_rows(bias), *lines]


def boxes(kind: str, turn: str, count: int, size: int, bias: int) -> Iterator[Board]:
    """Boxes without common points, of which Y claims `bias` points a turn."""
    text = kit.game(kind, *box_rows(count, size, bias), turn=turn)
    yield Board(f"{count}-of-{size}-bias-{bias}", text, (str(count), str(size)), f"{bias} a turn")


def box_game(turn: str, count: int, size: int, bias: int) -> Iterator[Board]:
    """Boxes of which Y fills one or X hits each: a line has a point of each box, and Y claims
    `bias` points a turn."""
    boxes_of = (range(size * k, size * (k + 1)) for k in range(count))
    lines = itertools.product(*boxes_of)
    text = on_points("maker-breaker", count * size, lines, bias, turn)
    yield Board(f"{count}-of-{size}-bias-{bias}", text, (str(count), str(size)), f"{bias} a turn")


def bridg_it(rows: int) -> Iterator[Board]:
    """Bridg-it as a switching game."""
    graph = kit.bridge(rows)
    yield Board(f"{rows}-rows", kit.switching(graph), (str(rows), str(len(graph[1]))), "class")


def complete(vertices: int) -> Iterator[Board]:
    """The connectivity game on a complete graph."""
    graph = kit.complete(vertices)
    name = f"complete graph on {vertices}"
    yield Board(f"complete-{vertices}", kit.span(graph), (name, str(len(graph[1]))), "class")


def grid(rows: int, columns: int) -> Iterator[Board]:
    """The connectivity game on a grid that isn't higher than wide."""
    if rows <= columns:
        graph = kit.grid(rows, columns)
        name = f"grid of {rows} by {columns}"
        yield Board(f"grid-{rows}x{columns}", kit.span(graph), (name, str(len(graph[1]))), "class")


def cube(kind: str, side: int) -> Iterator[Board]:
    """Noughts and crosses in a cube."""
    yield Board(f"{side}x{side}x{side}-{kind}", on_points(kind, side ** 3, cube_lines(side)),
                (f"{side} by {side} by {side}",), kit.KINDS[kind])


def clique(kind: str, size: int, vertices: int) -> Iterator[Board]:
    """A complete graph in the edges of another."""
    text = on_points(kind, vertices * (vertices - 1) // 2, cliques(size, vertices))
    yield Board(f"{size}-of-{vertices}-{kind}", text, (str(size), str(vertices)), kit.KINDS[kind])


def progression(kind: str, length: int, numbers: int, bias: int = 1) -> Iterator[Board]:
    """Arithmetic progressions among the first numbers; Y claims `bias` of them a turn."""
    text = on_points(kind, numbers, progressions(length, numbers), bias)
    yield Board(f"{length}-to-{numbers}-{kind}", text, (str(length), str(numbers)),
                kit.KINDS[kind])


def progression_modulo(kind: str, length: int, modulus: int) -> Iterator[Board]:
    """Arithmetic progressions among the numbers modulo a number."""
    text = on_points(kind, modulus, modular(length, modulus))
    yield Board(f"{length}-modulo-{modulus}-{kind}", text, (str(length), str(modulus)),
                kit.KINDS[kind])


def planes(kind: str, which: str, order: int) -> Iterator[Board]:
    """The `projective` or `affine` plane of a prime order."""
    is_affine = which == "affine"
    points = order ** 2 + (0 if is_affine else order + 1)
    yield Board(f"{which}-{order}-{kind}", on_points(kind, points, plane(order, is_affine)),
                (which, str(order)), kit.KINDS[kind])


def hex_board(kind: str, side: int) -> Iterator[Board]:
    """Hex by its least winning paths."""
    text = kit.game(kind, f"points {side * side}", *kit.line_rows(paths(side)))
    yield Board(f"{side}x{side}-{kind}", text, (f"{side} by {side}",), kit.KINDS[kind])


GENERATORS: dict[str, Callable[..., Iterator[Board]]] = {
    "squares": squares, "animals": animals, "animal": animal, "in-row": in_row, "boxes": boxes,
    "box-game": box_game, "bridg-it": bridg_it, "complete": complete, "grid": grid, "cube": cube,
    "clique": clique, "progression": progression, "progression-modulo": progression_modulo,
    "plane": planes, "hex": hex_board,
}


# The file of families.


def choices(word: str) -> list[str] | range:
    """Returns what a word of a generator line stands for.

    >>> choices("3"), choices("2-5"), choices("x"), choices("maker-maker,maker-breaker")
    (range(3, 4), range(2, 6), ['x'], ['maker-maker', 'maker-breaker'])
    >>> choices("11/10"), choices("'111")
    (['11/10'], ['111'])
    """
    found = re.fullmatch(r"(\d+)(?:-(\d+))?", word)
    if found:
        return range(int(found[1]), int(found[2] or found[1]) + 1)
    return word.removeprefix("'").split(",")


def generated(line: str) -> Iterator[Board]:
    """Yields the boards of a generator line.

    >>> [it.name for it in generated("grid 2-3 2-3")]
    ['grid-2x2', 'grid-2x3', 'grid-3x3']
    """
    name, *words = line.split()
    for chosen in itertools.product(*map(choices, words)):
        yield from GENERATORS[name](*chosen)


def family(lines: Iterable[str]) -> Family:
    """Returns the family of a stanza, whose lines are a key with what belongs to it."""
    given: dict[str, list[str]] = {}
    for line in lines:
        key, _, rest = line.partition(" ")
        given.setdefault(key, []).append(rest)
    one = {key: rests[0] for key, rests in given.items()}
    return Family(one["family"], one["title"], one["about"], one["known"],
                  tuple(one["rows"].split(", ")), one.get("counted", "nodes"),
                  tuple(given.get("settle", [])), tuple(given["boards"]))


@functools.lru_cache(maxsize=None)
def families() -> tuple[Family, ...]:
    """Returns all families of boards/families.txt, in the order of that file."""
    return tuple(map(family, kit.stanzas("families.txt", "boards")))


def chosen(word: str) -> list[Family]:
    """Returns the families of these names, with commas between them, or all if the word is empty;
    raises KeyError if there is no such family."""
    names = {it.name: it for it in families()}
    return [names[it] for it in word.split(",")] if word else [*families()]


def board_of(key: str) -> Board:
    """Returns the board of a key FAMILY/NAME; raises KeyError if there is none."""
    name = key.partition("/")[0]
    found = {board.key: board for it in chosen(name) for board in it.boards}
    return found[key]
