#!/usr/bin/env python3
"""Compares the games and layouts of layouts/ with what this script makes, or writes them.

Each layout is tried: its places are in range, and two of them are four columns or two lines apart.
Nothing here is proved.
"""
from __future__ import annotations

import itertools

import families
import kit

FOLDER = kit.TOP / "layouts"
Places = list[tuple[int, int]]
# The plane of order 2: a triangle with the middles of its sides, and its centre.
SEVEN = [(14, 0), (0, 12), (7, 6), (28, 12), (21, 6), (14, 12), (14, 8)]
# The plane of order 3: a square, and the points in which its rows, columns and diagonals meet. They
# come first, so that a line is drawn from there on.
THIRTEEN = [(0, 8), (16, 0), (0, 0), (32, 0),
            *((8 + 8 * column, 4 + 4 * row) for row in range(3) for column in range(3))]


def hex_places(side: int) -> Places:
    """Returns the places of a Hex board, each row half a cell right of the row above.

    >>> hex_places(2)
    [(0, 0), (4, 0), (2, 2), (6, 2)]
    """
    return [(4 * column + 2 * row, 2 * row) for row in range(side) for column in range(side)]


def cube_places(side: int) -> Places:
    """Returns the places of a cube, its layers side by side.

    >>> cube_places(2)[::3]
    [(0, 0), (4, 2), (12, 2)]
    """
    across = 4 * (side + 1)
    return [(across * layer + 4 * column, 2 * row)
            for layer in range(side) for row in range(side) for column in range(side)]


def game(title: str, points: int, lines: list[kit.Line]) -> str:
    """Returns a Maker-Breaker game with its title in a comment."""
    return f"# {title}\n" + kit.game("maker-breaker", f"points {points}", *kit.line_rows(lines))


def layout(title: str, places: Places) -> str:
    """Returns a layout with its title in a comment."""
    rows = (f"at {point} {x} {y}\n" for point, (x, y) in enumerate(places))
    return f"# {title}\n" + "".join(rows)


def boards() -> dict[str, tuple[str, list[kit.Line], str, Places]]:
    """Returns of each board the title and the lines of its game, and those of its layout."""
    found = {f"hex-{side}-by-{side}": (
        f"Hex {side} by {side}: Maker wants a path from the first row to the last",
        families.paths(side),
        "each row is half a cell right of the row above", hex_places(side)) for side in (4, 5)}
    return found | {
        "cube-3-by-3-by-3": ("noughts and crosses in a cube: point x + 3 y + 9 z",
                             families.cube_lines(3), "a layer for each z", cube_places(3)),
        "plane-of-order-2": ("the projective plane of order 2", families.plane(2, False),
                             "a triangle, the middles of its sides, and its centre", SEVEN),
        "plane-of-order-3": ("the projective plane of order 3", families.plane(3, False),
                             "a square, and points in which parallels meet", THIRTEEN)}


def fault_of(places: Places) -> bool:
    """Returns whether a place is out of range, or two are too near."""
    return (any(not 0 <= at <= 999 for place in places for at in place)
            or any(abs(a[0] - b[0]) < 4 and abs(a[1] - b[1]) < 2
                   for a, b in itertools.combinations(places, 2)))


def main() -> int:
    write = kit.options(__doc__, None, write=(False, "write the files")).write
    wrong = 0
    for name, (title, lines, said, places) in boards().items():
        wrong += fault_of(places)
        texts = {"game": game(title, len(places), lines), "layout": layout(said, places)}
        for ending, text in texts.items():
            file = FOLDER / f"{name}.{ending}"
            if write:
                file.write_text(text, encoding="ascii")
            same = file.is_file() and file.read_text(encoding="ascii") == text
            wrong += not same
            print(f"{file.name}: {'the same' if same else 'otherwise'}")
    return kit.end([f"{wrong} wrong"] * bool(wrong))


if __name__ == "__main__":
    raise SystemExit(main())
