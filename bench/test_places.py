"""Tests where the numbers of edges stand in pictures, by the measures and the sines in
crates/pg_places/src: `python3 -m unittest discover -s bench`. The places are those of
specs/Places.antt and specs/Courses.antt there, written once more. A law of that crate says the same
of up to 20 vertices. Unproved.
"""
from __future__ import annotations

import itertools
import re
import unittest
from typing import Callable, NamedTuple

import kit

SOURCES = kit.TOP / "crates" / "pg_places" / "src"
MEASURES = {name: int(value.replace("_", "")) for name, value in
            re.findall(r"const (\w+): u32 = ([\d_]+);", (SOURCES / "measures.rt").read_text())}
SINES = [int(it) for it in re.findall(
    r"[\d_]+(?=[,\s])", (SOURCES / "sines.rt").read_text().split("= [")[1].replace("_", ""))]


class Place(NamedTuple):
    """How far from the left and from the top."""

    across: int
    down: int


Part = Callable[[Place, Place], Place]


def mixed(a: Place, b: Place, first: int, second: int) -> Place:
    """Returns the place between two where they weigh so much."""
    return Place(*((first * x + second * y) // (first + second) for x, y in zip(a, b)))


def midway(a: Place, b: Place) -> Place:
    """Returns the place half way between two."""
    return mixed(a, b, 1, 1)


def two_sevenths(a: Place, b: Place) -> Place:
    """Returns the place two sevenths of the way from one place to another."""
    return mixed(a, b, 5, 2)


def on_circle(count: int, index: int) -> Place:
    """Returns the place of one of so many vertices on a circle."""
    radius = max(MEASURES["SPREAD"] * count, MEASURES["MIN_RADIUS"])
    quarter, part = divmod(index * MEASURES["TURN"] // max(count, 1), MEASURES["QUARTER"])
    sine, cosine = (radius * SINES[it] // MEASURES["SINE_OF_QUARTER"]
                    for it in (part, MEASURES["QUARTER"] - part))
    across, down = ((sine, -cosine), (cosine, sine), (-sine, cosine), (-cosine, -sine))[quarter]
    middle = radius + MEASURES["HALF"]
    return Place(MEASURES["MARGIN"] + middle + across, MEASURES["TOP"] + middle + down)


def bend_of(a: Place, b: Place, steps: int) -> Place:
    """Returns the place towards which the edge after so many between the same ends is bent."""
    middle, far = midway(a, b), MEASURES["BEND"] * steps
    if abs(a.down - b.down) <= abs(a.across - b.across):
        return Place(middle.across, middle.down + far)
    return Place(middle.across + far, middle.down)


def place_of(count: int, u: int, v: int, steps: int, part: Part = two_sevenths) -> Place:
    """Returns the place of an edge between two of so many vertices, after so many of the same
    ends."""
    u, v = min(u, v), max(u, v)
    u, v = (u, v) if 2 * (v - u) <= count else (v, u)
    a, b = on_circle(count, u), on_circle(count, v)
    if steps == 0:
        return part(a, b)
    bend = bend_of(a, b, steps)
    return part(part(a, bend), part(bend, b))


def places(count: int, parallels: int, part: Part = two_sevenths) -> list[Place]:
    """Returns the places of all edges, so many between any two of the vertices."""
    return [place_of(count, u, v, steps, part)
            for u, v in itertools.combinations(range(count), 2) for steps in range(parallels)]


class Edges(unittest.TestCase):
    def assert_apart(self, count: int, parallels: int) -> None:
        """Fails if two places are one."""
        found = places(count, parallels)
        self.assertEqual(len(found), len(set(found)), f"{count} vertices, {parallels} parallels")

    def test_sines(self) -> None:
        self.assertEqual((len(SINES), SINES[0], SINES[-1]), (129, 0, MEASURES["SINE_OF_QUARTER"]))

    def test_complete(self) -> None:
        """The complete graph of 45 vertices has 990 edges, and no graph has more than 1,000."""
        for count in range(2, 46):
            self.assert_apart(count, 1)

    def test_parallels(self) -> None:
        for count, parallels in itertools.product(range(2, 13), (2, 3)):
            self.assert_apart(count, parallels)

    def test_middles(self) -> None:
        """In their middles the diagonals of a ring of four would have one place."""
        self.assertLess(len(set(places(4, 1, midway))), 6)


if __name__ == "__main__":
    unittest.main()
