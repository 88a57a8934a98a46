#!/usr/bin/env python3
"""Writes docs/pictures from examples/, reads each picture with a parser of XML, and measures the
largest ones. Arguments of bench/pictures.txt for which nothing is drawn must be refused. In
complete graphs, which may have no more edges than a game has points, no two edges may have their
numbers at one place. PROGRAM is posgame_draw. Unproved.

    bench/pictures.py [PROGRAM] [--out FOLDER]
"""
from __future__ import annotations

import itertools
import pathlib
import re
import xml.etree.ElementTree as ElementTree

import kit

NUMBER = re.compile(r'<text class="number" x="(\d+)" y="(\d+)"')
ROW = re.compile(r"(.*?): ?(.*?)(?: ?!(\d+))?$")
BYTES = 2_000_000
SPACE = "{http://www.w3.org/2000/svg}"
TAGS = {"title", "style", "rect", "circle", "line", "path", "text", "g"}
# Attributes that are places across, and down.
ENDS = {"x": 0, "cx": 0, "x1": 0, "x2": 0, "y": 1, "cy": 1, "y1": 1, "y2": 1}
LARGE = ["lines.game", "ring.game", "lines.game lines.cert", "ring.game lines.cert", "graph.game",
         "graph.game graph.cert", "span.game", "span.game trees.cert", "span.game parts.cert",
         "vectors.game", "vectors.game sets.cert"]


def faults_of(text: str) -> list[str]:
    """What is wrong with a picture."""
    try:
        root = ElementTree.fromstring(text)
    except ElementTree.ParseError as error:
        return [f"no XML: {error}"]
    faults = [] if root.tag == SPACE + "svg" else [f"its tag is {root.tag}"]
    left, top, *size = map(int, root.get("viewBox", "0 0 0 0").split())
    faults += ["the view box is empty"] if left or top or 0 in size else []
    for child in root:
        tag = child.tag.removeprefix(SPACE)
        faults += [] if tag in TAGS else [f"a tag {tag}"]
        faults += [f"{tag} lies outside, {name} {place}" for name, place in child.items()
                   if name in ENDS and int(place) > size[ENDS[name]]]
    return faults + ([f"{len(text)} bytes"] if len(text) > BYTES else [])


def large_files() -> dict[str, str]:
    """The largest boards, 20,000 lines in a grid and in a ring, with pairs of all points; a path of
    doubled edges with two trees and, for its connectivity game, parts that are faulty; and 1,000
    vectors of 128 entries in two faulty sets."""
    lines = kit.line_rows(sorted({(k * (k + 3) // 2 + 13 * i) % 256 for i in range(20)})
                          for k in range(20_000))
    pairs = kit.field(f"{v}-{v + 1}" for v in range(0, 256, 2))
    graph = kit.doubled_path(500, 1000)
    trees = f"trees {kit.field(range(499))} / {kit.field(range(499, 998))}\n"
    vectors = [f"vector {k:0128b}" for k in range(1, 1001)]
    sets = f"trees {kit.field(range(500))} / {kit.field(range(500, 1000))}\n"
    return {
        "lines.game": kit.game("maker-breaker", "grid 16 16", *lines),
        "ring.game": kit.game("maker-breaker", "points 256", *lines),
        "lines.cert": kit.certificate(kit.claim("x y win", f"||x|pairs {pairs}\n")),
        "graph.game": kit.switching(graph, (0, 499), "y"),
        "graph.cert": kit.certificate(kit.claim("y x win", f"||y|{trees}")),
        "span.game": kit.span(graph, "y"),
        "trees.cert": f"posgame-span-cert 1\nclaim y x\n{trees}",
        "parts.cert": f"posgame-span-cert 1\nclaim y y\nparts {kit.field(range(500))}\n",
        "vectors.game": "\n".join(["posgame-vectors 1", "rows 128", f"target {'1' * 128}", *vectors,
                                   "turn y", ""]),
        "sets.cert": kit.certificate(kit.claim("y x win", f"||y|{sets}")),
    }


def small(program: str, out: pathlib.Path, name: str, words: str, status: str) -> list[str]:
    """Writes the picture of an example; returns what is wrong with it."""
    done = kit.run(program, *words.split(), folder=kit.EXAMPLES)
    (out / f"{name}.svg").write_text(done.output, encoding="utf-8")
    faults = [] if done.status == int(status or 0) else [f"status {done.status}, not {status}"]
    return [f"{name}: {it}" for it in faults + faults_of(done.output)]


def refused(program: str, words: str, text: str, status: str) -> list[str]:
    """Runs arguments without a picture; returns what is wrong with the answer."""
    done = kit.run(program, *words.split(), folder=kit.EXAMPLES)
    found = done.said, done.status
    return [] if found == (text, int(status)) else [f"{words or 'no words'}: {found!r:.80}"]


def complete(count: int, parallels: int) -> list[tuple[int, int]]:
    """The edges between any two of so many vertices, so many between the same two."""
    return [ends for ends in itertools.combinations(range(count), 2) for _ in range(parallels)]


def covered(program: str) -> list[str]:
    """Draws complete graphs; returns in which of them two edges have their numbers at one place, or
    where none is drawn."""
    shapes = [(count, 1) for count in range(3, 46)] + [(count, 3) for count in range(2, 13)]
    faults = []
    for count, parallels in shapes:
        edges = complete(count, parallels)
        game = kit.switching((count, edges), (0, 1), "x")
        with kit.files(**{"complete.game": game}) as folder:
            text = kit.run(program, "complete.game", folder=folder).output
        places = NUMBER.findall(text)[:len(edges)]
        if len(set(places)) < len(edges):
            faults.append(f"{count} vertices, {parallels} parallels: {len(set(places))} places")
    return faults


def main() -> int:
    out = kit.TOP / "docs" / "pictures", "the folder of the pictures"
    given = kit.options(__doc__, "posgame_draw", out=out)
    given.out.mkdir(parents=True, exist_ok=True)
    drawn, others = ([ROW.findall(it)[0] for it in rows] for rows in kit.stanzas("pictures.txt"))
    wrong = [small(given.program, given.out, *row) for row in drawn]
    wrong += [refused(given.program, *row) for row in others]
    print(f"{len(drawn)} pictures of examples and {len(others)} refusals: "
          f"{sum(map(bool, wrong))} not as expected\n")
    table = kit.Table("picture", ("bytes", ",", BYTES), ("s", ".3f", 0.1), "status")
    table.wrong += sum(wrong, []) + covered(given.program)
    with kit.files(**large_files()) as folder:
        for row in LARGE:
            done = kit.quickest(5, given.program, *row.split(), folder=folder)
            faults = [] if done.status in (0, 4) else [f"status {done.status}"]
            table.row(row, len(done.output), done.seconds, done.status,
                      wrong=faults + faults_of(done.output))
    return table.end()


if __name__ == "__main__":
    raise SystemExit(main())
