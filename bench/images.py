#!/usr/bin/env python3
"""Measures what folding saves, and writes the table of docs/IMAGES.md: of each board the nodes of
its certificate, those that stay plain if it is folded, and what the flag costs.

    bench/images.py [PROGRAM] [--only WORD] [--out FILE]

posgame solves each board with --images and without; both certificates must be accepted.
Instructions are counted by callgrind, where that is installed: the flag may cost a tenth of what
solving costs. At last it is measured how long it takes to see whether a map fits a board of 20,000
lines of 20 points: 0.2 seconds of a processor at most. Unproved.
"""
from __future__ import annotations

from typing import Any, Iterator

import kit
import worst

# Animals with the sizes of their boards: height and width.
ANIMALS = [
    ("elly", "111/100", [(4, 4), (4, 5), (5, 5)]), ("knobby", "111/010", [(4, 4), (4, 5)]),
    ("tippy", "110/011", [(4, 4), (5, 5)]), ("fatty", "11/11", [(4, 4), (5, 5)]),
    ("skinny", "1111", [(4, 4)]),
]


def boards() -> Iterator[tuple[str, str]]:
    """The name of each board, and its file."""
    for kind, name in kit.KINDS.items():
        lines = kit.line_rows(kit.in_row(3, 3, 3))
        yield f"noughts and crosses, {name}", kit.game(kind, "grid 3 3", *lines)
    shapes = [("four in a row", kit.line_rows(kit.in_row(height, 4, 4)), height, 4)
              for height in (4, 5)]
    shapes += [(name, [f"shape {it}"], *size) for name, it, sizes in ANIMALS for size in sizes]
    for name, rows, height, width in shapes:
        text = kit.game("maker-breaker", f"grid {width} {height}", *rows)
        yield f"{name}, {width} by {height}, Maker-Breaker", text


def heavy_board() -> str:
    """16 by 16 cells with some 20,000 lines of 20 points, which every map takes onto its lines."""
    lines, seed = set(), 1  # type: set[tuple[int, ...]], int
    while len(lines) <= 20_000 - worst.MAPS:
        cells: set[int] = set()
        while len(cells) < 20:
            seed = seed * 6364136223846793005 + 1442695040888963407 & (1 << 64) - 1
            cells.add((seed >> 33) % worst.POINTS)
        lines |= {tuple(sorted(worst.image_of(cell, number) for cell in cells))
                  for number in range(worst.MAPS)}
    return kit.game("maker-breaker", worst.GRID, *kit.line_rows(sorted(lines)))


def measured(program: str, text: str) -> tuple[list[Any], list[str]]:
    """The cells of a board, and what is wrong with them."""
    said, costs, nodes, wrong = [], [], [], []
    for name, *flags in ("plain",), ("folded", "--images"):
        done, stored, is_accepted = kit.solved(program, text, *flags)
        said.append(done.said)
        nodes.append(sum("|" in row and "|image " not in row for row in stored.splitlines()))
        wrong += [f"the {name} one is not accepted"] * (not is_accepted)
        with kit.files(game=text) as folder:
            words = program, "solve", folder / "game", folder / "certificate", *flags
            costs.append(kit.count(*words).instructions if kit.has_valgrind() else None)
    if said[0] != said[1] or not said[0].startswith("result "):
        wrong.append(f"said {' and '.join(said)}")
    share = nodes[1] / nodes[0] if nodes[0] else None
    more = costs[1] / costs[0] - 1 if costs[0] else None
    return [said[0].removeprefix("result "), *nodes, share, *costs, more], wrong


def fitting_seconds(program: str) -> float:
    """How long one map takes: what the flag costs on a board that is settled at its root."""
    with kit.files(heavy=heavy_board()) as folder:
        words = program, "solve", folder / "heavy", folder / "certificate"
        plain, folded = (kit.quickest(3, *words, *flags) for flags in ([], ["--images"]))
    if not plain.output.startswith("result ") or not folded.output.startswith("result "):
        raise SystemExit(f"the heavy board: {plain.output}")
    return folded.processor - plain.processor


def main() -> int:
    given = kit.options(__doc__, out=("", "the file written"),
                        only=("", "boards with this in their name; no file written"))
    table = kit.Table("board", "result", "nodes", "plain nodes folded", ("share", ".2f"),
                      "instructions", "with images", ("the flag's cost", ".1%", 0.1))
    sums = [0, 0]
    for name, text in kit.named(given.only, boards()):
        cells, wrong = measured(given.program, text)
        table.row(name, *cells, wrong=wrong)
        sums = [total + (cost or 0) for total, cost in zip(sums, cells[4:6])]
    seconds = fitting_seconds(given.program)
    table.wrong += [f"one map: {seconds:.3f} s"] * (seconds > 0.2)
    whole = f"{sums[1] / sums[0] - 1:.1%}" if sums[0] else "-"
    table.put("", f"All boards together: the flag costs {whole}.", "",
              "Whether one map fits a board of 20,000 lines of 20 points takes "
              f"{seconds:.3f} s of a processor.")
    if not given.only:
        lines = [kit.prose("IMAGES.md"), *table.lines, "", "Written by `bench/images.py`.", ""]
        kit.write_page(lines, given, "IMAGES.md")
    return table.end()


if __name__ == "__main__":
    raise SystemExit(main())
