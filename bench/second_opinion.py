#!/usr/bin/env python3
"""Compares the second checker, python/posgame/check.py, with `posgame check` on damaged files.

Certificates of the examples, and those that PROGRAM writes for some games, are damaged by small
changes of numbers, words, lines and bodies; in one pair of ten the game is damaged too. No pair of
files comes twice. The two checkers must give each pair the same text and the same status.

The pairs depend on --seed alone, and are compared in batches, by --jobs processes. A line on
standard error says after each batch how many were compared. --minutes ends the run early; the
counts are then those of the batches that ended. --folder adds the pairs NAME.game and NAME.cert of
a folder, and --keep stores the pairs that differ. The status is 1 if a verdict differs. Unproved.
"""
from __future__ import annotations

import collections
import concurrent.futures
import itertools
import math
import os
import pathlib
import sys
import time
from typing import Counter, Iterator

import kit

sys.path[:0] = [str(kit.TOP / "python"), str(kit.TOP / "python" / "tests")]

import beside  # noqa: E402
from posgame import Game  # noqa: E402
from posgame.programs import bytes_of  # noqa: E402

BATCH = 100
POSITIONS = 300
SIZES = [("maker-breaker", 1), ("maker-maker", 1), ("avoider-enforcer", 1), ("maker-breaker", 2),
         ("avoider-enforcer", 2)]
# How many pairs of a batch got each verdict, and those on which the two differ.
Compared = tuple[Counter[str], list[beside.Comparison]]


def solved_pairs() -> list[beside.Pair]:
    """Returns pairs that the program writes: each kind on small boards, with images and without,
    and games on graphs and vectors."""
    games = [Game.from_grid(3, 3, "11/10", kind=kind, bias=bias, turn=turn)
             for kind, bias in SIZES for turn in "xy"]
    rows = kit.in_row(3, 3, 3, by_direction=True)
    games += [Game.from_grid(3, 3, lines=rows, kind=kind, bias=bias) for kind, bias in SIZES]
    tries = [(game, images) for game in games for images in (False, True)]
    edges = list(itertools.combinations(range(4), 2))
    tries += [(Game.from_graph(edges[leave:], ends, turn, x=edges[leave:leave + 1]), False)
              for leave in (0, 1, 2) for ends in (None, (0, 3)) for turn in "xy"]
    vectors = [f"{number:03b}" for number in range(8)]
    tries += [(Game.from_vectors(vectors[leave:], "110", turn, y=[2]), False)
              for leave in (0, 2, 4) for turn in "xy"]
    solutions = [(game, game.solve(POSITIONS, images)) for game, images in tries]
    return [beside.Pair(bytes_of(game.text), bytes_of(solution.certificate), f"solved {number}")
            for number, (game, solution) in enumerate(solutions) if solution.certificate]


def pairs_of(folder: pathlib.Path) -> list[beside.Pair]:
    """Returns the pairs NAME.game and NAME.cert of a folder."""
    return [beside.Pair(game.read_bytes(), game.with_suffix(".cert").read_bytes(), game.stem)
            for game in sorted(folder.glob("*.game")) if game.with_suffix(".cert").is_file()]


def compare(pairs: list[beside.Pair]) -> Compared:
    """Compares the verdicts on a batch of pairs."""
    counts, differing = collections.Counter[str](), []
    for one in beside.comparisons(pairs):
        words = one.again.lines[0].split()
        counts[words[0] if one.again.status == 0 else " ".join(words[:2])] += 1
        differing += [one] if one.differs else []
    return counts, differing


def all_compared(pairs: Iterator[beside.Pair], jobs: int, end: float) -> Iterator[Compared]:
    """Yields what comes of each batch of pairs, as it ends; begins none after the time `end`."""
    batches = iter(lambda: list(itertools.islice(pairs, BATCH)), [])
    with concurrent.futures.ProcessPoolExecutor(jobs) as pool:
        waiting = {pool.submit(compare, batch) for batch in itertools.islice(batches, 2 * jobs)}
        while waiting:
            done, waiting = concurrent.futures.wait(
                waiting, return_when=concurrent.futures.FIRST_COMPLETED)
            for future in done:
                if time.monotonic() < end:
                    waiting |= {pool.submit(compare, batch)
                                for batch in itertools.islice(batches, 1)}
                yield future.result()


def keep(folder: pathlib.Path, differing: list[beside.Comparison]) -> None:
    """Stores the files of pairs on which the two differ."""
    folder.mkdir(parents=True, exist_ok=True)
    for number, one in enumerate(differing):
        (folder / f"{number}.game").write_bytes(one.pair.game)
        (folder / f"{number}.cert").write_bytes(one.pair.certificate)


def main() -> int:
    """Compares the pairs as they are, and then damaged ones in batches."""
    options = kit.options(__doc__, count=(20_000, "how many damaged pairs"), seed=1,
                          jobs=os.cpu_count(), minutes=math.inf,
                          folder=(None, "with further pairs"), keep=(None, "for those that differ"))
    os.environ["POSGAME"] = options.program
    start = time.monotonic()
    pairs = beside.example_pairs() + solved_pairs()
    pairs += pairs_of(pathlib.Path(options.folder)) if options.folder else []
    counts, differing = collections.Counter[str](), compare(pairs)[1]
    damaged = itertools.islice(beside.damaged_pairs(pairs, options.seed), options.count)
    for more, others in all_compared(damaged, options.jobs, start + 60 * options.minutes):
        counts.update(more)
        differing += others
        print(f"{sum(counts.values()):,} of {options.count:,} compared, {len(differing)} differ, "
              f"{time.monotonic() - start:.0f} s", file=sys.stderr, flush=True)
    print(*differing, sep="\n", end="\n" if differing else "")
    print(f"{len(pairs)} pairs and {sum(counts.values()):,} damaged ones: {len(differing)} "
          f"verdicts differ; {time.monotonic() - start:.0f} s")
    print(", ".join(f"{verdict} {count}" for verdict, count in sorted(counts.items())))
    if options.keep and differing:
        keep(pathlib.Path(options.keep), differing)
    return 1 if differing else 0


if __name__ == "__main__":
    sys.exit(main())
