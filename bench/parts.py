#!/usr/bin/env python3
"""Measures parts of a search by themselves, under callgrind. PROGRAM is test_rows. Unproved.

    bench/parts.py [PROGRAM] board | threat | match
"""
from __future__ import annotations

import collections
import itertools
import random
import re

import kit

POINTS, LONG, ASKS, TRIES = 256, 10, 100, 4_000
Lines = list[kit.Line]
Steps = list[tuple[int, int]]


def board(program: str) -> None:
    """Measures a play with its undo on 256 points, and opening the board. Full games in mixed
    orders are played and taken back; the instructions of a run without a game are subtracted. Each
    line has ten points, so that 204, 2,048 and 20,000 lines are about 8, 80 and 800 through a
    point; each point of a line is an odd step after the one before, so that no two are the same."""
    table = kit.Table("lines", "plays", "instructions a play with its undo",
                      "instructions to read and open", ("s", ".3f"))
    for count in 204, 2_048, 20_000:
        lines = [sorted((k + i * (2 * (k // 256) + 1)) % POINTS for i in range(LONG))
                 for k in range(count)]
        with kit.files(game=kit.short_game("maker-breaker", POINTS, lines)) as folder:
            words = program, "board", folder / "game"
            none, some = kit.count(*words, 0).instructions, kit.count(*words, 2)
            opened = kit.run(*words, 0)
        plays = int(some.output.split()[2])
        table.row(count, plays, (some.instructions - none) // plays, none, opened.seconds)


def threat(program: str) -> None:
    """Measures the search for threat lines, five in a row on 16 by 16 points. What one question
    takes is the difference of two runs, asking and only counting the same positions, shared among
    these. Then how many positions have a threat line of no reply, one, two and three."""
    lines = kit.in_row(16, 16, 5, by_direction=True)
    table = kit.Table("game and way", "instructions a position", "positions", "no reply", "1 reply",
                      "2 replies", "3 replies")
    for way, kind in itertools.product(("walk", "still"), ("maker-breaker", "maker-maker")):
        with kit.files(game=kit.short_game(kind, POINTS, lines)) as folder:
            words = program, "threat", folder / "game", way
            asking, counting = kit.count(*words, "ask"), kit.count(*words, "count").instructions
        asked, *found = map(int, re.findall(r"\d+", asking.output))
        each = (asking.instructions - counting) // asked
        table.row(f"{kit.KINDS[kind]}, {way}", each, asked, *found)


def search(lines: Lines, holder: dict[int, int], start: int) -> tuple[int, Steps]:
    """A search by breadth for a point without a holder, from a line: how many points it goes over,
    and the lines and points that lead to the one that it finds, none if there is none."""
    came: dict[int, Steps] = {start: []}
    queue, count = [start], 0
    for line in queue:
        for v in lines[line]:
            count += 1
            if v not in holder:
                return count, [*came[line], (line, v)]
            if holder[v] not in came:
                came[holder[v]] = [*came[line], (line, v)]
                queue.append(holder[v])
    return count, []


def passes(lines: Lines) -> int:
    """How many points are gone over until each line has two, or one has none to reach."""
    holder, count = {}, 0  # type: dict[int, int], int
    for seat in range(2 * len(lines)):
        more, steps = search(lines, holder, seat // 2)
        count += more
        if not steps:
            break
        holder.update((v, line) for line, v in steps)
    return count


def near(draw: random.Random, count: int, width: int, points: int = POINTS) -> Lines:
    """Lines around pairs of points of their own, so that private pairs exist."""
    lines = []
    for low in range(0, 2 * count, 2):
        around = {v % points for v in range(low - width, low + 2 + width)} - {low, low + 1}
        lines.append(sorted([low, low + 1] + draw.sample(sorted(around), LONG - 2)))
    draw.shuffle(lines)
    return lines


def anywhere(draw: random.Random, count: int, points: int) -> Lines:
    """Lines of points drawn at random."""
    return [sorted(draw.sample(range(points), LONG)) for _ in range(count)]


def short(draw: random.Random, count: int, width: int) -> Lines:
    """Lines of which all but the last have pairs, and those hold all points of the last."""
    inside = 2 * (count - 1)
    return near(draw, count - 1, width, inside) + anywhere(draw, 1, inside)


def climb(draw: random.Random, lines: Lines) -> Lines:
    """Exchanges lines and points at random wherever more points are gone over then."""
    best = passes(lines)
    for _ in range(TRIES):
        tried = list(lines)
        i, j = draw.sample(range(len(lines)), 2)
        if draw.random() < 0.5:
            tried[i], tried[j] = tried[j], tried[i]
        else:
            point = draw.choice(sorted(set(range(POINTS)) - set(lines[i])))
            tried[i] = sorted([point] + draw.sample(lines[i], LONG - 1))
        count = passes(tried)
        if count >= best:
            lines, best = tried, count
    return lines


def families() -> list[tuple[str, Lines]]:
    """The four worst families, by name: the worst of each kind, and one made harder."""
    draw, kinds = random.Random(1963), collections.defaultdict(list)
    for count in (60, 90, 120):
        for width, make in itertools.product((5, 7, 10, 20, 60), (near, short)):
            kinds[f"{make.__name__} {width}"] += [make(draw, count, width) for _ in range(20)]
        for points in (2 * count, POINTS):
            kinds[f"{count} on {points}"] = [anywhere(draw, count, points) for _ in range(20)]
    worst = {kind: max(tries, key=passes) for kind, tries in kinds.items()}
    kind, lines = max(worst.items(), key=lambda entry: passes(entry[1]))
    worst[f"{kind}, made harder"] = climb(draw, lines)
    return sorted(worst.items(), key=lambda entry: -passes(entry[1]))[:4]


def match(program: str) -> None:
    """Measures the search for private pairs on 256 points with 60 to 120 lines of ten points, near
    their own pair of points, far from it, anywhere, or short at the last line. Of each kind the one
    is taken for which a matcher of this script goes over the most points; the worst of all is then
    made harder by small changes."""
    table = kit.Table("family", "lines", "points gone over", "pairs", f"instructions, {ASKS} asks",
                      "hits", "cached")
    for kind, lines in families():
        with kit.files(game=kit.short_game("maker-breaker", POINTS, lines)) as folder:
            words = program, "match", folder / "game"
            none, asked = kit.count(*words, 0), kit.count(*words, ASKS)
            one, hits = kit.count(*words, 1, "cached"), kit.count(*words, ASKS + 1, "cached")
        table.row(kind, len(lines), passes(lines), int(asked.output.split()[0]),
                  asked.instructions - none.instructions, int(hits.output.split()[0]),
                  hits.instructions - one.instructions)


if __name__ == "__main__":
    raise SystemExit(kit.call_part(__doc__, "test_rows", board, threat, match))
