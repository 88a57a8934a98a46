#!/usr/bin/env python3
"""Refuses each allocation of runs of posgame and posgame-settle in turn, and counts how they end.

    bench/memory.py [PROGRAM] [--settle PROGRAM]

Every command is run, on real files, with a library that refuses the call of malloc or realloc of a
given number, from 1 on until a run makes no such call. Each run has to end as it should without
that, or with what it prints cut short: with status 7, or with 5 or 6 if the allocation was inside a
call on files or the console. A claim that is played is never followed by 7. A file has to contain
its old bytes or all of its new ones, and no other file may be left. In a review memory has to run
out after the first loss too: each is printed before the next position is decided. Unproved.
"""
from __future__ import annotations

import collections
import itertools
import os
import pathlib
import re
from typing import Iterator, NamedTuple

import kit

LINES = kit.line_rows(kit.in_row(3, 3, 3, by_direction=True))
ROW = re.compile(r"^(.*): (\S+) (\S+)(?: \((.*)\))? => (.*)$", re.MULTILINE)
# The texts of which bench/memory.txt speaks.
TEXTS = {
    "SQUARE": kit.game("maker-breaker", "grid 3 3", *LINES),
    "MARKED": kit.game("maker-breaker", "points 9", *LINES, "y 4"),
    "DIAMOND": kit.switching((4, [(0, 2), (0, 3), (2, 3), (2, 1), (3, 1)])),
    "TWO_LINES": kit.game("maker-breaker", "points 3", "line 0 1", "line 0 2"),
    "TRIANGLE": kit.switching((3, [(0, 1), (0, 2), (2, 1)]), turn="y"),
    "AVOIDED": kit.game("avoider-enforcer", "points 3", "line 0 1", "line 0 2", "line 1 2"),
    "DRAWN": kit.game("maker-maker", "grid 3 3", *LINES),
    "ROUND": kit.span((3, [(0, 1), (1, 2), (0, 2)])),
    "VECTORS": "posgame-vectors 1\nrows 2\ntarget 11\nvector 10\nvector 01\nturn x\n",
    "MOVES": "posgame-record 1\nmove 1\nmove 2\nmove 0\n", "OLD": "old\n",
    "PAIRS": kit.certificate(kit.claim("x y win", "|4|x|pairs 0-1 2-5 8-7 6-3\n")),
    "SETS": kit.certificate(kit.claim("x x win", "||x|trees e 0 4 / 1 2 3\n"),
                            kit.claim("y y win", "||y|cuts e 0 4 / 1 2 3\n")),
    "PARTS": "posgame-span-cert 1\nclaim x x\ntrees first 0 1 / 2\nclaim y y\nparts 0 1 2\n",
    "CUTS": kit.certificate(kit.claim("x y win", "||x|cuts 0 / 1\n")),
}


class Row(NamedTuple):
    """A run: the program, its words, the files G and C, what is typed, and the lines that are
    due."""

    program: str
    words: str
    files: dict[str, str]
    typed: list[str]
    due: list[str]


class Left(NamedTuple):
    """What a run leaves, with the text of each file, and whether an allocation was refused."""

    status: int
    lines: list[str]
    files: dict[str, str]
    refused: bool


def form_of(line: str, due: list[str]) -> str:
    """Returns a line, with # for each number if it is due in this form."""
    form = re.sub(r"\d+", "#", line)
    return form if form in due else line


def leave(library: pathlib.Path, row: Row, number: int) -> Left:
    """Runs a row, in which the allocation of this number is refused; with 0 none is."""
    env = {**os.environ, "LD_PRELOAD": str(library), "REFUSED": str(number)}
    typed = "".join(f"{it}\n" for it in row.typed)
    with kit.files(**row.files) as folder:
        done = kit.call(row.program, *row.words.split(), cwd=folder, input=typed, env=env)
        files = {path.name: path.read_text(encoding="ascii") for path in folder.iterdir()}
    lines = [form_of(line, row.due) for line in done.stdout.splitlines()]
    return Left(done.returncode, lines, files, "refused" in done.stderr)


def ending(row: Row, whole: Left, left: Left) -> str:
    """Says how a run ended, beside the run in which nothing was refused."""
    count, is_whole = len(left.lines), left.status == whole.status and left.lines == row.due
    if left.files.keys() != whole.files.keys() or is_whole and left.files != whole.files or any(
            text not in (row.files.get(it), whole.files[it]) for it, text in left.files.items()):
        return "broken files"
    if is_whole:
        return "as due"
    if left.lines != row.due[:count] or count == len(row.due):
        return "broken"
    if left.status == 7 and not (count and row.due[0].startswith("claim")):
        return f"status 7 after {count}"
    return "status 5 or 6" if left.status in (5, 6) else "broken"


def endings(library: pathlib.Path, row: Row) -> Iterator[str]:
    """Returns how a row ended, for each allocation that is refused."""
    whole = leave(library, row, 0)
    runs = (leave(library, row, number) for number in itertools.count(1))
    if whole.status or whole.lines != row.due:
        return iter(["broken without a refusal"])
    return (ending(row, whole, it) for it in itertools.takewhile(lambda it: it.refused, runs))


def main() -> int:
    given = kit.options(__doc__, settle=(str(kit.built("posgame_settle")), "posgame-settle"))
    table = kit.Table("run", "how it ended, by refusals")
    with kit.files() as folder:
        library, source = folder / "refusing.so", kit.TOP / "bench" / "refusing.c"
        kit.call("cc", "-shared", "-fPIC", "-o", library, source, check=True, capture_output=False)
        for number, found in enumerate(ROW.findall(kit.data("memory.txt")), 1):
            words, game, other, typed, due = found
            program = given.program
            if words.startswith("settle "):
                program, words = kit.program_path(given.settle), words.removeprefix("settle ")
            files = {"G": TEXTS[game], "C": TEXTS[other]}
            row = Row(program, words, files, typed.split(), due.split("; "))
            counts = collections.Counter(endings(library, row))
            faults = [it.upper() for it in counts if it.startswith("broken")]
            if words.startswith("review") and not counts["status 7 after 1"]:
                faults.append("NO LOSS IS PRINTED BEFORE THE NEXT POSITION IS DECIDED")
            figures = [f"{counts[it]} {it}" for it in sorted(counts)]
            table.row(f"{number}: {found[0]}", ", ".join(figures), wrong=faults)
    return table.end()


if __name__ == "__main__":
    raise SystemExit(main())
