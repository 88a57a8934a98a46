#!/usr/bin/env python3
"""Tries what a new user meets first, in rows by eight points.

1 an answer at once      2 ./prove        3 what went wrong is said to people
4 licence and version    5 install        6 README        7 the first example is a board
8 many boards

The quick rows take the proved programs in crates/NAME/out; no clock decides them. The rows of
minutes need a quiet machine where they have a limit of time. One row is tried only where it is
named, since it changes the machine: `--only dpkg` installs the Debian package. `--list` shows all
rows, `--only WORD` tries those with the word in their names, and `--point N` those of a point. Each
row prints its figures, and what missed its limit; then the status is 1. Nothing here is proved.
"""
from __future__ import annotations

import argparse
import collections.abc
import contextlib
import dataclasses
import fcntl
import functools
import os
import pathlib
import pty
import re
import select
import shutil
import signal
import subprocess
import sys
import tempfile
import time
import typing

import many
import prove_stand_in
import release

TOP = pathlib.Path(__file__).resolve().parent.parent
PROGRAM = TOP / "crates" / "posgame" / "out" / "posgame"
DRAWS = TOP / "crates" / "posgame_draw" / "out" / "posgame_draw"
SETTLES = TOP / "crates" / "posgame_settle" / "out" / "posgame_settle"
PLAYS = TOP / "crates" / "posgame_play" / "out" / "posgame_play"
# The programs by the names of their scripts.
PROGRAMS = {"posgame": PROGRAM, "posgame-draw": DRAWS, "posgame-settle": SETTLES,
            "posgame-play": PLAYS}
BOARD = "examples/noughts-and-crosses.game"
PLANE = "layouts/plane-of-order-2"
PAIRS = "examples/breaker-in-the-centre.cert"
FAULTY = "examples/a-pair-missing.cert"
PLAY = ["play", BOARD, PAIRS, "--side", "y"]

# Limits: milliseconds of a script beside its program, installed and in a checkout; seconds to the
# first answer of a clean clone on a quiet machine; minutes of ./prove from nothing on four quiet
# processors; lines of the usage. The two of a clock are for the machine on which `rt try` takes
# UNIT_SECONDS to play by the tree UNIT; a slower one has as many times more (`slowness`).
INSTALLED_COST = 5.0
CHECKOUT_COST = 60.0
FIRST_ANSWER = 90.0
PROVE_MINUTES = 25.0
# The programs which that limit is for.
PROVE_PROGRAMS = ["posgame", "posgame-draw"]
USAGE_LINES = 30
UNIT, UNIT_SECONDS = "02ccea1", 53.0

Words = collections.abc.Sequence[str]


class Missed(Exception):
    """A row that came out otherwise, with what was found."""


@dataclasses.dataclass
class Case:
    """Words, the status, what is on standard output, and a pattern of what the script says."""

    words: Words
    status: int
    output: str
    says: str
    typed: str = ""


def expect(is_so: bool, what: str) -> None:
    """Raises `Missed` unless `is_so`."""
    if not is_so:
        raise Missed(what)


def run(
    script: pathlib.Path, words: Words, **how: typing.Any
) -> subprocess.CompletedProcess[str]:
    """Runs a script in the top folder, and returns its output as text."""
    how = {"cwd": TOP, "capture_output": True, "timeout": 600, **how}
    if "stdin" not in how and "input" not in how:
        how["stdin"] = subprocess.DEVNULL
    return subprocess.run([str(script), *words], text=True, **how)


def install(prefix: pathlib.Path) -> pathlib.Path:
    """Lays the files out as they are installed below PREFIX, and returns the script posgame."""
    for folder in ("bin", "libexec/posgame", "share/posgame"):
        (prefix / folder).mkdir(parents=True)
    for name, program in PROGRAMS.items():
        shutil.copy(TOP / "launch" / name, prefix / "bin" / name)
        shutil.copy(program, prefix / "libexec" / "posgame" / name)
    shutil.copy(TOP / "posgame-why", prefix / "bin")
    for path in (TOP / "launch").iterdir():
        if path.suffix in (".bash", ".txt"):
            shutil.copy(path, prefix / "share" / "posgame")
    if (TOP / "VERSION").is_file():
        shutil.copy(TOP / "VERSION", prefix / "share" / "posgame")
    return prefix / "bin" / "posgame"


@contextlib.contextmanager
def folder() -> collections.abc.Iterator[pathlib.Path]:
    """A folder of its own, removed at the end."""
    with tempfile.TemporaryDirectory(prefix="first-minutes-") as name:
        yield pathlib.Path(name)


def try_case(script: pathlib.Path, case: Case, proved: bool = True) -> None:
    """Runs one case, and compares status, output and what is said besides that it isn't proved."""
    how = {"input": case.typed} if case.typed else {}
    ended = run(script, case.words, **how)
    found = (ended.returncode, ended.stdout)
    expect(found == (case.status, case.output), f"{' '.join(case.words)}: {found}")
    said = "\n".join(ended.stderr.splitlines()[0 if proved else 1 :])
    expect(bool(re.search(case.says, said)), f"{' '.join(case.words)}: {said!r}")
    expect(bool(said) == (case.says != "^$"), f"{' '.join(case.words)}: {said!r}")


def statuses(room: pathlib.Path) -> list[Case]:
    """What each status comes from, and what is said of it. Files are made in `room`."""
    slip = "examples/rosette-with-a-slip.game"
    hundred = "refused: not a number\n" * 100
    closed = str(room / "none" / "C")
    return [
        Case(["check", BOARD, PAIRS], 0, "accepted x y win\n", "^$"),
        Case(["solve", BOARD, str(room / "C")], 0, "result breaker\n", "^$"),
        Case(["solve", "--positions", "1", "examples/empty-board-maker.game", str(room / "C")],
             1, "unknown after 1 positions\n", "try it without --positions, or .posgame-settle"),
        Case(["--help"], 2, "words: no meaning\n", r"^posgame .*\n(.*\n)+"),
        Case(["gen", "bridge", "23", str(room / "G")], 2, "words: no meaning\n", "^posgame "),
        Case(["play", BOARD, PAIRS, "--side", "x"], 2, "words: no claim for side x\n",
             "has no claim of side x"),
        Case(["check", slip, PAIRS], 3, "game G6 line 4\n", f"'{slip}', line 4: .* .G6.\n    line"),
        Case(["solve", slip, closed], 3, "game G6 line 4\n", "warning: .*\n.*line 4: .* .G6."),
        Case(["check", BOARD, FAULTY], 4, "rejected J6 claim 0 node 0\n",
             f"'{FAULTY}', claim 0, node 0: .* .J6.\n    .4.x.pairs"),
        Case(["check", BOARD, BOARD], 4, "certificate C2 line 1\n", "line 1: .* .C2."),
        Case(["check", "examples", PAIRS], 5, "", "'examples' can't be read: it is a folder"),
        Case(["check", BOARD, "none"], 5, "", "'none' can't be read: there is no such file"),
        Case(["solve", BOARD, closed], 6, "", "warning: .*\n.* can't be written: there is no fold"),
        Case(["solve", BOARD, "examples"], 6, "", "'examples' can't be written: it is a folder"),
        Case(PLAY, 8, "claim y win\n", "the input ended"),
        Case(PLAY, 9, "claim y win\n" + hundred, "a hundred lines were refused", "z\n" * 101),
        Case(["review", BOARD, "examples/takes-back-too-much.record"], 10, "record F5 line 2\n",
             "record', line 2: .* .F5.\n    move 4"),
    ]


def answers() -> str:
    """Each status with its output, untouched, and with what the script says of it."""
    with folder() as room:
        installed = install(room / "prefix")
        cases = statuses(room)
        for case in cases:
            try_case(TOP / "posgame", case)
            try_case(installed, case)
    ended = run(TOP / "posgame", ["check", BOARD, "\udcff"])
    expect(ended.returncode == 11 and "UTF-8" in ended.stderr, f"status {ended.returncode}")
    return f"{2 * len(cases) + 1} runs"


def draws() -> str:
    """The pictures' script: a picture, its words, its faults."""
    script = TOP / "posgame-draw"
    picture = (TOP / "docs" / "pictures" / "a-pair-missing.svg").read_text()
    for case in (
        Case([BOARD, FAULTY], 4, picture, "a-pair-missing.cert', node 0: .* .J6."),
        Case([], 2, "words: no meaning\n", "Usage: posgame-draw"),
        Case([BOARD, PAIRS, "1"], 2, "words: no such node\n", "there is no such node"),
        Case([FAULTY], 3, "game G3 line 1\n", "line 1: .* .G3."),
        Case(["none"], 5, "", "none: "),
        Case(["--book", BOARD], 2, "words: no meaning\n", "CERT"),
        Case(["--book", BOARD, FAULTY], 4, "rejected J6 claim 0 node 0\n",
             "a-pair-missing.cert', claim 0, node 0: .* .J6."),
        Case(["--book", FAULTY, FAULTY], 3, "game G3 line 1\n", "line 1: .* .G3."),
        Case(["--book", "examples/triangle-connectivity.game", "none"], 5, "", "none: "),
        Case(["--book", "examples/triangle-connectivity.game",
              "examples/triangle-an-edge-too-many.cert"], 4, "rejected S3 claim 0\n", ".S3."),
        Case(["--book", BOARD, "none"], 5, "", "none: "),
        Case(["--depth", "2", BOARD, PAIRS], 2, "words: no meaning\n", "--book"),
        *(Case(["--depth", "2", *words, BOARD, PAIRS], 2, "words: no meaning\n", words[0])
          for words in (["--no-numbers"], ["--no-lines"], ["--no-legend"], ["--size", "9"],
                        ["--move", "1"])),
        Case(["--depth", "2", BOARD, PAIRS, "0"], 2, "words: no meaning\n", "NODE"),
        Case(["--depth", "2", "--blank", "2", BOARD], 2, "words: no meaning\n", "--blank"),
        Case(["--move", "1", "--blank", "2", BOARD], 2, "words: no meaning\n", "--blank"),
        Case(["--book", "--depth", "1001", BOARD, PAIRS], 2, "words: no meaning\n", "1001"),
        Case(["--book", "--layout", FAULTY, BOARD, PAIRS], 12, "layout: not for this game\n",
             "a layout is for"),
        Case(["--book", "--layout", "none", f"{PLANE}.game", f"{PLANE}.cert"], 5, "", "none: "),
    ):
        try_case(script, case)
    book = run(script, ["--book", BOARD, PAIRS])
    expect(book.returncode == 0 and book.stdout.startswith("<!DOCTYPE html>"), "no book")
    book = run(script, ["--book", "--depth", "0", BOARD, PAIRS])
    expect("Moves shown: 0." in book.stdout, f"no book of no moves: {book}")
    laid = [f"{PLANE}.{it}" for it in ("layout", "game", "cert")]
    book = run(script, ["--book", "--layout", *laid])
    expect(book.returncode == 0 and book.stdout != run(script, ["--book", *laid[1:]]).stdout,
           "no book at the places of a layout")
    helped = run(script, ["--help"])
    expect(helped.returncode == 0 and "C.K" in helped.stdout, f"--help: {helped}")
    told = run(script, ["--version"]).stdout
    expect(bool(re.fullmatch(r"posgame-draw [0-9.]*\n", told)), f"--version: {told!r}")
    expect(run(DRAWS, ["--version"]).stdout == told, "the program names another version")
    expect(run(DRAWS, ["--help"]).returncode == 0, "the program has no --help")
    return "23 runs"


def settles(script: pathlib.Path, room: pathlib.Path) -> int:
    """posgame-settle by one of its scripts: its results, its words, its faults."""
    slip, cert = "examples/rosette-with-a-slip.game", str(room / "S")
    cases = [
        Case(["examples/diamond.game", cert, "--images"], 0, "class first-mover\n", "^$"),
        Case(["examples/four-in-a-row-empty-board.game", cert, "--positions", "1"], 1,
             "unknown after 1 positions\n", "try greater numbers after --positions"),
        Case([BOARD, cert, "--nodes", "200001"], 2, "", "200001"),
        Case([BOARD], 2, "", "CERT"),
        Case([slip, cert, "--entries=5"], 3, "game G6 line 4\n", "line 4: .* .G6.\n    line"),
        Case(["none", cert], 5, "", "none: "),
        Case([BOARD, str(room / "none" / "S")], 6, "", "warning: .*: there is no folder"),
        Case(["moves", "examples/path.game"], 0,
             "0 cut nodes 2 expanded 0\n1 cut nodes 2 expanded 0\nbest 0 1\n", "^$"),
        Case(["moves", BOARD, "--images"], 2, "", "--images"),
        Case(["moves", slip], 3, "game G6 line 4\n", "line 4: .* .G6.\n    line"),
        Case(["moves", "none"], 5, "", "none: "),
    ]
    for case in cases:
        try_case(script, case)
    ended = run(script, [BOARD, cert])
    found = re.fullmatch(r"result breaker\nexpanded \d+ nodes \d+\n", ended.stdout)
    expect(bool(found) and not ended.stderr and ended.returncode == 0, f"{ended}")
    told = run(TOP / "posgame", ["check", BOARD, cert]).stdout
    expect(told == "accepted x y win\n", f"its certificate: {told!r}")
    return len(cases) + 1


def splits(script: pathlib.Path, room: pathlib.Path) -> int:
    """`posgame-settle split` by one of its scripts: its texts, its faults, what it writes."""
    game, pieces, faulty = "examples/four-in-a-row-empty-board.game", room / "split", room / "bad"
    for place in (pieces, faulty):
        place.mkdir(exist_ok=True)
        for path in place.iterdir():
            path.unlink()
    (faulty / "plan").write_text("posgame-plan 1\ngame 0\n")
    words = ["split", game, str(pieces), "--most"]
    tried = [
        Case([*words, "10001"], 2, "", "10001"),
        Case([*words[:3], "--json"], 2, "", "--json"),
        Case([*words, "20"], 0, "positions 6 depth 1\n", "^$"),
        Case([*words, "4"], 0, "positions 0 depth 0\n", "^$"),
        Case(["split", BOARD, str(pieces)], 4, "plan: of another game, or too large\n",
             "has to be one of this game"),
        Case(["split", game, str(faulty)], 4, "plan P4 line 2\n",
             "/plan', line 2: .* .P4.\n    game 0"),
        Case(["split", "examples/rosette-with-a-slip.game", str(pieces)], 3, "game G6 line 4\n",
             "line 4: .* .G6.\n    line"),
        Case(["split", "examples/diamond.game", str(room)], 4, "plan: none for this game\n",
             "can't be split so"),
        Case(["split", "none", str(pieces)], 5, "", "none: "),
        Case(["split", BOARD, str(room / "none")], 6, "", "warning: .*: there is no folder"),
    ]
    for case in tried:
        try_case(script, case)
    names = sorted(it.name for it in pieces.iterdir())
    expect(names == [*(f"0000{it}.game" for it in range(1, 7)), "plan"], f"split wrote {names}")
    return len(tried)


def joins(script: pathlib.Path, room: pathlib.Path) -> int:
    """`posgame-settle join` by one of its scripts: two positions, one the mirror image of the
    other, whose certificate is there, missing or below a plan with a fault."""
    game, cert, pieces = (room / name for name in ("pair.game", "pair.cert", "pieces"))
    pieces.mkdir(exist_ok=True)
    game.write_text("posgame 1\nkind maker-breaker\ngrid 2 1\nline 0\nline 1\nturn y\n")
    plan, piece = pieces / "plan", pieces / "00001.cert"
    words = ["join", str(game), str(pieces), str(cert)]
    lines = "posgame-plan 1\ngame 1\nimage 1 0\nmoves 0:0 1:1\n"
    proof = "posgame-cert 1\nclaim x x win\nnodes 2\n1|0|y|over\n|0|x|move 1 0\n"
    needed = "unknown after 0 positions\nneeded 1 positions\n00001.game"
    tried = [
        (lines, proof, Case(words, 0, "result maker\nexpanded 0 nodes 5\n", "^$")),
        (lines, proof[:-9], Case([*words, "--images"], 1, f"{needed} faulty\n", "first ones")),
        (lines.replace("1:1", "1:3"), "", Case(words, 4, "plan P5 line 4\n",
                                               "/plan', line 4: .* .P5.\n    moves 0:0 1:3")),
        ("", "", Case(words, 4, "plan P2 line 1\n", "/plan', line 1: .* .P2.")),
        (lines, "", Case([*words, "--positions", "1"], 2, "", "--positions")),
        (lines, "", Case(["join", "examples/rosette-with-a-slip.game", *words[2:]], 3,
                         "game G6 line 4\n", "line 4: .* .G6.\n    line")),
        (lines, "", Case([*words[:2], str(room), str(cert)], 5, "", "/plan: ")),
    ]
    for text, found, case in tried:
        plan.write_text(text)
        piece.write_text(found)
        try_case(script, case)
    told = run(TOP / "posgame", ["check", str(game), str(cert)]).stdout
    expect(told == "accepted y x win\n", f"the joined certificate: {told!r}")
    return len(tried)


def settled() -> str:
    """posgame-settle in a checkout and installed, and what it stores."""
    with folder() as room:
        scripts = TOP / "posgame-settle", install(room / "prefix").with_name("posgame-settle")
        count = sum(settles(it, room) + splits(it, room) + joins(it, room) for it in scripts)
    helped = run(scripts[0], ["--help"])
    expect(helped.returncode == 0 and "--entries N" in helped.stdout, f"--help: {helped}")
    told = run(scripts[0], ["--version"]).stdout
    expect(bool(re.fullmatch(r"posgame-settle [0-9.]*\n", told)), f"--version: {told!r}")
    expect(run(SETTLES, ["--version"]).stdout == told, "the program names another version")
    expect(run(SETTLES, ["--help"]).returncode == 0, "the program has no --help")
    return f"{count + 4} runs"


def plays(script: pathlib.Path, room: pathlib.Path) -> int:
    """posgame-play by one of its scripts: its words, its faults, and what it stores."""
    slip, record = "examples/rosette-with-a-slip.game", str(room / "P")
    cases = [
        Case([BOARD, "--record"], 2, "", "--record"),
        Case([BOARD, PAIRS, "one-too-many"], 2, "", "one-too-many"),
        Case([BOARD, PAIRS, "--side", "x"], 2, "words: no claim for side x\n", "^$"),
        Case([BOARD, "--side", "x", "--computer", "y"], 2, "", "--computer"),
        Case([slip], 3, "game G6 line 4\n", "line 4: .* .G6.\n    line"),
        Case([BOARD, FAULTY], 4, "rejected J6 claim 0 node 0\n", "node 0: .* .J6.\n    .4.x.pairs"),
        Case(["none"], 5, "", "none: "),
        Case([BOARD, "none"], 5, "", "none: "),
        Case([BOARD, "--layout", slip], 12, "layout: not for this game\n", "a layout is for"),
    ]
    for case in cases:
        try_case(script, case)
    ended = run(script, [BOARD, "--record", record], input="b1\nnothing\n")
    last = "\nrecorded 1\n"
    expect(ended.returncode == 0 and ended.stdout.endswith(last), f"a play: {ended}")
    expect(not ended.stderr, f"a play: {ended.stderr!r}")
    shown = run(TOP / "posgame", ["review", BOARD, record]).stdout
    expect(shown == "reviewed 1\n", f"its record: {shown!r}")
    ended = run(script, [BOARD, PAIRS], input="b1\nquit\n")
    reason = "pairs: you took b1, I take a1.\n"
    expect(ended.returncode == 0 and reason in ended.stdout, f"by pairs: {ended}")
    ended = run(script, [BOARD, "--record", str(room / "none" / "P")])
    said = re.search("warning: .*: there is no folder", ended.stderr)
    expect(ended.returncode == 6 and said is not None, f"no folder: {ended}")
    return len(cases) + 4


def played() -> str:
    """posgame-play in a checkout and installed, and the record that it stores."""
    with folder() as room:
        scripts = TOP / "posgame-play", install(room / "prefix").with_name("posgame-play")
        count = sum(plays(it, room) for it in scripts)
    helped = run(scripts[0], ["--help"])
    expect(helped.returncode == 0 and "--record FILE" in helped.stdout, f"--help: {helped}")
    told = run(scripts[0], ["--version"]).stdout
    expect(bool(re.fullmatch(r"posgame-play [0-9.]*\n", told)), f"--version: {told!r}")
    expect(run(PLAYS, ["--version"]).stdout == told, "the program names another version")
    expect(run(PLAYS, ["--help"]).returncode == 0, "the program has no --help")
    return f"{count + 4} runs"


def codes() -> str:
    """Each code has a text, the one of docs/FORMATS.md, and posgame-why prints it."""
    same = subprocess.run([TOP / "bench" / "codes.py"], capture_output=True, text=True)
    expect(same.returncode == 0, same.stdout + same.stderr)
    lines = (TOP / "launch" / "codes.txt").read_text().splitlines()
    names = [line.split("\t")[0] for line in lines]
    told = run(TOP / "posgame-why", names)
    expect(told.returncode == 0 and told.stdout.count("\n") == len(names), told.stderr)
    expect(run(TOP / "posgame-why", ["X1"]).returncode == 2, "X1 has a text")
    helped = run(TOP / "posgame-why", ["--help"])
    expect(helped.returncode == 0 and "CODE" in helped.stdout, f"--help: {helped}")
    version = f"posgame-why {(TOP / 'VERSION').read_text()}"
    expect(run(TOP / "posgame-why", ["--version"]).stdout == version, "--version")
    return f"{len(names)} codes"


def usage() -> str:
    """The usage: its length, and the name and version at its head."""
    said = run(TOP / "posgame", []).stderr.splitlines()
    expect(len(said) <= USAGE_LINES, f"{len(said)} lines")
    expect(bool(re.fullmatch(r"posgame \d+\.\d+\.\d+", said[0])), said[0])
    expect(max(map(len, said)) <= 100, "a line of more than 100 columns")
    return f"{len(said)} lines, {said[0]}"


def took(words: Words) -> tuple[float, float]:
    """How long a run takes, and its processor time, in milliseconds."""
    begun = time.perf_counter()
    started = subprocess.Popen(words, cwd=TOP, stdout=subprocess.DEVNULL)
    _, status, used = os.wait4(started.pid, 0)
    seconds = time.perf_counter() - begun
    started.returncode = os.waitstatus_to_exitcode(status)
    expect(started.returncode == 0, f"{words[0]}: status {started.returncode}")
    return 1000 * seconds, 1000 * (used.ru_utime + used.ru_stime)


def added(script: pathlib.Path, program: pathlib.Path) -> float:
    """What a script adds to its program, in milliseconds.

    The least times of up to 60 runs in turn are compared, and the least processor times. The lesser
    difference counts: other work on the machine delays runs, and the parts of one run follow one
    another.
    """
    words, limit = ["check", BOARD, PAIRS], time.monotonic() + 10
    with_script, alone = [took([str(script), *words])], [took([str(program), *words])]
    while len(alone) < 60 and time.monotonic() < limit:
        with_script.append(took([str(script), *words]))
        alone.append(took([str(program), *words]))
    differences = (
        min(run[which] for run in with_script) - min(run[which] for run in alone)
        for which in (0, 1)
    )
    return min(differences)


def costs() -> str:
    """What a script adds to a call, installed and in a checkout."""
    with folder() as room:
        script = install(room / "prefix")
        program = room / "prefix" / "libexec" / "posgame" / "posgame"
        shutil.copy(shutil.which("true") or "true", program)
        installed = added(script, program)
    here = added(TOP / "posgame", PROGRAM)
    told = f"installed {installed:.1f} ms, in the checkout {here:.1f} ms"
    expect(installed <= INSTALLED_COST and here <= CHECKOUT_COST, told)
    return told


def odd_names() -> str:
    """Names with blanks, quotes, a line's end or a dash before them, and standard input."""
    script = TOP / "posgame"
    with folder() as room:
        odd, dash = "a 'b' \"c\"\n$(d)*\x1b[31m.game", "-e.game"
        for name in (odd, dash):
            shutil.copy(TOP / BOARD, room / name)
        shutil.copy(TOP / PAIRS, room / "-c")
        for words, status, output, says in (
            (["check", "--", dash, "-c"], 0, "accepted x y win\n", "^$"),
            (["check", odd, str(TOP / PAIRS)], 0, "accepted x y win\n", "^$"),
            (["check", "--", "-c", odd], 3, "game G3 line 1\n", "'-c', line 1: .* .G3."),
            (["check", str(TOP / BOARD), odd], 4, "certificate C2 line 1\n", "line 1: .* .C2."),
            (["check", odd, f"{odd}/x"], 5, "", "can't be read: .* is no folder"),
            (["solve", odd, f"{odd}/x"], 6, "", "can't be written: .* is no folder"),
        ):
            ended = run(script, words, cwd=room)
            found = (ended.returncode, ended.stdout)
            expect(found == (status, output), f"{words}: {found}")
            expect(bool(re.search(says, ended.stderr)), f"{words}: {ended.stderr!r}")
            expect("\x1b" not in ended.stderr, f"{words}: a sign for the terminal passed")
        stored = sorted(it.name for it in room.iterdir())
        expect(stored == sorted([odd, dash, "-c"]), f"{stored}")
    slip = "examples/rosette-with-a-slip.game"
    for name, status, output in ((BOARD, 0, "accepted x y win\n"), (slip, 3, "game G6 line 4\n")):
        with open(TOP / name) as game:
            ended = run(script, ["check", "/dev/stdin", PAIRS], stdin=game)
        heard = (ended.returncode, ended.stdout, "/dev/stdin" in ended.stderr)
        expect(heard == (status, output, status != 0), f"{name} as standard input: {heard}")
    return "8 runs"


def slips() -> str:
    """What is said of common slips in a game file, besides its code."""
    head = b"posgame 1\nkind maker-breaker\npoints 3\n"
    cases = (
        (head.replace(b"\n", b"\r\n"), "G2 line 1", "lines end as on Windows"),
        (b"\xef\xbb\xbf" + head, "G2 line 1", "byte order mark"),
        (b"posgame 1\nkind maker breaker\n", "G4 line 2", "a kind is maker-breaker, "),
        (head + b"line 0 1\nturn Maker\n", "G4 line 5", "a turn is x or y"),
        (head + b"line 0 1 # top\n", "G6 line 4", "a comment has a line of its own"),
        (head + b"line 0, 1\n", "G6 line 4", "no commas"),
        (head + b"line 1 3\n", "G7 line 4", "numbered from 0"),
        (head + b"line 0 1\nTurn x\n", "G4 line 5", r"\(G4\)\n    Turn x$"),
    )
    with folder() as room:
        for data, fault, says in cases:
            (room / "slip.game").write_bytes(data)
            ended = run(TOP / "posgame", ["solve", "slip.game", "slip.cert"], cwd=room)
            found = (ended.returncode, ended.stdout)
            expect(found == (3, f"game {fault}\n"), f"{data!r}: {found}")
            expect(bool(re.search(says, ended.stderr.rstrip())), f"{data!r}: {ended.stderr!r}")
    return f"{len(cases)} slips"


def spared() -> str:
    """No file that is read is replaced by the record, or as one behind a task's word."""
    cases = [
        (PLAYS, ["game", "--record", "game"], "record would replace game"),
        (PLAYS, ["game", "--record=link"], "record would replace game"),
        (PLAYS, ["game", "--computer", "x", "--record", "game"], "record would replace game"),
        (PLAYS, ["game", "cert", "--record", "game"], "record would replace game"),
        (PLAYS, ["game", "cert", "--record", "cert"], "record would replace cert"),
        (SETTLES, ["--json", "moves", "game"], "a file of this name is ./moves"),
    ]
    with folder() as room:
        for name, source in {"game": BOARD, "cert": PAIRS, "moves": BOARD}.items():
            shutil.copy(TOP / source, room / name)
        (room / "link").symlink_to("game")
        before = [(room / name).read_bytes() for name in ("game", "cert", "moves")]
        for program, words, says in cases:
            ended = run(program, words, cwd=room, input="quit\n")
            due = 6 if program == PLAYS else 2
            expect((ended.returncode, ended.stdout) == (due, ""), f"{words}: {ended}")
            expect(says in ended.stderr, f"{words}: {ended.stderr!r}")
            after = [(room / name).read_bytes() for name in ("game", "cert", "moves")]
            expect(after == before, f"{words}: a file was replaced")
    return f"{len(cases)} runs"


SMALL_DISK = """
mount -t tmpfs -o size=4k none "$1" && { [[ $2 == empty ]] || cat /dev/zero > "$1/all"; } 2> "$3"
shift 3
exec "$@"
"""


def full_disks() -> str:
    """Standard output, and a certificate, on a full device or disk."""
    script = TOP / "posgame"
    with open("/dev/full", "w") as full:
        ended = run(script, ["check", BOARD, PAIRS], capture_output=False, stdout=full,
                    stderr=subprocess.PIPE)
    expect((ended.returncode, "full device" in ended.stderr) == (6, True), f"/dev/full: {ended}")
    with folder() as room:
        disk = room / "disk"
        disk.mkdir()
        if run(pathlib.Path("/usr/bin/unshare"), ["-rm", "mount", "-t", "tmpfs", "none", str(disk)]
               ).returncode:
            return "1 run; no small disk can be made here"
        words = ["gen", "bridge", "22", str(disk / "G")]
        for fill, says in (("full", "G' can't be written: the disk is full"),
                           ("empty", "G' can't be written: perhaps the disk is full")):
            shell = ["-rm", "bash", "-c", SMALL_DISK, "", str(disk), fill, str(room / "said")]
            ended = run(pathlib.Path("/usr/bin/unshare"), [*shell, str(script), *words])
            expect((ended.returncode, ended.stdout) == (6, ""), f"{fill}: {ended}")
            expect(says in ended.stderr, f"{fill}: {ended.stderr!r}")
    return "3 runs"


def closed_descriptors() -> str:
    """A closed descriptor is a failed call: 5 for input, 6 for output, nothing for errors."""
    with folder() as room:
        record, script = room / "R", TOP / "posgame"
        rows = [
            (["record", BOARD, str(record)], 0, 5, ""),
            (PLAY, 0, 5, "claim y win\n"),
            (["check", BOARD, PAIRS], 1, 6, ""),
            (["check", BOARD, PAIRS], 2, 0, "accepted x y win\n"),
            (["check", BOARD, PAIRS], 0, 0, "accepted x y win\n"),
        ]
        for words, number, status, output in rows:
            shell = ["bash", "-c", f'exec {number}<&-; exec "$@"', "", str(script), *words]
            ended = subprocess.run(shell, cwd=TOP, capture_output=True, text=True)
            found = (ended.returncode, ended.stdout)
            expect(found == (status, output), f"{words[0]} without {number}: {found}")
        expect(not record.exists(), "a record was stored")
    return f"{len(rows)} runs"


def wait_for(terminal: int, text: bytes) -> bytes:
    """Reads from a terminal until a text has come, at most ten seconds."""
    got, limit = b"", time.monotonic() + 10
    while text not in got and time.monotonic() < limit:
        if select.select([terminal], [], [], 0.1)[0]:
            got += os.read(terminal, 4096)
    expect(text in got, f"{got!r} in place of {text!r}")
    return got


def dialogue(script: pathlib.Path, keys: bytes) -> int:
    """Plays a move on a terminal, presses keys, and returns how the script ended."""
    child, terminal = pty.fork()
    if child == 0:
        os.chdir(TOP)
        os.execv(script, [str(script), *PLAY])
    try:
        wait_for(terminal, b"claim y win\r\n")
        os.write(terminal, b"0\n")
        wait_for(terminal, b"move 1\r\n")
        os.write(terminal, keys)
        with contextlib.suppress(OSError):
            while os.read(terminal, 4096):
                pass
    finally:
        _, ended = os.waitpid(child, 0)
        os.close(terminal)
    return os.waitstatus_to_exitcode(ended)


def dialogues() -> str:
    """A play on a terminal: each answer comes at once, and Ctrl-D and Ctrl-C end it."""
    if not os.path.exists("/dev/ptmx"):
        return "skipped: this system has no terminals"
    script = TOP / "posgame"
    ended = dialogue(script, b"\x04")
    expect(ended == 8, f"Ctrl-D: {ended}")
    ended = dialogue(script, b"\x03")
    expect(ended == -signal.SIGINT, f"Ctrl-C: {ended}")
    ended = dialogue(script, b"2\n8\n3\n")
    expect(ended == 0, f"a whole play: {ended}")
    return "3 plays"


WRITER = """#!/usr/bin/env python3
# Stands for a program that is writing a certificate.
import os, pathlib, signal, sys, time
signal.signal(signal.SIGINT, signal.SIG_DFL)
pathlib.Path(f"{sys.argv[3]}.posgame-part{os.environ['PART']}").write_text("part")
time.sleep(60)
"""


def ended_by(number: int, script: pathlib.Path, certificate: pathlib.Path, part: int) -> int:
    """Sends a signal to a run that writes, and returns how the script ended."""
    words, environment = ["solve", BOARD, str(certificate)], {**os.environ, "PART": str(part)}
    started = subprocess.Popen([script, *words], cwd=TOP, env=environment)
    limit = time.monotonic() + 10
    written = certificate.with_name(f"{certificate.name}.posgame-part{part}")
    while not written.exists() and time.monotonic() < limit:
        time.sleep(0.01)
    started.send_signal(number)
    try:
        return started.wait(10)
    finally:
        expect(not written.exists(), f"signal {number}: the part is left")


def signals() -> str:
    """A signal ends the program too, by the same signal, and leaves no part of a file."""
    numbers = [signal.SIGTERM, signal.SIGHUP, signal.SIGINT, signal.SIGUSR1]
    with folder() as room:
        script = install(room / "prefix")
        (room / "prefix" / "libexec" / "posgame" / "posgame").write_text(WRITER)
        for number in numbers:
            ended = ended_by(number, script, room / "C", 0)
            expect(ended == -number, f"signal {number}: {ended}")
        other = room / "C.posgame-part0"
        with open(other, "w") as held:
            fcntl.flock(held, fcntl.LOCK_EX)
            ended_by(signal.SIGTERM, script, room / "C", 1)
            expect(other.exists(), "another's part was removed")
    return f"{len(numbers) + 1} signals"


FAKE_RT = """#!/usr/bin/env bash
# Stands for `rt try`: runs a stand-in for the program in a folder below TMPDIR.
room=$(mktemp -d) && cp "$STAND_IN" "$room/program" && chmod 700 "$room/program"
shift 2
"$room/program" "$@"
rm -rf "$room"
"""
STAND_IN = """#!/usr/bin/env bash
case $* in
    check*game*) cat "$2" ;;
    *) echo "stand-in $*" ;;
esac
"""


class Checkout:
    """A small checkout with stand-ins for the proved program and for `rt`."""

    def __init__(self, room: pathlib.Path):
        self.top = room / "top"
        for crate in ("posgame", "low", "pg_plain"):
            for part in ("src", "specs", "proofs"):
                (self.top / "crates" / crate / part).mkdir(parents=True)
            (self.top / "crates" / crate / "src" / "lib.rt").write_text("\n")
        (self.top / "crates.txt").write_text("low:\nposgame: low clap\ntest_kit: posgame\n")
        shutil.copytree(TOP / "launch", self.top / "launch")
        shutil.copy(TOP / "posgame", self.top)
        self.made = self.top / "crates" / "posgame" / "out" / "posgame"
        self.put(room / "bin" / "rt", FAKE_RT)
        self.put(room / "stand-in", STAND_IN)
        path = f"{room / 'bin'}:{os.environ['PATH']}"
        self.environment = {**os.environ, "PATH": path, "STAND_IN": str(room / "stand-in")}

    def put(self, path: pathlib.Path, text: str) -> None:
        """Writes a program."""
        path.parent.mkdir(parents=True, exist_ok=True)
        path.write_text(text)
        path.chmod(0o755)

    def says(self) -> str:
        """What the script says of the program that it runs, without the folder."""
        ended = run(self.top / "posgame", ["report", "a", "b"], env=self.environment)
        expect(ended.stdout == "stand-in report a b\n", f"{ended}")
        found = re.search("not proved here.*: (builds|runs)", ended.stderr)
        return found.group(1) if found else "proved"

    def touch(self, name: str, text: str | None = None) -> None:
        """Gives a file the time of now, and perhaps a line more."""
        time.sleep(0.02)
        path = self.top / name
        path.write_text(path.read_text() + (text or ""))


def freshness() -> str:
    """A change of a source of the closure makes the script build, and a test crate's doesn't."""
    with folder() as room:
        there = Checkout(room)
        expect(there.says() == "builds" and there.says() == "runs", "before a proof")
        there.put(there.made, STAND_IN)
        rows = [
            ("", None, "proved"),
            ("crates/pg_plain/src/lib.rt", "", "proved"),
            ("crates.txt", "bench_more: low\n", "proved"),
            ("crates/low/src/lib.rt", "", "builds"),
            ("", None, "runs"),
            ("crates.txt", "# posgame has more\n", "runs"),
        ]
        for name, text, due in rows:
            if name:
                there.touch(name, text)
            found = there.says()
            expect(found == due, f"{name or 'again'}: {found} in place of {due}")
        there.put(there.made, STAND_IN)
        lines = (there.top / "crates.txt").read_text().replace("low clap", "low")
        time.sleep(0.02)
        (there.top / "crates.txt").write_text(lines)
        expect(there.says() == "builds", "the closure's line has changed")
    return f"{len(rows) + 3} calls"


@functools.lru_cache(maxsize=None)
def tried_clone() -> tuple[tempfile.TemporaryDirectory[str], pathlib.Path, float, str]:
    """A clean clone in which a first call was made, its seconds, and what else it took.

    The clone goes with the folder.
    """
    held = tempfile.TemporaryDirectory(prefix="first-minutes-")
    there = clean_clone(pathlib.Path(held.name))
    before, begun = os.times(), time.perf_counter()
    first = run(there / "posgame", ["check", BOARD, PAIRS], cwd=there, timeout=3600)
    seconds, after = time.perf_counter() - begun, os.times()
    used = sum(after[2:4]) - sum(before[2:4])
    expect((first.returncode, first.stdout) == (0, "accepted x y win\n"), f"{first}")
    expect(first.stderr.count("\n") == 1 and "not proved here" in first.stderr, first.stderr)
    expect("prove does it" in first.stderr, first.stderr)
    return held, there, seconds, f"of the processor {used:.0f} s, {load()}"


def load() -> str:
    """How busy the machine is."""
    return f"load {os.getloadavg()[0]:.1f} on {len(os.sched_getaffinity(0))} processors"


@functools.lru_cache(maxsize=None)
def slowness() -> float:
    """How many times slower than the limits' machine this one is: `rt try` of an old tree tells."""
    with folder() as room:
        there = clean_clone(room)
        subprocess.run(["git", "checkout", "-q", UNIT], cwd=there, check=True)
        words = ["rt", "try", "--", "solve", str(TOP / BOARD), str(room / "none")]
        begun = time.perf_counter()
        tried = subprocess.run(words, cwd=there / "crates" / "posgame",
                               stdin=subprocess.DEVNULL, capture_output=True)
        expect(tried.returncode == 0, f"{UNIT} can't be tried: {tried.stderr!r}")
        return max(1.0, (time.perf_counter() - begun) / UNIT_SECONDS)


def limited(found: float, limit: float, unit: str) -> str:
    """What a clock showed beside its limit, and on a slower machine beside as many times more."""
    if found <= limit:
        return f"{found:.0f} {unit}, limit {limit:.0f}"
    most = limit * slowness()
    told = f"{found:.0f} {unit}, limit {limit:.0f} times {slowness():.2f} of this machine"
    expect(found <= most, f"{told}: more than {most:.0f}")
    return told


def clean_clone(room: pathlib.Path) -> pathlib.Path:
    """Clones what is committed, and returns the clone's top."""
    there = room / "clone"
    subprocess.run(["git", "clone", "-q", str(TOP), str(there)], check=True)
    return there


def first_answer() -> str:
    """A clean clone before any proof: how long the first answer takes."""
    seconds, told = tried_clone()[2:]
    return f"{limited(seconds, FIRST_ANSWER, 's')}, {told}"


def before_proof() -> str:
    """A clean clone before any proof: each status with its output, and a dialogue."""
    there = tried_clone()[1]
    with folder() as room:
        cases = statuses(room)
        for case in cases:
            try_case(there / "posgame", case, proved=False)
        expect(dialogue(there / "posgame", b"2\n8\n3\n") == 0, "a whole play")
    return f"{len(cases) + 1} calls"


def asked(program: pathlib.Path, words: Words, made: pathlib.Path, typed: str) -> typing.Any:
    """What a program answers: its status, standard output and error, and the file that it makes."""
    made.unlink(missing_ok=True)
    ended = subprocess.run([str(program), *words], cwd=TOP, input=typed.encode(),
                           capture_output=True, timeout=600)
    stored = made.read_bytes() if made.is_file() else None
    return ended.returncode, ended.stdout, ended.stderr, stored


def same_answers() -> str:
    """The sources before their proof answer as the proved program does, to the byte."""
    unproved = tried_clone()[1] / "out" / "unproved" / "posgame"
    with folder() as room:
        made = room / "C"
        rows = [(case.words, case.typed) for case in statuses(room)]
        for game in sorted((TOP / "examples").glob("*.game")):
            name = f"examples/{game.name}"
            family = {"posgame-span 1": ["span"], "posgame-vectors 1": ["vec"]}.get(
                next(it for it in game.read_text().splitlines() if it[:1] not in ("", "#")), [])
            few = [] if family else ["--positions", "20"]
            rows.append(([*family, "solve", name, str(made), *few], ""))
            rows.append(([*family, "check", name, PAIRS], ""))
            rows.append(([*family, "play", name, PAIRS, "--side", "y"], "0\n"))
        for words, typed in rows:
            found = [asked(it, words, made, typed) for it in (unproved, PROGRAM)]
            expect(found[0] == found[1], f"{' '.join(words)}: {found[0]} and {found[1]}"[:500])
        met = {asked(PROGRAM, words, made, typed)[0] for words, typed in rows}
    expect({0, 1, 2, 3, 4, 5} <= met, f"only the statuses {met}")
    return f"{len(rows)} calls, statuses {' '.join(map(str, sorted(met)))}"


def proving(there: pathlib.Path, names: Words) -> float:
    """Proves and builds these programs in a clone, or all; returns how many minutes it took."""
    begun = time.perf_counter()
    ended = subprocess.run([there / "prove", *names], stdin=subprocess.DEVNULL).returncode
    minutes = (time.perf_counter() - begun) / 60
    expect(ended == 0, f"status {ended} after {minutes:.1f} min, {load()}")
    return minutes


def proved_programs(there: pathlib.Path, names: Words) -> str:
    """Whether each program of a clone is there, and is that of this folder where this has one."""
    told = load()
    for name in names:
        program = PROGRAMS[name]
        made = there / program.relative_to(TOP)
        expect(os.access(made, os.X_OK), f"no {made.name}")
        if program.is_file():
            same = made.read_bytes() == program.read_bytes()
            told += f"; {made.name} is {'that' if same else 'not that'} of this folder"
    expect("not that" not in told, told)
    return told


def prove_from_nothing() -> str:
    """Proves and builds the programs that have a limit in a clean clone."""
    with folder() as room:
        there = clean_clone(room)
        minutes = proving(there, PROVE_PROGRAMS)
        told = proved_programs(there, PROVE_PROGRAMS)
        said = run(there / "posgame", ["check", BOARD, PAIRS], cwd=there)
    expect((said.stdout, said.stderr) == ("accepted x y win\n", ""), f"{said}")
    return f"{limited(minutes, PROVE_MINUTES, 'min')}, {told}"


def prove_every_program() -> str:
    """Proves and builds all programs in a clean clone, which has no limit."""
    with folder() as room:
        there = clean_clone(room)
        minutes = proving(there, [])
        return f"{minutes:.1f} min, {proved_programs(there, [*PROGRAMS])}"


def board_has_cells() -> str:
    """The first example is a board, so that --images has something to do."""
    with folder() as room:
        run(TOP / "posgame", ["solve", "--images", BOARD, str(room / "C")])
        head = (room / "C").read_text().splitlines()[0]
    expect(head == "posgame-cert 3", head)
    expect("grid 3 3" in (TOP / BOARD).read_text().splitlines(), "no grid 3 3")
    picture = (TOP / "docs" / "pictures" / "noughts-and-crosses.svg").read_text()
    found = run(TOP / "posgame-draw", [BOARD]).stdout
    expect(found == picture, "docs/pictures/noughts-and-crosses.svg is another picture")
    return head


def of_problems(row: release.Row) -> collections.abc.Callable[[], str]:
    """A row that returns what came out otherwise, as one of these."""
    def tries() -> str:
        with folder() as room:
            problems = row(room)
        expect(not problems, "; ".join(problems))
        return "as it has to be"
    return tries


@dataclasses.dataclass
class Row:
    """A row: its point, its name, what tries it, and when: quick, in minutes, or only by name."""

    point: int
    name: str
    tries: collections.abc.Callable[[], str]
    when: str = "quick"


ROWS = [
    Row(1, "which sources make a program old", freshness),
    Row(1, "first answer of a clean clone", first_answer, "minutes"),
    Row(1, "statuses before any proof", before_proof, "minutes"),
    Row(1, "before a proof as after it", same_answers, "minutes"),
    Row(2, "prove, over a stand-in for the kit", of_problems(prove_stand_in.row)),
    Row(2, "prove from nothing", prove_from_nothing, "named"),
    Row(2, "every program proved in a clone", prove_every_program, "named"),
    Row(3, "statuses, and what is said of them", answers),
    Row(3, "pictures, and what is said of them", draws),
    Row(3, "boards settled, and what is said of them", settled),
    Row(3, "boards played, and what is said of them", played),
    Row(3, "texts of the codes", codes),
    Row(3, "usage", usage),
    Row(3, "odd names, and games from standard input", odd_names),
    Row(3, "slips in a game file", slips),
    Row(3, "files that are read are spared", spared),
    Row(3, "full disks", full_disks),
    Row(3, "closed descriptors", closed_descriptors),
    Row(3, "dialogues on a terminal", dialogues),
    Row(3, "signals", signals),
    Row(3, "what a script costs a call", costs, "minutes"),
    Row(4, "versions", of_problems(release.versions)),
    Row(4, "licences and citation", of_problems(release.licences)),
    Row(5, "man pages", of_problems(release.manual)),
    Row(5, "completion", of_problems(release.completion)),
    Row(5, "words of install and package", of_problems(release.scripts)),
    Row(5, "install proves what is not current", of_problems(release.only_proved)),
    Row(5, "install and its removal", of_problems(release.removes)),
    Row(5, "small packages, made twice", of_problems(release.same_packages)),
    Row(5, "packages, made twice", of_problems(release.real_packages), "minutes"),
    Row(5, "packages, unpacked and run", of_problems(release.unpacked), "minutes"),
    Row(5, "dpkg installs the package and removes it", of_problems(release.by_dpkg), "named"),
    Row(6, "README: size, order, names", of_problems(release.readme)),
    Row(6, "README's commands, installed", of_problems(release.installed), "minutes"),
    Row(6, "crates of docs/ARCHITECTURE.md", of_problems(release.crates)),
    Row(7, "the first example is a board", board_has_cells),
    Row(8, "many boards by GNU parallel", of_problems(many.by_parallel)),
    Row(8, "many boards by make", of_problems(many.by_make)),
]


def try_row(row: Row) -> bool:
    """Tries a row, prints what it found, and returns whether nothing was missed."""
    begun = time.perf_counter()
    try:
        told, is_met = row.tries(), True
    except release.Skipped as reason:
        told, is_met = f"skipped, {reason}", True
    except (Missed, OSError, subprocess.SubprocessError) as error:
        told, is_met = str(error), False
    seconds = time.perf_counter() - begun
    end = "ok" if is_met else "MISSED"
    print(f"{end}  {row.point} {row.name}: {told} ({seconds:.1f} s)", flush=True)
    return is_met


def chosen(given: argparse.Namespace) -> list[Row]:
    """The rows that the words ask for."""
    if given.only:
        return [it for it in ROWS if given.only in it.name]
    rows = [it for it in ROWS if it.when == "quick" or given.all and it.when == "minutes"]
    return [it for it in rows if given.point in (None, it.point)]


def main() -> int:
    words = argparse.ArgumentParser(
        description=__doc__, formatter_class=argparse.RawDescriptionHelpFormatter
    )
    words.add_argument("--quick", action="store_true", help="the quick rows (default)")
    words.add_argument("--all", action="store_true", help="also the rows of minutes")
    words.add_argument("--point", type=int, metavar="N", help="the rows of this point")
    words.add_argument("--only", metavar="WORD", help="the rows with this word in their names")
    words.add_argument("--list", action="store_true", help="the rows' names, without trying them")
    given = words.parse_args()
    if given.list:
        print("".join(f"{it.point} {it.name} ({it.when})\n" for it in ROWS), end="")
        return 0
    met = [try_row(it) for it in chosen(given)]
    print(f"{len(met)} rows, {met.count(False)} missed")
    return 0 if met and all(met) else 1


if __name__ == "__main__":
    sys.exit(main())
