"""Tries the commands of docs/MANY.md and the files of cluster/ on some boards, by the real GNU
parallel and make. cluster/try-slurm tries Slurm.

Imported by bench/first_minutes.py, whose rows `by_parallel` and `by_make` are. In each a run of
posgame-settle is killed, and the same command must go on from there. Unproved.
"""
from __future__ import annotations

import csv
import io
import os
import pathlib
import re
import subprocess

import families
import kit
from release import Skipped, differs, need

PROGRAM = kit.built("posgame_settle")
PAGE = kit.TOP / "docs" / "MANY.md"
FAMILY = "noughts-and-crosses"
# The game of which the first run is killed.
KILLED = "3x3-maker-maker"
# Stands before posgame-settle, notes each run, and kills itself the first time that it gets KILLED.
BEFORE = f"""#!/bin/sh
echo "$*" >> "$ROOM/runs"
case "$*" in
    *{KILLED}*) mkdir "$ROOM/once" 2> /dev/null && kill -KILL $$ ;;
esac
exec "{PROGRAM}" "$@"
"""


class Room:
    """A folder with games/, a link to cluster/, and an empty out/."""

    def __init__(self, folder: pathlib.Path) -> None:
        self.folder, self.out = folder, folder / "out"
        (folder / "games").mkdir()
        self.out.mkdir()
        (folder / "cluster").symlink_to(kit.TOP / "cluster")
        self.names: list[str] = []
        for board in families.chosen(FAMILY)[0].boards:
            (folder / "games" / f"{board.name}.game").write_text(board.text, encoding="ascii")
            self.names.append(board.name)
        before = folder / "before"
        before.write_text(BEFORE, encoding="utf-8")
        before.chmod(0o755)
        self.env = {**os.environ, "SETTLE": str(before), "ROOM": str(folder), "LC_ALL": "C"}

    def run(self, command: str) -> subprocess.CompletedProcess[str]:
        """Runs a command by bash in the folder."""
        return subprocess.run(["bash", "-c", command], cwd=self.folder, env=self.env,
                              stdin=subprocess.DEVNULL, capture_output=True, text=True)

    def runs(self) -> list[str]:
        """Returns the games of the runs so far, in the order of their names, and forgets them."""
        path = self.folder / "runs"
        lines = path.read_text(encoding="utf-8") if path.exists() else ""
        path.unlink(missing_ok=True)
        return sorted(re.findall(r"games/(\S+)\.game", lines))

    def done(self) -> list[str]:
        """Returns the games whose line of JSON is there."""
        return sorted(it.stem for it in self.out.glob("*.json"))

    def alone(self) -> list[str]:
        """Settles each game without the engine; returns which files are others, or too many."""
        (self.folder / "alone").mkdir()
        for name in self.names:
            self.run(f"SETTLE={PROGRAM} cluster/settle-one games/{name}.game alone")
        files = {it.name: it.read_bytes() for it in (self.folder / "alone").iterdir()}
        found = {it.name: it.read_bytes() for it in self.out.iterdir() if it.name in files}
        others = {it.name for it in self.out.iterdir()} - {*files, "joblog", "table.csv"}
        return differs("files of out", found, files) + [f"{it} is there" for it in others]


def commands(begin: str) -> list[str]:
    """Returns the commands of docs/MANY.md that begin so."""
    lines = re.findall(r"^    (.+)$", PAGE.read_text(encoding="utf-8"), re.MULTILINE)
    return [it for it in lines if it.startswith(begin)]


def goes_on(room: Room, command: str) -> list[str]:
    """Gives a command twice, and once more: the first time a run is killed, the second time only
    that one is made again, and the third time none."""
    every = sorted(room.names)
    left = [it for it in every if it != KILLED]
    problems = [] if KILLED in every else [f"there is no game {KILLED}"]
    for runs, done, is_well in (every, left, False), ([KILLED], every, True), ([], every, True):
        ended = room.run(command)
        problems += differs(f"status of {command}", ended.returncode == 0, is_well)
        problems += differs("runs", room.runs(), runs) + differs("games done", room.done(), done)
    return problems + room.alone()


def tables(room: Room) -> list[str]:
    """Makes the table by cluster/table, and by jq if it is there, and compares them."""
    room.run("cluster/table out")
    text = (room.out / "table.csv").read_text(encoding="utf-8")
    rows = [*csv.DictReader(io.StringIO(text))]
    games = sorted(it["game"] for it in rows)
    problems = differs("games of the table", games, sorted(f"games/{it}.game" for it in room.names))
    for command in commands("jq "):
        need("jq")
        problems += differs(command, room.run(command).returncode, 0)
        lines = (room.folder / "table.csv").read_text(encoding="utf-8").splitlines()
        heads = lines[0].replace('"', "").split(",")
        due = [[it[head] for head in heads] for it in rows]
        problems += differs("rows by jq", [*csv.reader(lines[1:])], due)
    return problems


def by_parallel(top: pathlib.Path) -> list[str]:
    """Settles boards by GNU parallel."""
    if not kit.has_parallel():
        raise Skipped("there is no GNU parallel")
    room = Room(top)
    problems = differs("commands of parallel", len(commands("parallel ")), 1)
    return problems or goes_on(room, commands("parallel ")[0])


def by_make(top: pathlib.Path) -> list[str]:
    """Settles boards by make, and puts the lines into a table by make, cluster/table and jq."""
    need("make")
    room = Room(top)
    problems = differs("commands of make", len(commands("make ")), 2)
    if problems:
        return problems
    one, table = commands("make ")
    problems = goes_on(room, one) + differs(table, room.run(table).returncode, 0)
    lines = (room.out / "table.csv").read_text(encoding="utf-8").splitlines()
    problems += differs("rows of the table", len(lines), 1 + len(room.names))
    return problems or tables(room)
