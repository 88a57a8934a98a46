#!/usr/bin/env python3
"""Runs posgame on files, names and consoles of the system that fail or vanish, and kills it while
it writes. It shares nothing with the crates. Unproved.

    bench/real_files.py [PROGRAM] [--kills N] [--races N] [--pairs N] [--seed N]

Each row, of bench/real_files.txt or of a function here, says what is in a folder of its own, the
arguments, and how it must end: the status, what is printed, and what files contain then. Nothing
may be on standard error, and no run may take more than twenty seconds. Files without permission are
tried as nobody, if it is run as root; full disks and mounted files, if there is permission to
mount. A link that is swapped all the time must harm no file, two runs at once must leave a game and
a certificate that fit, and runs that are killed must leave the old bytes or the new ones, whole.
"""
from __future__ import annotations

import argparse
import collections
import contextlib
import itertools
import os
import pathlib
import random
import re
import shlex
import shutil
import signal
import subprocess
import tempfile
import threading
import time
from typing import Any, Iterator, Optional

import kit

ROWS = "rows of files, names and streams"
ROW = re.compile(r"^(\S.*?)(?:: (USER|ROOT|MOUNT)?(.*))?\n  (.*) => (\d+) ?(.*)$", re.MULTILINE)
GAME = kit.game("maker-breaker", "points 6", *kit.line_rows([(0, 1), (2, 3), (4, 5)]))
PAIRS = kit.certificate(kit.claim("x y win", "||x|pairs 0-1 2-3 4-5\n"))
OLD, RESULT = "old\n", "result breaker\n"
TEXTS: dict[str, Any] = {
    "PAIRS": PAIRS, "OLD": OLD, "RESULT": RESULT, "ACCEPTED": "accepted x y win\n",
    "POTENTIAL": kit.certificate(kit.claim("x y win", "||x|potential\n")),
    "MADE": f"game 16 points 10 lines\n{RESULT}expanded 0 nodes 1\n",
    "RECORD": "posgame-record 1\n", "nothing": None, "PAIRS RESULT": PAIRS + RESULT,
}
USER = 65534 if os.getuid() == 0 else None
MANY = "gen scatter 4 16 18 4 G C".split()
OTHERS = "rows 4", "bridge 3", "scatter 3 9 8 3", "scatter 5 12 10 4"


def held(folder: pathlib.Path, name: str) -> Optional[str]:
    """Returns what a name contains, or what a command after a `$` prints."""
    path = folder / name
    if name.startswith("$"):
        return kit.call("sh", "-c", name[1:], cwd=folder).stdout or None
    if path.is_symlink():
        return f"link to {os.readlink(path)}"
    return "a folder" if path.is_dir() else path.read_text() if path.is_file() else None


def parts(folder: pathlib.Path) -> set[str]:
    """Returns the files that a run which was killed leaves."""
    return {str(it.relative_to(folder)) for it in folder.rglob("*.posgame-part*")}


class Rows:
    """The rows that were run, what came out otherwise, and how often what has ended how."""

    def __init__(self, program: str, top: str) -> None:
        self.program, self.top, self.wrong = program, top, []  # type: str, str, list[str]
        self.ends: dict[str, Any] = collections.defaultdict(collections.Counter)

    def folder(self, **texts: str) -> pathlib.Path:
        """Makes a new folder with files of these texts, in which everybody may write."""
        folder = pathlib.Path(tempfile.mkdtemp(dir=self.top))
        folder.chmod(0o777)
        for name, text in texts.items():
            (folder / name).write_text(text)
        return folder

    def row(self, name: str, words: str, status: int, printed: str = "", holds: Any = (),
            before: str = "", user: Optional[int] = None) -> pathlib.Path:
        """Runs one row, and returns its folder. A shell does `before` there, beside the game G, the
        certificate C and the file O; `holds` says what files contain then (None: missing)."""
        self.ends[ROWS][""] += 1
        folder, due = self.folder(G=GAME, C=PAIRS, O=OLD), {"G": GAME, **dict(holds)}
        subprocess.run(["sh", "-c", before], cwd=folder, stdout=subprocess.DEVNULL, check=True)
        ended = self.ended(words, folder, user)
        if ended != (status, printed, ""):
            self.wrong.append(f"{name}: {words}: {ended} in place of {(status, printed)}")
        found = {file: held(folder, file) for file in due}
        self.wrong += [f"{name}: {file[:60]} is {found[file]!r:.200}, not {text!r:.200}"
                       for file, text in due.items() if found[file] != text]
        self.wrong += [f"{name}: {part[:60]} is left" for part in parts(folder) - set(due)]
        return folder

    def ended(self, words: str, folder: pathlib.Path, user: Optional[int] = None) -> Any:
        """Returns the status, the output and the errors of a run of at most twenty seconds."""
        script = re.sub("^(.*[;|] )?", r'\1exec "$0" ', words, count=1)
        whose: Any = {"user": user, "group": user, "extra_groups": []} if user else {}
        run = kit.run("sh", "-c", script, self.program, folder=folder, clock=20, **whose)
        is_late = run.seconds > 20
        return "more than twenty seconds" if is_late else (run.status, run.output, run.errors)


def listed(rows: Rows) -> None:
    """Runs the rows of bench/real_files.txt."""
    text = re.sub(r"n\*(\d+)", lambda found: "n" * int(found[1]), kit.data("real_files.txt"))
    mount = kit.call("sh", "-c", 'mount -t tmpfs tmpfs "$0" && umount "$0"', rows.folder())
    may = {"ROOT": USER is not None, "MOUNT": mount.returncode == 0}
    for name, needs, before, words, status, tail in ROW.findall(text):
        rows.ends[ROWS]["not permitted"] += needs == "MOUNT" and not may["MOUNT"]
        if not may.get(needs, True):
            continue
        printed, *holds = tail.split("; ")
        said = "".join(TEXTS.get(it, it + "\n") for it in shlex.split(printed))
        due = {it: TEXTS.get(text, text) for it, text in (hold.split(" = ") for hold in holds)}
        user = USER if needs in ("USER", "ROOT") else None
        folder = rows.row(name, words, int(status), said, due, before, user)
        if needs == "MOUNT":
            subprocess.run(["umount", folder / "F"], check=True)


def closed_streams(rows: Rows) -> None:
    """Standard input, output and errors are closed: what uses them fails, whatever is opened."""
    for numbers in (0,), (1,), (2,), (0, 1), (0, 2), (1, 2), (0, 1, 2):
        shut = " ".join(f"{number}>&-" for number in numbers)
        reading, writing = 5 if 0 in numbers else 0, 6 if 1 in numbers else 0
        kept, recorded = TEXTS["RECORD"], "" if reading else "recorded 0\n"
        for words, status, said, holds in (
                ("play G C --side y", writing or reading or 8, "claim y win\n", {}),
                ("record G O", reading or writing, recorded, {"O": OLD if reading else kept}),
                ("solve G O", writing, RESULT, {"O": PAIRS}),
                ("check G C", writing, TEXTS["ACCEPTED"], {}),
                ("gen rows 4 H O", writing, TEXTS["MADE"],
                 {"O": OLD if writing else TEXTS["POTENTIAL"]})):
            rows.row(f"{words} without {numbers}", f"{words} {shut}", status,
                     "" if 1 in numbers else said, holds)


def stale_parts(rows: Rows) -> None:
    """What runs that were killed have left is removed, and what another run writes is not."""
    lock = "exec 9< O.posgame-part0; flock 9; "
    for first, count, used in ("", 1, 0), ("", 2, 0), ("", 99, 0), ("", 100, 0), (lock, 3, 1):
        names = [f"O.posgame-part{number}" for number in range(count)]
        holds = {"O": PAIRS, **dict.fromkeys(names, "stale"), names[used]: None}
        rows.row(f"{'one of ' if first else ''}{count} stale parts{' is locked' if first else ''}",
                 f"{first}solve G O", 0, RESULT, holds, f"printf stale | tee {' '.join(names)}")


def swap(folder: pathlib.Path, targets: Any, stop: threading.Event) -> None:
    """Makes L lead to one target after the other, until it is stopped; None: L is a plain file."""
    new = folder / "new"
    for target in itertools.takewhile(lambda _: not stop.is_set(), itertools.cycle(targets)):
        if target:
            new.symlink_to(target)
        else:
            new.write_text("plain\n")
        new.rename(folder / "L")


def race(rows: Rows, count: int, targets: Any) -> None:
    """Stores under the name L, which is swapped all the time. No file may be harmed."""
    folder, stop = rows.folder(G=GAME), threading.Event()
    ends = rows.ends[f"store at a link to {', '.join(it or 'a plain file' for it in targets)}"]
    (folder / "L").symlink_to("V")
    swapping = threading.Thread(target=swap, args=(folder, targets, stop))
    swapping.start()
    for number in range(count):
        (folder / "V").write_text("victim\n")
        status, found = rows.ended("solve G L", folder)[0], held(folder, "V")
        ends[f"status {status}, the {'new' if found == PAIRS else 'old'} bytes"] += 1
        is_whole = os.path.islink("/proc/self") and not os.path.isfile("/dev/null")
        if found not in ("victim\n", PAIRS) or status not in (0, 6):
            rows.wrong.append(f"race {number}: status {status}, the victim holds {found!r:.60}")
        if held(folder, "G") != GAME or not is_whole:
            rows.wrong.append(f"race {number}: another file was harmed")
    stop.set()
    swapping.join()
    rows.wrong += [f"race: {part} is left" for part in parts(folder)]


def pairs(rows: Rows, given: argparse.Namespace) -> None:
    """Two runs at once make a game and a certificate under the same two names: they must fit."""
    draw, folder = random.Random(given.seed), rows.folder()
    for number in range(given.pairs):
        runs = []
        for words in draw.sample(OTHERS, 2):
            command = [rows.program, "gen", *words.split(), "H", "D"]
            runs.append(subprocess.Popen(command, cwd=folder, stdout=subprocess.DEVNULL))
            time.sleep(draw.choice((0, 0, 0.001, 0.002)) * draw.random())
        one, other = statuses = sorted(run.wait() for run in runs)
        rows.ends["two runs at once"][f"statuses {one} and {other}"] += 1
        fits = rows.ended("check H D", folder)[0]
        if statuses not in ([0, 0], [0, 6]) or fits != 0 or parts(folder):
            rows.wrong.append(f"pair {number}: statuses {statuses}, check {fits}, {parts(folder)}")


def when_made(path: pathlib.Path) -> Any:
    """Says which file has this name, or None."""
    with contextlib.suppress(FileNotFoundError):
        found = path.lstat()
        return found.st_ino, found.st_ctime_ns
    return None


def one_kill(program: str, folder: pathlib.Path, draw: random.Random, whole: float) -> int:
    """Kills a run at a random moment, or soon after it began to write the certificate."""
    part, began = folder / "C.posgame-part0", time.monotonic()
    stale = when_made(part)
    run = subprocess.Popen([program, *MANY], cwd=folder, stdout=subprocess.DEVNULL)
    if draw.randrange(2):
        while run.poll() is None and when_made(part) in (None, stale):
            pass
        began, whole = time.monotonic(), draw.choice((0.0002, 0.002, 0.01))
    moment = began + draw.random() * whole
    while run.poll() is None and time.monotonic() < moment:
        pass
    run.send_signal(draw.choice((signal.SIGKILL, signal.SIGTERM, signal.SIGINT)))
    return run.wait()


def faults_of_kill(folder: pathlib.Path, due: tuple[str, str]) -> Iterator[str]:
    """Yields what is wrong with the files after a kill: not old, and not due after a whole run."""
    game, stored = (folder / "G").read_text(), (folder / "C").read_text()
    if stored not in (OLD, due[1]) or game not in ("old game\n", due[0]):
        yield f"C holds {len(stored)} bytes, G {len(game)}"
    if stored == due[1] and game != due[0]:
        yield "the certificate is new, and the game old"
    if held(folder, "O") != "other\n":
        yield "O holds something else"
    for new in set(os.listdir(folder)) - {"G", "C", "O", "G.posgame-part0", "C.posgame-part0"}:
        yield f"{new} is new"


def kills(rows: Rows, given: argparse.Namespace) -> None:
    """Kills runs in one folder, looks at what each name holds then, and at last lets one end."""
    draw, ends = random.Random(given.seed), rows.ends["kills"]
    folder = rows.folder(O="other\n")
    whole = kit.run(rows.program, *MANY, folder=folder).seconds
    due = (folder / "G").read_text(), (folder / "C").read_text()
    for number in range(given.kills):
        (folder / "G").write_text("old game\n")
        (folder / "C").write_text(OLD)
        status = one_kill(rows.program, folder, draw, whole)
        name = f"kill {number} of seed {given.seed}"
        rows.wrong += [f"{name}: {it}" for it in faults_of_kill(folder, due)]
        ends["the old bytes" if held(folder, "C") == OLD else "the new bytes"] += 1
        ends["before the kill"] += status == 0
        ends["with a part left"] += bool(parts(folder))
    last = kit.run(rows.program, *MANY, folder=folder)
    if last.status or sorted(os.listdir(folder)) != ["C", "G", "O"] or held(folder, "C") != due[1]:
        rows.wrong.append(f"the run after {given.kills} kills: {sorted(os.listdir(folder))}")


def main() -> int:
    given = kit.options(__doc__, kills=200, races=200, pairs=150, seed=1)
    with tempfile.TemporaryDirectory() as top:
        os.chmod(top, 0o755)
        rows = Rows(shutil.copy(given.program, os.path.join(top, "program")), top)
        os.chmod(rows.program, 0o755)
        for part in listed, closed_streams, stale_parts:
            part(rows)
        rows.ends[ROWS]["otherwise"] = len(rows.wrong)
        for count, *targets in ((given.races, "/dev/null", "V"), (given.races // 2, None, "V"),
                                (given.races // 2, "/dev/null", None, "V", "/proc/self/fd/1")):
            race(rows, count, targets)
        pairs(rows, given)
        if given.kills:
            kills(rows, given)
    table = kit.Table("what", "ended", "times")
    for what, ends in rows.ends.items():
        for end, many in sorted(ends.items()):
            table.row(what, end, many)
    return kit.end(rows.wrong)


if __name__ == "__main__":
    raise SystemExit(main())
