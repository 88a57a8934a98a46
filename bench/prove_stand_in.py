"""Tries ./prove over a stand-in for the kit, in a checkout of eight crates.

A crate of the stand-in is proved in a fifth of a second, by two lines in the file `calls`: one as
it begins and one as it ends. bench/first_minutes.py calls `row`. Nothing here is proved.
"""
from __future__ import annotations

import os
import pathlib
import pty
import re
import shutil
import subprocess
import typing

TOP = pathlib.Path(__file__).resolve().parent.parent
LISTED = """low:
one: low
two: low one
posgame: two
posgame_draw: low
posgame_settle: two
posgame_play: one
test_more: posgame
"""
PROVED = {"low", "one", "two", "posgame", "posgame_draw", "posgame_settle", "posgame_play"}
LINE = r"prove: \d of 7 crates, \d+ min: (\w+) proved \(\d+ s\)"
LOGGED = r"^\d{4}-\d\d-\d\d \d\d:\d\d:\d\d (\w+) proved \d+ s$"
RTLIB = '''
import fcntl, os, shutil, sys, time

KIT = os.path.dirname(os.path.dirname(os.path.abspath(__file__)))
RATTLE = "rattle"


def files_of(folder):
    return [f"{folder}/src/{it}" for it in sorted(os.listdir(f"{folder}/src"))]


def guarded():
    pass


def lock(crates):
    held = os.open(f"{KIT}/lock", os.O_CREAT | os.O_WRONLY)
    fcntl.flock(held, fcntl.LOCK_EX)
    return [held]


def text_of(file):
    if not os.path.isfile(file):
        return None
    with open(file) as it:
        return it.read()


class Crate:
    def __init__(self, root, name, deps):
        self.name, self.folder, self.deps, self.out = name, f"{root}/crates/{name}", deps, None
        self.rlib = f"{self.folder}/out/rlib/{name}.rlib"

    def below(self):
        found = {low.name: low for it in self.deps for low in [*it.below(), it]}
        return [*found.values()]

    def makes_rlib(self):
        return not os.path.isfile(f"{self.folder}/src/main.rt")

    def stamp(self):
        return "".join(map(text_of, files_of(self.folder))) + "".join(
            it.stamp() for it in self.below())

    def words(self, flags, keeps):
        return [*flags, *(it.rlib for it in self.below())]

    def note(self, what):
        with open(f"{KIT}/calls", "a") as it:
            it.write(f"{what} {self.name}\\n")

    def prove(self):
        self.note("begins")
        print(f"checks {self.name}", file=self.out, flush=True)
        time.sleep(0.2)
        self.note("ends")
        text = "".join(map(text_of, files_of(self.folder)))
        if "stops" in text:
            raise OSError("no space left")
        return int("wrong" in text)

    def build(self, words):
        lacking = sum(it.endswith(".rlib") and not os.path.isdir(it) for it in words)
        status = self.prove() or int("--statements" not in words or lacking != 1)
        if status == 0:
            os.makedirs(self.rlib)
            with open(f"{self.rlib}/format", "w") as it:
                it.write(self.stamp())
        return status

    def compile(self, flags, made, tests):
        status = self.prove()
        with open(f"{self.folder}/{made}", "w") as it:
            it.write(self.stamp())
        return status

    def call(self, *words):
        if words[:2] == (RATTLE, "build"):
            return self.build(words)
        made = words[words.index("-o") + 1]
        shutil.copy(f"{self.folder}/{made}.o", f"{self.folder}/{made}")
        os.chmod(f"{self.folder}/{made}", 0o755)
        return 0


def crates_below(root):
    made = {}
    for line in text_of(f"{root}/crates.txt").splitlines():
        name, deps = line.split(":")
        made[name] = Crate(root, name, [made[it] for it in deps.split()])
    return [*made.values()]
'''


class Checkout:
    """The checkout, with the stand-in on the PATH."""

    def __init__(self, room: pathlib.Path) -> None:
        self.top, self.kit = room / "top", room / "kit"
        for line in LISTED.splitlines():
            name = line.split(":")[0]
            (self.top / "crates" / name / "src").mkdir(parents=True)
            self.write(name, "first")
        (self.top / "crates.txt").write_text(LISTED)
        shutil.copy(TOP / "prove", self.top)
        (self.kit / "bin").mkdir(parents=True)
        (self.kit / "bin" / "rtlib.py").write_text(RTLIB)
        (self.kit / "bin" / "rt").write_text("#!/bin/sh\n")
        (self.kit / "bin" / "rt").chmod(0o755)
        self.env = {**os.environ, "PATH": f"{self.kit}/bin:{os.environ['PATH']}"}

    def write(self, crate: str, text: str) -> None:
        """Gives a crate another source."""
        file = "main.rt" if crate.startswith("posgame") else "lib.rt"
        (self.top / "crates" / crate / "src" / file).write_text(f"{crate}: {text}\n")

    def start(self, *words: str) -> subprocess.Popen[str]:
        """Starts ./prove, on two processors."""
        command = [str(self.top / "prove"), "--jobs", "2", *words]
        return subprocess.Popen(command, env=self.env, text=True, stdin=subprocess.DEVNULL,
                                stdout=subprocess.PIPE, stderr=subprocess.PIPE)

    def proves(self, *words: str) -> tuple[int, str]:
        """Runs ./prove: its status, and what it says on standard error."""
        started = self.start(*words)
        output, said = started.communicate(timeout=120)
        return started.returncode, output + said

    def calls(self) -> list[str]:
        """Takes the calls of the prover since the last time."""
        file = self.kit / "calls"
        lines = file.read_text().splitlines() if file.exists() else []
        file.unlink(missing_ok=True)
        return lines

    def program(self) -> str:
        """The program posgame, here a text of the sources that it was made of."""
        return (self.top / "crates" / "posgame" / "out" / "posgame").read_text()


def wrong(name: str, found: object, due: object) -> list[str]:
    """Returns a problem if the two differ."""
    return [] if found == due else [f"{name}: {found!r} in place of {due!r}"]


def from_nothing(there: Checkout) -> list[str]:
    """All crates below the programs are proved, the longest chain first, two at a time."""
    status, said = there.proves()
    problems = wrong("from nothing", (status, set(re.findall(LINE, said))), (0, PROVED))
    log = (there.top / "prove.log").read_text()
    problems += wrong("prove.log", set(re.findall(LOGGED, log, re.MULTILINE)), PROVED)
    calls = there.calls()
    # Both crates behind `low` begin at once, in either order.
    due = ["begins low", "ends low", "begins one", "begins posgame_draw"]
    problems += wrong("the longest chain", calls[:2] + sorted(calls[2:4]), due)
    first = calls.index("begins posgame_draw")
    chain = [at for at, call in enumerate(calls) if call == "ends one"]
    problems += wrong("side by side", first < chain[0], True)
    problems += wrong("again", (there.proves()[0], there.calls()), (0, []))
    there.write("low", "another")
    problems += wrong("one program", there.proves("posgame-draw")[0], 0)
    due = ["begins low", "ends low", "begins posgame_draw", "ends posgame_draw"]
    return problems + wrong("crates of one program", there.calls(), due)


def failures(there: Checkout) -> list[str]:
    """A crate that fails is shown with its last lines, and the program that stood stays."""
    problems, stood = [], there.program()
    for text, shown in (("wrong", "    checks two"), ("stops", "no space left")):
        there.write("two", text)
        status, said = there.proves()
        told = "two is not proved" in said and shown in said and "Traceback" not in said
        problems += wrong(f"a failure, {said}", (status, told), (1, True))
        problems += wrong("the program that stood", there.program(), stood)
    log = (there.top / "prove.log").read_text()
    problems += wrong("the log of a failure", " two failed " in log, True)
    there.calls()
    return problems


def two_at_once(there: Checkout) -> list[str]:
    """Of two runs at once the second waits, and proves nothing again."""
    there.write("two", "mended")
    runs = [there.start(), there.start()]
    for it in runs:
        it.communicate(timeout=120)
    problems = wrong("two runs", [it.returncode for it in runs], [0, 0])
    calls = [it for it in there.calls() if it.startswith("begins")]
    due = ["begins posgame", "begins posgame_settle", "begins two"]
    problems += wrong("crates of two runs", sorted(calls), due)
    return problems + wrong("the new program", "two: mended" in there.program(), True)


def on_a_terminal(there: Checkout) -> list[str]:
    """On a terminal one line is rewritten."""
    there.write("two", "anew")
    seen, terminal = pty.openpty()
    command = [str(there.top / "prove"), "--jobs", "2"]
    started = subprocess.Popen(command, env=there.env, stdin=subprocess.DEVNULL, stderr=terminal)
    os.close(terminal)
    said = b""
    while True:
        try:
            got = os.read(seen, 4096)
        except OSError:
            break
        if not got:
            break
        said += got
    os.close(seen)
    problems = wrong("on a terminal", started.wait(120), 0)
    rewritten = said.count(b"\r\x1b[Kprove: ") >= 2 and b"in work: two" in said
    problems += wrong("rewritten", (rewritten, said.count(b"\n")), (True, 2))
    return problems


def words(there: Checkout) -> list[str]:
    """No such program, and no kit on the PATH."""
    problems = wrong("no such program", there.proves("nothing")[0], 2)
    there.env["PATH"] = "/usr/bin:/bin"
    status, said = there.proves()
    return problems + wrong("no kit", (status, "no command rt on the PATH" in said), (1, True))


def row(room: pathlib.Path) -> list[str]:
    """Runs all of this, and returns what came out otherwise."""
    there = Checkout(room)
    parts: list[typing.Callable[[Checkout], list[str]]] = [
        from_nothing, failures, two_at_once, on_a_terminal, words]
    return [problem for part in parts for problem in part(there)]
