"""Finds the programs and runs them."""
from __future__ import annotations

import contextlib
import os
import pathlib
import shutil
import subprocess
import tempfile
import threading
from typing import Dict, Iterator, List, NamedTuple, Optional, Set, Tuple

from .errors import STATUSES, ProgramMissing, RunFailed, error_of

# The names under which each program is looked for in a folder.
NAMES = {
    "posgame": ["posgame", "posgame/out/posgame"],
    "posgame-draw": ["posgame-draw", "posgame_draw", "posgame_draw/out/posgame_draw"],
    "posgame-settle": ["posgame-settle", "posgame_settle", "posgame_settle/out/posgame_settle"],
}
# Runs its arguments with the file TYPED as input, and exits with the same status, or 128 and the
# number of a signal. As soon as its own input ends, which is a pipe of this process, it kills its
# process group: if the pipe is closed, or this process died, however that was.
KEEPER = """
exec 3<&0
"$@" < TYPED 3<&- &
program=$!
{ read -r line; kill -s KILL 0; } <&3 > /dev/null &
keeper=$!
wait "$program"
status=$?
kill -s KILL "$keeper"
exit "$status"
"""
NOT_STARTED = (126, 127)  # The statuses of a shell that could not start a program.


class Run(NamedTuple):
    """What a run printed, its exit status, and the bytes of CERT afterwards, if it is there."""
    text: str
    status: int
    certificate: Optional[bytes]

    @property
    def lines(self) -> List[str]:
        """The lines that were printed."""
        return self.text.splitlines()


def places(program: str) -> Iterator[pathlib.Path]:
    """Yields where a program is looked for, in order: as POSGAME says, on PATH, and in the crates
    of the clone that contains the package. If POSGAME is set, no other `posgame` is taken."""
    word = os.environ.get("POSGAME", "")
    chosen = pathlib.Path(word).absolute()
    folders = [chosen] if word else []
    if program != "posgame" or not word:
        folders += [chosen.parent, chosen.parent.parent.parent] if word else []
        folders += [pathlib.Path(name or ".").absolute()
                    for name in os.environ.get("PATH", "").split(os.pathsep)]
        folders += [pathlib.Path(__file__).resolve().parents[2] / "crates"]
    elif chosen.is_file():
        yield chosen
    yield from (folder / name for folder in folders for name in NAMES[program])


def find(program: str) -> str:
    """Returns the path of `posgame`, `posgame-draw` or `posgame-settle`.

    The environment variable POSGAME is the path of `posgame`, or of a folder with the programs.
    """
    for path in places(program):
        if path.is_file() and os.access(path, os.X_OK):
            return str(path)
    word = os.environ.get("POSGAME", "")
    raise ProgramMissing(f"{program} not found", f"it is not where POSGAME says: {word}" if word
                         else "it is not on PATH, and POSGAME is not set")


def bytes_of(text: str) -> bytes:
    """Returns the bytes of a text; those that are not ASCII are as they were read, or others that
    are not ASCII either."""
    try:
        return text.encode("utf-8", "surrogateescape")
    except UnicodeEncodeError:
        return text.encode("utf-8", "surrogatepass")


def text_of(data: bytes) -> str:
    """Returns the text of some bytes, from which `bytes_of` makes the same bytes."""
    return data.decode("ascii", "surrogateescape")


class Runs:
    """The runs that belong to one call: `end` ends those that go on, and no further one begins."""

    def __init__(self) -> None:
        self._lock = threading.Lock()
        self._going: Set["subprocess.Popen[bytes]"] = set()
        self.ended = False

    def finish(self, command: List[str], folder: str) -> Tuple[bytes, int]:
        """Runs a command in a folder; returns what it printed, and its status.

        If this is interrupted, nothing of the run is left when it returns.
        """
        process = self._begin(command, folder)
        assert process.stdout
        try:
            printed = process.stdout.read()
            status = process.wait()
            return printed, 128 - status if status > 128 else status
        finally:
            self._let_go(process)

    def end(self) -> None:
        """Ends all runs that go on."""
        with self._lock:
            self.ended = True
            for process in self._going:
                _close(process)

    def _begin(self, command: List[str], folder: str) -> "subprocess.Popen[bytes]":
        """Starts a command in a process group of its own."""
        with self._lock:
            if self.ended:
                raise RunFailed("ended", "the call to which the run belongs has ended")
            process = subprocess.Popen(["/bin/sh", "-c", KEEPER, "sh", *command], cwd=folder,
                                       stdin=subprocess.PIPE, stdout=subprocess.PIPE,
                                       stderr=subprocess.DEVNULL, start_new_session=True)
            self._going.add(process)
            return process

    def _let_go(self, process: "subprocess.Popen[bytes]") -> None:
        """Ends a run if it goes on, and waits until no process of it has its output any more."""
        with self._lock:
            self._going.discard(process)
            _close(process)
        assert process.stdout
        process.stdout.read()
        process.stdout.close()
        process.wait()


def _close(process: "subprocess.Popen[bytes]") -> None:
    """Closes the pipe on which a run depends."""
    assert process.stdin
    process.stdin.close()


_here = threading.local()  # The runs to which those of this thread belong.


@contextlib.contextmanager
def belonging_to(runs: Runs) -> Iterator[None]:
    """Lets the runs that this thread begins belong to others."""
    _here.runs = runs
    try:
        yield
    finally:
        del _here.runs


@contextlib.contextmanager
def _folder() -> Iterator[str]:
    """Makes a folder, and removes it at the end of the block: never before, as the end of the whole
    script removes a TemporaryDirectory."""
    path = tempfile.mkdtemp(prefix="posgame-")
    try:
        yield path
    finally:
        shutil.rmtree(path, ignore_errors=True)


def run(program: str, words: List[str], files: Dict[str, bytes], typed: str = "") -> Run:
    """Runs a program in a folder of its own that contains these files.

    The run ends with this call, also if it is interrupted or this process dies.
    """
    runs: Runs = getattr(_here, "runs", None) or Runs()
    with _folder() as folder:
        for name, data in {**files, "TYPED": typed.encode()}.items():
            pathlib.Path(folder, name).write_bytes(data)
        try:
            printed, status = runs.finish([find(program), *words], folder)
        except (OSError, ValueError) as error:  # As for a word with a byte 0 in it.
            raise RunFailed(str(error), f"{program} could not be started") from error
        if status in NOT_STARTED:
            raise RunFailed(f"status {status}", f"{program} could not be started", status)
        stored = pathlib.Path(folder, "CERT")
        certificate = stored.read_bytes() if stored.is_file() else None
        return Run(printed.decode("latin-1"), status, certificate)


def answer_of(done: Run, accepted: List[int]) -> Run:
    """Returns the run if its status is one of these; else raises the error that it printed."""
    if done.status not in accepted:
        is_silent = done.status in STATUSES or done.status < 0 or not done.lines
        raise error_of("" if is_silent else done.lines[-1], done.status)
    return done


def is_there(program: str) -> bool:
    """Returns whether a program is found."""
    try:
        return bool(find(program))
    except ProgramMissing:
        return False
