"""Runs end with the call: if it is interrupted or left early, and if this process dies."""
from __future__ import annotations

import os
import pathlib
import select
import signal
import subprocess
import sys
import tempfile
import time
import unittest
from typing import Dict, Optional
from unittest import mock

from posgame import Game, RunFailed, Solution, solve_many

from beside import TOP

# Stands for posgame: a game with a mark of Y is solved at once; at others it goes on without end,
# with a process of its own. As long as one of them is there, the pipe has a writer.
STUB = """#!/bin/sh
if grep -q '^y ' GAME; then echo 'result maker'; echo proof > CERT; exit 0; fi
exec 9> '{pipe}'
echo begun >&9
sleep 1000
echo end
"""
ONE = "from posgame import Game; Game.from_lines([[0]]).solve()"
MANY = """
from posgame import Game, solve_many
answers = solve_many([Game.from_lines([[0]], points=2, y=[1] * (n == 0)) for n in range(9)], jobs=3)
print(next(answers)[0], flush=True)
"""
LONGEST = 60.0  # Seconds after which a test fails that waits for an end.


class Stubbed(unittest.TestCase):
    """A folder with a program that does not end by itself."""

    def setUp(self) -> None:
        temporary = tempfile.TemporaryDirectory(prefix="posgame-")
        self.addCleanup(temporary.cleanup)
        self.folder = pathlib.Path(temporary.name).resolve()
        self.pipe = self.folder / "pipe"
        os.mkfifo(self.pipe)
        self.put(STUB.format(pipe=self.pipe))
        (self.folder / "runs").mkdir()
        self.listen()
        self.env: Dict[str, str] = {"POSGAME": str(self.folder / "posgame"),
                                    "PYTHONPATH": str(TOP / "python"),
                                    "TMPDIR": str(self.folder / "runs")}

    def put(self, text: str) -> None:
        """Makes the program of a text."""
        (self.folder / "posgame").write_text(text, encoding="utf-8")
        (self.folder / "posgame").chmod(0o755)

    def listen(self) -> None:
        """Opens the pipe; until a writer comes, it has not ended."""
        self.reader = os.open(self.pipe, os.O_RDONLY | os.O_NONBLOCK)
        self.addCleanup(os.close, self.reader)

    def read(self, size: int) -> bytes:
        """Returns what comes through the pipe, once it is so long, or the last writer is gone."""
        data, end = b"", time.monotonic() + LONGEST
        while len(data) < size:
            if not select.select([self.reader], [], [], max(0.0, end - time.monotonic()))[0]:
                self.fail(f"waited too long, after {data!r}")
            more = os.read(self.reader, size - len(data))
            if not more:
                break
            data += more
        return data

    def await_begin(self, count: int) -> None:
        """Waits until so many runs go on."""
        self.assertEqual(self.read(6 * count), b"begun\n" * count)

    def await_end(self) -> None:
        """Waits until no process of a run is left."""
        self.assertEqual(self.read(1), b"")

    def script(self, text: str) -> "subprocess.Popen[str]":
        """Starts Python with a script."""
        process = subprocess.Popen([sys.executable, "-c", text], env={**os.environ, **self.env},
                                   text=True, stdout=subprocess.PIPE, stderr=subprocess.PIPE)
        self.addCleanup(process.communicate)
        self.addCleanup(process.kill)
        return process


class OfAProcess(Stubbed):
    """What goes on when the process is interrupted, or dies: nothing."""

    def ended(self, text: str, runs: int, signal_number: Optional[int]) -> "subprocess.Popen[str]":
        """Starts a script, sends it a signal, if there is one, when so many runs go on, and waits
        until no run is left."""
        self.listen()
        process = self.script(text)
        self.await_begin(runs)
        if signal_number is not None:
            process.send_signal(signal_number)
        self.await_end()
        process.wait(LONGEST)
        return process

    def test_interrupted(self) -> None:
        process = self.ended(ONE, 1, signal.SIGINT)
        self.assertIn("KeyboardInterrupt", process.communicate()[1])
        self.assertEqual(list((self.folder / "runs").iterdir()), [])

    def test_many_interrupted(self) -> None:
        process = self.ended(MANY + "print(next(answers))", 3, signal.SIGINT)
        output, errors = process.communicate()
        self.assertEqual(output, "0\n")
        self.assertIn("KeyboardInterrupt", errors)
        self.assertEqual(list((self.folder / "runs").iterdir()), [])

    def test_killed(self) -> None:
        for text, runs in ((ONE, 1), (MANY + "print(next(answers))", 3)):
            for number in (signal.SIGKILL, signal.SIGTERM):
                with self.subTest(text=text, number=number):
                    self.assertEqual(self.ended(text, runs, number).returncode, -number)

    def test_the_script_ends(self) -> None:
        wait = "import time\ntime.sleep(2)\n"  # So that runs go on when it ends.
        for end in ("", "import os\nos._exit(0)\n", "answers.close()\n", "del answers\n"):
            with self.subTest(end=end):
                process = self.ended(MANY + wait + end, 3, None)
                self.assertEqual((process.returncode, process.communicate()), (0, ("0\n", "")))

    def test_the_script_ends_while_runs_begin(self) -> None:
        games = "[Game.from_lines([[0]], points=2, y=[1] * (n % 2)) for n in range(60)]"
        text = f"from posgame import Game, solve_many\nmany = solve_many({games}, jobs=25)\n"
        for _ in range(3):
            process = self.script(text + "next(many)\n")
            self.assertEqual((process.communicate(timeout=LONGEST), process.returncode),
                             (("", ""), 0))
            os.close(os.open(self.pipe, os.O_WRONLY))  # A writer that goes, if none came.
            self.read(10_000)
            self.assertEqual(list((self.folder / "runs").iterdir()), [])

    def test_a_thread_goes_on(self) -> None:
        text = f"import threading\nthreading.Thread(target=exec, args=({ONE!r},)).start()\n"
        self.ended(text + "import time\ntime.sleep(1000)", 1, signal.SIGKILL)


class OfACall(Stubbed):
    """What goes on when a call is left: nothing."""

    def setUp(self) -> None:
        super().setUp()
        patch = mock.patch.dict(os.environ, {"POSGAME": self.env["POSGAME"]})
        patch.start()
        self.addCleanup(patch.stop)

    def test_closed_early(self) -> None:
        slow, quick = Game.from_lines([[0]], points=2), Game.from_lines([[0]], points=2, y=[1])
        answers = solve_many({"slow": slow, "quick": quick, "later": slow}, jobs=2)
        key, answer = next(answers)
        self.assertEqual((key, isinstance(answer, Solution)), ("quick", True))
        self.await_begin(2)
        answers.close()
        self.await_end()

    def test_the_loop_raises(self) -> None:
        slow, quick = Game.from_lines([[0]], points=2), Game.from_lines([[0]], points=2, y=[1])
        with self.assertRaises(ZeroDivisionError):
            for _ in solve_many([slow, quick, slow], jobs=3):
                self.await_begin(2)
                raise ZeroDivisionError
        self.await_end()

    def test_no_further_game_is_begun(self) -> None:
        quick = Game.from_lines([[0]], points=2, y=[1])
        answers = solve_many([quick, *[Game.from_lines([[0]], points=2)] * 20], jobs=1)
        next(answers)
        self.await_begin(1)
        answers.close()
        self.await_end()

    def test_statuses(self) -> None:
        game = Game.from_lines([[0]])
        for end, status in [("exit 7", 7), ("kill -s KILL $$", -9), ("kill -s TERM $$", -15)]:
            self.put(f"#!/bin/sh\n{end}\n")
            with self.assertRaises(RunFailed) as raised:
                game.solve()
            self.assertEqual((raised.exception.text, raised.exception.status),
                             (f"status {status}", status))

    def test_what_cannot_be_started(self) -> None:
        self.put("#!/there/is/none\n")
        with self.assertRaises(RunFailed) as raised:
            Game.from_lines([[0]]).solve()
        self.assertEqual(raised.exception.meaning, "posgame could not be started")

    def test_input_and_output(self) -> None:
        self.put("#!/bin/sh\nread -r first\necho \"claim $first\"\ncat\n")
        typed = Game.from_lines([[0]])._run(["play"], typed="1\n2\n" * 50_000)
        self.assertEqual((typed.status, typed.text), (0, "claim 1\n2\n" + "1\n2\n" * 49_999))


if __name__ == "__main__":
    unittest.main()
