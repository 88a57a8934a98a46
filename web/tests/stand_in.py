"""A browser in which the native programs stand in for the module: what the page gives its worker to
run is run by them, on files of the system. So the page's own script can be tried before a module is
made. Used by browser_page.py. Unproved.
"""
from __future__ import annotations

import base64
import json
import pathlib
import subprocess
import sys
import tempfile
from typing import Any

TOP = pathlib.Path(__file__).resolve().parents[2]
sys.path.insert(0, str(TOP / "bench"))

from browser import Browser  # noqa: E402

# How long a run may take, in seconds. One that takes longer has no answer, and the page waits.
LONGEST = 8
# What stands in for the worker, before the page's script.
SCRIPT = """
const ports = [];
const packed = bytes => btoa([...bytes].map(it => String.fromCharCode(it)).join(''));
const unpacked = text => Uint8Array.from(atob(text), it => it.charCodeAt(0));
window.Worker = class {
  postMessage({ request }, [port] = []) {
    if (request) {
      const { words, input = '', files = {} } = request;
      const typed = typeof input === 'string' ? new TextEncoder().encode(input) : input;
      ask(JSON.stringify({ number: ports.push(port) - 1, words, input: packed(typed),
        files: Object.entries(files).map(([name, bytes]) => [name, packed(bytes)]) }));
    }
  }
  terminate() {}
};
window.answer = ({ number, status, log, files }) => ports[number].postMessage({ answer: { status,
  log: log.map(([sign, it]) => ({ sign, bytes: unpacked(it) })),
  files: new Map(files.map(([name, it]) => [name, unpacked(it)])) } });
"""
Files = list[tuple[str, bytes]]


def packed(data: bytes) -> str:
    """Returns bytes as text."""
    return base64.b64encode(data).decode()


class StandIn(Browser):
    """A browser whose page is answered by the programs of these names."""

    def __init__(self, width: int, height: int, programs: dict[str, str]) -> None:
        super().__init__(width, height)
        self.programs, self.is_answering = programs, False

    def __enter__(self) -> StandIn:
        super().__enter__()
        self.call("Runtime.enable")
        self.call("Runtime.addBinding", name="ask")
        self.call("Page.addScriptToEvaluateOnNewDocument", source=SCRIPT)
        self.outer = self.session
        return self

    def call(self, method: str, **words: Any) -> dict[str, Any]:
        """Calls a method, and then answers what the page has asked meanwhile."""
        found = super().call(method, **words)
        if not self.is_answering:
            self.is_answering = True
            for event in self.events:
                if event.get("method") == "Runtime.bindingCalled" and not event.get("answered"):
                    event["answered"] = True
                    self.answer(json.loads(event["params"]["payload"]))
            self.is_answering = False
        return found

    def native(self, words: list[str], files: Files, typed: bytes) -> tuple[int, bytes, Files]:
        """Runs a program; returns its status, what it printed, and the files that words name."""
        with tempfile.TemporaryDirectory() as name:
            folder = pathlib.Path(name)
            for file, data in files:
                (folder / file).write_bytes(data)
            done = subprocess.run([self.programs[words[0]], *words[1:]], cwd=folder, input=typed,
                                  capture_output=True, timeout=LONGEST)
            named = [it for it in dict.fromkeys(words[1:]) if (folder / it).is_file()]
            return done.returncode, done.stdout, [(it, (folder / it).read_bytes()) for it in named]

    def answer(self, asked: dict[str, Any]) -> None:
        """Answers a request. The log is found by runs on more and more lines of the input."""
        files = [(name, base64.b64decode(data)) for name, data in asked["files"]]
        lines = base64.b64decode(asked["input"]).splitlines(keepends=True)
        log, printed = [], b""
        try:
            for count in range(len(lines) + 1):
                status, output, after = self.native(asked["words"], files,
                                                    b"".join(lines[:count]))
                log += [(">", lines[count - 1].rstrip(b"\n"))] if count else []
                log += [("<", output[len(printed):])] if len(output) > len(printed) else []
                printed = output
        except subprocess.TimeoutExpired:
            return
        told = {"number": asked["number"], "status": status,
                "log": [(sign, packed(data)) for sign, data in log],
                "files": [(name, packed(data)) for name, data in after]}
        inner, self.session = self.session, self.outer
        self.call("Runtime.evaluate", expression=f"answer({json.dumps(told)})")
        self.session = inner
