"""Drives Chromium without a window by its debugging protocol: pages are opened, clicked, tabbed
through, printed and photographed. The standard library serves alone: the protocol's messages are
lines of JSON over a WebSocket, of which this file has a small client (RFC 6455). Used by
bench/pages.py, and tried by `python3 -m unittest discover -s bench` as far as no browser is needed.
Unproved.
"""
from __future__ import annotations

import base64
import hashlib
import json
import os
import pathlib
import shutil
import socket
import struct
import subprocess
import tempfile
import time
from typing import Any, Callable, NamedTuple, Optional

# What RFC 6455 adds to a key before its sum is taken.
KEY_SUFFIX = b"258EAFA5-E914-47DA-95CA-C5AB0DC85B11"
TEXT, CLOSE, PING, PONG = 1, 8, 9, 10
# How long a page, or the browser's start, may take, in seconds.
PATIENCE = 120.0
# Resolves when two frames have been drawn after it is called.
DRAWN = "new Promise(done => requestAnimationFrame(() => requestAnimationFrame(() => done({}))))"
# Codes of keys that move or choose.
KEYS = {"Tab": 9, "Enter": 13, " ": 32, "ArrowDown": 40}

Read = Callable[[int], bytes]


class Frame(NamedTuple):
    """A part of a message."""

    is_last: bool
    code: int
    payload: bytes


def accept_key(key: bytes) -> str:
    """Returns what a server must answer to a key."""
    return base64.b64encode(hashlib.sha1(key + KEY_SUFFIX).digest()).decode()


def masked(payload: bytes, mask: bytes) -> bytes:
    """Returns bytes changed by a mask of four bytes; by the same mask they are changed back."""
    turned = mask * (len(payload) // 4 + 1)
    size = len(payload)
    number = int.from_bytes(payload, "big") ^ int.from_bytes(turned[:size], "big")
    return number.to_bytes(size, "big")


def frame_bytes(code: int, payload: bytes, mask: bytes) -> bytes:
    """Returns a whole message of a client as one frame."""
    size = len(payload)
    if size < 126:
        head = struct.pack("!BB", 128 | code, 128 | size)
    elif size < 1 << 16:
        head = struct.pack("!BBH", 128 | code, 128 | 126, size)
    else:
        head = struct.pack("!BBQ", 128 | code, 128 | 127, size)
    return head + mask + masked(payload, mask)


def read_frame(read: Read) -> Frame:
    """Reads a frame; `read` returns as many bytes as it is asked for."""
    first, second = read(2)
    size = second & 127
    if size == 126:
        size, = struct.unpack("!H", read(2))
    elif size == 127:
        size, = struct.unpack("!Q", read(8))
    mask = read(4) if second & 128 else b"\0\0\0\0"
    return Frame(bool(first & 128), first & 15, masked(read(size), mask))


class Socket:
    """A WebSocket of a client."""

    def __init__(self, port: int, path: str) -> None:
        self.stream = socket.create_connection(("127.0.0.1", port), PATIENCE)
        self.ahead = b""
        key = base64.b64encode(os.urandom(16))
        lines = [f"GET {path} HTTP/1.1", f"Host: 127.0.0.1:{port}", "Upgrade: websocket",
                 "Connection: Upgrade", f"Sec-WebSocket-Key: {key.decode()}",
                 "Sec-WebSocket-Version: 13", "", ""]
        self.stream.sendall("\r\n".join(lines).encode())
        head = self.read_head()
        if " 101 " not in head or accept_key(key) not in head:
            raise OSError(f"no WebSocket: {head.splitlines()[0]}")

    def read_head(self) -> str:
        """Reads the answer to the request; what follows it is kept."""
        while b"\r\n\r\n" not in self.ahead:
            self.ahead += self.stream.recv(4096)
        head, self.ahead = self.ahead.split(b"\r\n\r\n", 1)
        return head.decode()

    def read(self, size: int) -> bytes:
        """Reads so many bytes."""
        parts = [self.ahead]
        count = len(self.ahead)
        while count < size:
            parts.append(self.stream.recv(1 << 16))
            count += len(parts[-1])
            if not parts[-1]:
                raise OSError("the browser has ended")
        every = b"".join(parts)
        self.ahead = every[size:]
        return every[:size]

    def send(self, text: str) -> None:
        """Sends a message."""
        self.stream.sendall(frame_bytes(TEXT, text.encode(), os.urandom(4)))

    def receive(self) -> str:
        """Receives a message; a ping is answered."""
        parts = []
        while True:
            frame = read_frame(self.read)
            if frame.code == PING:
                self.stream.sendall(frame_bytes(PONG, frame.payload, os.urandom(4)))
            elif frame.code == CLOSE:
                raise OSError("the browser has closed the connection")
            else:
                parts.append(frame.payload)
                if frame.is_last:
                    return b"".join(parts).decode()


class Browser:
    """A browser that was started, with one page; it ends with its `with`."""

    def __init__(self, width: int = 1000, height: int = 900) -> None:
        self.size, self.number, self.session = (width, height), 0, ""
        self.events: list[dict[str, Any]] = []

    def __enter__(self) -> Browser:
        program = shutil.which("chromium") or shutil.which("chromium-browser")
        if program is None:
            raise OSError("there is no chromium on the PATH")
        self.profile = tempfile.TemporaryDirectory(ignore_cleanup_errors=True)
        flags = ["--headless=new", "--no-sandbox", "--disable-gpu", "--remote-debugging-port=0",
                 f"--window-size={self.size[0]},{self.size[1]}", "--no-first-run",
                 "--disable-background-networking", "--disable-ipc-flooding-protection",
                 f"--user-data-dir={self.profile.name}"]
        self.process = subprocess.Popen([program, *flags, "about:blank"],
                                        stdout=subprocess.DEVNULL, stderr=subprocess.DEVNULL)
        port, path = self.read_port()
        self.socket = Socket(port, path)
        target = self.call("Target.createTarget", url="about:blank")["targetId"]
        found = self.call("Target.attachToTarget", targetId=target, flatten=True)
        self.session = found["sessionId"]
        self.call("Page.enable")
        self.call("Page.setLifecycleEventsEnabled", enabled=True)
        self.call("Performance.enable", timeDomain="threadTicks")
        return self

    def __exit__(self, *_: object) -> None:
        self.process.terminate()
        self.process.wait(PATIENCE)
        self.profile.cleanup()

    def read_port(self) -> tuple[int, str]:
        """Waits for the file in which the browser says where it listens."""
        told = pathlib.Path(self.profile.name) / "DevToolsActivePort"
        ends = time.monotonic() + PATIENCE
        while time.monotonic() < ends:
            lines = told.read_text().splitlines() if told.exists() else []
            if len(lines) == 2:
                return int(lines[0]), lines[1]
            time.sleep(0.05)
        raise OSError("the browser doesn't listen")

    def call(self, method: str, **words: Any) -> dict[str, Any]:
        """Calls a method of the protocol, and returns what it answers."""
        self.number += 1
        message = {"id": self.number, "method": method, "params": words}
        if self.session:
            message["sessionId"] = self.session
        self.socket.send(json.dumps(message))
        while True:
            found = json.loads(self.socket.receive())
            if found.get("id") == self.number:
                if "error" in found:
                    raise OSError(f"{method}: {found['error']['message']}")
                return dict(found["result"])
            self.events.append(found)

    def wait(self, event: str, **due: str) -> None:
        """Waits for an event of the page with these parameters, after the last call of `forget`."""
        while not any(it.get("method") == event and due.items() <= it["params"].items()
                      for it in self.events):
            self.events.append(json.loads(self.socket.receive()))

    def forget(self) -> None:
        """Forgets the events that came."""
        self.events.clear()

    def evaluate(self, expression: str) -> Any:
        """Evaluates an expression of JavaScript on the page; a promise is waited for."""
        found = self.call("Runtime.evaluate", expression=expression, awaitPromise=True,
                          returnByValue=True)
        if "exceptionDetails" in found:
            raise OSError(f"{expression}: {found['exceptionDetails']['text']}")
        return found["result"].get("value")

    def open(self, address: str) -> float:
        """Opens a page, and returns the milliseconds until it was drawn."""
        self.forget()
        loader = self.call("Page.navigate", url=address)["loaderId"]
        self.wait("Page.lifecycleEvent", name="load", loaderId=loader)
        return self.settle()

    def settle(self) -> float:
        """Waits until the page is drawn as it is, and returns its age in milliseconds."""
        return float(self.evaluate(DRAWN.format("performance.now()")))

    def busy(self) -> float:
        """Returns the milliseconds of a processor that the page's thread has taken since the page
        was opened: the count begins anew with each page."""
        found = self.call("Performance.getMetrics")["metrics"]
        return 1000 * next(float(it["value"]) for it in found if it["name"] == "TaskDuration")

    def click(self, across: float, down: float) -> None:
        """Clicks at a place of the window."""
        for kind in "mousePressed", "mouseReleased":
            self.call("Input.dispatchMouseEvent", type=kind, x=across, y=down, button="left",
                      clickCount=1)

    def press(self, key: str) -> None:
        """Presses a key and releases it."""
        words: dict[str, Any] = {"key": key, "windowsVirtualKeyCode": KEYS[key]}
        typed = {"Enter": "\r", " ": " "}.get(key)
        down = {"type": "keyDown", "text": typed} if typed else {"type": "rawKeyDown"}
        self.call("Input.dispatchKeyEvent", **down, **words)
        self.call("Input.dispatchKeyEvent", type="keyUp", **words)

    def emulate(self, medium: str = "", scheme: str = "light", width: int = 0) -> None:
        """Shows the page in a medium (`print`, or none in particular), in a colour scheme, and in a
        window of so many pixels if this isn't 0."""
        features = [{"name": "prefers-color-scheme", "value": scheme}]
        self.call("Emulation.setEmulatedMedia", media=medium, features=features)
        if width:
            self.call("Emulation.setDeviceMetricsOverride", width=width, height=self.size[1],
                      deviceScaleFactor=1, mobile=False)

    def photograph(self, path: pathlib.Path, clip: Optional[dict[str, float]] = None) -> None:
        """Stores what the window shows, or a part of it, as PNG."""
        words: dict[str, Any] = {"clip": {**clip, "scale": 1}} if clip else {}
        found = self.call("Page.captureScreenshot", format="png", **words)
        path.write_bytes(base64.b64decode(found["data"]))

    def printed(self) -> bytes:
        """Returns the page as it is printed, as PDF."""
        return base64.b64decode(self.call("Page.printToPDF")["data"])
