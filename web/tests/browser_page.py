#!/usr/bin/env python3
"""Uses the page in Chromium as people do, and says what isn't as it should be.

    web/tests/browser_page.py [PROGRAM] [--page PAGE] [--draw PROGRAM] [--settle PROGRAM]
                              [--native] [--only NAME] [--photographs FOLDER]

PROGRAM is posgame, and PAGE the built page, by default web/dist/posgame.html. Each function of the
page is used by the mouse, by keys, and by files that are opened and dropped. What is saved must be
what the native programs write, to the byte. With --native the page is made without the module, and
the native programs stand in for it: that tries the page's own script alone. With --photographs
pictures of the page are stored.

Needs chromium (Debian: apt-get install chromium), so the gate doesn't run it. Unproved.
"""
from __future__ import annotations

import contextlib
import json
import pathlib
import re
import sys
import tempfile
import time
from typing import Any, Callable, Iterator

TOP = pathlib.Path(__file__).resolve().parents[2]
sys.path += [str(TOP / "bench"), str(TOP / "web")]

import kit  # noqa: E402
import page as making  # noqa: E402
from browser import Browser  # noqa: E402
from stand_in import StandIn  # noqa: E402

PATIENCE, PHONE = 60.0, 360
# The shortest module of WebAssembly.
EMPTY = b"\0asm\1\0\0\0"
TIPPY = "posgame 1\nkind maker-breaker\ngrid 5 5\nshape 110/011\nturn x\n"
HARD = "posgame 1\nkind maker-breaker\ngrid 9 9\nshape 11110/00011\nturn x\n"
PAIRS = kit.EXAMPLES / "noughts-and-crosses.game", kit.EXAMPLES / "breaker-in-the-centre.cert"
MIDDLE = """(() => {
  const it = document.querySelectorAll(%s)[%d];
  it.scrollIntoView({block: 'center'});
  const box = it.getBoundingClientRect();
  return [box.x + box.width / 2, box.y + box.height / 2];
})()"""
IDLE = "document.getElementById('stop').disabled"
NAMELESS = ("button", "textbox", "combobox", "spinbutton", "radio", "link")
LANDMARKS = ("banner", "main", "region", "contentinfo")
# The middle of the first link of a position of the book to another, in its frame.
LINK = """(it => {
  it.scrollIntoView({block: 'center'});
  const box = it.getBoundingClientRect();
  return [box.x + box.width / 2, box.y + box.height / 2];
})([...document.querySelectorAll('section :is(ul, ol, p:not(.leave, .from)) a')]
  .find(it => it.getBoundingClientRect().width))"""
# What can be reached by Tab, and where the focus is among it.
USABLE = """window.usable = [...document.querySelectorAll(
  'button, select, input, textarea, summary, iframe, [tabindex]')].filter(it => !it.disabled &&
  it.tabIndex >= 0 && it.getClientRects().length && (it.type !== 'radio' || it.checked)); 0"""
FOCUS = "usable.indexOf(document.activeElement)"
# Counts what is said by the live region of runs.
HEARD = """window.heard = 0; new MutationObserver(all => {
  heard += all.filter(it => it.addedNodes.length).length;
}).observe(document.getElementById('running'), {childList: true}); 0"""
# Texts whose contrast to what is behind them is below 4.5 (WCAG 2.2, 1.4.3).
FAINT = """(() => {
  const brush = new OffscreenCanvas(1, 1).getContext('2d');
  const brightness = color => {
    brush.fillStyle = color;
    brush.fillRect(0, 0, 1, 1);
    const [red, green, blue] = [...brush.getImageData(0, 0, 1, 1).data].map(it => it / 255)
      .map(it => it <= 0.04045 ? it / 12.92 : ((it + 0.055) / 1.055) ** 2.4);
    return 0.2126 * red + 0.7152 * green + 0.0722 * blue + 0.05;
  };
  const behind = it => {
    const color = getComputedStyle(it).backgroundColor;
    return color === 'rgba(0, 0, 0, 0)' ? behind(it.parentElement) : color;
  };
  return [...document.body.querySelectorAll('*')].filter(it => it.getClientRects().length
    && !it.closest('svg, :disabled, .unseen') && [...it.childNodes].some(it => it.nodeType === 3
    && it.data.trim())).map(it => [it.textContent.trim().slice(0, 40),
      brightness(getComputedStyle(it).color) / brightness(behind(it))])
    .map(([text, ratio]) => [text, Math.max(ratio, 1 / ratio)])
    .filter(([, ratio]) => ratio < 4.5);
})()"""
# What is smaller than a finger needs (WCAG 2.2, 2.5.8).
SMALL = """[...document.querySelectorAll('button, select, input, summary')].filter(it =>
  it.getClientRects().length).map(it => [it.id || it.textContent || it.value,
    (it.type === 'radio' ? it.parentElement : it).getBoundingClientRect()]).filter(([, box]) =>
  box.width < 24 || box.height < 24).map(([name]) => name)"""


class Page:
    """The page in a browser, and what was wrong so far."""

    def __init__(self, browser: Browser, path: pathlib.Path, saved: pathlib.Path) -> None:
        self.browser, self.address, self.saved = browser, path.resolve().as_uri(), saved
        self.wrong: list[str] = []
        self.checks = 0
        browser.call("Runtime.enable")
        browser.call("Log.enable")
        browser.call("Page.setInterceptFileChooserDialog", enabled=True)
        browser.call("Page.setDownloadBehavior", behavior="allow", downloadPath=str(saved))
        self.open()

    def open(self) -> None:
        """Opens the page afresh."""
        self.browser.open(self.address)
        faults = [it for it in self.browser.events if it.get("method") in (
            "Runtime.exceptionThrown", "Log.entryAdded")]
        self.expect("faults at the beginning", faults, [])

    def expect(self, what: str, found: object, due: object) -> None:
        """Notes what differs from what is due."""
        self.checks += 1
        if found != due:
            self.wrong.append(f"{what}: {found!r}, not {due!r}")

    def says(self, what: str, place: str, pattern: str) -> None:
        """Expects that a place of the page says something."""
        text = self.text(place)
        self.expect(f"{what}: {text!r} has {pattern!r}", bool(re.search(pattern, text)), True)

    def js(self, expression: str) -> Any:
        """Evaluates an expression on the page."""
        return self.browser.evaluate(expression)

    def text(self, place: str) -> str:
        """Returns what an element says."""
        return str(self.js(f"document.getElementById('{place}').innerText"))

    def until(self, expression: str) -> None:
        """Waits until an expression holds."""
        ends = time.monotonic() + PATIENCE
        while not self.js(expression):
            if time.monotonic() > ends:
                raise OSError(f"never: {expression}")
            time.sleep(0.05)

    def done(self) -> None:
        """Waits until nothing runs any more."""
        for _ in range(3):
            self.until(IDLE)
            self.browser.settle()

    def click(self, selector: str, number: int = 0) -> None:
        """Clicks the middle of an element."""
        self.browser.click(*self.js(MIDDLE % (json.dumps(selector), number)))

    def press(self, name: str) -> None:
        """Clicks a button, and waits for what it runs."""
        self.click(f"#{name}")
        self.done()

    def set(self, name: str, value: object) -> None:
        """Sets a field of the form, as a person does who then leaves it."""
        self.js(f"(it => {{ it.value = {json.dumps(value)}; it.onchange?.(); }})"
                f"(document.getElementById('{name}'))")
        self.done()

    def use(self, text: str) -> None:
        """Types a game, and uses it."""
        self.js("document.querySelector('details').open = true")
        self.set("text", text)
        self.press("use-text")

    def tool(self, name: str) -> None:
        """Chooses what a click on the board does."""
        self.click(f"[name=tool][value={name}]")

    def choose(self, button: str, path: pathlib.Path) -> None:
        """Opens a file by a button."""
        self.browser.forget()
        self.click(f"#{button}")
        self.browser.wait("Page.fileChooserOpened")
        node = next(it["params"]["backendNodeId"] for it in self.browser.events
                    if it.get("method") == "Page.fileChooserOpened")
        self.browser.call("DOM.setFileInputFiles", files=[str(path)], backendNodeId=node)
        self.done()

    def drop(self, path: pathlib.Path) -> None:
        """Drops a file on the page."""
        data = {"items": [], "files": [str(path)], "dragOperationsMask": 1}
        for kind in "dragEnter", "dragOver", "drop":
            self.browser.call("Input.dispatchDragEvent", type=kind, x=300, y=30, data=data)
        time.sleep(0.2)
        self.done()

    def save(self, button: str, name: str) -> bytes:
        """Saves a file by a button, and returns its bytes."""
        path = self.saved / name
        path.unlink(missing_ok=True)
        self.press(button)
        ends = time.monotonic() + PATIENCE
        while not path.exists() and time.monotonic() < ends:
            time.sleep(0.05)
        time.sleep(0.1)
        return path.read_bytes() if path.exists() else b""


def solves(page: Page, posgame: str, _: str) -> None:
    """The games to begin with are solved as natively, and their certificates are the same."""
    for name in page.js("[...document.querySelectorAll('#example option')].map(it => it.value)"):
        if name and name != "An empty board":
            page.set("example", name)
            page.press("solve")
            text = page.js("document.getElementById('text').value")
            run, stored, is_accepted = kit.solved(posgame, text)
            page.expect(f"{name}: native", is_accepted, True)
            page.says(name, "result", "The proof was checked in this page")
            saved = page.save("save-certificate", "posgame.cert")
            page.expect(f"{name}: certificate", saved.decode(), stored)
            page.expect(f"{name}: game", page.save("save-game", "posgame.game").decode(), text)
    page.set("example", "Noughts and crosses")
    page.press("solve")
    page.says("noughts and crosses", "result", "with best play it is a draw")
    page.expect("its claims", len(page.js("[...document.querySelectorAll('#result p')]")), 4)


def draws_boards(page: Page, _: str, __: str) -> None:
    """Boards are drawn by clicks: a shape, lines, marks, bias and who moves first."""
    page.use("posgame 1\nkind maker-breaker\ngrid 3 3\nturn x\n")
    page.set("width", 5)
    page.set("height", 5)
    page.tool("choose")
    for cell in 0, 1, 6, 7:
        page.click("#board button", cell)
    page.press("add-shape")
    page.expect("drawn", page.js("document.getElementById('text').value"), TIPPY)
    page.press("solve")
    page.says("tippy", "result", r"X \(Maker\) moves first, X \(Maker\) wins")
    page.click("#sets button")
    page.expect("removed", page.js("document.querySelectorAll('#sets li').length"), 0)
    page.set("field", "points")
    page.set("width", 4)
    for ends in (0, 1), (0, 2), (0, 3):
        for point in ends:
            page.click("#board button", point)
        page.press("add-line")
    page.set("bias", 2)
    page.set("turn", "y")
    page.tool("mark")
    page.click("#board button", 1)
    page.click("#board button", 2)
    page.click("#board button", 2)
    page.expect("lines", page.js("document.getElementById('text').value"),
                "posgame 1\nkind maker-breaker\npoints 4\nbias 2\nline 0 1\nline 0 2\nline 0 3\n"
                "x 1\ny 2\nturn y\n")
    page.press("no-marks")
    page.press("solve")
    page.says("a star", "result", r"O \(Breaker\) wins")


def draws_graphs(page: Page, _: str, __: str) -> None:
    """A graph is drawn by clicks: vertices, edges, terminals, and parts that are erased."""
    page.set("kind", "switching")
    page.js("document.getElementById('board').scrollIntoView({block: 'center'})")
    page.tool("draw")
    x, y, size = page.js("(it => [it.x, it.y, it.width])(document.querySelector('#board svg')"
                         ".getBoundingClientRect())")
    x, y, size = page.js("(it => { it.scrollIntoView({block: 'center'}); const box ="
                         " it.getBoundingClientRect(); return [box.x, box.y, box.width]; })"
                         "(document.querySelector('#board svg'))")
    page.browser.click(x + size / 2, y + size / 2)
    page.expect("a fifth vertex", page.js("document.querySelectorAll('#board circle').length"), 5)
    for ends in (0, 2), (2, 1), (0, 4), (4, 1), (2, 4), (0, 3):
        for vertex in ends:
            page.click("#board [data-vertex]", vertex)
    page.expect("edges", page.js("document.querySelectorAll('#board [data-point]').length"), 6)
    page.tool("erase")
    page.click("#board [data-vertex]", 3)
    page.tool("ends")
    page.click("#board [data-vertex]", 1)
    page.click("#board [data-vertex]", 0)
    text = page.js("document.getElementById('text').value")
    page.expect("graph", re.sub("# at.*\n", "", text),
                "posgame 1\nkind switching\nvertices 4\nterminals 1 0\nedge 0 2\nedge 2 1\n"
                "edge 0 3\nedge 3 1\nedge 2 3\nturn x\n")
    page.press("solve")
    page.says("the diamond", "result", "Whoever moves first wins")
    page.press("add-vertex")
    page.expect("a vertex more", page.js("document.querySelectorAll('#board circle').length"), 5)


def stops(page: Page, _: str, __: str) -> None:
    """A longer search answers; one that is stopped says so, and the page goes on."""
    page.use(TIPPY)
    page.press("settle")
    page.says("settled", "result", "The proof was checked in this page")
    page.use(HARD)
    page.set("positions", 100_000_000)
    page.js(HEARD)
    page.click("#settle")
    page.until("/Running for [2-9]/.test(document.getElementById('busy').textContent)")
    page.expect("said once", page.js("heard"), 1)
    page.expect("can be stopped", page.js(IDLE), False)
    page.press("stop")
    page.says("stopped", "result", "Stopped: nothing is decided")
    page.set("positions", 100)
    page.press("settle")
    page.says("open", "result", "No answer was found by looking at 100 positions")
    page.click("#solve")
    page.use(TIPPY)
    page.press("solve")
    page.says("after that", "result", r"X \(Maker\) wins")


def checks(page: Page, _: str, __: str) -> None:
    """Games and certificates are opened and dropped; what is wrong is said in words."""
    page.choose("open", PAIRS[0])
    page.expect("opened", page.js("document.getElementById('text').value"), PAIRS[0].read_text())
    page.drop(PAIRS[1])
    page.says("dropped", "result", r"If X \(Maker\) moves first, O \(Breaker\) wins")
    page.choose("open-proof", PAIRS[1])
    page.says("chosen", "result", "The proof was checked in this page. It has 1 position\\.")
    page.drop(kit.EXAMPLES / "a-pair-missing.cert")
    page.says("a pair missing", "result", r"proves nothing of this game.*node 0.*\(J6\)")
    page.use("posgame 1\nkind maker-breaker\ngrid 3 3\nline 0 9\nturn x\n")
    page.says("a fault", "hint", r"line 4: a point or a vertex is out of range \(G7\).*line 0 9")
    for name in "triangle-connectivity.game", "six-vectors.game":
        page.drop(kit.EXAMPLES / name)
        page.says(name, "hint", r"isn't `posgame 1` .*\(G3\)\. The line is .posgame-")
    page.drop(kit.EXAMPLES / "empty-board-both.game")
    page.drop(kit.EXAMPLES / "two-children.record")
    page.says("a record", "result", "lost value")
    page.drop(kit.EXAMPLES / "takes-back-too-much.record")
    page.says("a record's fault", "result", r"The record has a fault in line .*\(F6\)")


def plays(page: Page, posgame: str, _: str) -> None:
    """A play against the proof, with a reply that is taken back, its record and its review."""
    page.use(PAIRS[0].read_text())
    page.drop(PAIRS[1])
    free = "[...document.querySelectorAll('#table button')].findIndex(it => !it.textContent)"
    counts, over = [], "/is over/.test(document.getElementById('play-said').textContent)"
    while not page.js(over) and len(counts) < 9:
        page.click("#table button", page.js(free))
        page.done()
        counts.append(page.js("document.querySelectorAll('#table .x, #table .y').length"))
    page.expect("marks", counts, [3, 5, 7])
    page.says("over", "play-said", r"The play is over. O \(Breaker\) wins")
    page.press("undo")
    page.says("taken back", "play-said", r"X \(Maker\): choose a free point")
    record = page.save("save-record", "posgame.record").decode()
    page.expect("record", (record.startswith("posgame-record 1\nmove"), record.count("move")),
                (True, 4))
    page.press("review")
    page.says("reviewed", "play-said", "4 moves were reviewed, 0 of them lost value")
    page.use("posgame 1\nkind switching\nvertices 4\nterminals 0 1\nedge 0 2\nedge 0 3\nedge 2 3\n"
             "edge 2 1\nedge 3 1\nturn x\n")
    page.press("solve")
    page.says("the proof begins", "play-said", "The proof takes edge")
    free = "[...document.querySelectorAll('#table g[data-point]')].findIndex(it =>" \
        " it.ariaLabel.endsWith('free'))"
    for _ in range(2):
        if not page.js(over):
            page.click("#table g[data-point] .hit", page.js(free))
            page.done()
    page.says("joined", "play-said", r"The play is over. X \(Short\) wins")


def shows(page: Page, _: str, draw: str) -> None:
    """Pictures are shown, and saved as natively."""
    page.use(TIPPY)
    page.press("show-picture")
    page.expect("a board", page.js("document.getElementById('picture').naturalWidth > 100"), True)
    page.expect("its name", page.js("document.getElementById('picture').alt"), "The board, drawn")
    page.press("solve")
    certificate = page.save("save-certificate", "posgame.cert").decode()
    with kit.files(game=TIPPY, certificate=certificate) as folder:
        native = kit.call(draw, folder / "game", folder / "certificate").stdout
    page.expect("picture", page.save("save-picture", "posgame.svg").decode(), native)


def shows_books(page: Page, _: str, draw: str) -> None:
    """A book is shown, and saved as natively; its links lead on."""
    page.use(TIPPY)
    page.press("solve")
    page.press("show-book")
    page.says("where it is", "book-said", "The book is below")
    page.expect("closed to scripts", page.js("document.getElementById('book').sandbox.value"), "")
    certificate = page.save("save-certificate", "posgame.cert").decode()
    with kit.files(game=TIPPY, certificate=certificate) as folder:
        native = kit.call(draw, "--book", folder / "game", folder / "certificate").stdout
    page.expect("book", page.save("save-book", "posgame.html").decode(), native)
    page.js("document.getElementById('book').scrollIntoView({block: 'center'})")
    time.sleep(0.5)
    page.js("document.getElementById('save-book').focus()")
    page.browser.press("Tab")
    time.sleep(0.5)
    page.expect("Tab leads into it", page.js("document.activeElement.id"), "book")
    page.expect("pages of the book", follow_link(page), ["p1", "p2"])


@contextlib.contextmanager
def in_book(page: Page) -> Iterator[None]:
    """Has the page's calls go to the frame of the book, which is a process of its own."""
    call, outer, frames = page.browser.call, page.browser.session, []
    ends = time.monotonic() + PATIENCE
    while not frames and time.monotonic() < ends:
        page.browser.forget()
        for is_on in False, True:
            call("Target.setAutoAttach", autoAttach=is_on, waitForDebuggerOnStart=False,
                 flatten=True)
        page.browser.settle()
        frames = [it["params"]["sessionId"] for it in page.browser.events
                  if it.get("method") == "Target.attachedToTarget"
                  and it["params"]["targetInfo"]["type"] == "iframe"]
    page.browser.session = frames[-1] if frames else outer
    try:
        yield
    finally:
        page.browser.session = outer


def follow_link(page: Page) -> list[str]:
    """Clicks the first link of the book, and returns which pages were shown before and after."""
    shown = "[...document.querySelectorAll('section')].filter(it =>" \
        " getComputedStyle(it).display !== 'none').map(it => it.id)[0]"
    with in_book(page):
        page.until(shown)
        before = page.js(shown)
        across, down = page.js(LINK)
    # What scrolls in the frame may move the page around it, somewhat later.
    time.sleep(1)
    left, top = page.js("(it => (box => [box.x + it.clientLeft, box.y + it.clientTop])"
                        "(it.getBoundingClientRect()))(document.getElementById('book'))")
    page.browser.click(left + across, top + down)
    with in_book(page):
        page.until(f"{shown} !== {json.dumps(before)}")
        return [before, page.js(shown)]


def keys(page: Page, _: str, __: str) -> None:
    """The board is used by keys alone, and everything has a name for a screen reader."""
    page.use(TIPPY)
    page.js("document.getElementById('board').querySelector('[tabindex=\"0\"]').focus()")
    page.browser.press("ArrowDown")
    page.browser.press(" ")
    page.browser.press("ArrowDown")
    page.browser.press("Enter")
    page.expect("marks by keys", re.findall("^[xy] .*", page.js(
        "document.getElementById('text').value"), re.MULTILINE), ["x 5 10"])
    page.expect("focus", page.js("document.activeElement.ariaLabel"), "row 3, column 1: X")
    stops = page.js("[...document.querySelectorAll('#board [tabindex=\"0\"]')].length")
    page.expect("stops of Tab on the board", stops, 1)
    page.press("solve")
    page.set("kind", "switching")
    page.tool("draw")
    page.js("document.querySelector('#board [tabindex=\"0\"]').focus()")
    for key in "Enter", "ArrowDown", "Enter":
        page.browser.press(key)
    page.expect("an edge by keys", page.js("document.querySelectorAll('#board .edge').length"), 1)
    page.browser.call("Accessibility.enable")
    tree = page.browser.call("Accessibility.getFullAXTree")["nodes"]
    nameless = [it["role"]["value"] for it in tree if not it.get("ignored")
                and it.get("role", {}).get("value") in NAMELESS
                and not it.get("name", {}).get("value")]
    page.expect("without a name", nameless, [])


def tabs(page: Page, _: str, __: str) -> None:
    """Tab leads to all that can be used, in order; a game is solved and played by keys alone."""
    page.use(TIPPY)
    page.press("solve")
    page.js(USABLE)
    page.js("document.body.tabIndex = -1, document.body.focus()")
    order = []
    for _ in range(page.js("usable.length")):
        page.browser.press("Tab")
        order.append(page.js(FOCUS))
    page.expect("order of Tab", order, list(range(len(order))))
    page.expect("stops of Tab", len(order) > 25, True)
    page.open()
    page.set("example", "Tippy on 5 by 5")
    for place, keys_there in ("#solve", ["Enter"]), ("#table *", ["ArrowDown", "Enter"]):
        for _ in range(60):
            if page.js(f"document.activeElement.matches({json.dumps(place)})"):
                break
            page.browser.press("Tab")
        for key in keys_there:
            page.browser.press(key)
        page.done()
    marks = page.js("document.querySelectorAll('#table .x, #table .y').length")
    page.expect("marks after a reply", marks, 3)
    page.expect("focus", page.js("document.activeElement.ariaLabel").endswith(": O"), True)
    page.js("document.querySelector('#sets button').focus()")
    page.browser.press("Enter")
    page.expect("focus after the last set", page.js("document.activeElement.id"), "no-marks")


def speaks(page: Page, _: str, __: str) -> None:
    """Landmarks and headings lead through the page, and live regions say what is answered."""
    page.set("example", "Tippy on 5 by 5")
    page.press("solve")
    page.browser.call("Accessibility.enable")
    tree = [it for it in page.browser.call("Accessibility.getFullAXTree")["nodes"]
            if not it.get("ignored")]
    roles = [it["role"]["value"] for it in tree]
    page.expect("landmarks", sorted(it for it in roles if it in LANDMARKS),
                ["banner", "contentinfo", "main", "region", "region", "region"])
    regions = [it["name"]["value"] for it in tree if it["role"]["value"] == "region"]
    page.expect("regions", regions, ["1. The game", "2. Who wins?", "3. The proof"])
    levels = [prop["value"]["value"] for it in tree if it["role"]["value"] == "heading"
              for prop in it["properties"] if prop["name"] == "level"]
    page.expect("headings", levels, [1, 2, 3, 2, 2, 3, 3, 3])
    live = [prop["value"]["value"] for it in tree if it["role"]["value"] == "status"
            for prop in it["properties"] if prop["name"] == "live"]
    page.expect("live regions", live, ["polite"] * 6)
    said = page.js("[...document.querySelectorAll('[role=status]')].map(it => it.innerText)"
                   ".join(' ')")
    page.expect("said", re.findall("wins|The proof takes|choose a free point", said),
                ["wins", "The proof takes", "choose a free point"])


def reads(page: Page, _: str, __: str) -> None:
    """Texts have contrast, light and dark, and nothing is too small for a finger."""
    for name in "Tippy on 5 by 5", "Bridg-It":
        page.set("example", name)
        page.press("solve")
        page.js("document.querySelector('details').open = true")
        if name != "Bridg-It":
            page.click("#table button", 12)
            page.done()
        for scheme, width in ("light", 1100), ("dark", PHONE):
            page.browser.emulate(scheme=scheme, width=width)
            page.browser.settle()
            page.expect(f"{name}, {scheme}: faint", page.js(FAINT), [])
            page.expect(f"{name}, {scheme}: small", page.js(SMALL), [])
        page.browser.emulate()
        page.browser.call("Emulation.clearDeviceMetricsOverride")


def closes(page: Page, _: str, __: str) -> None:
    """The page fetches, sends and runs nothing from outside."""
    for what, expression in {
            "fetch": "fetch('https://example.org/').then(() => 'sent', () => 'refused')",
            "picture": "new Promise(done => { const it = new Image(); it.onload = () =>"
                       " done('sent'); it.onerror = () => done('refused');"
                       " it.src = 'https://example.org/a.png'; })",
            "script": "(() => { const it = document.createElement('script'); it.textContent ="
                      " 'window.ran = 1'; document.body.append(it); return window.ran ? 'sent'"
                      " : 'refused'; })()",
    }.items():
        page.expect(what, page.js(expression), "refused")
    names = page.js("performance.getEntriesByType('resource').map(it => it.name)"
                    ".filter(it => !/^(blob|data):/.test(it))")
    page.expect("loaded", [it for it in names if "example.org" not in it], [])
    page.expect("kept", page.js("document.cookie.length + performance.now() * 0"), 0)


def fits(page: Page, _: str, __: str) -> None:
    """The page is no wider than a phone, with small and large boards."""
    page.browser.emulate(width=PHONE)
    for text in (TIPPY, "posgame 1\nkind maker-breaker\ngrid 16 16\nturn x\n",
                 "posgame 1\nkind maker-breaker\npoints 120\nturn x\n"):
        page.use(text)
        width = page.js("document.documentElement.scrollWidth")
        page.expect("width", width <= PHONE, True)
    page.set("example", "Bridg-It")
    page.press("solve")
    page.press("show-picture")
    page.press("show-book")
    page.expect("width", page.js("document.documentElement.scrollWidth <= 360"), True)
    page.browser.call("Emulation.clearDeviceMetricsOverride")


PARTS: list[Callable[[Page, str, str], None]] = [
    solves, draws_boards, draws_graphs, stops, checks, plays, shows, shows_books, keys, tabs,
    speaks, reads, closes, fits]


def shoot(page: Page, path: pathlib.Path, width: int, scheme: str, part: str = "html") -> None:
    """Stores a picture of a part of the page in a window of a width. The frame of a book, which may
    be a process of its own, takes a while to be drawn anew."""
    for height in 900, 0:
        page.browser.size = width, height or page.js("document.documentElement.scrollHeight")
        page.browser.emulate(width=width, scheme=scheme)
        page.browser.settle()
    page.js("document.activeElement.blur(), scrollTo(0, 0)")
    time.sleep(3)
    page.browser.photograph(path, page.js(
        "(it => ({x: it.x, y: it.y, width: it.width, height: it.height}))"
        f"(document.querySelector({json.dumps(part)}).getBoundingClientRect())"))


def photograph(page: Page, folder: pathlib.Path) -> None:
    """Stores pictures of the page: a book, and games that were solved and are played; light and
    dark, on a desk and a phone."""
    folder.mkdir(exist_ok=True)
    looks = ("", 1100, "light"), ("-dark", 1100, "dark"), ("-phone", PHONE, "light")
    page.set("example", "Tippy on 5 by 5")
    page.press("solve")
    page.press("show-book")
    page.js("document.getElementById('book').scrollIntoView({block: 'center'})")
    time.sleep(0.5)
    follow_link(page)
    for name, width, scheme in looks:
        shoot(page, folder / f"book{name}.png", width, scheme, "section:last-child")
    page.open()
    page.set("example", "Tippy on 5 by 5")
    page.press("solve")
    page.click("#table button", 12)
    page.done()
    for name, width, scheme in looks:
        shoot(page, folder / f"page{name}.png", width, scheme)
    page.set("example", "Bridg-It")
    page.press("solve")
    page.press("show-picture")
    for name, width, scheme in looks:
        shoot(page, folder / f"graph{name}.png", width, scheme)


def main() -> int:
    given = kit.options(__doc__, "posgame",
                        page=(str(TOP / "web" / "dist" / "posgame.html"), "the page"),
                        draw=(str(kit.built("posgame_draw")), "the program posgame-draw"),
                        settle=(str(kit.built("posgame_settle")), "the program posgame-settle"),
                        native=(False, "the programs stand in for the module"),
                        only=("", "the part of this name"), photographs=(None, "a folder"))
    size = 1100, 900
    programs = {"posgame": given.program, "posgame-draw": given.draw,
                "posgame-settle": given.settle}
    with tempfile.TemporaryDirectory() as saved, \
            StandIn(*size, programs) if given.native else Browser(*size) as browser:
        path = pathlib.Path(given.page)
        if given.native:
            path = pathlib.Path(saved) / "page.html"
            path.write_text(making.page(EMPTY), encoding="utf-8")
        page = Page(browser, path, pathlib.Path(saved))
        for part in PARTS:
            if given.only in ("", part.__name__):
                begun = time.monotonic()
                page.open()
                part(page, given.program, given.draw)
                print(f"{part.__name__}: {page.checks} checks so far, {len(page.wrong)} wrong, "
                      f"{time.monotonic() - begun:.0f} s", flush=True)
        if given.photographs:
            page.open()
            photograph(page, pathlib.Path(given.photographs))
    for text in page.wrong:
        print(f"wrong: {text}")
    return int(bool(page.wrong))


if __name__ == "__main__":
    raise SystemExit(main())
