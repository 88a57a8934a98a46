#!/usr/bin/env python3
"""Plays the books of `posgame-draw --book` in Chromium, as a reader does, and measures them.

    bench/pages.py [PROGRAM] [--book NAME] [--times N] [--photographs FOLDER]

PROGRAM is posgame-draw. For each pair of files in bench/pages.txt, or the one of that name, its
book is made and opened, and then

- every page that its links lead to is visited: each ring in a picture is clicked by the mouse, and
  then each link of the list; after each click one section alone must be shown, that of the link,
  and Back must lead back;
- the rings of a page and the links of its list must be those of the node in the certificate, which
  this script reads itself (of two trees or two cuts those of the tree of play, which
  bench/played.py works out), on cells and discs both sides must have as many points as the node
  marks, and the page must name a page that leads to it;
- each choice of a pair is clicked: its two marks must be seen, and "Take all back" hides them;
  one is also made and taken back by keys;
- the page with most links is tabbed through: Tab must reach each link of its list, and Enter must
  follow one;
- of a book with a layout the rings in its pictures must be at the places of its points;
- of a connectivity game or a game on vectors the table of each page is the one that
  bench/tables.py reads from the files, and the front leads to each page;
- it is printed: every section must be on paper, and one alone if it was chosen before;
- `xmllint` must find no error in it but names of elements that are younger than its list;
- the milliseconds until it was drawn, and until a link's page was, are measured (limits 600 and
  100), and those that the page's thread took of a processor (busy).

With --photographs it stores the pictures of books for the documents in a folder instead.

Needs chromium and xmllint (Debian: apt-get install chromium libxml2-utils), so the gate doesn't run
it. Unproved.
"""
from __future__ import annotations

import pathlib
import re
import shutil
import subprocess
import time
from typing import Any, Iterable, Iterator, NamedTuple

import kit
import played
import tables
from browser import Browser

LOAD, JUMP = 600, 100
# How long the browser may take to go back, in seconds.
PATIENCE = 10.0
# The tags of HTML 5 and SVG that xmllint's list lacks.
YOUNG = re.compile(r"Tag (section|header|main|summary|details|svg|rect|circle|line|text|g|title|"
                   r"foreignobject|foreignObject) invalid")
RINGS = "[...document.querySelectorAll('circle.reply')]" \
    ".map(it => [it.cx.baseVal.value, it.cy.baseVal.value])"
TABLE = "[...%s.querySelectorAll('tr')].map(row => [...row.children].map(it => it.textContent))"
FRONT = "header a"

# What is seen of the page, in JavaScript. `SHOWN` is the one section that is displayed.
SECTIONS = "[...document.querySelectorAll('section')]"
SEEN = f"{SECTIONS}.filter(it => getComputedStyle(it).display !== 'none')"
SHOWN = f"{SEEN}[0]"
IDS = f"{SEEN}.map(it => it.id)"
LINK_PLACES = {"ring": "svg a", "list": "ul a, ol a, p:not(.leave, .from) a"}
HREFS = f"[...{SHOWN}.querySelectorAll('%s')].map(it => it.getAttribute('href').slice(1))"
MARKS = f"['.of-x', '.of-y'].map(it => {SHOWN}.querySelectorAll(`svg ${{it}}`).length -" \
    f" {SHOWN}.querySelectorAll(`.choice ${{it}}`).length)"
MIDDLE = """(() => {
  const it = [...%s.querySelectorAll('%s')][%d];
  it.scrollIntoView({block: 'center'});
  const box = it.getBoundingClientRect();
  return [box.x + box.width / 2, box.y + box.height / 2];
})()"""
CHOSEN = f"[...{SHOWN}.querySelectorAll('.chosen')]" \
    ".map(it => getComputedStyle(it).display !== 'none')"
FOCUSED = "document.activeElement.getAttribute('href') || document.activeElement.tagName"
JUMPED = """new Promise(done => {
  const jump = () => {
    const link = document.querySelector('section:target a, .first a'), since = performance.now();
    link.dispatchEvent(new MouseEvent('click', {bubbles: true, cancelable: true}));
    requestAnimationFrame(() => requestAnimationFrame(() => done(performance.now() - since)));
  };
  if (document.readyState === 'complete') jump(); else addEventListener('load', jump);
})"""


BOX = "(it => [it.x + scrollX, it.y + scrollY, it.width, it.height])" \
    f"({SHOWN}.getBoundingClientRect())"


class Photograph(NamedTuple):
    """A picture of a page for the documents, and which choices of its pairs are made before."""

    name: str
    game: str
    cert: str
    page: str
    choices: tuple[int, ...]


PHOTOGRAPHS = (
    Photograph("book-pairs", "noughts-and-crosses.game", "breaker-in-the-centre.cert", "p1",
               (0, 3)),
    Photograph("book-replies", "empty-board-maker.game", "maker-fills-a-line.cert", "p2", ()),
)
# The width and the height of a photograph's window, and what is left free around its section.
WINDOW, HEIGHT, MARGIN = 420, 1400, 8


class Node(NamedTuple):
    """A node of a certificate, as far as its page shows it."""

    x: int
    y: int
    pairs: int
    children: tuple[int, ...]


def node_of(row: str) -> Node:
    """Returns the node of a line of a certificate."""
    x, y, _, body = row.split("|")
    name, *words = body.split()
    children: list[int] = []
    if name == "all":
        children = [int(word.split(":")[1]) for word in words]
    elif name == "move":
        children = [int(words[1])]
    elif name == "weaker":
        children = [int(words[0])]
    pairs = len(words) if name == "pairs" else 0
    return Node(len(x.split()), len(y.split()), pairs, tuple(children))


def nodes_of(text: str) -> list[list[Node]]:
    """Returns the nodes of each claim of a certificate without images."""
    claims: list[list[Node]] = []
    for row in text.splitlines():
        if row.startswith("claim "):
            claims.append([])
        elif "|" in row and not row.startswith("#"):
            claims[-1].append(node_of(row))
    return claims


def pages_of(text: str) -> dict[str, tuple[Node, list[str]]]:
    """Returns the node of each page by the page's identity, and where its links must lead."""
    pages: dict[str, tuple[Node, list[str]]] = {}
    for claim, nodes in enumerate(nodes_of(text)):
        prefix = f"p{claim + 1}-" if claim else "p"
        names = [f"{prefix}{len(nodes) - number}" for number in range(len(nodes))]
        for name, node in zip(names, nodes):
            pages[name] = node, [names[child] for child in node.children]
    return pages


class Player:
    """Plays through a book in a browser, and notes what is wrong."""

    def __init__(self, browser: Browser, pages: dict[str, tuple[Node, list[str]]],
                 has_graph: bool = False) -> None:
        self.browser, self.pages, self.has_graph = browser, pages, has_graph
        self.wrong: list[str] = []
        self.clicks = self.choices = self.stops = 0

    def expect(self, what: str, found: object, due: object) -> None:
        """Notes what differs from what is due."""
        if found != due:
            self.wrong.append(f"{what}: {found}, not {due}")

    def shown(self) -> list[str]:
        """Returns the identities of the sections that are shown."""
        return list(self.browser.evaluate(IDS))

    def go(self, page: str) -> None:
        """Goes to a page by its address."""
        self.browser.evaluate(f"location.hash = '#{page}'")

    def click(self, selector: str, number: int) -> None:
        """Clicks the middle of one of the elements of the shown section."""
        self.browser.click(*self.browser.evaluate(MIDDLE % (SHOWN, selector, number)))
        self.clicks += 1

    def visit(self, page: str, way: str) -> list[str]:
        """Clicks each link of a page, in its picture or in its list, and comes back after each.
        Returns where they lead."""
        places = LINK_PLACES[way]
        self.go(page)
        node, due = self.pages[page]
        found = list(self.browser.evaluate(HREFS % places))
        is_list_only = way == "ring" and len(found) == 0 and node.pairs == 0
        if not is_list_only:
            self.expect(f"{page}: links of the {way}", sorted(found), sorted(due))
        if not self.has_graph:
            self.expect(f"{page}: marks", self.browser.evaluate(MARKS), [node.x, node.y])
        before = self.browser.evaluate(HREFS % ".from a")
        self.expect(f"{page}: before it", len(before), int(any(self.leading_to(page))))
        self.expect(f"{page}: not before it", {*before} - {*self.leading_to(page)}, set())
        for number, target in enumerate(found):
            self.click(places, number)
            self.expect(f"{page}: after the {way} to {target}", self.shown(), [target])
            self.browser.evaluate("history.back()")
            self.expect(f"{page}: back from {target}", self.came_back(page), [page])
        return due

    def leading_to(self, page: str) -> list[str]:
        """Returns the pages that lead to a page."""
        return [name for name, (_, targets) in self.pages.items() if page in targets]

    def came_back(self, page: str) -> list[str]:
        """Waits until the browser has gone back, and returns what is shown."""
        ends = time.monotonic() + PATIENCE
        while self.shown() != [page] and time.monotonic() < ends:
            self.browser.settle()
        return self.shown()

    def walk(self, way: str, root: str) -> int:
        """Visits all pages that links lead to from one of them on, and returns how many."""
        met, todo = {root}, [root]
        while todo:
            for target in self.visit(todo.pop(), way):
                if target not in met:
                    met.add(target)
                    todo.append(target)
        return len(met)

    def play_pairs(self, page: str) -> None:
        """Clicks each choice of the pairs of a page, and takes all back."""
        self.go(page)
        count = self.pages[page][0].pairs * 2
        self.expect(f"{page}: choices", len(self.browser.evaluate(CHOSEN)), count)
        for number in range(count):
            self.click(".choice input", number)
            due = [it == number or it < number and it // 2 < number // 2 and it % 2 == 1
                   for it in range(count)]
            self.expect(f"{page}: choice {number}", self.browser.evaluate(CHOSEN), due)
            self.choices += 1
        self.click("button", 0)
        self.expect(f"{page}: taken back", self.browser.evaluate(CHOSEN), [False] * count)

    def tab_to(self, due: set[str]) -> str:
        """Presses Tab until each of these links or elements had the focus, and returns the last."""
        self.browser.evaluate("document.activeElement.blur()")
        found, left = "", set(due)
        for _ in range(400):
            if not left:
                break
            self.browser.press("Tab")
            found = self.browser.evaluate(FOCUSED)
            left.discard(found)
            self.stops += 1
        self.expect("without focus", sorted(left), [])
        return found

    def tab_through(self, page: str) -> None:
        """Tabs to each link of a page's list, and follows the last by Enter."""
        self.go(page)
        due = {f"#{it}" for it in self.browser.evaluate(HREFS % LINK_PLACES["list"])}
        found = self.tab_to(due)
        if due:
            self.browser.press("Enter")
            self.expect(f"{page}: after Enter", self.shown(), [found[1:]])

    def choose_by_key(self, page: str) -> None:
        """Tabs to a choice of a pair, makes it by the space key, and takes it back."""
        self.go(page)
        self.tab_to({"INPUT"})
        self.browser.press(" ")
        self.expect(f"{page}: chosen by a key", self.browser.evaluate(CHOSEN).count(True), 1)
        self.tab_to({"BUTTON"})
        self.browser.press(" ")
        self.expect(f"{page}: taken back by a key", self.browser.evaluate(CHOSEN).count(True), 0)

    def read_tables(self, due: list[list[list[str]]]) -> int:
        """Follows each link of the front, compares the table of its page, and returns how many
        pages there are."""
        for number, table in enumerate(due):
            page = f"p{number + 1}-1" if number else "p1"
            self.go("")
            x, y = self.browser.evaluate(MIDDLE % ("document", FRONT, number))
            self.browser.click(x, y)
            self.clicks += 1
            self.expect(f"after the front's link to {page}", self.shown(), [page])
            self.expect(f"{page}: table", self.browser.evaluate(TABLE % SHOWN), table)
        return len(due)

    def see_places(self, layout: str) -> None:
        """Compares the places of all rings with those of a layout, but for where these begin."""
        due = [(12 * int(it[2]), 24 * int(it[3])) for row in layout.splitlines()
               if (it := row.split())[:1] == ["at"]]
        found = self.browser.evaluate(RINGS)
        self.expect("places of rings", from_corner(found), from_corner(due))

    def print_all(self) -> int:
        """Prints the book, and returns how many sheets it takes."""
        self.browser.emulate("print")
        self.go("p1")
        self.expect("sections of a chosen page on paper", self.shown(), ["p1"])
        self.go("")
        due = self.browser.evaluate(f"{SECTIONS}.map(it => it.id)")
        self.expect("sections on paper", self.shown(), due)
        self.browser.emulate()
        return len(re.findall(rb"/Type\s*/Page\b(?!s)", self.browser.printed()))


def from_corner(places: Iterable[Iterable[float]]) -> list[tuple[float, float]]:
    """Returns the places, each once, counted from the left and the top of all of them."""
    found = {(across, down) for across, down in places}
    left, top = (min((it[at] for it in found), default=0) for at in (0, 1))
    return sorted((across - left, down - top) for across, down in found)


def has_xmllint() -> bool:
    """Returns whether xmllint is installed."""
    return shutil.which("xmllint") is not None


def markup_errors(path: pathlib.Path) -> list[str]:
    """Returns what xmllint says against a page, but for tags that it is too old to know."""
    found = subprocess.run(["xmllint", "--html", "--noout", "--nonet", str(path)],
                           capture_output=True, text=True, check=False).stderr
    said = [it for it in found.splitlines() if " error : " in it]
    return [it for it in said if not YOUNG.search(it)]


class Measures(NamedTuple):
    """Milliseconds that a book takes by the clock, and of a processor."""

    load: float
    busy_load: float
    jump: float
    busy_jump: float


def measured_once(browser: Browser, address: str) -> Measures:
    """Loads a page and follows a link in it."""
    browser.open("about:blank")
    load = browser.open(address)
    busy = browser.busy()
    jump = float(browser.evaluate(JUMPED))
    return Measures(load, busy, jump, browser.busy() - busy)


def measured(browser: Browser, address: str, times: int) -> Measures:
    """Loads a page and follows a link in it so many times, and returns the least of each figure."""
    every = [measured_once(browser, address) for _ in range(times)]
    return Measures(*map(min, zip(*every)))


class Book(NamedTuple):
    """A game and a certificate of examples/, whose book is played or only measured, and the layout
    of the book, if it has one."""

    name: str
    game: str
    cert: str
    is_played: bool
    layout: str = ""


def books(only: Any) -> Iterator[Book]:
    """Returns the books of bench/pages.txt, or one of them by its name."""
    for row in kit.data("pages.txt").splitlines():
        game, cert, how, *layout = row.split()
        name = pathlib.PurePath(cert).stem
        if only in (None, name):
            yield Book(name, game, cert, how == "played", *layout)


def play(player: Player, book: Book) -> tuple[int, int]:
    """Plays a book to its end, and returns how many pages were visited and printed."""
    if not book.is_played:
        return 0, 0
    game = (kit.EXAMPLES / book.game).read_text()
    if tables.is_family(game):
        due = tables.tables_of(game, (kit.EXAMPLES / book.cert).read_text())
        return player.read_tables(due), player.print_all()
    if book.layout:
        player.see_places((kit.EXAMPLES / book.layout).read_text())
    roots = [name for name in player.pages if name == "p1" or re.fullmatch(r"p\d+-1", name)]
    visited = sum(player.walk("ring", root) for root in roots)
    player.expect("pages by the list", sum(player.walk("list", root) for root in roots), visited)
    for page, (node, _) in player.pages.items():
        if node.pairs:
            player.play_pairs(page)
            player.choose_by_key(page)
    player.tab_through(max(player.pages, key=lambda it: len(player.pages[it][1])))
    return visited, player.print_all()


def book_text(program: str, game: str, cert: str, layout: str = "") -> bytes:
    """Returns the book of files of examples/, with a layout if it is named."""
    words = program, "--book", *["--layout", layout][:2 * bool(layout)], game, cert
    return bytes(kit.call(*words, cwd=kit.EXAMPLES, text=False, check=True).stdout)


def photograph(program: str, folder: pathlib.Path) -> int:
    """Stores the pictures of books for the documents."""
    with kit.files() as room, Browser(WINDOW, HEIGHT) as browser:
        browser.emulate(width=WINDOW)
        for it in PHOTOGRAPHS:
            path = room / f"{it.name}.html"
            path.write_bytes(book_text(program, it.game, it.cert))
            browser.open(path.as_uri())
            player = Player(browser, {})
            player.go(it.page)
            for number in it.choices:
                player.click(".choice input", number)
            browser.settle()
            browser.evaluate("scrollTo(0, 0)")
            browser.settle()
            x, y, width, height = browser.evaluate(BOX)
            clip = {"x": x - MARGIN, "y": y - MARGIN, "width": width + 2 * MARGIN,
                    "height": height + 2 * MARGIN}
            browser.photograph(folder / f"{it.name}.png", clip)
    return 0


def main() -> int:
    given = kit.options(__doc__, "posgame_draw", book=(None, "the book of this certificate alone"),
                        times=3, photographs=(None, "the folder of pictures for the documents"))
    if given.photographs:
        return photograph(given.program, pathlib.Path(given.photographs))
    table = kit.Table("book", "bytes", "pages", "clicks", "choices", "tabs", "sheets",
                      ("load (ms)", ",", LOAD), "busy", ("jump (ms)", ",", JUMP), "busy")
    with kit.files() as folder, Browser() as browser:
        for book in books(given.book):
            text = book_text(given.program, book.game, book.cert, book.layout)
            path = folder / f"{book.name}.html"
            path.write_bytes(text)
            taken = measured(browser, path.as_uri(), given.times)
            game = (kit.EXAMPLES / book.game).read_text()
            cert = (kit.EXAMPLES / book.cert).read_text()
            pages = pages_of(played.played(game, cert))
            has_graph = "\nkind switching\n" in game
            player = Player(browser, pages, has_graph)
            visited, sheets = play(player, book)
            table.row(book.name, len(text), visited, player.clicks, player.choices, player.stops,
                      sheets, *map(round, taken), wrong=player.wrong + markup_errors(path))
    return table.end()


if __name__ == "__main__":
    raise SystemExit(main())
