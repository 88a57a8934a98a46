"""What the scripts of bench/ share: options, runs and their figures, tables, texts of files,
boards, and games decided by brute force.

Each script says by --help how it is called; if PROGRAM is left out, it is the one that `rt run`
built. Figures are printed as a table in Markdown, one number a cell; below it a line `wrong: WHERE:
WHAT` for each thing that isn't as expected, and the status is then 1. bench/all.py puts these
tables into docs/FIGURES.md. Tried by `python3 -m unittest discover -s bench`. Nothing here shares
anything with the crates. Unproved.
"""
from __future__ import annotations

import argparse
import contextlib
import functools
import inspect
import itertools
import math
import os
import pathlib
import random
import re
import resource
import shutil
import signal
import subprocess
import sys
import tempfile
import threading
import time
from typing import Any, Callable, Iterable, Iterator, NamedTuple, Optional, Sequence

TOP = pathlib.Path(__file__).resolve().parent.parent
EXAMPLES = TOP / "examples"
KINDS = {"maker-breaker": "Maker-Breaker", "maker-maker": "Maker-Maker",
         "avoider-enforcer": "Avoider-Enforcer"}
# The words before the commands on families of games, with which their files begin after a hyphen.
FAMILIES = "span", "vec"

Line = list[int]
Edge = tuple[int, int]
Graph = tuple[int, list[Edge]]
Cells = Iterable[tuple[int, int]]
Points = frozenset[int]
Position = tuple[Points, Points, str, int]


# Options.


def built(name: str) -> pathlib.Path:
    """Returns where `rt run` in crates/NAME leaves the program."""
    return TOP / "crates" / name / "out" / name


def program_path(word: str) -> str:
    """Returns the whole path of a program that is there."""
    path = os.path.abspath(word)
    if not os.path.isfile(path):
        raise argparse.ArgumentTypeError(f"there is no {path}: `rt run` in its crate builds it")
    return path


def parser(text: Optional[str], program: Optional[str] = "posgame") -> argparse.ArgumentParser:
    """Returns a parser of options with the script's docstring as its help. Its first argument is
    PROGRAM, unless `program` is None; if it is left out, it is the one built in crates/."""
    words = argparse.ArgumentParser(
        description=text, formatter_class=argparse.RawDescriptionHelpFormatter)
    if program:
        words.add_argument("program", metavar="PROGRAM", nargs="?", type=program_path,
                           default=str(built(program)), help=f"the program {program}")
    return words


def options(text: Optional[str], program: Optional[str] = "posgame", parts: Sequence[str] = (),
            **more: Any) -> argparse.Namespace:
    """Returns the arguments of a script: PROGRAM, as `parser` has it, one of the `parts`, if there
    are any, and for each keyword an option, by its default or by a pair of that and a help. False
    makes a flag, [] an option that may come several times, and [] and None one of words; else it
    has the type of the default."""
    words = parser(text, program)
    if parts:
        words.add_argument("part", choices=parts)
    for name, it in more.items():
        default, said = it if isinstance(it, tuple) else (it, f"{it} if left out")
        how: dict[str, Any] = {"action": "store_true"}
        if default is not False:
            kind = str if default in (None, []) else type(default)
            how = {"action": "append" if default == [] else "store", "type": kind,
                   "metavar": {int: "N", float: "N", str: "WORD"}.get(kind, "PATH")}
        words.add_argument(f"--{name}", default=default, help=said, **how)
    return words.parse_args()


def call_part(text: Optional[str], name: Optional[str], *parts: Callable[..., Any],
              **more: Any) -> int:
    """Calls the part of a script that its last argument names, with the program `name`, if that
    isn't None, and with further `options`; returns the status of the script. The help says what
    each part is."""
    said = [str(text).strip(), *(f"{it.__name__}: {inspect.getdoc(it)}" for it in parts)]
    given = options("\n\n".join(said), name, [it.__name__ for it in parts], **more)
    part = next(it for it in parts if it.__name__ == given.part)
    return part(*[given.program] if name else [], *(getattr(given, it) for it in more)) or 0


# Runs and their figures.


class Run(NamedTuple):
    """How a run ended. `status` is below 0 after a signal; `processor` is in seconds."""

    output: str
    status: int
    seconds: float
    processor: float
    kilobytes: int
    errors: str = ""

    @property
    def megabytes(self) -> int:
        """The greatest memory in MB."""
        return self.kilobytes // 1024

    @property
    def said(self) -> str:
        """What was printed, without the end of the line."""
        return self.output.strip()

    @property
    def is_accepted(self) -> bool:
        """Whether it was a check that accepted each claim."""
        return re.fullmatch(r"(accepted .*\n)+", self.output) is not None


def run(*words: object, typed: str | bytes = "", folder: object = None, most: int = 0,
        clock: int = 0, is_quick: bool = False, **how: Any) -> Run:
    """Runs a program with `typed` as its input, for at most `most` seconds of a processor and
    `clock` by the clock if these aren't 0. It is started by time(1), since a child of this script
    counts the script's memory; a quick run is such a child, and takes 0 KB if it took no more."""
    timed = [] if is_quick else ["/usr/bin/time", "-q", "-f", "%M"]
    timed += ["sh", "-c", f'ulimit -St {most}; exec "$@"', "sh"] if most and timed else []
    with tempfile.TemporaryFile() as given, tempfile.TemporaryFile("w+") as errors:
        given.write(typed.encode() if isinstance(typed, str) else typed)
        given.seek(0)
        begin = time.monotonic()
        process = subprocess.Popen(
            [*timed, *map(str, words)], cwd=str(folder) if folder else None, stdin=given,
            stdout=subprocess.PIPE, stderr=errors, start_new_session=clock > 0, **how)
        if is_quick and most:
            _, hard = resource.prlimit(process.pid, resource.RLIMIT_CPU)
            resource.prlimit(process.pid, resource.RLIMIT_CPU, (most, hard))
        late = threading.Timer(clock, os.killpg, (process.pid, signal.SIGKILL))
        if clock:
            late.start()
        assert process.stdout
        with process.stdout as stream:
            output = stream.read().decode(errors="replace")
        _, ended, used = os.wait4(process.pid, 0)
        late.cancel()
        seconds, process.returncode = time.monotonic() - begin, os.waitstatus_to_exitcode(ended)
        errors.seek(0)
        least = resource.getrusage(resource.RUSAGE_SELF).ru_maxrss
        text = errors.read()
        if is_quick:
            text += f"{used.ru_maxrss if used.ru_maxrss > least else 0}\n"
        said = re.fullmatch(r"(.*?)(?:(\d+)\n)?", text, re.DOTALL)
        assert said
    status = process.returncode if process.returncode <= 128 else 128 - process.returncode
    processor = used.ru_utime + used.ru_stime
    return Run(output, status, seconds, processor, int(said[2] or 0), said[1])


def call(*words: object, **how: Any) -> subprocess.CompletedProcess[Any]:
    """Runs a command, and returns what it printed, as text; without input, unless `how` has it."""
    usual: dict[str, Any] = {"input": "", "capture_output": True, "text": True}
    return subprocess.run([*map(str, words)], **{**usual, **how})


def family_of(text: str) -> list[str]:
    """Returns the word that stands before the commands on a game, if there is one."""
    return re.findall(f"^posgame-({'|'.join(FAMILIES)})", text, re.MULTILINE)[:1]


def solved(program: str, text: str, *flags: object, most: int = 0) -> tuple[Run, str, bool]:
    """Solves a game. Returns how that ended, what was stored, and whether a check accepts it."""
    with files(game=text) as folder:
        paths = folder / "game", folder / "certificate"
        done = run(program, *family_of(text), "solve", *paths, *flags, most=most)
        stored = paths[1].read_text(encoding="ascii") if paths[1].exists() else ""
        check = program, *family_of(text), "check", *paths
        return done, stored, stored != "" and run(*check, most=most).is_accepted


def quickest(times: int, *words: object, **how: Any) -> Run:
    """Returns the last of so many runs, with the least seconds of all."""
    runs = [run(*words, **how) for _ in range(times)]
    return runs[-1]._replace(seconds=min(it.seconds for it in runs),
                             processor=min(it.processor for it in runs))


def has_valgrind() -> bool:
    """Tells whether callgrind can count instructions here."""
    return shutil.which("valgrind") is not None


def has_parallel() -> bool:
    """Tells whether GNU parallel is here; another command has this name too."""
    return shutil.which("parallel") is not None \
        and call("parallel", "--version").stdout.startswith("GNU parallel")


class Count(NamedTuple):
    """Callgrind's count of a whole run, and what the program printed."""

    instructions: int
    output: str


def count(*words: object, counts: object = "/dev/null", typed: str = "",
          flags: Iterable[str] = ()) -> Count:
    """Runs a program below callgrind, which writes its counts by function to `counts`. The figure
    doesn't depend on what else the machine does."""
    command = ["valgrind", "--tool=callgrind", f"--callgrind-out-file={counts}", *flags]
    done = call(*command, *words, input=typed)
    found = re.search(r"Collected : (\d+)", done.stderr)
    if not found:
        sys.exit(f"callgrind counted nothing of {words}: {done.stderr[-500:]}")
    return Count(int(found.group(1)), done.stdout.strip())


def listing(counts: object, *flags: str) -> str:
    """Returns callgrind's list of functions for the counts of a run."""
    return str(call("callgrind_annotate", *flags, counts, check=True).stdout)


# Tables.


def table_row(cells: Iterable[str]) -> str:
    """Returns a row of a table in Markdown."""
    return f"| {' | '.join(cell.replace('|', chr(92) + '|') for cell in cells)} |"


def table(heads: list[str], rows: Iterable[Iterable[str]]) -> list[str]:
    """Returns the lines of a table in Markdown."""
    return [table_row(heads), "|---" * len(heads) + "|", *map(table_row, rows)]


class Column(NamedTuple):
    """A column of a table: its head with the unit, how a number is written, and the limit."""

    head: str
    form: str = ","
    limit: float = math.inf


class Table:
    """A table in `lines`, printed row by row, and what is `wrong` with it. A row of limits comes
    first, if a column has one."""

    def __init__(self, *columns: str | tuple[Any, ...]) -> None:
        self.columns = [Column(it) if isinstance(it, str) else Column(*it) for it in columns]
        self.lines: list[str] = []
        self.wrong: list[str] = []
        limits = ["" if it.limit == math.inf else format(it.limit, it.form) for it in self.columns]
        rows = [["limit", *limits[1:]]] if any(limits) else []
        self.put(*table([it.head for it in self.columns], rows))

    def put(self, *lines: str) -> None:
        """Prints lines of the table."""
        print(*lines, sep="\n", flush=True)
        self.lines += lines

    def row(self, name: object, *cells: Any, wrong: Iterable[str] = ()) -> None:
        """Prints a row. A cell is a text, a figure, a pair of a figure and its limit, or None; a
        figure above its limit is in bold type, and wrong."""
        faults, texts = list(wrong), []
        for column, cell in zip(self.columns, (name, *cells)):
            figure, limit = cell if isinstance(cell, tuple) else (cell, column.limit)
            is_number = not isinstance(figure, (str, type(None)))
            text = f"{figure:{column.form}}" if is_number else figure or ""
            if is_number and figure > limit:
                faults.append(f"{column.head} {text} above {limit:{column.form}}")
                text = f"**{text}**"
            texts.append(text)
        self.put(table_row(texts))
        self.wrong += [f"{texts[0]}: {it}" for it in faults]

    def end(self) -> int:
        """Prints what is wrong, and returns the status of the script."""
        return end(self.wrong)


def named(word: str, rows: Iterable[tuple[Any, ...]]) -> Iterator[tuple[Any, ...]]:
    """Yields the rows in whose name, their first part, a word is."""
    yield from (it for it in rows if word in it[0])


def end(wrong: Iterable[str]) -> int:
    """Prints a line for each thing that is wrong, and returns the status of the script."""
    lines = [f"wrong: {it}" for it in wrong]
    print(*lines, sep="\n", end="\n" if lines else "", flush=True)
    return 1 if lines else 0


def prose(name: str) -> str:
    """Returns what docs/NAME says above its first table or section."""
    page = (TOP / "docs" / name).read_text(encoding="utf-8")
    return re.split(r"\n(?=\| |## )", page, maxsplit=1)[0]


def write_page(lines: Iterable[str], given: argparse.Namespace, name: str) -> None:
    """Writes a page to the file --out, or else to docs/NAME; if --only is given, it is printed."""
    out = given.out or ("" if given.only else TOP / "docs" / name)
    if out:
        pathlib.Path(out).write_text("\n".join(lines), encoding="utf-8")
    else:
        print(*lines, sep="\n")


# Texts of files.


@contextlib.contextmanager
def files(**texts: str) -> Iterator[pathlib.Path]:
    """Makes a temporary folder with files of these names and texts."""
    with tempfile.TemporaryDirectory() as name:
        for file, text in texts.items():
            pathlib.Path(name, file).write_text(text, encoding="ascii")
        yield pathlib.Path(name)


@contextlib.contextmanager
def inside(folder: pathlib.Path) -> Iterator[None]:
    """Makes a folder the one of this process for a while."""
    before = os.getcwd()
    os.chdir(folder)
    try:
        yield
    finally:
        os.chdir(before)


def data(name: str, folder: str = "bench") -> str:
    """Returns the text of a file of a folder without comments, lines that go on being joined."""
    text = (TOP / folder / name).read_text(encoding="utf-8").replace("\\\n    ", "")
    return re.sub("^# .*\n", "", text, flags=re.MULTILINE)


def stanzas(name: str, folder: str = "bench") -> list[list[str]]:
    """Returns the lines of each part of a file of a folder; empty lines divide."""
    return [it.split("\n") for it in re.findall(r"(?:.+\n)*.+", data(name, folder))]


def field(numbers: Iterable[object]) -> str:
    """Returns the numbers with spaces between them."""
    return " ".join(map(str, numbers))


def line_rows(lines: Iterable[Iterable[int]]) -> list[str]:
    """Returns a row of a game file for each line."""
    return [f"line {field(line)}" for line in lines]


def mark_rows(*sides: Iterable[int]) -> list[str]:
    """Returns the rows of a game file for the points of X and of Y."""
    return [f"{side} {field(sorted(it))}" for side, it in zip("xy", map(set, sides)) if it]


def game(kind: str, *rows: str, turn: str = "x") -> str:
    """Returns a game file with these rows between its kind and its turn."""
    return "\n".join(["posgame 1", f"kind {kind}", *rows, f"turn {turn}", ""])


def edge_rows(graph: Graph) -> list[str]:
    """Returns the rows of a game file on the edges of a graph."""
    return [f"edge {u} {v}" for u, v in graph[1]]


def switching(graph: Graph, terminals: Edge = (0, 1), turn: str = "x") -> str:
    """Returns the file of the switching game on a graph."""
    heads = f"vertices {graph[0]}", f"terminals {field(terminals)}"
    return game("switching", *heads, *edge_rows(graph), turn=turn)


def span(graph: Graph, turn: str = "x") -> str:
    """Returns the file of the connectivity game on a graph."""
    rows = ["posgame-span 1", f"vertices {graph[0]}", *edge_rows(graph), f"turn {turn}", ""]
    return "\n".join(rows)


def claim(head: str, nodes: str, times: int = 1) -> str:
    """Returns a claim of a certificate: its nodes, a line each, are repeated `times` times."""
    return f"claim {head}\nnodes {times * nodes.count(chr(10))}\n" + nodes * times


def certificate(*claims: str, version: int = 1) -> str:
    """Returns a certificate file with these claims."""
    return f"posgame-cert {version}\n" + "".join(claims)


def short_game(kind: str, points: int, lines: Iterable[Iterable[int]]) -> str:
    """Returns an empty board as the programs of tests read it."""
    return f"{kind} {points} x 1:{','.join(map(field, lines))}::\n"


# Boards and graphs.


class Draws:
    """The generator that the standard of C prints as an example."""

    def __init__(self, seed: int) -> None:
        self.state = seed

    def below(self, limit: int) -> int:
        """Draws a number below the limit."""
        self.state = (self.state * 1103515245 + 12345) % 2**31
        return self.state // 65536 % limit


def scatter(seed: int, points: int, lines: int, size: int) -> list[Line]:
    """Draws lines of `size` points each, as `posgame gen scatter` does."""
    draws, drawn = Draws(seed), []
    for _ in range(lines):
        order = list(range(points))
        for i in range(size):
            k = i + draws.below(points - i)
            order[i], order[k] = order[k], order[i]
        drawn.append(sorted(order[:size]))
    return drawn


def in_row(rows: int, columns: int, length: int, by_direction: bool = False) -> list[Line]:
    """Returns the lines of `length` cells in a row, by their first cell and then by direction, or
    the other way round: along, down, and both diagonals."""
    steps = (0, 1), (1, 0), (1, 1), (1, -1)
    places, lines = list(itertools.product(steps, range(rows), range(columns))), []
    if not by_direction:
        places.sort(key=lambda place: place[1:])
    for (down, right), i, j in places:
        cells = [(i + down * k, j + right * k) for k in range(length)]
        if all(0 <= a < rows and 0 <= b < columns for a, b in cells):
            lines.append(sorted(a * columns + b for a, b in cells))
    return lines


def boards(text: str) -> list[list[Any]]:
    """Returns the lines of each board, or the edges of each graph, from a text such as 01 123; 0,
    in which each point is a digit."""
    return [[tuple(map(int, it)) for it in board.split()] for board in text.split(";")]


def turned(cells: Cells) -> list[tuple[tuple[int, int], ...]]:
    """Returns the eight images of a set of cells, each moved to the corner and sorted."""
    images, image = [], list(cells)
    for _ in range(2):
        for _ in range(4):
            image = [(column, -row) for row, column in image]
            top, left = min(row for row, _ in image), min(column for _, column in image)
            images.append(tuple(sorted((row - top, column - left) for row, column in image)))
        image = [(row, -column) for row, column in image]
    return images


def beside(cells: Cells) -> set[tuple[int, int]]:
    """Returns the cells that have a side in common with one of these, and aren't among them."""
    steps = (0, 1), (1, 0), (0, -1), (-1, 0)
    return {(row + i, column + j) for row, column in cells for i, j in steps} - set(cells)


def word_of(cells: Cells) -> str:
    """Returns the word of a shape: its rows of 0 and 1."""
    taken = set(cells)
    height, width = (1 + max(numbers) for numbers in zip(*taken))
    rows = ["".join("01"[(i, j) in taken] for j in range(width)) for i in range(height)]
    return "/".join(rows)


def placements(rows: int, columns: int, word: str) -> list[Line]:
    """Returns the sets of cells of a grid that a shape covers, turned and reflected in each way."""
    marks = [(i, j, mark) for i, row in enumerate(word.split("/")) for j, mark in enumerate(row)]
    images = turned((i, j) for i, j, mark in marks if mark == "1")
    lines = set()
    for image, i, j in itertools.product(images, range(rows), range(columns)):
        placed = [(a + i, b + j) for a, b in image]
        if all(a < rows and b < columns for a, b in placed):
            lines.add(tuple(sorted(a * columns + b for a, b in placed)))
    return [list(line) for line in sorted(lines)]


def bridge(rows: int) -> Graph:
    """Returns the graph of Bridg-it: rows of `rows - 1` vertices between the two terminals, joined
    along and then to the next row."""
    columns = rows - 1

    def vertex(row: int, column: int) -> int:
        return 0 if column == 0 else 1 if column > columns else 1 + row * columns + column

    along = [(vertex(i, j), vertex(i, j + 1)) for i in range(rows) for j in range(columns + 1)]
    between = [(vertex(i, j), vertex(i + 1, j))
               for i in range(rows - 1) for j in range(1, columns + 1)]
    return rows * columns + 2, along + between


def complete(vertices: int, copies: int = 1) -> Graph:
    """Joins each two vertices by so many edges."""
    return vertices, [(u, v) for u in range(vertices) for v in range(u) for _ in range(copies)]


def scattered(seed: int, vertices: int, edges: int, is_joined: bool = False) -> Graph:
    """Draws edges, always the same; to join all vertices, a tree first, and then an order."""
    draw = random.Random(seed)
    ends = [(v, draw.randrange(v)) for v in range(1, vertices if is_joined else 1)]
    ends += [(draw.randrange(vertices), draw.randrange(vertices)) for _ in range(edges - len(ends))]
    if is_joined:
        draw.shuffle(ends)
    return vertices, ends


def tops(vertices: int, edges: Iterable[Edge]) -> Line:
    """Returns for each vertex one of those that the edges join it to, the same for all of these."""
    top = list(range(vertices))
    for u, v in edges:
        top = [top[v] if it == top[u] else it for it in top]
    return top


def grid(rows: int, columns: int) -> Graph:
    """Joins each cell of a grid to those beside and below it."""
    cells = range(rows * columns)
    along = [(v, v + 1) for v in cells if (v + 1) % columns]
    down = [(v, v + columns) for v in cells if v + columns in cells]
    return rows * columns, along + down


def doubled_path(vertices: int, edges: int) -> Graph:
    """Returns a path whose edges are doubled, with further edges between its ends."""
    steps = [(v, v + 1) for v in range(vertices - 1)] * 2
    return vertices, steps + [(0, vertices - 1)] * (edges - len(steps))


# Games decided by brute force.


class LineGame:
    """A game on lines, decided by trying all plays. A score is 1, 0 or -1, the greater the better
    for X; a position is X's points, Y's points, the side to move and how many points it takes."""

    def __init__(self, kind: str, points: int, lines: Iterable[Iterable[int]],
                 bias: int = 1) -> None:
        self.kind, self.points, self.bias = kind, points, bias
        self.lines = [frozenset(line) for line in lines]
        self.known: dict[Position, int] = {}

    def free(self, x: Points, y: Points) -> Line:
        """Returns the free points."""
        return [v for v in range(self.points) if v not in x and v not in y]

    def score(self, x: Points, y: Points) -> Optional[int]:
        """Returns the score if the game is over, else None."""
        mine, full = any(line <= x for line in self.lines), len(x) + len(y) == self.points
        if self.kind == "maker-maker":
            theirs = any(line <= y for line in self.lines)
            return 1 if mine else -1 if theirs else 0 if full else None
        if mine or full or all(line & y for line in self.lines):
            return (1 if mine else -1) * (1 if self.kind == "maker-breaker" else -1)
        return None

    def after(self, x: Points, y: Points, turn: str, left: int, v: int) -> Position:
        """Returns the position after the move on v."""
        x, y = (x | {v}, y) if turn == "x" else (x, y | {v})
        if left > 1:
            return x, y, turn, left - 1
        return (x, y, "y", self.bias) if turn == "x" else (x, y, "x", 1)

    def value(self, x: Points, y: Points, turn: str, left: int = 1) -> int:
        """Returns the score at best play."""
        position = x, y, turn, left
        if position not in self.known:
            score = self.score(x, y)
            if score is None:
                values = (self.value(*self.after(*position, v)) for v in self.free(x, y))
                score = max(values) if turn == "x" else min(values)
            self.known[position] = score
        return self.known[position]

    def positions(self) -> Iterator[Position]:
        """Yields every position, also those at which the game is over."""
        for x, y in marked(self.points):
            yield x, y, "x", 1
            for left in range(1, self.bias + 1):
                yield x, y, "y", left

    def threats(self, mine: Points, theirs: Points) -> set[int]:
        """Returns the free points with which the side fills a line."""
        lacks = [line - mine for line in self.lines]
        return {v for lack in lacks if len(lack) == 1 for v in lack if v not in theirs}

    def attack(self, mine: Points, theirs: Points, depth: int) -> bool:
        """Tells whether the side to move fills a line by attacks with at most `depth` replies, each
        of them forced, as docs/DEFINITIONS.md says."""
        for v in self.free(mine, theirs):
            now = mine | {v}
            if any(line <= now for line in self.lines):
                return True
            if depth and not (self.kind == "maker-maker" and self.threats(theirs, now)):
                replies = self.threats(now, theirs)
                if any(self.attack(now, theirs | {u}, depth - 1) for u in replies):
                    return True
        return False


def marked(points: int) -> Iterator[tuple[Points, Points]]:
    """Yields each choice of points for X and of others for Y."""
    for owners in itertools.product("-xy", repeat=points):
        x, y = (frozenset(v for v in range(points) if owners[v] == side) for side in "xy")
        yield x, y


def set_game(count: int,
             passes: Callable[[Points], bool]) -> Callable[[Points, Points, bool], bool]:
    """Returns whether X wins, by X's points, Y's points and whether X moves, when X wants its
    points to pass a test."""
    every, known = frozenset(range(count)), functools.lru_cache(maxsize=None)(passes)

    @functools.lru_cache(maxsize=None)
    def x_wins(x: Points, y: Points, x_moves: bool) -> bool:
        if known(x) or not known(every - y):
            return known(x)
        free = every - x - y
        if x_moves:
            return any(x_wins(x | {v}, y, False) for v in free)
        return all(x_wins(x, y | {v}, True) for v in free)

    return x_wins


def bits(points: Iterable[int]) -> int:
    """Returns the number whose bits are the points."""
    return sum(1 << v for v in points)
