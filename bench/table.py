#!/usr/bin/env python3
"""Plays games at a terminal by posgame-play: in tmux, whose screens it compares with docs/screens,
and by lines that mean nothing, whose answers it compares with a reading of its own.

    bench/table.py [PROGRAM] screens [--write]             plays the rows of bench/table.txt in tmux
    bench/table.py [PROGRAM] lines [--lines N] [--seed N]  types N lines at boards of each kind

`screens` runs posgame-play in a tmux of its own, and types what a row of bench/table.txt says. All
that the terminal then shows is the file docs/screens/NAME.txt; with --write these files are
written. It also looks whether marks are coloured, and aren't with NO_COLOR. `lines` draws lines of
commands, names, numbers and bytes from the seed, and computes what the program must print and
store, from the rules in docs/FORMATS.md alone. The status is 1 if anything differs. Tried by
`bench/test_table.py`. Nothing here is proved.
"""
from __future__ import annotations

import os
import pathlib
import random
import re
import shutil
import sys
import time
from typing import NamedTuple, Optional

import kit

SCREENS = kit.TOP / "docs" / "screens"
# The size of the terminal, and how long a screen may take to come, in seconds.
COLUMNS, ROWS, PATIENCE = 80, 44, 20.0
# The line at which a line is typed, and how tmux shows that a red mark begins.
PROMPT, RED = "[XO] claims( [0-9]+ points)?:", "\x1b[31m"
# What stands for the end of the input in bench/table.txt.
END = "Ctrl-D"
# What a line may be at most, how many are read in a game, and how many open lines are shown.
LONGEST, MOST_LINES, SHOWN_LINES = 64, 10_000, 12
# How many names are in a row of an open line, and what begins a further one.
NAMES_IN_ROW, FURTHER = 15, "\n   "
HELP = """Type the name of a free point to claim it.
undo     takes the last point back
lines    shows the lines that are open, and lines P those through P
?        shows this text
quit     leaves the game
"""
GOALS = {
    "switching": "X wants to join 0 and 1 by edges, and O to part them.\n",
    "Bridg-It": "X wants to join the left and the right, and O the top and the bottom.\n",
    "maker-breaker": "X wants to claim all points of a line, and O to prevent it.\n",
    "maker-maker": "The first side to claim all points of a line wins.\n",
    "avoider-enforcer": "X loses by claiming all points of a line.\n",
}
RESULTS = {1: "X has won.\n", 0: "Nobody has won.\n", -1: "O has won.\n"}
REFUSALS = {
    "unclear": "Type a point such as b3 or 7, undo, lines, ? or quit.\n",
    "none": "There is no such point: type one like b3 or 7, or ? for help.\n",
    "over": "The game is over.\n",
    "taken": "That point is taken: type a free one, undo, lines, ? or quit.\n",
    "nothing": "Nothing can be taken back: type a point, or ? for help.\n",
}


# What the program must print.


class Board(NamedTuple):
    """A board: its kind, its points, its lines or else its graph, and the columns of its grid, 0
    where its points are no cells. X begins, and Y claims `bias` points a turn. A layout has the
    column and the line of each point."""

    kind: str
    points: int
    lines: list[kit.Line]
    width: int = 0
    bias: int = 1
    graph: Optional[kit.Graph] = None
    layout: Optional[list[tuple[int, int]]] = None

    def layout_text(self) -> str:
        """Returns the layout file."""
        return "".join(f"at {it} {column} {line}\n"
                       for it, (column, line) in enumerate(self.layout or []))

    def text(self) -> str:
        """Returns the game file."""
        if self.graph:
            return kit.switching(self.graph)
        size = f"grid {self.width} {self.points // self.width}" if self.width else \
            f"points {self.points}"
        return kit.game(self.kind, size, *[f"bias {self.bias}"] * (self.bias > 1),
                        *kit.line_rows(self.lines))

    def name(self, point: int) -> str:
        """Returns the name of a point."""
        if not self.width:
            return str(point)
        return column_name(point % self.width) + str(point // self.width + 1)

    def rows(self) -> int:
        """Returns the rows of the Bridg-It board that the graph is, 0 if it is none."""
        return next((it for it in range(1, 23) if self.graph == kit.bridge(it)), 0)

    def joins(self, x: kit.Points, y: kit.Points) -> Optional[int]:
        """Returns the score on a graph if the game is over, else None."""
        assert self.graph
        vertices, edges = self.graph
        tops = [kit.tops(vertices, [edges[e] for e in it])
                for it in (x, frozenset(range(len(edges))) - y)]
        mine, either = (it[0] == it[1] for it in tops)
        return 1 if mine else None if either else -1

    def goals(self) -> str:
        """Returns what each side wants."""
        said = GOALS["Bridg-It" if self.rows() else self.kind]
        return said + (f"O claims {self.bias} points in a turn.\n" if self.bias > 1 else "")


def column_name(column: int) -> str:
    """Returns the letters of a column.

    >>> column_name(0), column_name(25), column_name(26), column_name(53)
    ('a', 'z', 'aa', 'bb')
    """
    last = chr(97 + column % 26)
    return last if column < 26 else chr(96 + column // 26) + last


def column_of(letters: str) -> int:
    """Returns the number of a column.

    >>> [column_of(it) for it in ("a", "z", "aa", "bb")]
    [0, 25, 26, 53]
    """
    place = ord(letters[-1]) - 97
    return place if len(letters) == 1 else (ord(letters[0]) - 96) * 26 + place


class Table:
    """A game at a table, by the rules of docs/FORMATS.md."""

    def __init__(self, board: Board, columns: int = COLUMNS) -> None:
        self.board, self.columns = board, columns
        self.game = kit.LineGame(board.kind, board.points, board.lines, board.bias)
        self.moves: list[int] = []
        self.places: list[kit.Position] = [(frozenset(), frozenset(), "x", 1)]
        self.events: list[str] = []

    def mark(self, point: int, free: str) -> str:
        """Returns the mark of a point, or the text for a free one."""
        x, y, _, _ = self.places[-1]
        if point not in x and point not in y:
            return free
        letter = "X" if point in x else "O"
        return f"[{letter}]" if self.moves[-1] == point else f" {letter} "

    def part(self, first: int) -> str:
        """Returns the columns of a grid from this one on that fit into a row."""
        board = self.board
        per = max((self.columns - 4) // 3, 1)
        shown = range(first, min(first + per, board.width))
        heads = "".join(f"{column_name(it):>2} " for it in shown)
        rows = (f"{row + 1:>3} " + "".join(self.mark(row * board.width + it, " . ") for it in shown)
                for row in range(board.points // board.width))
        return "\n".join([f"    {heads}", *rows, ""])

    def place(self, edge: int, is_across: bool) -> str:
        """Returns what is at the place of an edge; `is_across` says whether X's stroke leads across
        there."""
        x, y, _, _ = self.places[-1]
        if edge not in x and edge not in y:
            return f"{edge:>3}"
        stroke = "-" if (edge in x) == is_across else "|"
        if self.moves[-1] == edge:
            return f"[{stroke}]"
        return "---" if stroke == "-" else " | "

    def paper(self, rows: int) -> list[list[str]]:
        """Returns what is at each place of a Bridg-It board: dots, borders and edges, row by
        row."""
        span = 2 * rows + 1
        places = [["   "] * span for _ in range(span)]
        for it in range(2, span - 1, 2):
            places[0][it] = places[-1][it] = "---"
            places[it][0] = places[it][-1] = " | "
        for row in range(rows):
            for column in range(rows):
                at = self.place(row * rows + column, True)
                places[2 * row + 1][2 * column + 1] = at
        for row in range(rows - 1):
            for column in range(rows - 1):
                at = self.place(rows * rows + row * (rows - 1) + column, False)
                places[2 * row + 2][2 * column + 2] = at
        for row, line in enumerate(places):
            for column in range(1 - row % 2, span, 2):
                ends = [line[it][1] == "-" if 0 <= it < span else False
                        for it in (column - 1, column + 1)]
                left, right = ("-" if it else " " for it in ends)
                line[column] = left + "ox"[row % 2] + right
        return places

    def on_paper(self, rows: int) -> str:
        """Returns the text of a Bridg-It board."""
        places, per = self.paper(rows), max(self.columns // 3, 1)
        parts = ("".join("".join(row[first:first + per]) + "\n" for row in places)
                 for first in range(0, 2 * rows + 1, per))
        return "to the right of that:\n".join(parts)

    def laid_out(self, layout: list[tuple[int, int]]) -> str:
        """Returns the points at the places of a layout, in parts as wide as the terminal."""
        per = max(self.columns - 2, 1)
        wide, high = (max(it[at] for it in layout) + 1 for at in (0, 1))
        parts = []
        for first in range(0, wide, per):
            rows = [[" "] * (min(per, wide - first) + 2) for _ in range(high)]
            for point, (column, line) in enumerate(layout):
                if first <= column < first + per:
                    free = f" {point} " if point < 10 else f"{point:>3}"
                    rows[line][column - first:column - first + 3] = self.mark(point, free)
            parts.append("".join(f"{''.join(row)}\n" for row in rows))
        return "to the right of that:\n".join(parts)

    def entry(self, point: int) -> str:
        """Returns the entry of a point or an edge on a board without cells."""
        if not self.board.graph:
            free = self.mark(point, "") == ""
            return f" {point:>3} " if free else f" {self.mark(point, '')} "
        ends = self.board.graph[1][point]
        return f"{point:>3}:{ends[0]:>3}-{ends[1]:<3}{self.mark(point, ' . ')}  "

    def picture(self) -> str:
        """Returns the text of the board."""
        board = self.board
        if board.width:
            per = max((self.columns - 4) // 3, 1)
            return "".join(self.part(it) for it in range(0, board.width, per))
        if rows := board.rows():
            return self.on_paper(rows)
        if board.layout:
            return self.laid_out(board.layout) + self.lines(None)
        per = max(self.columns // (16 if board.graph else 5), 1)
        rows = ("".join(self.entry(it) for it in range(first, min(first + per, board.points)))
                for first in range(0, board.points, per))
        return "".join(f"{row}\n" for row in rows) + ("" if board.graph else self.lines(None))

    def names(self, line: kit.Line) -> str:
        """Returns the names of a line's points, in rows."""
        names = [f" {self.board.name(it)}" for it in line]
        rows = ("".join(names[it:it + NAMES_IN_ROW]) for it in range(0, len(names), NAMES_IN_ROW))
        return FURTHER.join(rows) + "\n"

    def lines(self, through: Optional[int]) -> str:
        """Returns the text of the open lines, through a point if one is named."""
        x, y, _, _ = self.places[-1]
        shown = []
        for line in self.board.lines:
            is_open = y.isdisjoint(line) or \
                self.board.kind == "maker-maker" and x.isdisjoint(line)
            if is_open and (through is None or through in line):
                shown.append(self.names(line))
        more = " ..\n" if len(shown) > SHOWN_LINES else ""
        return f"open lines: {len(shown)}\n" + "".join(shown[:SHOWN_LINES]) + more

    def turn(self) -> str:
        """Returns whose turn it is."""
        _, _, side, left = self.places[-1]
        points = f" {left} points" if left > 1 else ""
        return f"{'X' if side == 'x' else 'O'} claims{points}: "

    def score(self) -> Optional[int]:
        """Returns the score if the game is over, else None."""
        x, y, _, _ = self.places[-1]
        return self.board.joins(x, y) if self.board.graph else self.game.score(x, y)

    def screen(self) -> str:
        """Returns what shows the position."""
        score = self.score()
        ending = self.turn() if score is None else RESULTS[score]
        return "\n" + self.board.goals() + self.picture() + ending

    def point(self, text: str) -> Optional[int]:
        """Returns the number that a text names as a point, which needn't be one: that of no point
        for a cell that the board doesn't have."""
        if re.fullmatch("0|[1-9][0-9]{0,8}", text):
            return int(text)
        found = re.fullmatch("([a-z]{1,2})(0|[1-9][0-9]{0,8})", text)
        if not found or not self.board.width:
            return None
        column, row = column_of(found[1]), int(found[2]) - 1
        is_there = column < self.board.width and 0 <= row < self.board.points // self.board.width
        return row * self.board.width + column if is_there else self.board.points

    def claim(self, point: int) -> str:
        """Claims a point, and returns what is printed."""
        if point >= self.board.points:
            return REFUSALS["none"] + self.turn()
        if point in self.moves:
            return REFUSALS["taken"] + self.turn()
        self.moves.append(point)
        self.places.append(self.game.after(*self.places[-1], point))
        self.events.append(f"move {point}")
        return self.screen()

    def undo(self) -> str:
        """Takes the last point back, and returns what is printed."""
        if not self.moves:
            return REFUSALS["nothing"] + self.turn()
        self.take_back()
        self.events.append("back")
        return self.screen()

    def take_back(self) -> None:
        """Takes the last point back."""
        self.moves.pop()
        self.places.pop()

    def asked(self, text: str) -> str:
        """Returns the answer to a command that changes nothing, or to a line without a meaning."""
        words = text.split(" ")
        point = self.point(words[1]) if len(words) == 2 and words[0] == "lines" else None
        if text == "?":
            said = self.board.goals() + HELP
        elif text == "lines":
            said = self.lines(None)
        elif point is not None:
            said = self.lines(point) if point < self.board.points else REFUSALS["none"]
        else:
            said = REFUSALS["unclear"]
        return said + self.turn()

    def answer(self, line: bytes) -> Optional[str]:
        """Does what a line asks for, and returns what is printed, or None where the game is
        left."""
        text = line.strip(b" \t\r").decode("latin-1")
        if len(line) >= LONGEST:
            return REFUSALS["unclear"] + self.turn()
        if text == "quit":
            return None
        if text == "undo":
            return self.undo()
        point = self.point(text)
        return self.asked(text) if point is None else self.claim(point)

    def play(self, typed: bytes) -> str:
        """Returns all that is printed of a game with these lines, without its record."""
        said, lines = self.screen(), cut(typed)[:MOST_LINES]
        for line in lines:
            more = self.answer(line) if self.score() is None else None
            if more is None:
                return said
            said += more
        return said + self.end(len(lines))

    def end(self, count: int) -> str:
        """Returns what is printed at the end of an input with so many lines."""
        return "\n" if self.score() is None and count < MOST_LINES else ""

    def record(self) -> str:
        """Returns the record of the game."""
        return "".join(f"{it}\n" for it in ("posgame-record 1", *self.events))


class Rival:
    """A game against the program, of which an output is known: what is the same whether it plays by
    a certificate (bench/duel.py) or by a search (bench/computer.py)."""

    # What `?` explains besides.
    MEANINGS = ""

    def __init__(self, board: Board, side: str, turn: str, output: str) -> None:
        self.board, self.side, self.output, self.due = board, side, output, ""
        self.first = frozenset[int](), frozenset[int](), turn, board.bias if turn == "y" else 1
        self.start()

    def start(self) -> None:
        """Begins the game."""
        self.table = Table(self.board)
        self.table.places = [self.first]

    def owes(self) -> bool:
        """Returns whether the program is to move."""
        return self.table.score() is None and self.table.places[-1][2] == self.side

    def settle(self) -> str:
        """Makes the moves that the program owes, and returns what is printed, with the board."""
        raise NotImplementedError

    def claim(self, point: int) -> str:
        """Claims a point for the person, and returns what is printed."""
        count = len(self.table.moves)
        said = self.table.claim(point)
        if len(self.table.moves) == count:
            return said
        self.reply(point)
        return self.settle()

    def reply(self, point: int) -> None:
        """Notes that the person has claimed a point."""

    def undo(self) -> str:
        """Takes the person's last point back, and returns what is printed."""
        raise NotImplementedError

    def answer(self, line: bytes) -> Optional[str]:
        """Does what a line asks for, and returns what is printed, or None if the game is left."""
        text = line.strip(b" \t\r").decode("latin-1")
        point = self.table.point(text)
        if len(line) < LONGEST and text == "undo":
            return self.undo()
        if len(line) < LONGEST and point is not None:
            return self.claim(point)
        if len(line) < LONGEST and text == "?":
            return self.board.goals() + HELP + self.MEANINGS + self.table.turn()
        return self.table.answer(line)

    def play(self, typed: bytes) -> str:
        """Returns all that is printed of a game with these lines, with its record's text."""
        self.due, lines = self.settle(), cut(typed)[:MOST_LINES]
        for line in lines:
            more = self.answer(line) if self.table.score() is None else None
            if more is None:
                break
            self.due += more
        else:
            self.due += self.table.end(len(lines))
        return self.due + recorded(self.table)

    def record(self) -> str:
        """Returns the record of the game, which has no point that was taken back."""
        return "".join(f"{it}\n" for it in
                       ("posgame-record 1", *(f"move {it}" for it in self.table.moves)))


def recorded(table: Table) -> str:
    """Returns what is printed when the record is stored."""
    return f"recorded {len(table.moves)}\n"


def cut(typed: bytes) -> list[bytes]:
    """Returns the lines of an input; of a long one, each part that is read by itself.

    >>> cut(b"ab\\n\\nc"), [len(it) for it in cut(64 * b"x" + b"y" + bytes([10]))]
    ([b'ab', b'', b'c'], [64, 1])
    """
    lines = []
    for line in typed.removesuffix(b"\n").split(b"\n") if typed else []:
        while len(line) >= LONGEST:
            lines.append(line[:LONGEST])
            line = line[LONGEST:]
        lines.append(line)
    return lines


# Lines that mean nothing, most of them.


BOARDS = {
    "a grid": Board("maker-breaker", 9, kit.in_row(3, 3, 3), 3),
    "a wide grid": Board("maker-maker", 60, kit.in_row(2, 30, 5), 30),
    "two points a turn": Board("maker-breaker", 12, kit.in_row(3, 4, 3), 4, 2),
    "a ring": Board("avoider-enforcer", 10, kit.scatter(5, 10, 20, 4)),
    "a layout": Board("maker-breaker", 12, kit.scatter(7, 12, 20, 4),
                      layout=[(7 * it % 60, 3 * it % 8) for it in range(12)]),
    "a wide layout": Board("maker-maker", 24, kit.scatter(8, 24, 20, 5),
                           layout=[(17 * it, 2 * (it % 5)) for it in range(24)]),
    "long lines": Board("maker-breaker", 120, [list(range(0, 100, 2)), list(range(20, 120)),
                                                 list(range(16))]),
    "many lines": Board("maker-maker", 14, kit.scatter(6, 14, 30, 5)),
    "Bridg-It": Board("switching", 13, [], graph=kit.bridge(3)),
    "wide Bridg-It": Board("switching", 365, [], graph=kit.bridge(14)),
    "a graph": Board("switching", 15, [], graph=kit.complete(6)),
}


def drawn_line(draw: random.Random, board: Board) -> bytes:
    """Draws a line: a command, a name, a number, or bytes."""
    point = draw.randrange(board.points + 2)
    names = [board.name(point), str(point), f"lines {board.name(point)}", f"lines {point}"]
    words = ["undo", "undo", "lines", "?", "", " ", "undo undo", "lines  1", "b0", "00", "zz9",
             "999999999", "9999999999", "-1", "Undo", "x" * 63, "x" * 64, "7" * 130, "é"]
    kind = draw.randrange(8)
    if kind < 4:
        return names[kind].encode()
    if kind < 7:
        ends = draw.choice(["", " ", "\t"]), draw.choice(["", "\r"])
        return (ends[0] + draw.choice(words) + ends[1]).encode()
    return draw.randbytes(draw.randrange(80)).replace(b"\n", b"")


def typed_lines(draw: random.Random, board: Board, count: int) -> bytes:
    """Draws an input that keeps the game from its end, so that many lines are read: a claim that
    would end it is taken out."""
    table, lines = Table(board), list[bytes]()
    while len(lines) < count:
        line = drawn_line(draw, board)
        for it in cut(line + b"\n"):
            table.answer(it)
        if table.score() is None:
            lines.append(line)
        else:
            table.take_back()
    return b"".join(line + b"\n" for line in lines)


class Stored(NamedTuple):
    """A run, and the text of the record that it stored."""

    run: kit.Run
    record: str

    def wrong(self, due: str, record: str) -> list[str]:
        """Returns what differs from what must be printed, and from the record that is due."""
        wrong = [] if self.run.status == 0 else [f"status {self.run.status}"]
        wrong += [] if self.run.output == due else [difference(self.run.output, due)]
        return wrong + ([] if self.record == record else ["another record"])


def stored(program: str, board: Board, typed: bytes, *words: str, proof: str = "") -> Stored:
    """Runs the program on a board with this input and these words, and the certificate if there is
    one."""
    with kit.files(game=board.text(), layout=board.layout_text(), proof=proof) as folder:
        names = ["game", *(["proof"] if proof else []), *words, "--record", "record"]
        names += ["--layout", "layout"] if board.layout else []
        env = {"PATH": os.environ["PATH"], "COLUMNS": str(COLUMNS)}
        done = kit.run(program, *names, typed=typed, folder=folder, clock=60, env=env)
        record = folder / "record"
        return Stored(done, record.read_text() if record.exists() else "")


def tried(program: str, board: Board, typed: bytes) -> list[str]:
    """Returns what differs in a run with this input, and in its record."""
    table = Table(board)
    due = table.play(typed) + recorded(table)
    return stored(program, board, typed).wrong(due, table.record())


def difference(found: str, due: str) -> str:
    """Returns where two texts begin to differ.

    >>> difference("one two", "one tea")
    "after 5 characters 'wo' in place of 'ea'"
    """
    at = len(os.path.commonprefix([found, due]))
    return f"after {at} characters {found[at:at + 40]!r} in place of {due[at:at + 40]!r}"


def type_lines(program: str, count: int, seed: int) -> int:
    """Types lines at each board: some games to their ends, and one of as many lines as are read."""
    table = kit.Table("board", "lines", "games")
    for name, board in BOARDS.items():
        draw, wrong, games = random.Random(f"{seed} {name}"), list[str](), 20
        for at in range(games):
            lines = [drawn_line(draw, board) for _ in range(60)] + [b"quit"] * (at % 2)
            wrong += tried(program, board, b"\n".join([*lines, b"undo"]))
        wrong += tried(program, board, typed_lines(draw, board, count))
        wrong += tried(program, board, b"")
        table.row(name, count + 60 * games, games + 2, wrong=wrong)
    return table.end()


# Screens in tmux.


class Play(NamedTuple):
    """A play for the screens: its name, the words for the program, and what is typed."""

    name: str
    words: list[str]
    typed: list[str]


def plays() -> list[Play]:
    """Returns the rows of bench/table.txt."""
    rows = []
    for name, words, *typed in kit.stanzas("table.txt"):
        rows.append(Play(name, words.split(), " ".join(typed).split(", ")))
    return rows


class Terminal:
    """A program in a tmux of its own, whose files that aren't examples are in a room."""

    def __init__(self, program: str, words: list[str], room: pathlib.Path, **more: str) -> None:
        self.command = ["tmux", "-S", str(room / "socket"), "-f", "/dev/null"]
        env = {"PATH": os.environ["PATH"], "LC_ALL": "C.UTF-8", "COLUMNS": str(COLUMNS), **more}
        start = ["new-session", "-d", "-x", str(COLUMNS), "-y", str(ROWS), "-s", "table"]
        names = [str(room / word) if "." in word and not (kit.EXAMPLES / word).exists() else word
                 for word in words]
        shell = ["sh", "-c", '"$0" "$@"; echo "status $?"; exec sleep 60', program]
        kit.call(*self.command, *start, *shell, *names, cwd=kit.EXAMPLES, env=env, check=True)

    def ask(self, *words: str) -> str:
        """Runs a command of tmux on the terminal, and returns what it printed."""
        return str(kit.call(*self.command, words[0], "-t", "table", *words[1:]).stdout)

    def screen(self, *flags: str) -> str:
        """Returns what the terminal shows, and with `-S -` also what has left it above."""
        shown = self.ask("capture-pane", "-p", *flags)
        return "\n".join(it.rstrip() for it in shown.rstrip().split("\n"))

    def wait(self, pattern: str) -> None:
        """Waits until the last line of the screen is of this pattern."""
        end = time.monotonic() + PATIENCE
        while not re.fullmatch(pattern, self.screen().rsplit("\n", 1)[-1]):
            if time.monotonic() > end:
                raise TimeoutError(f"no line {pattern!r} in {self.screen()!r}")
            time.sleep(0.02)

    def type(self, text: str) -> None:
        """Types a line or ends the input, and waits for the answer."""
        if text == END:
            self.ask("send-keys", "C-d")
            self.wait("status [0-9]+")
            return
        self.ask("send-keys", "-l", text)
        self.wait(f".* {re.escape(text)}")
        self.ask("send-keys", "Enter")
        self.wait(f"{PROMPT}|status [0-9]+")

    def end(self) -> None:
        """Ends tmux and what runs in it."""
        kit.call(*self.command, "kill-server")


def shown_of(program: str, play: Play, *flags: str, **more: str) -> str:
    """Plays in tmux, and returns what the terminal shows at the end."""
    with kit.files() as room:
        terminal = Terminal(program, play.words, room, **more)
        try:
            terminal.wait(PROMPT)
            for line in play.typed:
                terminal.type(line)
            return terminal.screen("-S", "-", *flags)
        finally:
            terminal.end()


def colours(program: str, play: Play) -> list[str]:
    """Returns what is wrong with the colours of the first mark: there are none with NO_COLOR."""
    first = play._replace(typed=play.typed[:1])
    due = {"colours": {}, "no colours": {"NO_COLOR": "1"}}
    return [f"{play.name}: {name} are missing" for name, more in due.items()
            if (RED in shown_of(program, first, "-e", **more)) == bool(more)]


def show(program: str, is_writing: bool) -> int:
    """Plays all rows in tmux, and compares or writes the screens."""
    if shutil.which("tmux") is None:
        sys.exit("there is no tmux")
    rows = plays()
    wrong = colours(program, rows[0])
    for play in rows:
        path = SCREENS / f"{play.name}.txt"
        found = f"$ posgame-play {' '.join(play.words)}\n{shown_of(program, play)}\n"
        if is_writing:
            SCREENS.mkdir(exist_ok=True)
            path.write_text(found, encoding="utf-8")
        elif not path.exists() or path.read_text(encoding="utf-8") != found:
            wrong.append(f"{play.name}: other screens than {path}")
        print(f"{play.name}: {len(play.typed)} lines typed", flush=True)
    return kit.end(wrong)


def main() -> int:
    given = kit.options(
        __doc__, "posgame_play", ["screens", "lines"], write=(False, "write docs/screens"),
        lines=(12_000, "how many lines are typed at each board"), seed=1)
    if given.part == "screens":
        return show(given.program, given.write)
    return type_lines(given.program, given.lines, given.seed)


if __name__ == "__main__":
    raise SystemExit(main())
