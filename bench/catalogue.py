"""The results of the catalogue in boards/: the rows of boards/boards.csv, what is known of a board
from elsewhere, and docs/BOARDS.md, which is made from them.

Imported by bench/boards.py; tried by bench/test_boards.py. Unproved.
"""
from __future__ import annotations

import csv
import dataclasses
import fnmatch
import hashlib
import io
import os
import pathlib
import tempfile
import textwrap
from typing import Iterable, Iterator, Mapping, Optional

import families
import kit

CSV = families.FOLDER / "boards.csv"
PAGE = kit.TOP / "docs" / "BOARDS.md"
CERTIFICATES = families.FOLDER / "certificates"
# The greatest certificate that is kept there, in bytes.
KEPT = 20_000
NOT_KNOWN = "not known to us"
# What a result is called in the tables of the page.
WINNERS = {"maker": "Maker", "breaker": "Breaker", "draw": "draw", "x": "first", "y": "second",
           "avoider": "Avoider", "enforcer": "Enforcer", "short": "Short", "cut": "Cut",
           "first-mover": "who begins", "unknown": "unknown"}
# Which side of a game X and Y are, by the kind.
SIDES = {"maker-breaker": ("maker", "breaker"), "maker-maker": ("x", "y"),
         "avoider-enforcer": ("avoider", "enforcer"), "switching": ("short", "cut"),
         "connectivity": ("maker", "breaker")}
ON_GRAPHS = "switching", "connectivity"
OPEN = "unknown"
# A table with more boards in a row has no seconds.
WIDE = 4


@dataclasses.dataclass(frozen=True)
class Row:
    """A row of boards.csv. boards/README.md says what its cells mean."""

    family: str
    name: str
    kind: str
    bias: int
    begins: str
    points: int
    lines: int
    result: str
    claim: str
    version: Optional[int]
    nodes: Optional[int]
    bytes: Optional[int]
    expanded: Optional[int]
    seconds: float
    found_by: str
    budgets: str
    game_sha256: str
    certificate_sha256: str
    known: str

    @property
    def key(self) -> str:
        """The family and the name."""
        return f"{self.family}/{self.name}"

    @property
    def is_open(self) -> bool:
        """Whether no program has settled the board."""
        return self.result == OPEN

    def cells(self) -> dict[str, str]:
        """Returns the texts of the row: a figure that there isn't is empty."""
        return {it.name: cell_of(getattr(self, it.name)) for it in dataclasses.fields(self)}


FIELDS = [it.name for it in dataclasses.fields(Row)]


def cell_of(value: object) -> str:
    """Returns the text of a cell.

    >>> cell_of(None), cell_of(0.125), cell_of(7)
    ('', '0.12', '7')
    """
    return "" if value is None else f"{value:.2f}" if isinstance(value, float) else str(value)


def row_of(cells: Mapping[str, str]) -> Row:
    """Returns the row of such texts; raises KeyError or ValueError if it is none."""
    values: dict[str, object] = {}
    for it in dataclasses.fields(Row):
        text = cells[it.name]
        values[it.name] = (text if it.type == "str" else float(text) if it.type == "float" else
                           int(text) if text or it.type == "int" else None)
    return Row(**values)  # type: ignore[arg-type]


def sum_of(data: bytes) -> str:
    """Returns the SHA-256 sum of bytes."""
    return hashlib.sha256(data).hexdigest()


def implied(kind: str, begins: str, claims: Iterable[str]) -> str:
    """Returns the result that the claims `T S G` of a certificate imply, or else nothing.

    >>> [implied("maker-breaker", begins, ["x y win"]) for begins in ("maker", "breaker")]
    ['breaker', '']
    >>> implied("maker-maker", "x", ["x y draw", "x x draw"])
    'draw'
    >>> implied("switching", "either", ["x x win", "y y win"])
    'first-mover'
    """
    x, y = SIDES[kind]
    results = {("x x win", "y x win"): x, ("x y win", "y y win"): y,
               ("x x win", "y y win"): "first-mover"}
    if kind not in ON_GRAPHS:
        turn = "x" if begins == x else "y"
        results = {(f"{turn} x win",): x, (f"{turn} y win",): y,
                   (f"{turn} x draw", f"{turn} y draw"): "draw"}
    return results.get(tuple(sorted(claims)), "")


def problems(row: Row) -> Iterator[str]:
    """Yields what a row lacks, and whether it contradicts what is known."""
    settled = [row.claim, row.version, row.nodes, row.bytes, row.certificate_sha256]
    if row.is_open and (any(settled) or row.expanded is None):
        yield "an open board has figures of a certificate, or no number of positions"
    if not row.is_open and not all(settled):
        yield "a figure or a sum of the certificate is missing"
    if not row.is_open and implied(row.kind, row.begins, row.claim.split("; ")) != row.result:
        yield f"the claims {row.claim} don't imply {row.result}"
    if not row.game_sha256 or not row.found_by:
        yield "the sum of the game, or the program, is missing"
    due = row.known.partition(":")[0]
    if row.known != NOT_KNOWN and row.result not in (OPEN, due) and " but " not in row.known:
        yield f"{row.result}, and {row.known}"


# Files.


def store(path: pathlib.Path, data: bytes) -> None:
    """Writes a file whole or not at all: first under another name in its folder."""
    path.parent.mkdir(parents=True, exist_ok=True)
    number, name = tempfile.mkstemp(dir=path.parent, prefix=f".{path.name}.")
    try:
        with os.fdopen(number, "wb") as file:
            file.write(data)
        os.chmod(name, 0o644)
        os.replace(name, path)
    except BaseException:
        os.unlink(name)
        raise


def read_rows(path: pathlib.Path = CSV) -> dict[str, Row]:
    """Returns the rows of a file by their keys; none if there is no such file."""
    if not path.exists():
        return {}
    with path.open(newline="", encoding="utf-8") as file:
        return {it.key: it for it in map(row_of, csv.DictReader(file))}


def write_rows(rows: Mapping[str, Row], path: pathlib.Path = CSV) -> None:
    """Writes rows in the order of the families and their boards; others are left out."""
    text = io.StringIO()
    writer = csv.DictWriter(text, FIELDS, lineterminator="\n")
    writer.writeheader()
    keys = (board.key for family in families.families() for board in family.boards)
    writer.writerows(rows[key].cells() for key in keys if key in rows)
    store(path, text.getvalue().encode())


def known(key: str) -> str:
    """Returns what is known of a board from elsewhere, as `RESULT: WHERE`."""
    for line in filter(None, kit.data("known.txt", "boards").split("\n")):
        pattern, result, where = line.split(" ", 2)
        if fnmatch.fnmatchcase(key, pattern):
            return f"{result}: {where}"
    return NOT_KNOWN


# The page.


def wrapped(text: str, indent: str = "") -> list[str]:
    """Returns the lines of a paragraph, all but the first with this indentation."""
    return textwrap.wrap(text, 100, subsequent_indent=indent, break_on_hyphens=False,
                         break_long_words=False)


def table_of(family: families.Family, rows: Mapping[str, Row]) -> list[str]:
    """Returns the table of a family: of each board the result, the number of nodes if there is a
    certificate, and the seconds, unless that makes the table too wide."""
    columns = list(dict.fromkeys(it.column for it in family.boards))
    heads = [family.counted, "s"][:2 if len(columns) <= WIDE else 1]
    lines: dict[tuple[str, ...], dict[str, list[str]]] = {}
    for board in family.boards:
        row, of_row = rows.get(board.key), lines.setdefault(board.row, {})
        if row:
            figures = ["" if row.nodes is None else f"{row.nodes:,}", f"{row.seconds:.2f}"]
            of_row[board.column] = [WINNERS[row.result], *figures[:len(heads)]]
    empty = [""] * (1 + len(heads))
    return kit.table(
        [*family.rows, *(it for column in columns for it in (column, *heads))],
        ([*head, *(it for column in columns for it in of_row.get(column, empty))]
         for head, of_row in lines.items()))


def open_lines(family: families.Family, rows: Mapping[str, Row]) -> Iterator[str]:
    """Yields the lines of a list of the open boards, by the budgets with which they were tried."""
    tried: dict[str, list[str]] = {}
    for board in family.boards:
        row = rows.get(board.key)
        if row and row.is_open:
            words = f"`{row.found_by.split(' ')[0]} {row.budgets}`"
            tried.setdefault(words, []).append(f"{board.name} ({row.expanded:,})")
    for words, names in tried.items():
        yield from wrapped(f"- open after {words}: {', '.join(names)}", "  ")


def section(family: families.Family, rows: Mapping[str, Row]) -> list[str]:
    """Returns the lines of a family's section."""
    of_family = [rows[it.key] for it in family.boards if it.key in rows]
    settled, seconds = sum(not it.is_open for it in of_family), sum(it.seconds for it in of_family)
    said = f"{settled} of {len(family.boards)} settled, in {seconds:.0f} s of a processor."
    left = len(family.boards) - len(of_family)
    said += f" {left} of them weren't tried yet." if left else ""
    tried = [*open_lines(family, rows)]
    return [f"## {family.title}", "", *wrapped(f"{family.about} {said}"), "",
            *wrapped(f"Known: {family.known}"), "", *table_of(family, rows), "",
            *([*tried, ""] if tried else [])]


HEAD = """\
# Boards

{said}

For each board: the winner under best play, the number of nodes of the certificate (of claims, in
connectivity games), and the seconds of a processor. Boards that stay open are `unknown`; a list
below the table says with which budgets they were tried, and after how many expanded positions the
search ended. Each board was given to `posgame solve` first, and to `posgame-settle` if that printed
`unknown`. Both `posgame check` and the second checker (docs/PYTHON.md) accepted each certificate,
and its claims imply the result.

`boards/boards.csv` has more of each board: the kind and the sizes, which program found the result
and by which budgets, the sums of its game file and certificate, and what is known from elsewhere.
`boards/README.md` says how to make all of it again. Rows of Avoider-Enforcer that name
`posgame-settle 1.0.0` there come from before its search in depth: 1.1.0 may find other certificates
of these boards, and settle more of them.

In Maker-Maker `first` is the side that begins. The class `who begins` is what `solve` prints as
`first-mover`. An *animal* is a polyomino: cells of a square grid, linked by common sides.
"""


def page(rows: Mapping[str, Row]) -> str:
    """Returns docs/BOARDS.md: families with results first, and then what has none yet."""
    every = families.families()
    tried = [it for it in every if any(board.key in rows for board in it.boards)]
    settled = sum(not it.is_open for it in rows.values())
    said = (f"{len(rows)} boards in {len(tried)} families, tried by `bench/boards.py`: {settled} "
            f"are settled, and {len(rows) - settled} stay open.")
    lines = [HEAD.format(said="\n".join(wrapped(said)))]
    lines += [line for it in tried for line in section(it, rows)]
    left = [it for it in every if it not in tried]
    if left:
        lines += ["## Not tried yet", "",
                  *wrapped("`boards/families.txt` has further families, without results so far. "
                           "`bench/boards.py --family NAME --jobs N --write` tries one."), "",
                  *kit.table(["family", "boards", "what"],
                             ([it.name, str(len(it.boards)), it.title] for it in left)), ""]
    return "\n".join(lines)
