#!/usr/bin/env python3
"""Lists the lines that are too long, as FILE:LINE: N columns, and functions with many clauses.

    bench/width.py                      all kinds of file
    bench/width.py --only docs scripts  these kinds only

A line has at most 100 characters, and a row of a table of Markdown 120. Not counted are imports of
a name that is too wide alone. A function of a crate has at most seven clauses, `requires` and
`ensures` together, except in three crates (`HANDED_ON`). The status is 1 if there is more. The
files are those that git knows, or would take. For a line of a source it also says what to do.

Its examples are tried by `bench/test_examples.py`. Nothing is proved of this script.
"""
from __future__ import annotations

import argparse
import functools
import pathlib
import re
import subprocess
import sys
from collections.abc import Iterator
from typing import NamedTuple

TOP = pathlib.Path(__file__).resolve().parent.parent
COLUMNS = 100
TABLE_COLUMNS = 120
KINDS = ("sources", "docs", "scripts", "examples")
GAMES = (".game", ".cert", ".record")
MOST_CLAUSES = 7
# The crates whose calls hand on the clauses of the top call `run`, however many it has.
HANDED_ON = ("pg_cli", "pg_sessions", "pg_solve")
HEAD = re.compile(r"^ *(?:pub(?:\(\w+\))? +)?(?:(?:const|unsafe) +)*fn +(\w+)", re.MULTILINE)


def tracked() -> list[str]:
    """Returns the files of the tree, without what git ignores."""
    words = ["git", "-C", str(TOP), "ls-files", "-co", "--exclude-standard"]
    listed = subprocess.run(words, check=True, capture_output=True, text=True).stdout
    return [name for name in listed.splitlines() if (TOP / name).is_file()]


def kind_of(name: str) -> str | None:
    """Returns the kind of a file, or None if its lines aren't counted.

    >>> kind_of("crates/pg_base/src/lib.rt"), kind_of("docs/FIGURES.md"), kind_of("LICENSE.txt")
    ('sources', 'docs', None)
    """
    path = pathlib.PurePath(name)
    if path.suffix in (".rt", ".antt"):
        return "sources"
    if path.suffix == ".md":
        return "docs"
    if path.parts[0] == "examples" and path.suffix in GAMES:
        return "examples"
    return "scripts" if is_script(name) else None


def is_script(name: str) -> bool:
    """Returns whether a file is one of Python or bash, by its ending or by its first line."""
    path = TOP / name
    if path.suffix in (".py", ".sh", ".bash"):
        return True
    if path.suffix:
        return False
    with path.open("rb") as file:
        first = file.readline()
    return re.match(rb"#!.*\b(bash|sh|python3?)\s*$", first) is not None


def limit(kind: str, line: str) -> int | None:
    """Returns the most columns that a line may have, or None if it may have any number.

    >>> limit("docs", "| a | b |"), limit("docs", "text"), limit("sources", "ghost use a.{b, c};")
    (120, 100, 100)
    >>> limit("sources", "use Rattle.a.{b, c}"), limit("sources", "use Rattle.a.{%s}" % ("b" * 99))
    (100, None)
    >>> limit("sources", "#[tactic(auto)]"), limit("sources", "pub use a::b;")
    (100, 100)
    """
    if kind == "docs" and line.startswith("|"):
        return TABLE_COLUMNS
    names = re.match(r"(\s*(?:unfoldable )?(?:(?:pub|ghost) )?use Rattle\.\S+\.\{)(.+)\};?$", line)
    if kind == "sources" and names:
        widest = max(map(len, names[2].split(", ")))
        return COLUMNS if len(names[1]) + widest < COLUMNS else None
    if kind == "examples" and not line.startswith("#"):
        return None
    return COLUMNS


class Change(NamedTuple):
    """A change of a must-fail edit: in which file which text becomes which."""

    file: str
    old: str
    new: str


@functools.lru_cache(None)
def edits() -> list[tuple[str, list[Change]]]:
    """Returns the must-fail edits, with their changes."""
    found = []
    for name in tracked():
        path, file, old, changes = pathlib.PurePath(name), "", "", []
        if path.suffix != ".edit":
            continue
        crate = path.parts[1 if path.parts[0] == "crates" else 2]
        for line in (TOP / name).read_text(encoding="utf-8").split("\n"):
            if line.startswith("file: "):
                file = f"crates/{crate}/{line[6:].strip()}"
            elif line.startswith("old: "):
                old = line[5:]
            elif line.startswith("new:"):
                changes.append(Change(file, old, line[4:].removeprefix(" ")))
        found.append((name, changes))
    return found


def remedy(name: str, line: str) -> str:
    """Returns what is to be done about a line of a source that is too long.

    >>> remedy("crates/pg_base/src/lib.rt", '    let text = "0 1 2"')
    ': code, which `rt fmt` leaves: break it by hand'
    >>> remedy("crates/pg_base/specs/Sets.antt", "f = " + "a" * 99)
    ': a word is too long: shorten it'
    """
    laid = name.endswith(".antt") or re.match(r"\s*(//|requires|ensures|ghost)", line)
    if re.match(r"\s*//[/!] \|", line):
        return ": a row of a table in a comment: shorten it"
    for edit, changes in edits():
        if laid and any(change.file == name and change.old in line for change in changes):
            return f": {edit} looks for it in one line: shorten what it looks for"
    column = len(line) - len(line.lstrip())
    if any(column + len(word) > COLUMNS - 4 for word in re.findall(r'"[^"]*"|[^\s"]+', line)):
        return ": a word is too long: shorten it"
    by_hand = "code, which `rt fmt` leaves: break it by hand"
    return ": bench/lay_out.py breaks it" if laid else f": {by_hand}"


def too_long(name: str, kind: str) -> Iterator[tuple[int, str]]:
    """Yields, of each line of a file that is too long, its number, its columns and what to do."""
    text = (TOP / name).read_text(encoding="utf-8", errors="replace")
    for number, line in enumerate(text.splitlines(), 1):
        most = limit(kind, line)
        if most is not None and len(line) > most:
            what = remedy(name, line) if kind == "sources" else ""
            yield number, f"{len(line)} columns{what}"


def crowded(name: str, text: str) -> Iterator[tuple[int, str]]:
    """Yields, of each function of a crate's source with too many clauses, its line and their count.

    >>> text = "fn a();\\n    pub fn b()\\n" + "    requires {0 < 1}\\n    ensures {true}\\n" * 4
    >>> [*crowded("crates/pg_base/src/lib.rt", text)], [*crowded("crates/pg_cli/src/lib.rt", text)]
    ([(2, 'b has 8 clauses')], [])
    """
    crate = re.match(r"crates/(\w+)/src/.*\.rt$", name)
    heads = [] if not crate or crate[1] in HANDED_ON else [*HEAD.finditer(text)]
    for head, end in zip(heads, [*(it.start() for it in heads[1:]), len(text)]):
        count = len(re.findall(r"^ *(?:requires|ensures)\b", text[head.end():end], re.MULTILINE))
        if count > MOST_CLAUSES:
            yield text.count("\n", 0, head.start()) + 1, f"{head[1]} has {count} clauses"


def main() -> int:
    """Lists the lines and the functions, and returns the status."""
    words = argparse.ArgumentParser(description=__doc__.split("\n\n")[0])
    words.add_argument("--only", nargs="+", choices=KINDS, default=KINDS, metavar="KIND",
                       help=f"these kinds of file: {', '.join(KINDS)}")
    given = words.parse_args()
    wide = many = 0
    for name, kind in ((name, kind_of(name)) for name in tracked()):
        if kind not in given.only:
            continue
        lines = list(too_long(name, kind))
        heads = list(crowded(name, (TOP / name).read_text(encoding="utf-8", errors="replace")))
        wide, many = wide + len(lines), many + len(heads)
        print("".join(f"{name}:{number}: {what}\n" for number, what in lines + heads), end="")
    print(f"{wide} lines are too long in {', '.join(given.only)}, and {many} functions have more "
          f"than {MOST_CLAUSES} clauses")
    return int(wide + many > 0)


if __name__ == "__main__":
    sys.exit(main())
