"""Reads the rows of crates/test_stories/stdin: the files and runs of each, and what the row says
that a run leaves in memory (crates/test_stories/README.md). Unproved.
"""
from __future__ import annotations

import pathlib
from typing import Iterator, NamedTuple, Optional

TOP = pathlib.Path(__file__).resolve().parents[2]
SCRIPT = TOP / "crates" / "test_stories" / "stdin"
SIGNS = {"s": " ", "t": "\t", "r": "\r", "d": "\x7f"}
LOGGED = {"says": "<", "begins": "<", "hears": ">", "skips": "!", "ended": "."}
HELD = "holds", "starts", "lacks"
Entries = list[tuple[str, str]]


class Entry(NamedTuple):
    """An entry of a log, with its sign; unless it `is_whole`, what was printed begins so."""

    text: str
    is_whole: bool


class Told(NamedTuple):
    """What a row says of a run: the status, the log, and of names whether the file `holds` this
    text, `starts` so, or `lacks`."""

    status: int
    log: list[Entry]
    files: dict[str, tuple[str, bytes]]


class Story(NamedTuple):
    """A run of a row: its words and its input; and what is told of it, if anything."""

    words: list[str]
    typed: bytes
    told: Optional[Told]


class Row(NamedTuple):
    """A row: its name, the files before its runs, and these."""

    name: str
    files: dict[str, bytes]
    runs: list[Story]


def plain(line: str) -> str:
    """Returns a line of a text without its signs of other characters."""
    parts = iter(line)
    return "".join(SIGNS.get(after := next(parts, ""), after) if it == "\\" else it
                   for it in parts)


def written_out(told: str, texts: dict[str, str]) -> str:
    """Returns the text that an entry tells."""
    lines = []
    for line in map(str.strip, told.split(";")):
        if line.startswith("@"):
            lines.append(texts[line[1:]].removesuffix("\n"))
        elif line.startswith("*"):
            count, _, one = line[1:].partition(" ")
            lines += [plain(one)] * int(count)
        else:
            lines.append(plain(line))
    return "\n".join(lines)


def entries_of(script: str) -> Entries:
    """Returns the entries of the script, those that go on over several lines in one."""
    entries: Entries = []
    for line in script.splitlines():
        if line.startswith("  ") and entries:
            word, rest = entries[-1]
            entries[-1] = word, f"{rest} {line.strip()};"
        elif line and not line.startswith("#"):
            word, _, rest = line.partition(" ")
            entries.append((word, rest))
    return entries


def parts_of(entries: Entries, head: str) -> Iterator[Entries]:
    """Yields the entries from each with this head up to the next."""
    starts = [at for at, (word, _) in enumerate(entries) if word == head]
    for at, end in zip(starts, [*starts[1:], len(entries)]):
        yield entries[at:end]


def log_of(entries: Entries, texts: dict[str, str]) -> list[Entry]:
    """Returns the log that is told of a run."""
    log: list[Entry] = []
    for word, rest in entries:
        if word == "repeat":
            log += log[-2:] * int(rest)
        elif word in LOGGED:
            text = written_out(rest, texts) + ("\n" if word == "says" else "")
            log.append(Entry(LOGGED[word] + text, word != "begins"))
    return log


def files_in(entries: Entries, word: str, texts: dict[str, str]) -> dict[str, bytes]:
    """Returns the texts of names after such a word."""
    told = (rest.partition(" ") for it, rest in entries if it == word)
    return {name: written_out(text, texts).encode() for name, _, text in told}


def row_of(entries: Entries, texts: dict[str, str]) -> Row:
    """Returns a row. What is told of files is told of its last run; files of which nothing is told
    keep their text."""
    files = files_in(entries, "file", texts)
    held = {name: ("holds", text) for name, text in files.items()}
    for word in HELD:
        held |= {name: (word, text) for name, text in files_in(entries, word, texts).items()}
    runs, has_replies = list(parts_of(entries, "run")), bool(dict(entries).get("replies"))
    stories = []
    for number, run in enumerate(runs, 1):
        said = dict(run)
        words = ["" if it == "<>" else it for it in said["run"].split()]
        told = None if has_replies else Told(
            int(said["status"]), log_of(run, texts), held if number == len(runs) else {})
        stories.append(Story(words, written_out(said.get("input", ""), texts).encode(), told))
    return Row(entries[0][1], files, stories)


def rows() -> Iterator[Row]:
    """Yields all rows in memory."""
    entries = entries_of(SCRIPT.read_text(encoding="utf-8"))
    texts: dict[str, str] = {}
    for word, rest in entries:
        if word == "text":
            name, _, told = rest.partition(" ")
            texts[name] = written_out(told, texts)
    for row in parts_of(entries, "row"):
        yield row_of(row, texts)
