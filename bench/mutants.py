"""What the parts of bench/fuzz.py share: mutations of files, words of arguments, runs of a program,
and what is wrong with a run. The words and patterns are in bench/fuzz.txt. Unproved.
"""
from __future__ import annotations

import functools
import getopt
import os
import pathlib
import random
import re
import shutil
from typing import Optional, Sequence

import kit

Draw = random.Random
# Games and certificates by their family: `span`, `vec`, or none.
Pairs = dict[str, list[tuple[bytes, bytes]]]

# The limits of a run, the seconds for a machine and a program that are as fast as those of
# bench/worst.py.
SECONDS, BY_THE_CLOCK, MEGABYTES = 2, 30, 200
# Words that are put into files and arguments, and patterns: their parts with names, words that have
# a meaning, and what the commands may print at each status.
*LISTS, SHARED, MEANINGS, DUES = kit.stanzas("fuzz.txt")
KEYS, SIGNS, FAMILY_KEYS, FAMILY_SIGNS, FURTHER, NUMBERS, NAMES, WORDS, OTHER_WORDS = (
    " ".join(it).split() for it in LISTS)
PATTERNS = dict(it.split(" ", 1) for it in SHARED)
NAMES += ["", "no folder/new", "x" * 300, "G\udcff"]
TYPED = ["", " 3\t", "x", "00", "9" * 70, "-1", "3 4", "\0", "ä", "1" * 64]
# Numbers of more digits aren't changed: Python reads none of more than 4,300.
DIGITS = 4_000
# At which statuses each command leaves the files that it may write, and all others at each status.
KEEPS = {"solve": (1, 2, 3, 4), "record": (2, 3, 4, 9), "settle": (1, 2, 3, 4, 5, 7),
         "join": (1, 2, 3, 4, 5, 7), "split": (2, 3, 4), "table": (2, 3, 4, 12)}
# The statuses at which the programs beside posgame say on standard error what is wrong.
COMPLAINTS = 2, 5, 6, 7


@functools.cache
def whole(pattern: str) -> str:
    """The pattern with its named parts in place of their names."""
    for name in reversed(PATTERNS):
        pattern = pattern.replace(name, f"({PATTERNS[name]})")
    return pattern


@functools.cache
def due(command: str, status: int) -> Optional[str]:
    """The pattern of what a command may print at a status, or None if it can't have that."""
    texts = [text.strip() for commands, statuses, text in (it.split(":", 2) for it in DUES)
             if re.fullmatch(commands, command) and re.fullmatch(statuses, f" {status}")]
    return whole("|".join(texts)) if texts else None


# What arguments mean.


Meaning = tuple[str, list[str]]
NOTHING: Meaning = ("nothing", [])


def of_posgame(words: list[str]) -> Meaning:
    """The command and what it writes; no command if the words have no meaning. (None of those drawn
    is an option cut short, which getopt would take.)"""
    try:
        options, others = getopt.gnu_getopt(words, "", ["positions=", "side=", "images"])
    except getopt.GetoptError:
        return "", []
    text = "\n".join(others) + "".join(f"\0{'='.join(it)}" for it in options)
    rows = (whole(it).replace(" --", "\0--").replace(" ", "\n").split(":\n") for it in MEANINGS)
    counts = [int(count) for count, pattern in rows if re.fullmatch(pattern, text)]
    is_scattered = counts and others[:2] == ["gen", "scatter"]
    seed, points, lines, size = map(int, others[2:6] if is_scattered else "0101")
    if (not counts or seed >= 2**31 or not 1 <= size <= points <= 256 or size > 100
            or lines > 20_000 or lines * size > 400_000):
        return "", []
    command = " ".join(others[: 2 if others[0] in kit.FAMILIES else 1])
    return command, others[len(others) - counts[0]:]


Given = tuple[dict[str, str], list[str]]


def given_in(words: Sequence[str], flags: str, valued: str) -> Optional[Given]:
    """The options with their values, and the other words; None if the words have no meaning.

    >>> given_in("a --size=3 --json -- -b".split(), "json", "size")
    ({'size': '3', 'json': ''}, ['a', '-b'])
    >>> given_in(["--size", "-3"], "", "size"), given_in(["--size=3", "--size=3"], "", "size")
    (None, None)
    """
    options, others, left = dict[str, str](), list[str](), [*words]
    while left:
        word = left.pop(0)
        if word == "--":
            return options, others + left
        name, has_value, value = word[2:].partition("=")
        if not word.startswith("-") or word == "-":
            others.append(word)
            continue
        if not word.startswith("--") or name in options or name not in f"{flags} {valued}".split():
            return None
        if name in valued.split() and not has_value:
            if not left or left[0].startswith("-") and left[0] != "-":
                return None
            value = left.pop(0)
        elif name in flags.split() and has_value:
            return None
        options[name] = value
    return options, others


def are_numbers(options: dict[str, str], ranges: dict[str, tuple[int, int]]) -> bool:
    """Tells whether each of these options that is given is a number of its range. (The documents
    don't say how it is written; clap takes zeros and a plus before it.)"""
    return all(re.fullmatch(r"\+?[0-9]+", options[it]) and low <= int(options[it]) <= high
               for it, (low, high) in ranges.items() if it in options)


def is_help(words: Sequence[str]) -> bool:
    """Tells whether a word before `--` is one that clap answers by a text."""
    before = words[:words.index("--")] if "--" in words else words
    return any(it in ("--help", "-h", "--version", "-V") for it in before)


# The commands of posgame-settle that are words, which stand before all options.
COMMANDS = "moves", "split", "join"
LIMITS = {"positions": (1, 100_000_000), "entries": (1, 100_000_000), "nodes": (1, 200_000),
          "most": (1, 10_000)}


def of_settle(words: list[str]) -> Meaning:
    """What the arguments of posgame-settle mean: the command is its first word, if it is one."""
    command = words[0] if words and words[0] in COMMANDS else "settle"
    valued = {"split": "most", "join": "nodes"}.get(command, "positions entries nodes")
    flags = {"settle": "images json progress", "moves": "json progress", "split": "",
             "join": "images"}[command]
    given = given_in(words if command == "settle" else words[1:], flags, valued)
    count = {"settle": 2, "moves": 1, "split": 2, "join": 3}[command]
    if not given or len(given[1]) != count or not are_numbers(given[0], LIMITS):
        return NOTHING
    before = given_in(words[:words.index("--")], flags, valued) if "--" in words else given
    if command == "settle" and before and before[1][:1] and before[1][0] in COMMANDS:
        return NOTHING
    return command, [] if command == "moves" else given[1][-1:]


def of_draw(words: list[str]) -> Meaning:
    """What the arguments of posgame-draw mean."""
    given = given_in(words, "book no-numbers no-lines no-legend", "depth size blank move layout")
    if not given:
        return "", []
    options, names = given
    ranges = {"depth": (0, 1000), "size": (1, 10_000), "blank": (1, 100), "move": (0, 10_000)}
    is_book = "book" in options
    is_wrong = (not 1 <= len(names) <= 3 or not are_numbers(options, ranges)
                or "depth" in options and not is_book
                or is_book and (len(names) != 2 or options.keys() - {"book", "depth", "layout"})
                or "move" in options and len(names) != 2 or "blank" in options and len(names) > 1)
    return ("", []) if is_wrong else ("book" if is_book else "picture", [])


def of_play(words: list[str]) -> Meaning:
    """What the arguments of posgame-play mean."""
    given = given_in(words, "", "side computer turn record layout")
    if not given or not 1 <= len(given[1]) <= 2:
        return NOTHING
    options, names = given
    sides = [options[it] for it in ("side", "computer", "turn") if it in options]
    if ({*sides} - {"x", "y"} or "side" in options and len(names) == 1
            or "computer" in options and len(names) == 2):
        return NOTHING
    return "table", [options["record"]] if "record" in options else []


def meaning_of(program: str, words: list[str]) -> Meaning:
    """The command that the arguments of a program name, and what it writes."""
    if any("\udc80" <= it <= "\udcff" for word in words for it in word):
        return NOTHING
    if program != "posgame" and is_help(words):
        return "help", []
    read = {"posgame": of_posgame, "posgame-settle": of_settle, "posgame-draw": of_draw,
            "posgame-play": of_play}
    return read[program](words)


# Runs.


class Program:
    """A program and its runs in one folder, which has the files of the case that is tried."""

    def __init__(self, path: str, folder: pathlib.Path, name: str = "posgame",
                 slower: float = 1, is_quick: bool = False, clock: int = BY_THE_CLOCK) -> None:
        self.path, self.folder, self.name, self.slower = path, folder, name, slower
        self.is_quick, self.clock = is_quick, clock
        self.runs: list[kit.Run] = []

    def run(self, words: list[str], typed: bytes = b"") -> kit.Run:
        """Runs the program."""
        self.runs.append(kit.run(
            self.path, *words, typed=typed, folder=self.folder, is_quick=self.is_quick,
            most=int(SECONDS * self.slower) + 1, clock=int(self.clock * self.slower)))
        return self.runs[-1]


def held(folder: str | pathlib.Path, above: str = "") -> dict[str, Optional[bytes]]:
    """What each name in the folder holds, the folder's own after those `above` it."""
    found = dict[str, Optional[bytes]]()
    for it in os.scandir(folder):
        if it.is_dir():
            found |= {above + it.name: None, **held(it.path, f"{above}{it.name}/")}
        else:
            with open(it.path, "rb") as file:
                found[above + it.name] = file.read()
    return found


def changes(before: dict[str, Optional[bytes]], after: dict[str, Optional[bytes]], command: str,
            status: int, writes: list[str]) -> list[str]:
    """What is wrong with the names that changed: those that the command doesn't write."""
    keeps = status in KEEPS.get(command.split()[-1] if command else "", (2, 3, 4))
    may_change = set() if keeps else {os.path.normpath(name) for name in writes}
    return [f"{name} changed" for name in sorted(before.keys() | after.keys())
            if before.get(name, 0) != after.get(name, 0) and name not in may_change
            and not (command == "split" and not keeps and os.path.dirname(name) in may_change
                     and re.fullmatch(r"plan|\d{5}\.game", os.path.basename(name)))]


def errors_in(program: Program, words: list[str], run: kit.Run) -> list[str]:
    """What is wrong with what was printed on standard error."""
    if program.name == "posgame" or run.status not in COMPLAINTS:
        may_show = "--progress" in words and program.name == "posgame-settle"
        said = re.sub(r"[\r\n]\x1b\[K[a-z0-9, ]*", "", run.errors) if may_show else run.errors
        return [f"standard error {said[:200]!r}"] if said else []
    is_missing = run.status in (5, 6) and not run.errors
    return [f"nothing on standard error at status {run.status}"] if is_missing else []


def wrongs(program: Program, words: list[str], typed: bytes = b"") -> tuple[list[str], int, str]:
    """Runs the program; what is wrong with the run, with its status and what it said."""
    before, (command, writes) = held(program.folder), meaning_of(program.name, words)
    run = program.run(words, typed)
    status, said, seconds = run.status, run.output, SECONDS * program.slower
    pattern = due(command, status)
    faults = {
        f"signal {-status} after {run.processor:.2f} s": status < 0,
        f"status {status}": status >= 0 and pattern is None,
        f"status {status} with {said[:200]!r}":
            pattern is not None and not re.fullmatch(pattern, said),
        "status 9 without a refusal at its end":
            status == 9 and not re.search(rf"({PATTERNS['REFUSED']})\Z", said),
        f"{run.processor:.2f} s of a processor": run.processor > seconds,
        f"{run.megabytes} MB": run.megabytes > MEGABYTES,
    }
    found = [text for text, is_wrong in faults.items() if is_wrong]
    found += errors_in(program, words, run)
    return found + changes(before, held(program.folder), command, status, writes), status, said


# Mutations.


def cut(draw: Draw, data: bytes, _: list[str]) -> bytes:
    """A part from the start."""
    return data[: draw.randrange(len(data) + 1)]


def one_byte(draw: Draw, data: bytes, _: list[str]) -> bytes:
    """One byte put in, or in place of another."""
    place = draw.randrange(len(data) + 1)
    byte = bytes([draw.choice((draw.randrange(256), 32, 10, 13, 0, 124, 48, 45))])
    return data[:place] + byte + data[place + draw.randrange(2) :]


def lines_moved(draw: Draw, data: bytes, _: list[str]) -> bytes:
    """A line dropped, repeated or exchanged, or some lines repeated."""
    lines = data.split(b"\n")
    first, second = draw.randrange(len(lines)), draw.randrange(len(lines))
    how = draw.randrange(4)
    if how == 0:
        del lines[first]
    elif how == 1:
        lines.insert(second, lines[first])
    elif how == 2:
        lines[first], lines[second] = lines[second], lines[first]
    else:
        part = lines[min(first, second) : max(first, second) + 1]
        lines[first:first] = part * draw.choice((1, 2, 9, 50))
    return b"\n".join(lines)


def changed(number: bytes, more: int) -> bytes:
    """A number that is so much higher, and not below 0; the same if it has very many digits."""
    return b"%d" % max(0, int(number) + more) if len(number) <= DIGITS else number


def words_changed(draw: Draw, data: bytes, pool: list[str]) -> bytes:
    """One word changed."""
    parts = re.split(rb"([ \n|:-])", data)
    place, how = draw.randrange(len(parts)), draw.randrange(4)
    if how == 0 and parts[place].isdigit():
        parts[place] = changed(parts[place], draw.choice((-1, 1, 1, 7, 100)))
    else:
        parts[place] = draw.choice(parts) if how == 1 else draw.choice(pool + NUMBERS).encode()
    return b"".join(parts)


def numbers_changed(draw: Draw, data: bytes, _: list[str]) -> bytes:
    """One number a little higher or lower: what is most often still a file in form."""
    parts = re.split(rb"(\d+)", data)
    if len(parts) > 1:
        place = draw.randrange(1, len(parts), 2)
        parts[place] = changed(parts[place], draw.choice((-1, 1)))
    return b"".join(parts)


def long_file(draw: Draw, data: bytes, _: list[str]) -> bytes:
    """A line repeated many times."""
    part = draw.choice(data.split(b"\n")) + draw.choice((b"\n", b" ", b""))
    most = 2_000_000 // (len(part) + 1)
    return data + b"\n" + part * min(draw.choice((300, 3_000, 30_000)), most)


# Each change, and how often of a hundred it is drawn.
CHANGES = {numbers_changed: 40, words_changed: 20, lines_moved: 18, one_byte: 14, cut: 7,
           long_file: 1}


def mutated(draw: Draw, data: bytes, pool: list[str]) -> bytes:
    """Some changes one after the other."""
    for _ in range(draw.choice((0, 1, 1, 1, 2, 3, 8))):
        # A long file stays as long as it is.
        changes = CHANGES if len(data) < 200_000 else {one_byte: 14, cut: 7}
        data = draw.choices(*zip(*changes.items()))[0](draw, data, pool)
    return data


def typed_lines(draw: Draw) -> bytes:
    """Replies, most of them numbers of points."""
    line = lambda: draw.choice((str(draw.randrange(12)), str(draw.randrange(30)), *TYPED))
    count = draw.choice((0, 3, 12, 40, 150))
    text = "".join(line() + draw.choice(("\n", "\n", "\n", "\r\n")) for _ in range(count))
    return text.encode() + draw.choice((b"", b"7", b"\xff\xfe", b"1" * 8_000))


def record_of(draw: Draw, points: int) -> bytes:
    """A record of some moves, most of them legal."""
    order = draw.sample(range(points), points)[:draw.randrange(12)] if points else []
    events = [f"move {it}" for it in order]
    for _ in range(draw.choice((0, 0, 1, 3))):
        events.insert(draw.randrange(len(events) + 1), "back")
    return "\n".join(["posgame-record 1", *events, ""]).encode()


def write(folder: pathlib.Path, **files: bytes) -> None:
    """Leaves these files alone in the folder, with another and an empty folder."""
    shutil.rmtree(folder / "folder", ignore_errors=True)
    for path in folder.iterdir():
        path.unlink()
    (folder / "folder").mkdir()
    for name, data in {"O": b"other", **files}.items():
        (folder / name).write_bytes(data)
