#!/usr/bin/env python3
"""Runs the lessons of docs/tutorial again, and compares what they show with what happens.

    bench/tutorial.py [PROGRAM] [--draw PROGRAM] [--settle PROGRAM] [--play PROGRAM]
                      [--lesson NUMBER]..

Each lesson runs in a folder of its own, which contains nothing but links to examples/ and
layouts/. Of the indented blocks of a lesson:

- a block after "save it as `NAME`:" is written to the file NAME;
- a block after "`NAME`:" must be the file NAME without its comments, if it is a game, a
  certificate or a record;
- "$ ./posgame ARGUMENTS" is run; a backslash at the end continues the line. Of the lines below it,
  those that begin like a text of the program must be its output, in order. The others are its
  input. A line of JSON (of `report` and `--json`) may be broken;
- "$ ./posgame-settle ARGUMENTS" is run in the same way; all lines below `moves` are its output;
- "$ ./posgame-play ARGUMENTS" is run with what is shown after each "claims: " as its input; with
  that, and without empty lines, its output must be the lines below;
- "$ echo $?" must print the exit status of the run before it;
- "$ ./posgame-draw ARGUMENTS > FILE" is run if --draw names that program. If an image follows
  the block, FILE must equal it, to the byte; that of a book (--book) is a photograph, and isn't
  compared.

It also checks the form of each lesson, and that docs/TUTORIAL.md lists all in order. Unproved.
"""
from __future__ import annotations

import pathlib
import re
import shlex
from typing import Optional

import kit

CONTENTS = kit.TOP / "docs" / "TUTORIAL.md"
LESSONS = kit.TOP / "docs" / "tutorial"
LENGTH = 90  # lines of a lesson, about two pages
# How the texts of the program begin.
TEXTS = ("accepted ", "rejected ", "claim ", "move ", "refused: ", "result ", "class ", "unknown ",
         "words: ", "game ", "certificate ", "expanded ", "standing ", "recorded ", "lost ",
         "reviewed ", "record ", "{")
BLOCK = re.compile(r"(?:^(?!    )(.+)\n+)?((?:^    .*\n)+)(?=\n*(.*))", re.MULTILINE)
NAMED = re.compile(r"(save it as )?`([^`]+\.(?:game|cert|record))`:$", re.IGNORECASE)
PROMPT = re.compile(r"([XO] claims(?: \d+ points)?:) ?(.*)")
IMAGE = re.compile(r"!\[.*\]\(([^)]+)\)$")
LINK = re.compile(r"\]\(([^)#:]+)\)")
ENTRY = re.compile(r"^(\d+)\. \[([^]]+)\]\(tutorial/([^)]+)\)", re.MULTILINE)


class Walk:
    """A lesson that is run in a folder with the programs, and what was found in it."""

    def __init__(self, programs: dict[str, str], draw: Optional[str],
                 folder: pathlib.Path) -> None:
        self.programs, self.picture, self.folder = programs, draw, folder
        self.status = self.shown = self.not_drawn = 0
        self.problems: list[str] = []

    def compare(self, what: str, is_same: bool) -> None:
        """Counts a thing that is shown, and notes it if it differs."""
        self.shown += 1
        self.problems += [] if is_same else [f"differs: {what}"]

    def run(self, command: str, below: list[str]) -> None:
        """Runs posgame or posgame-settle with the lines that are not its texts as input, and
        compares the others."""
        name, *words = shlex.split(command)
        below = ["".join(below)] if words[0] == "report" or "--json" in words else below
        expected = [line for line in below if "moves" in words or line.startswith(TEXTS)]
        typed = "".join(f"{line}\n" for line in below if line not in expected)
        ended = kit.call(self.programs[name], *words, cwd=self.folder, input=typed)
        self.status = ended.returncode
        self.compare(command, ended.stdout.splitlines() == expected)

    def play(self, command: str, below: list[str]) -> None:
        """Runs posgame-play with what is typed in these lines, and compares what a terminal
        shows."""
        typed = [found[2] for found in map(PROMPT.fullmatch, below) if found]
        _, *words = shlex.split(command)
        ended = kit.call(self.programs["./posgame-play"], *words, cwd=self.folder,
                         input="".join(f"{line}\n" for line in typed if line))
        self.status = ended.returncode
        self.compare(command, shown_with(ended.stdout, typed) == below)

    def draw(self, command: str, image: str) -> None:
        """Draws a picture, and compares it with the image, if there is one; or prints a book."""
        if self.picture is None:
            self.not_drawn += 1
            return
        words = shlex.split(command)
        ended = kit.call(self.picture, *words[1:-2], cwd=self.folder, text=False)
        (self.folder / words[-1]).write_bytes(ended.stdout)
        self.status = ended.returncode
        is_book = "--book" in words
        begins = b"<!DOCTYPE html>" if is_book else b"<svg "
        is_whole = ended.stdout.startswith(begins) and ended.returncode in (0, 4)
        is_same = is_book or not image or (LESSONS / image).read_bytes() == ended.stdout
        self.compare(command, words[-2] == ">" and is_whole and is_same)

    def try_commands(self, text: str, image: str) -> None:
        """Runs the commands of a block."""
        for part in re.split(r"^\$ ", re.sub(r" \\\n +", " ", text), flags=re.MULTILINE)[1:]:
            command, *below = part.splitlines()
            if command.startswith("./posgame-play "):
                self.play(command, below)
            elif command.split()[0] in self.programs:
                self.run(command, below)
            elif command.startswith("./posgame-draw "):
                self.draw(command, image)
            elif command == "echo $?":
                self.compare(command, below == [str(self.status)])
            else:
                self.problems.append(f"no such command: {command}")

    def try_block(self, before: str, inside: str, after: str) -> None:
        """Runs indented lines, writes them to a file, or compares them with a file, as the line of
        text before them says; the one after them may be an image."""
        named, image = NAMED.search(before), IMAGE.match(after)
        text = re.sub("^    ", "", inside, flags=re.MULTILINE)
        if text.startswith("$ "):
            self.try_commands(text, image[1] if image else "")
        elif named and named[1]:
            (self.folder / named[2]).write_text(text, encoding="ascii")
            self.shown += 1
        elif named:
            path = self.folder / named[2]
            found = path.read_text(encoding="ascii") if path.is_file() else ""
            self.compare(named[2], re.sub("^#.*\n", "", found, flags=re.MULTILINE) == text)


def shown_with(output: str, typed: list[str]) -> list[str]:
    """Returns the lines that a terminal shows, without empty ones, if these lines are typed.

    >>> shown_with("X claims: \\n . X \\nO claims: ", ["b1", ""])
    ['X claims: b1', ' . X', 'O claims:']
    """
    parts = re.split(r"(?<= claims: )|(?<= points: )", output)
    lines = "".join(f"{part}{line}\n" for part, line in zip(parts, [*typed, *[""] * len(parts)]))
    return [line.rstrip() for line in lines.splitlines() if line.strip()]


def form_problems(path: pathlib.Path) -> list[str]:
    """Returns what is wrong with the length and the links of a page, of which bench/width.py knows
    the widths."""
    text = path.read_text(encoding="utf-8")
    count = len(text.splitlines())
    problems = [f"{count} lines"] if count > LENGTH else []
    problems += [f"no {it}" for it in LINK.findall(text) if not (path.parent / it).exists()]
    return [f"{path.relative_to(kit.TOP)}: {it}" for it in problems]


def contents_problems(paths: list[pathlib.Path]) -> list[str]:
    """Returns what is wrong with the table of contents."""
    titles = [re.match(r"(?:# (\d+)\. (.+)\n)?", it.read_text(encoding="utf-8")) for it in paths]
    found = [(*title.groups(""), path.name) for title, path in zip(titles, paths) if title]
    other = [name for number, _, name in found if name[:2] != number.zfill(2)]
    if not other and ENTRY.findall(CONTENTS.read_text(encoding="utf-8")) != found:
        return ["docs/TUTORIAL.md lists other lessons"]
    return [f"{name}: another number in its title" for name in other]


def main() -> int:
    words = kit.parser(__doc__)
    words.set_defaults(program=str(kit.TOP / "posgame"))
    words.add_argument("--draw", type=kit.program_path, metavar="PROGRAM", help="posgame-draw")
    words.add_argument("--settle", type=kit.program_path, metavar="PROGRAM", help="posgame-settle",
                       default=str(kit.TOP / "posgame-settle"))
    words.add_argument("--play", type=kit.program_path, metavar="PROGRAM", help="posgame-play",
                       default=str(kit.TOP / "posgame-play"))
    words.add_argument("--lesson", type=int, action="append", help="only lessons of this number")
    given = words.parse_args()
    paths = sorted(LESSONS.glob("*.md"))
    form = [it for path in [CONTENTS, *paths] for it in form_problems(path)]
    form += contents_problems(paths)
    chosen = [it for it in paths if not given.lesson or int(it.name[:2]) in given.lesson]
    programs = {"./posgame": given.program, "./posgame-settle": given.settle,
                "./posgame-play": given.play}
    walks = []
    for path in chosen:
        with kit.files() as folder:
            walks.append(Walk(programs, given.draw, folder))
            (folder / "examples").symlink_to(kit.EXAMPLES)
            (folder / "layouts").symlink_to(kit.TOP / "layouts")
            for block in BLOCK.findall(path.read_text(encoding="utf-8")):
                walks[-1].try_block(*block)
    shown, not_drawn = sum(it.shown for it in walks), sum(it.not_drawn for it in walks)
    wrong = [f"{path.name}: {it}" for path, walk in zip(chosen, walks) for it in walk.problems]
    table = kit.Table("lessons", "shown", "differ", "faults of form", "pictures not drawn")
    table.row(len(walks), shown, len(wrong), len(form), not_drawn)
    return kit.end(form + wrong + ["nothing is shown"] * (not shown))


if __name__ == "__main__":
    raise SystemExit(main())
