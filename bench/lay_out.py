#!/usr/bin/env python3
"""Breaks the lines of sources that are wider than 100 columns.

    bench/lay_out.py              in all sources
    bench/lay_out.py FILE ..      in these
    bench/lay_out.py --check ..   writes nothing; the status is 1 if it would change a file
    bench/lay_out.py --edits      looks up the texts of all edits, each of which must be in its
                                  file once; the status is 1 if one isn't

`rt fmt` indents definitions, proofs and clauses, and keeps their line breaks but makes none. This
script makes them where `rt fmt` leaves them: in a declaration with a line that is too wide, a
signature breaks before its arrows, each `let` has a line, and so have the cases of an `elim`, the
fields of a record and the parts of a tuple, if one must break. What fits is left. Comments are
filled, and an import of names becomes several from the same module. Rust code is left to `rt fmt`.

No word changes: each part that is laid out is read again and compared. A text that an edit
(`crates/*/must-fail`, `bench/edits`) looks for in one line stays in one line. What is too wide
then is what `bench/width.py --only sources` lists.

Its examples are tried by `bench/test_examples.py`. Unproved.
"""
from __future__ import annotations

import argparse
import os
import pathlib
import re
import sys
from collections.abc import Iterable, Iterator
from typing import NamedTuple

import breaks
import width

COMMENT = re.compile(r"\s*(///|//!|//|--)( |$)")
CLAUSE = re.compile(r"\s*(requires|ensures|ghost)\b(?! use)[^{]*\{ ")
HEAD = re.compile(r"\s*(pub )?(module|record|data) ")
IMPORT = re.compile(r"(\s*(?:unfoldable )?(?:pub |ghost )?use Rattle\.\S+\.\{)([^{}]*)(\};?)$")
LISTED = re.compile(r"(?:[-*+]|\d+[.)]) +")
WORD = re.compile(r"`[^`]*`[^\s`]*|\S+")


class Unit(NamedTuple):
    """Lines of a file that are laid out together, and how."""

    start: int
    end: int
    kind: str


def depth_of(line: str) -> int:
    """Returns how many brackets a line opens more than it closes."""
    words = [token.text for token in breaks.tokens_of(line)]
    return sum(word in "([{" for word in words) - sum(word in ")]}" for word in words)


def indent_of(line: str) -> int:
    """Returns how many spaces a line begins with."""
    return len(line) - len(line.lstrip())


def comment_end(lines: list[str], start: int) -> int:
    """Returns the end of the comment that a line begins: of one mark, in one column."""
    mark, column, end = COMMENT.match(lines[start])[1], indent_of(lines[start]), start
    while end < len(lines):
        found = COMMENT.match(lines[end])
        if not found or found[1] != mark or indent_of(lines[end]) != column:
            break
        end += 1
    return end


def declaration_end(lines: list[str], start: int) -> int:
    """Returns the end of a declaration: before the next line that isn't further in."""
    column, depth, end, k = indent_of(lines[start]), 0, start, start
    while k < len(lines):
        is_code = lines[k].strip() and not COMMENT.match(lines[k])
        outside = indent_of(lines[k]) <= column or lines[k].strip() == "where"
        if is_code and depth == 0 and end > start and outside:
            break
        if not lines[k].strip() and depth == 0:
            break
        k += 1
        if is_code:
            depth, end = depth + depth_of(lines[k - 1]), k
            if depth == 0 and re.search(r"(^|\s)where$", lines[k - 1]):
                break
    return end


def clause_end(lines: list[str], start: int) -> int:
    """Returns the end of a clause: where its braces are closed."""
    depth, end = 0, start
    while end < len(lines):
        depth, end = depth + depth_of(lines[end]), end + 1
        if depth <= 0:
            break
    return end


def units(lines: list[str], proofs: bool) -> Iterator[Unit]:
    """Yields the comments, and the declarations of a file of definitions and proofs, or the
    clauses of one of code."""
    k = 0
    while k < len(lines):
        end = k + 1
        if COMMENT.match(lines[k]):
            end = comment_end(lines, k)
            yield Unit(k, end, "comment")
        elif IMPORT.match(lines[k]):
            yield Unit(k, end, "import")
        elif proofs and lines[k].strip() and not re.match(r"\s*(pub )?(use|mod) ", lines[k]):
            end = declaration_end(lines, k)
            yield Unit(k, end, "declaration")
        elif not proofs and CLAUSE.match(lines[k]):
            end = clause_end(lines, k)
            yield Unit(k, end, "clause")
        k = end


# Comments.


def fill(first: str, further: str, words: list[str]) -> list[str]:
    """Fills lines with words. None begins with a word that would make it part of a list.

    >>> fill("// ", "// ", ["a" * 60, "b" * 40, "-", "c"])[1]
    '// bbbbbbbbbbbbbbbbbbbbbbbbbbbbbbbbbbbbbbbb - c'
    """
    lines, now = [], first
    for k, word in enumerate(words):
        after = words[k + 1] if k + 1 < len(words) else ""
        follows = re.fullmatch(r"[-*+#>|]+|\d+[.)]", after)
        needed = len(word) + (1 + len(after) if follows else 0)
        if len(now) + needed > breaks.COLUMNS and now not in (first, further):
            if not re.fullmatch(r"[-*+#>|]+|\d+[.)]", word):
                lines.append(now.rstrip())
                now = further
        now += word + " "
    return [*lines, now.rstrip()]


def paragraphs(texts: list[str]) -> Iterator[tuple[int, int]]:
    """Yields the ranges of a comment's lines that may be filled: no code, tables or heads.

    >>> list(paragraphs(["a", "b", "", "- c", "  d", "- e", "| f |", "```", "g", "```"]))
    [(0, 2), (3, 5), (5, 6)]
    """
    start, code = 0, False
    for k, text in enumerate([*texts, ""]):
        fence = text.lstrip().startswith("```")
        kept = code or fence or not text or text.startswith(("|", "#", "    "))
        if (kept or LISTED.match(text)) and start < k:
            yield start, k
        code = code != fence
        start = k + 1 if kept else k if LISTED.match(text) else min(start, k)


def comment(lines: list[str]) -> list[str]:
    """Lays out a comment: its paragraphs with a line that is too wide are filled."""
    mark = " " * indent_of(lines[0]) + COMMENT.match(lines[0])[1]
    texts = [line[len(mark) + 1:].rstrip() for line in lines]
    new, done = [], 0
    for start, end in paragraphs(texts):
        if any(len(line) > breaks.COLUMNS for line in lines[start:end]):
            listed = LISTED.match(texts[start])
            first = mark + " " + (listed[0] if listed else "")
            words = WORD.findall(" ".join(texts[start:end])[len(listed[0]) if listed else 0:])
            filled = fill(first, mark + " " * (len(first) - len(mark)), words)
            new, done = [*new, *lines[done:start], *filled], end
    return [*new, *lines[done:]]


# Imports.


def imports(line: str) -> list[str]:
    """Splits an import into as few as fit, each from the same module.

    >>> imports("use Rattle.a.{" + "b" * 50 + ", " + "c" * 50 + ", d}")[1].count("c"), len(
    ...     imports("use Rattle.a.{b, c}"))
    (50, 1)
    """
    head, names, end = IMPORT.match(line).groups()
    groups: list[list[str]] = [[]]
    for name in names.split(", "):
        if groups[-1] and len(head + ", ".join([*groups[-1], name]) + end) > breaks.COLUMNS:
            groups.append([])
        groups[-1].append(name)
    return [head + ", ".join(group) + end for group in groups]


# Files.


def laid_out(unit: Unit, lines: list[str], wanted: Iterable[str]) -> list[str]:
    """Lays out a unit; a clause by what is in its braces. What is wanted stays in one line."""
    if unit.kind == "comment":
        return comment(lines)
    if unit.kind == "import":
        return imports(lines[0])
    text, column = "\n".join(lines), indent_of(lines[0])
    lead, tail = "", ""
    if unit.kind == "clause":
        lead = CLAUSE.match(lines[0])[0]
        close = text.rindex("}")
        text, tail = text[len(lead):close].rstrip(), " " + text[close:]
    part = breaks.Part(text)
    for words in wanted:
        part.hold(words, lead.lstrip(), tail)
    shown = part.show(0, len(part.tokens), column, lead.lstrip(), tail)
    return list(shown.lines)


def same(unit: Unit, old: list[str], new: list[str]) -> bool:
    """Tells whether two layouts have the same words."""
    if unit.kind == "comment":
        words = ["".join(lines).split() for lines in (
            [re.sub(COMMENT, " ", line, count=1) + " " for line in lines] for lines in (old, new))]
        return words[0] == words[1]
    if unit.kind == "import":
        named = [IMPORT.match(line)[2] for line in new]
        return ", ".join(named) == IMPORT.match(old[0])[2]
    return breaks.meaning("\n".join(old)) == breaks.meaning("\n".join(new))


def shift(lines: list[str], unit: Unit, old: list[str], shown: list[str]) -> None:
    """Moves the definitions behind the `where` of a term with the line that ends with it."""
    further = indent_of(shown[-1]) - indent_of(old[-1])
    if shown[-1].endswith(" where") and not HEAD.match(old[0]):
        k = unit.end
        while k < len(lines) and (not lines[k] or indent_of(lines[k]) > indent_of(old[0])):
            lines[k] = (" " * (indent_of(lines[k]) + further) + lines[k].lstrip()).rstrip()
            k += 1


def new_text(text: str, proofs: bool, wanted: Iterable[str]) -> tuple[str, list[int]]:
    """Lays out a file whose text holds what edits look for. Returns its text, and the lines of the
    old text that couldn't be laid out."""
    lines = text.split("\n")
    new, done, left = [], 0, []
    for unit in units(lines, proofs):
        old = lines[unit.start:unit.end]
        if all(len(line) <= breaks.COLUMNS for line in old):
            continue
        shown = laid_out(unit, old, wanted)
        holds = all(words not in "\n".join(old) or words in "\n".join(shown) for words in wanted)
        if not holds or not same(unit, old, shown):
            left.append(unit.start + 1)
            continue
        new, done = [*new, *lines[done:unit.start], *shown], unit.end
        shift(lines, unit, old, shown)
    return "\n".join([*new, *lines[done:]]), left


# Edits.


def faulty_edits() -> Iterator[str]:
    """Yields what is wrong with edits: a text that isn't in its file once, as far as the edit has
    changed the file."""
    for name, changes in width.edits():
        files: dict[str, str] = {}
        for change in changes:
            if change.file not in files:
                files[change.file] = (width.TOP / change.file).read_text(encoding="utf-8")
            count = files[change.file].count(change.old)
            if count != 1:
                yield f"{name}: {count} times in {change.file}: {change.old}"
            files[change.file] = files[change.file].replace(change.old, change.new)


# The command.


def lay_out(name: str, wanted: list[str], write: bool) -> bool:
    """Lays out a file, and says whether its text changes."""
    path = width.TOP / name
    text = path.read_text(encoding="utf-8")
    if all(len(line) <= breaks.COLUMNS for line in text.split("\n")):
        return False
    new, left = new_text(text, path.suffix == ".antt", wanted)
    for line in left:
        print(f"{name}:{line}: left, since an edit looks for it or its words would change")
    if new != text and write:
        path.write_text(new, encoding="utf-8")
    return new != text


def main() -> int:
    """Lays out the files, and returns the status."""
    words = argparse.ArgumentParser(
        description=__doc__, formatter_class=argparse.RawDescriptionHelpFormatter)
    words.add_argument("files", metavar="FILE", nargs="*", help="sources; else all")
    words.add_argument("--check", action="store_true", help="only print which would change")
    words.add_argument("--edits", action="store_true", help="only look up the texts of edits")
    given = words.parse_args()
    if given.edits:
        faults = list(faulty_edits())
        print("\n".join([*faults, f"{len(faults)} texts of edits are not in their files once"]))
        return 1 if faults else 0
    sources = [name for name in width.tracked() if width.kind_of(name) == "sources"]
    names = [os.path.relpath(name, width.TOP) for name in given.files] or sources
    wanted: dict[str, list[str]] = {}
    for change in (change for _, changes in width.edits() for change in changes):
        wanted.setdefault(change.file, []).append(change.old)
    changed = [name for name in names if lay_out(name, wanted.get(name, []), not given.check)]
    print("".join(f"{name}\n" for name in changed if given.check), end="")
    print(f"{len(changed)} of {len(names)} files {'would change' if given.check else 'changed'}")
    return 1 if given.check and changed else 0


if __name__ == "__main__":
    sys.setrecursionlimit(10_000)
    sys.exit(main())
