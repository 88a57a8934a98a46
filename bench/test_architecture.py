"""Compares docs/ARCHITECTURE.md with the crates and the scripts of bench/: `python3 -m unittest
discover -s bench`. A crate depends on those that its files name, but for comments. Unproved.
"""
from __future__ import annotations

import functools
import re
import unittest

import kit

PAGE = (kit.TOP / "docs/ARCHITECTURE.md").read_text()
# A crate's item in the list of crates.
ITEM = re.compile(r"^- \*\*`(\w+)`\*\*:(.*?)(?=^- \*\*`|^#)", re.M | re.S)
# How a crate is named, in the code, and in definitions and lemmas.
NAME = re.compile(r"\b(?:use )?Rattle\.(\w+)|\buse (\w+)|\b(\w+)::")
# On which each crate depends but one, so that it may be left out.
BASE = "pg_base"


def listed() -> dict[str, list[str]]:
    """Returns for each crate of crates.txt those that its line names."""
    rows = [line.split(":") for line in (kit.TOP / "crates.txt").read_text().splitlines()
            if not line.startswith("#")]
    return {head.split()[0]: rest.split() for head, rest in rows}


LISTED = listed()


@functools.cache
def named(crate: str) -> frozenset[str]:
    """Returns which of the crates in its line of crates.txt a crate's files name."""
    names: set[str] = set()
    for part in "src", "specs", "proofs":
        for path in (kit.TOP / "crates" / crate / part).rglob("*"):
            if path.is_file():
                rows = [row for row in path.read_text().splitlines()
                        if not row.lstrip().startswith("//")]
                names.update(name for found in NAME.findall("\n".join(rows)) for name in found)
    return frozenset(names & set(LISTED[crate]))


@functools.cache
def below(crate: str) -> frozenset[str]:
    """Returns all crates of ours that a crate's own names lead to."""
    met = named(crate) & LISTED.keys()
    return met.union(*map(below, met))


@functools.cache
def chain(crate: str) -> int:
    """Returns how many crates the longest chain from a crate has."""
    return 1 + max(map(chain, named(crate) & LISTED.keys()), default=0)


def full(word: str) -> str:
    """Returns the name of the crate that a word of the page is for."""
    quoted = word.startswith("`")
    return word.strip("`") if quoted or word.startswith("posgame") else f"pg_{word}"


def said(item: str) -> set[str]:
    """Returns the crates on which an item says that its crate depends."""
    found = re.search(r"\*Depends on\* (.*?)\. \*Clauses\*", " ".join(item.split()))
    assert found, item
    words = re.sub(r" \([^)]*\)", "", found[1])
    return {full(word) for word in re.split(r", | and ", words) if word != "nothing"}


def drawn(page: str) -> dict[str, set[str]]:
    """Returns the lines of the diagram, from each crate to those drawn below it."""
    lines: dict[str, set[str]] = {}
    open_at: list[tuple[int, str]] = []
    for row in page.split("drawn.\n")[1].split("\n- Of ")[0].splitlines():
        for word in re.finditer(r"\w{2,}", row):
            while open_at and open_at[-1][0] >= word.start():
                open_at.pop()
            if open_at:
                lines.setdefault(open_at[-1][1], set()).add(full(word[0]))
            open_at.append((word.start(), full(word[0])))
    return lines


def direct(crate: str) -> set[str]:
    """Returns the crates that a crate names and doesn't reach through another that it names."""
    own = named(crate) & LISTED.keys()
    return {other for other in own if not any(other in below(more) for more in own)} - {BASE}


class Architecture(unittest.TestCase):
    def test_items(self) -> None:
        items = {crate: text for crate, text in ITEM.findall(PAGE)}
        self.assertEqual(items.keys(), LISTED.keys())
        for crate, text in items.items():
            with self.subTest(crate):
                self.assertEqual(said(text) - {BASE}, named(crate) - {BASE})

    def test_diagram(self) -> None:
        lines = drawn(PAGE)
        programs = {crate for crate in LISTED if crate.startswith("posgame")} | {"pg_web"}
        for crate in programs.union(*map(below, programs)):
            with self.subTest(crate):
                self.assertEqual(lines.get(crate, set()), direct(crate))

    def test_counts(self) -> None:
        found = re.search(r"There are (\d+) crates: (\d+) libraries", PAGE)
        assert found
        libraries = [crate for crate in LISTED if crate.startswith("pg_") and crate != "pg_web"]
        self.assertEqual([int(found[1]), int(found[2])], [len(LISTED), len(libraries)])

    def test_longest_chain(self) -> None:
        found = re.search(r"fifteen crates. It goes from `(\w+)`", PAGE)
        assert found
        programs = [crate for crate in LISTED if crate.startswith("posgame")]
        self.assertEqual([chain(found[1]), max(map(chain, programs))], [15, 15])

    def test_scripts(self) -> None:
        for path in sorted((kit.TOP / "bench").glob("*.*")):
            tested = path.stem.removeprefix("test_")
            if tested == path.stem or not path.with_stem(tested).exists():
                with self.subTest(path.name):
                    self.assertTrue(re.search(rf"`{path.stem}(\.\w+)?`", PAGE), "isn't named")


if __name__ == "__main__":
    unittest.main()
