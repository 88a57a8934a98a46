#!/usr/bin/env python3
"""Compares launch/codes.txt with the lists of codes in docs/FORMATS.md, or writes it from them.

An item of such a list begins with a code in bold type: a letter G, C, J, F, S, V, I, P or L and
a number.
The file has a line for each code: the code, a tab and the text, by which `posgame-why` and the
scripts explain it.
"""
from __future__ import annotations

import re
import sys

import kit

LISTS = kit.TOP / "docs" / "FORMATS.md"
CODES = kit.TOP / "launch" / "codes.txt"
ITEM = re.compile(r"^- \*\*([GCJFSVIPL]\d+)\*\*: (.+(?:\n  .+)*)", re.MULTILINE)


def lines_of(text: str) -> str:
    """Returns what launch/codes.txt has to contain: a line for each code, in the lists' order."""
    items = ITEM.findall(text)
    names = [name for name, _ in items]
    twice = sorted({name for name in names if names.count(name) > 1})
    if twice or not items:
        sys.exit(f"{LISTS.name}: {', '.join(twice) or 'no code'} in two items")
    return "".join(f"{name}\t{' '.join(it.split())}\n" for name, it in items)


def main() -> int:
    due = lines_of(LISTS.read_text(encoding="utf-8"))
    if kit.options(__doc__, None, write=(False, "write the file")).write:
        CODES.write_text(due, encoding="utf-8")
    agree = CODES.is_file() and CODES.read_text(encoding="utf-8") == due
    print(f"{due.count(chr(10))} codes, {'the same' if agree else 'otherwise'} in {CODES.name}")
    return 0 if agree else 1


if __name__ == "__main__":
    sys.exit(main())
