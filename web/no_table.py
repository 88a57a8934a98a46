"""Drops the table of a module for WebAssembly in which no call is indirect, which binaryen doesn't
lower to 32 bits: web/no_table.py MODULE OUT. A module whose table has elements is refused.
Unproved.
"""
from __future__ import annotations

import pathlib
import sys
from typing import Iterator, NamedTuple

HEAD = 8
TABLE = 4
ELEMENTS = 9


class Section(NamedTuple):
    """A section of a module: its kind, and all its bytes with their head."""

    kind: int
    whole: bytes


def number_at(module: bytes, at: int) -> tuple[int, int]:
    """Returns the number in LEB128 there, and where it ends.

    >>> number_at(bytes([0, 0xE5, 0x8E, 0x26]), 1)
    (624485, 4)
    """
    number = shift = 0
    while True:
        byte = module[at]
        at += 1
        number |= (byte & 127) << shift
        shift += 7
        if not byte & 128:
            return number, at


def sections(module: bytes) -> Iterator[Section]:
    """Yields the sections of a module, in order."""
    at = HEAD
    while at < len(module):
        size, begin = number_at(module, at + 1)
        yield Section(module[at], module[at:begin + size])
        at = begin + size


def without_table(module: bytes) -> bytes:
    """Returns the module without its table.

    >>> without_table(bytes(8) + bytes([1, 1, 7, 4, 2, 0, 0, 5, 0]))[8:].hex()
    '0101070500'
    >>> without_table(bytes(8) + bytes([9, 1, 7]))
    Traceback (most recent call last):
    ValueError: the module's table has elements
    """
    found = list(sections(module))
    if any(it.kind == ELEMENTS for it in found):
        raise ValueError("the module's table has elements")
    return module[:HEAD] + b"".join(it.whole for it in found if it.kind != TABLE)


def main() -> int:
    if len(sys.argv) != 3:
        print("usage: web/no_table.py MODULE OUT", file=sys.stderr)
        return 2
    module = pathlib.Path(sys.argv[1]).read_bytes()
    pathlib.Path(sys.argv[2]).write_bytes(without_table(module))
    return 0


if __name__ == "__main__":
    sys.exit(main())
