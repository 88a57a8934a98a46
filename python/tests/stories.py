"""Reads the script of whole runs in crates/test_stories, with what each run must leave."""
from __future__ import annotations

import pathlib
import re
from typing import Dict, Iterator, List, NamedTuple, Optional, Tuple

TOP = pathlib.Path(__file__).resolve().parents[2]
SCRIPT = TOP / "crates" / "test_stories" / "stdin"
SIGNS = {b"s": b" ", b"t": b"\t", b"r": b"\r", b"d": b"\x7f"}


class Form(NamedTuple):
    """A text of a file alone, its family, and its fault with the line, or none."""
    text: bytes
    family: str
    due: Optional[str]


class Checked(NamedTuple):
    """A row's check: its words, the files, and the lines that it says."""
    words: str
    files: Dict[str, bytes]
    says: List[str]


def entries() -> List[bytes]:
    """The entries of the script, each with the lines that go on it."""
    joined: List[bytes] = []
    for line in SCRIPT.read_bytes().split(b"\n"):
        if line.startswith(b"  ") and joined:
            joined[-1] += b" " + line.strip(b" ") + b";"
        elif line and not line.startswith(b"#"):
            joined.append(line)
    return joined


def spelled(text: bytes, named: Dict[bytes, bytes]) -> bytes:
    """The bytes that a TEXT says: its lines end at `;`, `@NAME` and `*N LINE` stand for others."""
    lines: List[bytes] = []
    for line in text.split(b";"):
        line = line.strip(b" ")
        if line.startswith(b"@"):
            lines.append(re.sub(rb"\n\Z", b"", named[line[1:]]))
            continue
        many = re.fullmatch(rb"\*(\d+) ?(.*)", line, re.S)
        count, line = (int(many[1]), many[2]) if many else (1, line)
        line = re.sub(rb"\\(.)", lambda sign: SIGNS.get(sign[1], sign[1]), line, flags=re.S)
        lines.append(b"\n".join([line] * count))
    return b"\n".join(lines)


def named_texts(script: List[bytes]) -> Dict[bytes, bytes]:
    """The named texts of the script."""
    named: Dict[bytes, bytes] = {}
    for entry in script:
        words = re.match(rb"text (\S+) (.*)", entry, re.S)
        if words:
            named[words[1]] = spelled(words[2], named)
    return named


def forms(script: List[bytes]) -> Iterator[Form]:
    """The lines of the tables of forms."""
    named = named_texts(script)
    for entry in script:
        told = re.match(rb"(span-)?form (\w+)(?: (\d+))?=(.*)", entry, re.S)
        if told:
            fault, line = told[2].decode(), told[3]
            kind = "game" if fault.startswith("G") else "certificate"
            due = None if fault == "none" else f"{kind} {fault} line {int(line or 0)}"
            yield Form(spelled(told[4], named), "span" if told[1] else "", due)


def checks(script: List[bytes]) -> Iterator[Checked]:
    """The checks of rows, of files that the row says."""
    named, words, stored = named_texts(script), "", False
    files: Dict[str, bytes] = {}
    says: List[str] = []
    for entry in script + [b"row "]:
        key, _, rest = entry.partition(b" ")
        if key in (b"row", b"run"):
            if " check " in f" {words} " and not stored:
                yield Checked(words, dict(files), says)
            stored = key == b"run" and (stored or bool(words) and "check" not in words)
            words, says = (rest.decode("latin-1") if key == b"run" else ""), []
            files = files if key == b"run" else {}
        elif key == b"file":
            name, _, text = rest.partition(b" ")
            files[name.decode()] = spelled(text, named)
        elif key == b"says":
            says.append(rest.decode("latin-1"))


def faulty_nodes(script: List[bytes]) -> Iterator[Tuple[Tuple[bytes, bytes], str]]:
    """The lines of the table of nodes: a game, a certificate of eight claims of six nodes with the
    node at one of its places, and what a check of the two says."""
    named = named_texts(script)
    for entry in script:
        told = re.match(rb"node (\w+) (\S+) ([\d ]+)=(.*)", entry, re.S)
        if told:
            game, claim, sound = [part.strip(b"\n") + b"\n"
                                  for part in named[told[2]].split(b"#\n")]
            for place in [int(word) for word in told[3].split()]:
                for number in (0, 3, 7):
                    nodes = [sound] * 48
                    nodes[6 * number + place] = spelled(told[4], named) + b"\n"
                    claims = [claim + b"nodes 6\n" + b"".join(nodes[6 * one:6 * one + 6])
                              for one in range(8)]
                    due = f"rejected {told[1].decode()} claim {number} node {place}"
                    yield (game, b"posgame-cert 2\n" + b"".join(claims)), due
