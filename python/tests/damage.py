"""Damaged certificates: one or several small changes, drawn from a seed."""
from __future__ import annotations

import random
import re

WORDS = ["over", "move", "all", "pairs", "potential", "threat", "trees", "cuts", "weaker", "image",
         "parts", "first", "e", "/", "x", "y", "y2", "win", "draw", "claim", "nodes"]


def start_of(text: str, draws: random.Random) -> int:
    """Returns where a change may begin: mostly at the first node or claim, else anywhere."""
    begin = text.find("|") if "|" in text else text.find("\n")
    return max(begin, 0) if draws.random() < 0.95 else 0


def changed_number(text: str, draws: random.Random) -> str:
    """Changes one number."""
    found = list(re.compile(r"\d+").finditer(text, start_of(text, draws)))
    if not found:
        return text
    spot = draws.choice(found)
    value = int(spot[0])
    new = draws.choice([value + 1, max(value - 1, 0), draws.randrange(30), draws.randrange(9)])
    return text[:spot.start()] + str(new) + text[spot.end():]


def changed_word(text: str, draws: random.Random) -> str:
    """Replaces one word by another."""
    found = list(re.compile(r"[a-z]+\d?|/").finditer(text, start_of(text, draws)))
    if not found:
        return text
    spot = draws.choice(found)
    return text[:spot.start()] + draws.choice(WORDS) + text[spot.end():]


def changed_line(text: str, draws: random.Random) -> str:
    """Drops, repeats or exchanges lines."""
    lines = text.split("\n")
    one, other = draws.randrange(len(lines)), draws.randrange(len(lines))
    way = draws.randrange(3)
    if way == 0:
        del lines[one]
    elif way == 1:
        lines.insert(other, lines[one])
    else:
        lines[one], lines[other] = lines[other], lines[one]
    return "\n".join(lines)


def changed_piece(text: str, draws: random.Random) -> str:
    """Drops, repeats or adds a few characters."""
    start = draws.randrange(len(text) + 1)
    end = min(start + draws.randrange(1, 6), len(text))
    piece = draws.choice(["", text[start:end] * 2, draws.choice(" |:-0\n\t#~e")])
    return text[:start] + piece + text[end:]


def changed_body(text: str, draws: random.Random) -> str:
    """Replaces the body of one node by that of another, or by a short one."""
    lines = text.split("\n")
    nodes = [number for number, line in enumerate(lines) if line.count("|") == 3]
    if not nodes:
        return text
    one, other = draws.choice(nodes), draws.choice(nodes)
    bodies = [lines[other].split("|")[3]] * 3 + ["over", "potential", "pairs", "all", "trees /",
                                                 "cuts /"]
    if lines[0] != "posgame-cert 1" or draws.random() < 0.05:
        bodies += [f"weaker {draws.randrange(8)}"] * 2
    if lines[0] == "posgame-cert 3" or draws.random() < 0.05:
        bodies += [f"image {draws.randrange(9)} {draws.randrange(8)}"] * 2
    lines[one] = lines[one].rpartition("|")[0] + "|" + draws.choice(bodies)
    return "\n".join(lines)


CHANGES = [changed_number] * 6 + [changed_body] * 4 + [changed_word, changed_line, changed_piece]


def damaged(text: str, draws: random.Random) -> str:
    """Changes a text, mostly once; a certificate of version 1 becomes one of another sometimes."""
    if draws.random() < (0.3 if text.count("|") > 12 else 0.05):
        version = draws.choice("23")
        text = re.sub(r"\Aposgame-cert \d", f"posgame-cert {version}", text)
    for _ in range(draws.choice([1, 1, 1, 2, 3])):
        text = draws.choice(CHANGES)(text, draws)
    return text
