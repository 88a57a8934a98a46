"""The cases of bench/fuzz.py for the Python package, python/, and for what of the page, web/, runs
in node. Unproved.
"""
from __future__ import annotations

import atexit
import contextlib
import functools
import io
import json
import random
import re
import subprocess
import sys
from typing import Any, Callable, Optional

import kit
from mutants import (FAMILY_KEYS, FAMILY_SIGNS, FURTHER, KEYS, SIGNS, Draw, Pairs, mutated,
                     record_of, write, wrongs)
from small_files import check, game_of, verdict_of

sys.path.insert(0, str(kit.TOP / "python" / "tests"))

import beside  # noqa: E402
from damage import damaged  # noqa: E402
from posgame import Game, PosgameError  # noqa: E402
from posgame.errors import error_of  # noqa: E402

# What a script may hand to the package as points, labels and numbers.
ODD: list[Any] = [0, 1, 2, 3, -1, 256, 2**31, 1.5, "a", "", "ä\n", None, True, (0, 1), frozenset()]
# What may be raised of arguments that are no game: by docs/PYTHON.md for labels, and by Python for
# what can't be a label, a list or a number.
MISUSED = ValueError, TypeError


def drawn_pair(draw: Draw, pairs: Pairs) -> beside.Pair:
    """A pair of files of any family, of which one or both are mutated, by the changes of
    bench/fuzz.py or by those of the package's tests."""
    family = draw.choice(("", "", "", *kit.FAMILIES))
    game, certificate = draw.choice(pairs[family])
    keys, signs = (FAMILY_KEYS, FAMILY_SIGNS) if family else (KEYS, SIGNS)
    game = mutated(draw, game, keys) if draw.randrange(4) == 0 else game
    if draw.randrange(2):
        certificate = mutated(draw, certificate, signs)
    else:
        certificate = damaged(certificate.decode("latin-1"), draw).encode("latin-1")
    return beside.Pair(game, certificate, "drawn")


def calls_of(draw: Draw, game: Game, certificate: str) -> dict[str, Callable[[], object]]:
    """Calls of the package on a game and a certificate, by their names."""
    point = draw.choice([*game.labels[:9], *ODD])
    return {
        "check": lambda: game.check(certificate),
        "check_again": lambda: game.check_again(certificate),
        "report": lambda: game.report(certificate),
        "play": lambda: game.play(certificate, draw.choice("xyz")).answer(point),
        "review": lambda: game.review([point, *game.labels[:2]], 2),
        "picture": lambda: game.picture(certificate, draw.choice((None, "0", "9.9", "x"))),
        "book": lambda: game.book(certificate),
        "solve": lambda: game.solve(draw.choice((1, 5, 0, -1)), draw.choice((False, True))),
        "settle": lambda: game.settle(draw.choice((1, 5, 0)), 5, 5),
        "moves": lambda: game.moves(1, 5, 5) if len(game.labels) < 10 else None,
    }


def ended_well(name: str, call: Callable[[], object]) -> tuple[Optional[bool], list[str]]:
    """Whether a call returned, None if it raised an error of the package, and what is wrong."""
    try:
        call()
        return True, []
    except PosgameError:
        return None, []
    except Exception as error:  # What is looked for here. # pylint: disable=broad-except
        return False, [f"{name}: {type(error).__name__}: {error}"]


def verdict_case(draw: Draw, tools: Any, pairs: Pairs) -> list[str]:
    """The verdicts on a pair of files, and some calls of the package on it."""
    pair = drawn_pair(draw, pairs)
    write(tools.posgame.folder, G=pair.game, C=pair.certificate)
    found, status, said = wrongs(tools.posgame, [*beside.words_for(pair.game), "check", "G", "C"])
    verdict = verdict_of(pair.game, pair.certificate)
    if said != f"{verdict}\n":
        found.append(f"{said!r}, but the second checker says {verdict!r}")
    if not verdict.startswith("accepted") and error_of(verdict).text != verdict:
        found.append(f"an error of another text: {error_of(verdict)!r}")
    game, text = Game.read(tools.posgame.folder / "G"), pair.certificate.decode(
        "ascii", "surrogateescape")
    calls = calls_of(draw, game, text)
    for name in sorted({"check_again", *draw.sample(sorted(calls), 1)}):
        returned, wrong = ended_well(name, calls[name])
        found += wrong
        if name in ("check", "check_again", "report", "book") and (returned is True) != (
                status == 0) and not (name in ("report", "book") and status == 0):
            found.append(f"{name} returned: {returned}, but status {status}")
    return found


def main_case(draw: Draw, tools: Any, pairs: Pairs) -> list[str]:
    """The second checker as a command, beside posgame on the same arguments."""
    pair = drawn_pair(draw, pairs)
    write(tools.posgame.folder, G=pair.game, C=pair.certificate)
    words = draw.choice((["G", "C"], ["G", "C"], ["G", "missing"], ["missing", "C"], ["G"], [],
                         ["folder", "C"]))
    family = beside.words_for(pair.game) if words[:1] == ["G"] else []
    found, status, said = wrongs(tools.posgame, [*family, "check", *words])
    output = io.StringIO()
    with kit.inside(tools.posgame.folder), contextlib.redirect_stdout(output):
        again = check.main(words)
    if (again, output.getvalue()) != (status, said) and not (
            words[1:] == ["missing"] and status == 3):
        found.append(f"{status}, {said!r}, but {again}, {output.getvalue()!r}")
    return found


def labels_case(draw: Draw, tools: Any, _: Pairs) -> list[str]:
    """Games of odd labels, numbers and lists, handed to the program."""
    odd = lambda: [draw.choice(ODD) for _ in range(draw.randrange(4))]
    edges = [tuple(draw.choice(ODD) for _ in range(2)) for _ in range(draw.randrange(4))]
    kind = draw.choice(("maker-breaker", "maker-maker", "avoider-enforcer", "switching", "\n"))
    number = draw.choice((1, 2, 3, 0, -1, 17, 300, 10**12))
    makers: dict[str, Callable[[], Game]] = {
        "from_lines": lambda: Game.from_lines([odd(), odd()], draw.choice((None, 3, odd())), kind,
                                              draw.choice("xyz"), number, odd(), odd()),
        "from_grid": lambda: Game.from_grid(number, draw.choice((1, 2, 3)), draw.choice(
            ("11/10", "1", "", "10/01", ["1", "x"])), [odd()], kind, "x", 1, odd(), odd()),
        "from_graph": lambda: Game.from_graph(edges, draw.choice((None, (0, 1), ("a", None))), "x",
                                              odd(), odd(), draw.choice((None, 3, odd()))),
        "from_vectors": lambda: Game.from_vectors(
            [draw.choice(("10", "01", "1", "", "ab", [1, 0], [3, -1])) for _ in range(3)],
            draw.choice(("11", "1", "", [1, 1])), "y", [draw.choice(ODD)], []),
    }
    name = draw.choice(sorted(makers))
    try:
        game = makers[name]()
    except MISUSED:
        return []
    except Exception as error:  # What is looked for here. # pylint: disable=broad-except
        return [f"{name}: {type(error).__name__}: {error}"]
    write(tools.posgame.folder, G=game.text.encode("utf-8", "surrogateescape"))
    found, status, _ = wrongs(tools.posgame, [*beside.words_for(
        (tools.posgame.folder / "G").read_bytes()), "solve", "G", "C", *([] if game.text.startswith(
            ("posgame-span", "posgame-vectors")) else ["--positions", "3"])])
    returned, wrong = ended_well("solve", lambda: game.solve(3))
    if not wrong and (returned is True) != (status in (0, 1)):
        found.append(f"solve returned: {returned}, but status {status}")
    return found + wrong


# The page.


class Node:
    """The page's own functions in node, by lines of JSON."""

    def __init__(self) -> None:
        words = ["node", str(kit.TOP / "bench" / "fuzz_page.mjs")]
        self.process = subprocess.Popen(words, stdin=subprocess.PIPE, stdout=subprocess.PIPE,
                                        text=True, encoding="utf-8")
        atexit.register(self.process.kill)

    def ask(self, **request: object) -> Any:
        """Returns the answer to a request."""
        assert self.process.stdin and self.process.stdout
        self.process.stdin.write(f"{json.dumps(request)}\n")
        self.process.stdin.flush()
        return json.loads(self.process.stdout.readline())


@functools.lru_cache(maxsize=None)
def node() -> Node:
    """Returns the one process of node."""
    return Node()


def with_places(draw: Draw, game: bytes) -> bytes:
    """A game file with comments that say where vertices are drawn, good ones and bad."""
    pool = ["# at 0 5 5", "# at 1 50 60", "# at 2", "# at", "# at 0 5", "# at x 1 2",
            "# at 0 1 2 3", "# at 999999999 1 1", "# at -1 0 0", "# at 1 1e9 5", "# at 0 -5 500",
            "#at 0 1 1"]
    lines = game.split(b"\n")
    for _ in range(draw.randrange(4)):
        lines.insert(draw.randrange(len(lines)), draw.choice(pool).encode())
    return b"\n".join(lines)


def same_games(one: Optional[check.Game], other: Optional[check.Game]) -> bool:
    """Tells whether two games are the same, up to how their lines are listed."""
    if not one or not other:
        return one is other
    parts = [(it.kind, it.turn, it.x, it.y, it.points, it.vertices, it.bias, it.grid, it.extra,
              sorted(it.lines), it.elements) for it in (one, other)]
    return parts[0] == parts[1]


def page_case(draw: Draw, tools: Any, pairs: Pairs) -> list[str]:
    """A mutated game as the page reads, writes and draws it, and what it says of the program's
    answers on it."""
    game, certificate = draw.choice(pairs[""])
    game = with_places(draw, game) if b"vertices" in game and draw.randrange(2) else game
    game = mutated(draw, game, KEYS) if draw.randrange(3) else game
    certificate = mutated(draw, certificate, SIGNS) if draw.randrange(3) else certificate
    known = game_of(game)
    record = mutated(draw, record_of(draw, known.points if known else 4), FURTHER)
    write(tools.posgame.folder, G=game, C=certificate, R=record)
    words = draw.choice((["check", "G", "C"], ["solve", "G", "S", "--positions", "5"],
                         ["play", "G", "C", "--side", "x"],
                         ["review", "G", "R", "--positions", "3"]))
    typed = kit.field(random.Random(0).sample(range(12), 12)).replace(" ", "\n").encode()
    found, status, said = wrongs(tools.posgame, words, typed if words[0] == "play" else b"")
    shown = node().ask(game=game.decode("latin-1"), valid=known is not None, status=status,
                       said=said, certificate=certificate.decode("latin-1"),
                       record=record.decode("latin-1"))
    if "error" in shown:
        return found + [f"{words}: {shown['error']}"]
    texts = json.dumps([it for name, it in shown.items() if name != "whyNot"], ensure_ascii=False)
    if re.search(r"undefined|NaN|\[object|null", texts):
        found.append(f"{words}: {texts[:300]}")
    if status in (3, 4, 10) and said.startswith(("game", "certificate", "record", "rejected")) \
            and not shown["fault"]:
        found.append(f"{said!r}, and the page says nothing")
    if known and not same_games(known, game_of(shown["text"].encode())):
        found.append(f"written as another game: {shown['text'][:300]!r}")
    return found


CASES: dict[str, list[Callable[..., list[str]]]] = {
    "python": [verdict_case] * 7 + [main_case, labels_case],
    "page": [page_case],
}
