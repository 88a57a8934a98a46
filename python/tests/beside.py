"""Compares the second checker with `posgame check` on the same files."""
from __future__ import annotations

import concurrent.futures
import hashlib
import pathlib
import random
import re
import subprocess
import tempfile
from typing import Iterable, Iterator, List, NamedTuple, Tuple

import posgame.check as second
from posgame.programs import find

from damage import damaged

TOP = pathlib.Path(__file__).resolve().parents[2]
EXAMPLES = TOP / "examples"
LARGEST = 20_000  # Files above this size are damaged seldom: each check of one takes long.


class Pair(NamedTuple):
    """A game file, a certificate file, and where they are from."""
    game: bytes
    certificate: bytes
    name: str


class Verdict(NamedTuple):
    """The lines that a checker prints, and its status."""
    lines: List[str]
    status: int


class Comparison(NamedTuple):
    """A pair with the verdicts of the program and of the second checker."""
    pair: Pair
    first: Verdict
    again: Verdict

    @property
    def differs(self) -> bool:
        """Whether the two verdicts differ."""
        return self.first != self.again

    def __str__(self) -> str:
        return f"{self.pair.name}: {self.first} and then {self.again}"


def words_for(game: bytes) -> List[str]:
    """Returns the words before `check` that the header of a game file needs."""
    words = [line.split()[0] for line in game.decode("latin-1").split("\n")
             if line.split() and not line.startswith("#")]
    return {"posgame-span": ["span"], "posgame-vectors": ["vec"]}.get(words[0] if words else "", [])


def first_verdict(pair: Pair) -> Verdict:
    """Returns the verdict of `posgame check`, run in a folder of its own."""
    words = [find("posgame"), *words_for(pair.game), "check", "G", "C"]
    with tempfile.TemporaryDirectory(prefix="posgame-") as folder:
        for name, data in (("G", pair.game), ("C", pair.certificate)):
            pathlib.Path(folder, name).write_bytes(data)
        done = subprocess.run(words, cwd=folder, stdin=subprocess.DEVNULL, stdout=subprocess.PIPE,
                              check=False)
    return Verdict(done.stdout.decode("latin-1").splitlines(), done.returncode)


def second_verdict(pair: Pair) -> Verdict:
    """Returns the verdict of the second checker."""
    try:
        return Verdict(second.check(pair.game, pair.certificate), 0)
    except second.Fault as fault:
        return Verdict([str(fault)], 3 if str(fault).startswith("game") else 4)


def comparisons(pairs: Iterable[Pair], runs: int = 1) -> Iterator[Comparison]:
    """Yields the verdicts on each pair; `runs` runs of the program go on at a time."""
    listed = list(pairs)
    with concurrent.futures.ThreadPoolExecutor(runs) as pool:
        for pair, first in zip(listed, pool.map(first_verdict, listed)):
            yield Comparison(pair, first, second_verdict(pair))


def differences(pairs: Iterable[Pair]) -> List[str]:
    """Returns a line for each pair on which the two differ."""
    return [str(one) for one in comparisons(pairs, runs=8) if one.differs]


def example_pairs() -> List[Pair]:
    """Returns the examples: each certificate with the games for which it is meant."""
    script = (TOP / "crates" / "test_stories" / "stdin").read_bytes().decode("latin-1")
    found = re.findall(r"^system (?:span |vec )?check (\S+\.game) (\S+\.cert)$", script, re.M)
    there = [names for names in found if all((EXAMPLES / name).is_file() for name in names)]
    return [Pair((EXAMPLES / game).read_bytes(), (EXAMPLES / certificate).read_bytes(),
                 f"{game} {certificate}") for game, certificate in there]


def digest(pair: Pair) -> Tuple[bytes, bytes]:
    """Returns the hashes of both files."""
    return hashlib.sha256(pair.game).digest(), hashlib.sha256(pair.certificate).digest()


def damaged_pairs(pairs: List[Pair], seed: int) -> Iterator[Pair]:
    """Yields pairs with a damaged certificate without end, in one of ten with a damaged game too.

    None is one of the given pairs, and none comes twice.
    """
    draws, seen, number = random.Random(seed), {digest(pair) for pair in pairs}, 0
    small = [pair for pair in pairs if len(pair.certificate) <= LARGEST]
    while True:
        pair = draws.choice(pairs if number % 50 == 0 else small)
        game, certificate = pair.game, damaged(pair.certificate.decode("latin-1"), draws)
        if draws.random() < 0.1:
            game = damaged(game.decode("latin-1"), draws).encode("latin-1")
        new = Pair(game, certificate.encode("latin-1"), f"{pair.name} number {number} seed {seed}")
        if digest(new) not in seen:
            seen.add(digest(new))
            number += 1
            yield new
