#!/usr/bin/env python3
"""Gives the programs, the Python package and the page mutated files, arguments and dialogues, and
looks for answers that none may give.

    bench/fuzz.py [PROGRAM] [--part PART] [--settle PROGRAM] [--draw PROGRAM] [--play PROGRAM]
                  [--runs N] [--cases N] [--seed N] [--first N] [--slower X] [--clock N]
                  [--quick] [--keep FOLDER] [--pairs FILE]

PROGRAM is posgame. A part is `posgame` (if left out), `settle`, `draw` or `play` for the other
programs, `python` for the Python package, or `page` for what of the page runs in node. Each case is
drawn from the part, the seed and its number alone, and is one or some runs of programs in a folder
of its own: files are made from those of examples/ and from what the programs make of them, by
changes of bytes, words (of bench/fuzz.txt), numbers and lines. It looks for

- an end by a signal, a status that the command can't have there, and a text that it doesn't have;
- anything on standard error that isn't the program's to say, more than two processor seconds, or
  than thirty or --clock by the clock (each times --slower), or than 200 MB;
- a file that was changed and isn't what the command writes, or at a status that leaves it;
- arguments that have a meaning and are refused, or the other way round, by a reading of its own;
- commands, programs, the second checker, and readers of its own (small_files.py) that answer
  otherwise on the same files; a certificate or a record that is stored and refused then;
- a picture that isn't XML, an error that isn't the package's own, words of the page that lack what
  they say.

What it finds is printed with the number of its case: `--seed S --first K --runs 1` repeats that
case and shows its files; --keep stores them in a folder of the case's number. A line on standard
error says from time to time which case comes next, from which a run can be gone on with (--first).
The pairs of files that are mutated are the same to the byte in each run; with --pairs they are
stored in a file, or taken from it, which saves some seconds. With --quick a run takes less time,
and its memory is 0 unless it is above that of this script. The status is 1 if it finds something.
Tried by `bench/test_fuzz.py`. Unproved.
"""
from __future__ import annotations

import collections
import json
import os
import pathlib
import random
import re
import sys
from typing import Any, Callable, NamedTuple, Optional

import kit
from mutants import (BY_THE_CLOCK, FAMILY_KEYS, FAMILY_SIGNS, FURTHER, KEYS, NAMES, NUMBERS, SIGNS,
                     WORDS, Draw, Pairs, Program, held, mutated, record_of, typed_lines, write,
                     wrongs)
from small_files import game_of, record_fault, verdict_of

sys.path.insert(0, str(kit.TOP / "python" / "tests"))

import beside  # noqa: E402

COMMANDS = ["solve G C", "check G C", "play G C --side x", "report G C", "gen rows 3 O",
            "gen bridge 2 O C", "gen scatter 1 5 2 2 O", "span solve G C", "vec check G C",
            "span play G C --side x", "record G O", "review G C", "solve G C --images", ""]
# Games on lines that are solved for their certificates have at most so many points.
SOLVED = 16
PARTS = "posgame", "settle", "draw", "play", "python", "page"


def stored(program: Program, names: list[str], words: list[str], family: str = "") -> list[str]:
    """Runs the program, and checks what it stored; what is wrong with the two."""
    found, status, _ = wrongs(program, [*family.split(), *words])
    if status == 0 and len(names) == 2:
        wrong, checked, said = wrongs(program, [*family.split(), "check", *names])
        found += wrong + ([f"stored, and then {said!r}"] if checked else [])
    return found


def disagreements(ends: dict[str, tuple[int, str]]) -> list[str]:
    """What is wrong with the commands' statuses and texts. A family has no report."""
    (checked, text), (played, log) = ends["check"], ends["play"]
    reported, report = ends.get("report", (checked, '"goal"' * text.count("\n")))
    found, is_right = [], reported == 0 and played in (0, 2, 8, 9)
    if checked == 0 and not (is_right and report.count('"goal"') == text.count("\n")):
        found.append(f"accepted, but {reported}, {played}")
    if checked != 0 and (reported, played, log) != (checked, checked, text):
        found.append(f"refused by {checked}, but {reported}, {played}")
    if "report" in ends and text.startswith("rejected"):
        shown = [re.findall(rf'"{it}":"?[JI]?(\d+)', report)[:1]
                 for it in ("reject", "claim", "node")]
        if [[it] for it in re.findall(r"\d+", text)] != shown:
            found.append(f"{text!r}, but {report!r}")
    return found


def certificate_case(draw: Draw, program: Program, pairs: Pairs, family: str = "") -> list[str]:
    """Check, report and play of one pair of files, which must agree."""
    game, certificate = draw.choice(pairs[family])
    if draw.randrange(8) == 0:
        certificate = draw.choice(pairs[family])[1]
    keys, signs = (FAMILY_KEYS, FAMILY_SIGNS) if family else (KEYS, SIGNS)
    if draw.randrange(3 if family else 4) == 0:
        game = mutated(draw, game, keys)
    write(program.folder, G=game, C=mutated(draw, certificate, signs))
    found, ends = [], {}
    for command in ("check", "play") if family else ("check", "report", "play"):
        side = ["--side", draw.choice("xy")] if command == "play" else []
        typed = typed_lines(draw) if command == "play" else b""
        wrong, *ends[command] = wrongs(program, [*family.split(), command, "G", "C", *side], typed)
        found += [f"{command}: {it}" for it in wrong]
    verdict = verdict_of(*((program.folder / it).read_bytes() for it in "GC"), family)
    if ends["check"][1] != f"{verdict}\n":
        found.append(f"{ends['check'][1]!r}, but the second checker says {verdict!r}")
    return found + disagreements(ends)


def family_case(draw: Draw, program: Program, pairs: Pairs) -> list[str]:
    """Check and play of one pair of files of a family, which must agree; and the game solved."""
    family = draw.choice(kit.FAMILIES)
    found = certificate_case(draw, program, pairs, family)
    return found + stored(program, ["G", "O"], ["solve", "G", "O"], family)


def solve_case(draw: Draw, program: Program, pairs: Pairs) -> list[str]:
    """A game that is solved, and what was stored then."""
    game = mutated(draw, draw.choice(pairs[""])[0], KEYS)
    write(program.folder, G=game, C=b"old")
    words = ["solve", "G", "C", "--positions", str(draw.choice((1, 2, 10, 100, 1_000)))]
    words = words if draw.randrange(3) or program.slower > 1 else words[:3]
    return stored(program, ["G", "C"], words + draw.choice(([], [], ["--images"])))


def gen_case(draw: Draw, program: Program, _: Pairs) -> list[str]:
    """A game that is made, and what was stored then."""
    write(program.folder, G=b"old game", C=b"old")
    games = (f"rows {draw.choice((2, 3, 4, 5, 16, 17))}", f"bridge {draw.randrange(24)}",
             f"scatter {kit.field(map(draw.randrange, (2**32, 30, 60, 8)))}")
    names = ["G", "C"][: 1 + draw.randrange(2)]
    return stored(program, names, ["gen", *draw.choice(games).split(), *names])


def words_case(draw: Draw, program: Program, pairs: Pairs) -> list[str]:
    """Words of any kind."""
    game, certificate = draw.choice(pairs[draw.choice(("", "", *kit.FAMILIES))])
    write(program.folder, **{"G": game, "C": certificate, "-G": game, "ä": certificate})
    words = draw.choice(COMMANDS).split()
    for _ in range(draw.choice((0, 1, 1, 2, 4))):
        place = draw.randrange(len(words) + 1)
        word = draw.choice(draw.choice((NAMES, WORDS, NUMBERS)))
        words[place : place + draw.randrange(2)] = [word]
    if draw.randrange(50) == 0:
        words += [draw.choice(WORDS)] * 2_000
    found, _, _ = wrongs(program, words, typed_lines(draw))
    return [f"{words[:12]}: {it}" for it in found]


def record_case(draw: Draw, program: Program, pairs: Pairs) -> list[str]:
    """A session that is recorded, and the record by a reading of its own and by a review."""
    game = draw.choice(pairs[""])[0]
    if draw.randrange(3) == 0:
        game = mutated(draw, game, KEYS)
    write(program.folder, G=game, C=b"old")
    words = [b"back", b"end", b"back "] if draw.randrange(2) else [b"back"]
    typed = b"\n".join(draw.choice(words) if draw.randrange(6) == 0 else line
                       for line in typed_lines(draw).split(b"\n"))
    found, status, said = wrongs(program, ["record", "G", "C"], typed)
    known, data = game_of(game), (program.folder / "C").read_bytes()
    if (known is None) != (status == 3):
        found.append(f"record: status {status}, but the second checker reads otherwise")
    if status == 0 and known:
        found += [f"stored, and then {it}" for it in [record_fault(known, data)] if it]
        moves = data.count(b"\nmove") - data.count(b"\nback")
        found += [] if said.endswith(f"recorded {moves}\n") else [f"{moves} moves, but {said!r}"]
    return found


def review_case(draw: Draw, program: Program, pairs: Pairs) -> list[str]:
    """A mutated record that is reviewed; its fault must be that of a reading of its own."""
    game = draw.choice(pairs[""])[0]
    if draw.randrange(4) == 0:
        game = mutated(draw, game, KEYS)
    known = game_of(game)
    record = mutated(draw, record_of(draw, known.points if known else 5), FURTHER)
    write(program.folder, G=game, C=record)
    found, status, said = wrongs(
        program, ["review", "G", "C", "--positions", str(draw.choice((1, 3, 20)))])
    if (known is None or known.bias > 1) != (status == 3):
        found.append(f"review: status {status}, but the second checker reads otherwise")
    fault = record_fault(known, record) if known and known.bias == 1 else ""
    if (status == 10) != bool(fault) or fault and said != f"{fault}\n":
        found.append(f"{said!r}, not {fault!r}")
    return found


CASES: list[Callable[..., list[str]]] = \
    [certificate_case] * 6 + [solve_case, gen_case, record_case, review_case] \
    + [words_case, family_case] * 2


def pairs_of_examples(program: Program) -> Pairs:
    """By family, the games of examples/ with each certificate there that is meant for them, whether
    it is valid or not, and the smaller ones with what the program solves of them, with images
    too."""
    found = collections.defaultdict(list)
    for it in beside.example_pairs():
        found["".join(kit.family_of(it.game.decode()))].append((it.game, it.certificate))
    for path in sorted(kit.EXAMPLES.glob("*.game")):
        game = path.read_bytes()
        family, known = "".join(kit.family_of(game.decode())), game_of(game)
        limits = [] if family else ["--positions", "30"]
        flags = [] if known and known.points > SOLVED else [limits]
        flags += [[*limits, "--images"]] if flags and known and known.grid != (0, 0) else []
        write(program.folder, G=game)
        for flag in flags:
            if program.run([*family.split(), "solve", "G", "S", *flag]).status == 0:
                found[family].append((game, (program.folder / "S").read_bytes()))
    return {family: sorted(set(pairs)) for family, pairs in found.items()}


def kept_pairs(program: Program, name: Optional[str]) -> Pairs:
    """The pairs of the examples; if a file is named, those that it has, or that it has then."""
    path = pathlib.Path(name) if name else None
    if not path or not path.exists():
        found = pairs_of_examples(program)
        shown = {family: [[it.decode("latin-1") for it in pair] for pair in pairs]
                 for family, pairs in found.items()}
        if path:
            path.write_text(json.dumps(shown), encoding="ascii")
        return found
    return {family: [(game.encode("latin-1"), certificate.encode("latin-1"))
                     for game, certificate in pairs]
            for family, pairs in json.loads(path.read_text(encoding="ascii")).items()}


class Tools(NamedTuple):
    """The programs, which share one folder."""

    posgame: Program
    settle: Program
    draw: Program
    play: Program

    @property
    def runs(self) -> list[kit.Run]:
        """All runs."""
        return [run for it in self for run in it.runs]


def cases_of(part: str) -> tuple[list[Callable[..., list[str]]], bool]:
    """The cases of a part, and whether they take all programs and not posgame alone."""
    if part == "posgame":
        return CASES, False
    if part in ("python", "page"):
        import fuzz_readers
        return fuzz_readers.CASES[part], True
    import fuzz_programs
    return fuzz_programs.CASES[part], True


def keep(folder: pathlib.Path, held_there: dict[str, Any], found: list[str]) -> None:
    """Stores the files of a case, and what was found."""
    folder.mkdir(parents=True, exist_ok=True)
    for name, data in held_there.items():
        if data is not None:
            (folder / ascii(name.replace("/", "__"))[1:-1]).write_bytes(data)
    (folder / "found.txt").write_text("\n".join(found), encoding="utf-8", errors="replace")


def run_cases(given: Any, tools: Tools) -> tuple[list[str], int]:
    """Runs the cases; returns what is wrong, and the number of the case that would be next."""
    cases, takes_all = cases_of(given.part)
    pairs = kept_pairs(tools.posgame, given.pairs)
    wrong, number, begun = list[str](), given.first, len(tools.runs)
    while number - given.first < given.cases if given.cases else \
            len(tools.runs) - begun < given.runs:
        prefix = "" if given.part == "posgame" else f"{given.part} "
        draw = random.Random(f"{prefix}{given.seed} {number}")
        case: Any = draw.choice(cases)
        found = case(draw, tools if takes_all else tools.posgame, pairs)
        again = f"repeat with --part {given.part} --seed {given.seed} --first {number} --runs 1"
        new = [f"{case.__name__} {number}: {it}; {again}" for it in found]
        print(*new, sep="\n", end="\n" if new else "", file=sys.stderr, flush=True)
        wrong += new
        files = held(tools.posgame.folder)
        if found and given.keep:
            keep(pathlib.Path(given.keep, f"{given.part}-{given.seed}-{number}"), files, found)
        for name, data in sorted(files.items()) if found and given.runs == 1 else ():
            part = data[:2_000] + b".." if data and len(data) >= 2_000 else data
            print(f"{name}: {part!r}")
        number += 1
        if number % 20 == 0:
            print(f"{given.part}, seed {given.seed}: {len(tools.runs) - begun} runs, next case "
                  f"{number}, {len(wrong)} findings", file=sys.stderr, flush=True)
    return wrong, number


def main() -> int:
    given = kit.options(
        __doc__, runs=(20_000, "so many runs, or a few more"), seed=1,
        cases=(0, "so many cases, however many runs these are"),
        part=("posgame", ", ".join(PARTS)), keep=(None, "where files of findings are stored"),
        first=(0, "the number of the first case"),
        pairs=(None, "where the pairs of the examples are kept from run to run"),
        slower=(1.0, "how many times as slow the machine or the program is"),
        clock=(BY_THE_CLOCK, "the seconds by the clock that a run may take, times --slower"),
        quick=(False, "measure no memory that isn't above this script's"),
        **{it: (str(kit.built(f"posgame_{it}")), f"the program posgame-{it}")
           for it in ("settle", "draw", "play")})
    os.environ["POSGAME"] = given.program
    os.environ.pop("COLUMNS", None)
    with kit.files() as folder:
        tools = Tools(*(Program(os.path.abspath(path), folder, name, given.slower, given.quick,
                                given.clock)
                        for path, name in ((given.program, "posgame"),
                                           (given.settle, "posgame-settle"),
                                           (given.draw, "posgame-draw"),
                                           (given.play, "posgame-play"))))
        wrong, number = run_cases(given, tools)
    runs = tools.runs
    statuses = sorted(collections.Counter(it.status for it in runs).items())
    table = kit.Table("what", "number")
    for row in (("part", given.part), ("runs", len(runs)), ("cases", number - given.first),
                ("the next case", number), ("findings", len(wrong)),
                ("greatest memory, MB", max((it.megabytes for it in runs), default=0)),
                ("longest run, s of a processor",
                 f"{max((it.processor for it in runs), default=0):.2f}"),
                *((f"runs ended with status {status}", many) for status, many in statuses)):
        table.row(*row)
    return kit.end(wrong)


if __name__ == "__main__":
    raise SystemExit(main())
