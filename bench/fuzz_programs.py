"""The cases of bench/fuzz.py for posgame-settle, posgame-draw and posgame-play. Unproved."""
from __future__ import annotations

import functools
import json
import re
import xml.parsers.expat
from typing import Any, Callable, Optional

import kit
from mutants import (FAMILY_KEYS, FAMILY_SIGNS, FURTHER, KEYS, NAMES, NUMBERS, OTHER_WORDS, SIGNS,
                     Draw, Pairs, Program, mutated, record_of, write, wrongs)
from small_files import (Session, check, game_of, is_posgame, layout_fault, plan_fault,
                         record_fault, verdict_of)

# Games for the searches have at most so many points; those for `moves` and the computer fewer.
MOST_POINTS, FEW_POINTS = 26, 10
SIDES = {"maker": "x", "x": "x", "avoider": "x", "short": "x"}
COMMANDS = {
    "posgame-settle": ["G C --positions=5", "moves G --positions=5", "split G folder --most=3",
                       "join G folder C", "G C", ""],
    "posgame-draw": ["G", "G C", "G C 0", "--book G C", "G R.record", "G R.record --move 1",
                     "G --layout L", "G --blank 2", ""],
    "posgame-play": ["G", "G C", "G C --side x", "G --computer y", "G --record R", "G --layout L",
                     ""],
}
# Widths of a terminal, and lines that are typed at it beside numbers.
COLUMNS = 80
TYPED = ["a1", "b2", "c3", "b9", "undo", "lines", "lines 0", "lines b2", "lines 99", "?", "quit",
         "zz1", "x", " 3 ", "\t", "\0", "ä", "9" * 70]
PROMPT = r"[XO] claims( \d points)?: "
# How many points are in a row of a layout.
ROW = 19
# A program that is slow binds only certificates of at most so many bytes.
LONG = 5_000


# Games and files.


@functools.lru_cache(maxsize=None)
def sizes(game: bytes) -> tuple[int, int]:
    """How many points and lines a game of the examples has."""
    known = game_of(game)
    assert known
    return known.points, len(known.lines)


def small(pairs: Pairs, most: int) -> list[bytes]:
    """The games of `posgame 1` of at most so many points, and fewer lines than a hundred."""
    return [it for it in dict.fromkeys(game for game, _ in pairs[""])
            if sizes(it)[0] <= most and sizes(it)[1] < 100]


def drawn_game(draw: Draw, pairs: Pairs, most: int, chance: int = 2) -> bytes:
    """A small game, mutated once in `chance` times. One that became large is drawn again."""
    games = small(pairs, most)
    while True:
        game = draw.choice(games)
        if draw.randrange(chance) == 0:
            game = mutated(draw, game, KEYS)
        known = game_of(game)
        if not known or known.points <= most and len(known.lines) < 1_000:
            return game


def drawn_pair(draw: Draw, pairs: Pairs) -> tuple[bytes, bytes]:
    """A game of any family with a certificate; one of them or both are mutated mostly."""
    family = draw.choice(("", "", "", *kit.FAMILIES))
    game, certificate = draw.choice(pairs[family])
    keys, signs = (FAMILY_KEYS, FAMILY_SIGNS) if family else (KEYS, SIGNS)
    game = mutated(draw, game, keys) if draw.randrange(4) == 0 else game
    return game, mutated(draw, certificate, signs) if draw.randrange(4) else certificate


def options(draw: Draw, *choices: str) -> list[str]:
    """Some of these options, each once in three times."""
    return [it for it in choices if draw.randrange(3) == 0]


def any_words(draw: Draw, program: Program, commands: list[str]) -> list[str]:
    """Words of a command with some put in or in place of others; what is wrong with the run."""
    words = draw.choice(commands).split()
    for _ in range(draw.choice((0, 1, 1, 2, 4))):
        place = draw.randrange(len(words) + 1)
        word = draw.choice(draw.choice((NAMES, OTHER_WORDS, OTHER_WORDS, NUMBERS)))
        words[place:place + draw.randrange(2)] = [word]
    # A search without limits may take hours, as the documents say.
    is_long = program.name == "posgame-settle" and not {"split", "join"} & {*words}
    words = ["--positions=5" if it.startswith("--positions") and is_long else it for it in words]
    if is_long and not any(it.startswith("--positions") for it in words):
        words.append("--positions=5")
    found, _, _ = wrongs(program, words, table_lines(draw))
    return [f"{words[:12]}: {it}" for it in found]


def words_case(name: str) -> Callable[[Draw, Any, Pairs], list[str]]:
    """The case of words of any kind for a program."""
    def words_of_program(draw: Draw, tools: Any, pairs: Pairs) -> list[str]:
        program = next(it for it in tools if it.name == name)
        game, certificate = draw.choice(pairs[draw.choice(("", "", *kit.FAMILIES))])
        if name != "posgame-draw":
            game = draw.choice(small(pairs, FEW_POINTS))
        write(program.folder, **{"G": game, "C": certificate, "-G": game, "ä": certificate,
                                 "R.record": record_of(draw, 4), "L": layout_of(draw, 4)})
        return any_words(draw, program, COMMANDS[name])

    return words_of_program


# posgame-settle.


def result_of(said: str) -> str:
    """The word of a result or a class in what was printed, also as JSON; or nothing.

    >>> result_of("class first-mover\\n"), result_of('{"result":"x","turn":"y"}')
    ('first-mover', 'x')
    """
    found = re.search(r'^(?:result|class) (\S+)$|"result":"([\w-]+)"', said, re.MULTILINE)
    return (found[1] or found[2]) if found else ""


def due_claims(result: str, turn: str, has_draws: bool) -> str:
    """What `check` says of a certificate for a result: those claims that `solve` stores."""
    if result in ("short", "cut", "first-mover") and not has_draws:
        sides = ["x", "y"] if result == "first-mover" else [SIDES.get(result, "y")] * 2
        return "".join(f"accepted {it} {side} win\n" for it, side in zip("xy", sides))
    if result == "draw":
        return f"accepted {turn} y draw\naccepted {turn} x draw\n"
    return f"accepted {turn} {SIDES.get(result, 'y')} win\n"


def after_settling(tools: Any, said: str, known: Optional[check.Game]) -> list[str]:
    """What is wrong with a certificate that was stored for a game, and with its result."""
    result, found = result_of(said), []
    if not known or not result:
        return [f"settled, but {said!r}"]
    wrong, _, checked = wrongs(tools.posgame, ["check", "G", "C"])
    if checked != due_claims(result, known.turn, known.kind == "maker-maker"):
        found.append(f"{said!r}, but then {checked!r}")
    solved, status, answer = wrongs(tools.posgame, ["solve", "G", "S", "--positions", "20"])
    (tools.posgame.folder / "S").unlink(missing_ok=True)
    if status == 0 and result_of(answer) != result:
        found.append(f"settled as {result}, solved as {answer!r}")
    return found + wrong + solved


def json_faults(said: str, keys: str) -> list[str]:
    """What is wrong with a line of JSON that must have these keys, in order."""
    try:
        answer = json.loads(said)
    except ValueError:
        return [f"no JSON: {said[:200]!r}"]
    is_right = list(answer) == keys.split() and json.dumps(answer, separators=(",", ":"),
                                                           ensure_ascii=False) == said.rstrip("\n")
    return [] if is_right else [f"JSON {said[:300]!r}"]


def settle_case(draw: Draw, tools: Any, pairs: Pairs) -> list[str]:
    """A game that is settled: what was stored and printed, beside posgame's answers."""
    game = drawn_game(draw, pairs, MOST_POINTS)
    write(tools.settle.folder, G=game, C=b"old")
    limits = [f"--positions={draw.choice((1, 2, 10, 50))}",
              *options(draw, f"--entries={draw.choice((1, 3, 50))}",
                       f"--nodes={draw.choice((1, 5, 100))}", "--images", "--json", "--progress")]
    found, status, said = wrongs(tools.settle, ["G", "C", *limits])
    known = game_of(game)
    if (known is None) != (status == 3):
        found.append(f"status {status}, but the second checker reads otherwise")
    if status == 0:
        found += after_settling(tools, said, known)
    if status in (0, 1) and "--json" in limits:
        ends = {0: ["bytes", "expanded", "game", "kind", "nodes"], 1: ["expanded", "game", "kind"]}
        keys = ["answer", *ends[status], "result", "turn", "version"]
        if '"class"' in said:
            keys.remove("expanded")
        found += json_faults(said, " ".join(keys))
    return found


def moves_case(draw: Draw, tools: Any, pairs: Pairs) -> list[str]:
    """The moves of a game, as text and as JSON, which must agree."""
    game = drawn_game(draw, pairs, FEW_POINTS)
    write(tools.settle.folder, G=game)
    words = ["moves", "G", f"--positions={draw.choice((1, 5, 20))}",
             *options(draw, "--entries=20", "--nodes=20")]
    found, status, said = wrongs(tools.settle, words)
    known = game_of(game)
    if status not in (0, 1) or not known:
        return found + ([f"status {status}, but the second checker reads otherwise"]
                        if (known is None) != (status == 3) else [])
    points = [int(it) for it in re.findall(r"^(\d+) ", said, re.MULTILINE)]
    session = Session(known)
    due = [it for it in range(known.points) if session.can_play(it)]
    found += [] if points == due else [f"moves {points}, not {due}"]
    wrong, again, line = wrongs(tools.settle, [*words, "--json"])
    found += wrong + json_faults(line, "answer best game kind moves turn version")
    shown = json.loads(line) if not found else {"moves": [], "best": None}
    text = "".join(
        f"{it['point']} unknown after {it['expanded']} positions\n" if it["result"] == "unknown"
        else f"{it['point']} {it['result']} nodes {it['nodes']} expanded {it['expanded']}\n"
        for it in shown["moves"])
    best = " unknown" if shown["best"] is None else "".join(f" {it}" for it in shown["best"])
    if not found and (again != status or f"{text}best{best}\n" != said):
        found.append(f"{said!r}, but {line!r}")
    return found


def settle_some(draw: Draw, tools: Any) -> list[str]:
    """Settles some positions of a folder, damages some of their certificates and the plan."""
    folder, found = tools.settle.folder / "folder", []
    games = sorted(folder.glob("*.game"))
    for game in draw.sample(games, min(len(games), draw.randrange(5))):
        path = game.with_suffix(".cert")
        names = [f"folder/{it.name}" for it in (game, path)]
        found += wrongs(tools.settle, [*names, "--positions=20"])[0]
        if path.exists() and draw.randrange(3) == 0:
            path.write_bytes(mutated(draw, path.read_bytes(), SIGNS))
    plan = folder / "plan"
    if plan.exists() and draw.randrange(2):
        plan.write_bytes(mutated(draw, plan.read_bytes(), FURTHER))
    return found


def plan_disagreements(tools: Any, command: str, status: int, said: str) -> list[str]:
    """What is wrong with what a command says of the plan in the folder."""
    plan = tools.settle.folder / "folder" / "plan"
    fault = plan_fault(plan.read_bytes()) if plan.exists() else ""
    is_said = status == 4 and bool(re.match(r"plan P\d", said))
    if is_said != bool(fault) or is_said and said != f"{fault}\n":
        return [f"{command}: {said!r}, not {fault!r}"]
    return []


def split_case(draw: Draw, tools: Any, pairs: Pairs) -> list[str]:
    """A game that is split, settled in part, split further and joined, over damaged files."""
    game = drawn_game(draw, pairs, FEW_POINTS, 4)
    write(tools.settle.folder, G=game, C=b"old")
    words = ["split", "G", "folder", f"--most={draw.choice((1, 4, 20, 60))}"]
    found, status, _ = wrongs(tools.settle, words)
    known = game_of(game)
    if (known is None) != (status == 3):
        found.append(f"status {status}, but the second checker reads otherwise")
    for _ in range(draw.choice((1, 1, 2)) if known else 0):
        found += settle_some(draw, tools)
        if draw.randrange(2):
            plan = tools.settle.folder / "folder" / "plan"
            before = plan.read_bytes() if plan.exists() else b""
            wrong, status, said = wrongs(tools.settle, words)
            fault = plan_fault(before) if before else ""
            found += wrong + ([f"split: {said!r}, not {fault!r}"] if known and fault and
                              known.kind != "switching" and said != f"{fault}\n" else [])
    wrong, status, said = wrongs(tools.settle, ["join", "G", "folder", "C",
                                                *options(draw, "--images", "--nodes=30")])
    found += wrong
    found += plan_disagreements(tools, "join", status, said) if status != 5 else []
    return found + (after_settling(tools, said, known) if status == 0 else [])


# posgame-draw.


def xml_fault(text: str) -> list[str]:
    """What is wrong with a picture as XML."""
    try:
        xml.parsers.expat.ParserCreate().Parse(text.encode("utf-8", "replace"), True)
    except xml.parsers.expat.ExpatError as error:
        return [f"no XML: {error}"]
    return []


def beside_check(verdict: str, status: int, said: str, is_book: bool) -> list[str]:
    """What is wrong with what was drawn of a pair of files, by the second checker's verdict."""
    due = f"{verdict}\n"
    is_shown = said.startswith("<")
    if verdict.startswith("accepted"):
        is_right = status == 0 and is_shown or status == 2
    elif verdict.startswith("game"):
        is_right = status == 3 and said == due
    elif is_book or not re.match("rejected [JSV]", verdict):
        is_right = status == 4 and said == due
    else:
        title = re.search("<title>(.*)</title>", said)
        is_right = status == 4 and bool(title and title[1].endswith(f" {verdict.split()[1]}"))
    shown = re.search("<title>.*</title>", said)
    text = shown[0] if shown else said[:200]
    return [] if is_right else [f"status {status}, {text!r}, but {verdict!r}"]


def picture_case(draw: Draw, tools: Any, pairs: Pairs) -> list[str]:
    """Pictures and books of a pair of files, which must agree with the second checker."""
    game, certificate = drawn_pair(draw, pairs)
    write(tools.draw.folder, G=game, C=certificate)
    verdict, found = verdict_of(game, certificate), []
    looks = options(draw, "--no-numbers", "--no-lines", "--no-legend", "--size=50")
    node = draw.choice(([], ["0"], ["0.0"], ["1.0"], [str(draw.randrange(40))], ["7.99999"]))
    books = [["--book", "G", "C", *options(draw, "--depth=3")]]
    is_long = tools.draw.slower > 1 and len(certificate) > LONG
    for words in [["G", "C", *node, *looks], *([] if is_long else books)]:
        wrong, status, said = wrongs(tools.draw, words)
        found += [f"{words}: {it}" for it in wrong + beside_check(
            verdict, status, said, words[0] == "--book")]
        found += xml_fault(said) if said.startswith("<svg") else []
    return found


def recorded_case(draw: Draw, tools: Any, pairs: Pairs) -> list[str]:
    """Pictures of a mutated record, whose fault must be that of a reading of its own."""
    game = draw.choice(pairs[""])[0]
    game = mutated(draw, game, KEYS) if draw.randrange(4) == 0 else game
    known = game_of(game)
    record = mutated(draw, record_of(draw, known.points if known else 5), FURTHER)
    write(tools.draw.folder, G=game, R=record, **{"R.record": record})
    words = draw.choice((["R.record"], ["R", "--move", str(draw.randrange(6))]))
    found, status, said = wrongs(tools.draw, ["G", *words, *options(draw, "--no-lines")])
    fault = record_fault(known, record) if known else ""
    if is_posgame(game) and (
            (known is None) != (status == 3) or (status == 10) != bool(fault)
            or fault and said != f"{fault}\n" or known and not fault and status not in (0, 2)):
        found.append(f"status {status}, {said[:100]!r}, not {fault!r}")
    return found + (xml_fault(said) if said.startswith("<svg") else [])


def layout_of(draw: Draw, points: int) -> bytes:
    """A layout of so many points, in rows."""
    places = [f"at {it} {4 * (it % ROW)} {2 * (it // ROW)}" for it in range(points)]
    draw.shuffle(places)
    return "\n".join([*options(draw, "# points", ""), *places, ""]).encode()


def layout_pair(draw: Draw, pairs: Pairs) -> tuple[bytes, bytes]:
    """A game, mostly without a grid, and a layout of its points, one of them mutated mostly."""
    text = draw.choice(pairs[""])[0]
    if draw.randrange(4):
        known = game_of(text)
        points = known.points if known else 1
        text = re.sub(rb"\ngrid [^\n]*", b"\npoints %d" % points, text)
        text = text if b"\nshape" not in text else re.sub(rb"\nshape [^\n]*", b"\nline 0", text)
    game = mutated(draw, text, KEYS) if draw.randrange(5) == 0 else text
    known = game_of(game)
    return game, mutated(draw, layout_of(draw, known.points if known else 3), FURTHER)


def due_layout(game: bytes, layout: bytes) -> str:
    """What a program says of a layout before it draws anything: a fault, or nothing."""
    known = game_of(game)
    if not known:
        return "game"
    if known.grid != (0, 0) or known.kind == "switching":
        return "layout: not for this game\n"
    fault = layout_fault(known.points, layout)
    return f"{fault}\n" if fault else ""


def layout_disagreements(game: bytes, layout: bytes, status: int, said: str) -> list[str]:
    """What is wrong with a run with a layout, by a reading of its own."""
    due = due_layout(game, layout)
    if not is_posgame(game):
        return []
    is_right = status == 3 if due == "game" else status == 12 and said == due if due \
        else status not in (3, 12)
    return [] if is_right else [f"status {status}, {said[:100]!r}, not {due!r}"]


def layout_case(draw: Draw, tools: Any, pairs: Pairs) -> list[str]:
    """Pictures by a mutated layout."""
    game, layout = layout_pair(draw, pairs)
    write(tools.draw.folder, G=game, L=layout)
    words = ["G", "--layout", "L", *options(draw, "--blank=3", "--no-lines")]
    found, status, said = wrongs(tools.draw, words)
    found += layout_disagreements(game, layout, status, said)
    return found + (xml_fault(said) if said.startswith("<svg") else [])


# posgame-play.


def table_lines(draw: Draw) -> bytes:
    """Lines that are typed at a terminal: numbers of points, cells, commands and others."""
    line = lambda: draw.choice((str(draw.randrange(12)), str(draw.randrange(30)),
                                draw.choice(TYPED)))
    text = "".join(line() + draw.choice(("\n", "\n", "\r\n"))
                   for _ in range(draw.choice((0, 3, 12, 40))))
    return text.encode() + draw.choice((b"", b"7", b"quit", b"\xff\xfe\n", b"1" * 8_000))


def wide_lines(said: str) -> list[str]:
    """Lines that are wider than a terminal of 80 columns, without the prompts before them."""
    wide = [it for it in re.sub(PROMPT, "", said).split("\n") if len(it) > COLUMNS]
    return [f"{len(it)} columns: {it[:100]!r}" for it in wide[:1]]


def recorded_faults(tools: Any, game: bytes, turn: str) -> list[str]:
    """What is wrong with the record of a game that was played, from a side's turn."""
    known, path = game_of(game), tools.play.folder / "R"
    if not known:
        return []
    known.turn = turn or known.turn
    fault = record_fault(known, path.read_bytes()) if path.exists() else "no record"
    return [f"stored, and then {fault}"] if fault else []


def table_case(draw: Draw, tools: Any, pairs: Pairs) -> list[str]:
    """Two people at a board, and their record."""
    game = draw.choice(pairs[""])[0]
    game = mutated(draw, game, KEYS) if draw.randrange(3) == 0 else game
    write(tools.play.folder, G=game)
    turn = draw.choice(("", "", "x", "y"))
    words = ["G", "--record", "R", *[f"--turn={turn}"] * bool(turn)]
    found, status, said = wrongs(tools.play, words, table_lines(draw))
    if (game_of(game) is None) != (status == 3):
        found.append(f"status {status}, but the second checker reads otherwise")
    found += recorded_faults(tools, game, turn) if status == 0 else []
    return found + wide_lines(said)


def table_layout_case(draw: Draw, tools: Any, pairs: Pairs) -> list[str]:
    """Two people at a board with a mutated layout."""
    game, layout = layout_pair(draw, pairs)
    write(tools.play.folder, G=game, L=layout)
    found, status, said = wrongs(tools.play, ["G", "--layout", "L"], table_lines(draw))
    return found + layout_disagreements(game, layout, status, said) + wide_lines(said)


def duel_case(draw: Draw, tools: Any, pairs: Pairs) -> list[str]:
    """A person against a mutated certificate, which must be refused as it is by `check`."""
    game, certificate = draw.choice(pairs[""])
    game = mutated(draw, game, KEYS) if draw.randrange(5) == 0 else game
    certificate = mutated(draw, certificate, SIGNS) if draw.randrange(4) else certificate
    write(tools.play.folder, G=game, C=certificate)
    turn = draw.choice(("", "", "x", "y"))
    words = ["G", "C", "--record=R", *[f"--turn={turn}"] * bool(turn),
             *options(draw, f"--side={draw.choice('xy')}")]
    found, status, said = wrongs(tools.play, words, table_lines(draw))
    verdict = verdict_of(game, certificate)
    is_right = status in (0, 2) if verdict.startswith("accepted") else said == f"{verdict}\n" \
        and status == (3 if verdict.startswith("game") else 4)
    found += [] if is_right else [f"status {status}, {said[:200]!r}, but {verdict!r}"]
    found += recorded_faults(tools, game, turn) if status == 0 else []
    return found + wide_lines(said)


def versus_case(draw: Draw, tools: Any, pairs: Pairs) -> list[str]:
    """A person against a search."""
    game = drawn_game(draw, pairs, FEW_POINTS)
    write(tools.play.folder, G=game)
    words = ["G", "--computer", draw.choice("xy"), "--record", "R"]
    found, status, said = wrongs(tools.play, words, table_lines(draw))
    if (game_of(game) is None) != (status == 3):
        found.append(f"status {status}, but the second checker reads otherwise")
    found += recorded_faults(tools, game, "") if status == 0 else []
    return found + wide_lines(said)


CASES: dict[str, list[Callable[..., list[str]]]] = {
    "settle": [settle_case] * 4 + [moves_case, split_case, words_case("posgame-settle")],
    "draw": [picture_case] * 4 + [recorded_case, layout_case, words_case("posgame-draw")],
    "play": [table_case, table_layout_case, duel_case, duel_case, versus_case,
             words_case("posgame-play")],
}
