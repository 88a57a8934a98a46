#!/usr/bin/env python3
"""Writes docs/DEFINED.md, the definitions that the theorems of docs/THEOREM.md speak of, as
they stand in crates/*/specs; looks up in the sources each name by which docs/THEOREM.md says where
something is proved; and looks whether what is to be read is listed there.

    bench/theorem.py            writes docs/DEFINED.md
    bench/theorem.py --check    writes nothing; the status is 1 if the file differs from the
                                sources, a name isn't there, or a definition isn't listed

Its examples are tried by `bench/test_examples.py`. Nothing is proved of this script.
"""
from __future__ import annotations

import itertools
import pathlib
import re
import sys
import textwrap
from typing import NamedTuple

import kit

PAGE = kit.TOP / "docs" / "THEOREM.md"
DEFINED = kit.TOP / "docs" / "DEFINED.md"
COLUMNS = 100
MOST_LINES = 200
# What stands before the name of a definition.
HEAD_OF = r"^(?:abbrev |unfoldable )?pub (?:record |data )?"


class Quote(NamedTuple):
    """Definitions of one file of specs, under a heading."""

    heading: str
    crate: str
    module: str
    names: str

    def text(self) -> str:
        """The file of definitions."""
        return (kit.TOP / "crates" / self.crate / "specs" / f"{self.module}.antt").read_text()

    def blocks(self) -> list[list[str]]:
        """The definitions, each as its lines."""
        blocks = [definition(self.text(), name) for name in self.names.split()]
        return [[part for line in block for part in laid_out(line)] for block in blocks]


QUOTES = [
    Quote("Games", "pg_game", "Field", "field_points field_lines field_joins"),
    Quote("Games", "pg_game", "Game", "point_count lines_of bias_of with_turn start"),
    Quote("Positions and moves", "pg_game", "Position",
          "is_free points_of claims_in_turn x_after y_after turn_after left_after after_with"),
    Quote("Positions and moves", "pg_game", "Game", "IsPosition after"),
    Quote("Over, and outcome", "pg_game", "Game",
          "is_filled is_touched has_filled all_touched is_full short_joins can_join is_over_by"
          " is_over outcome_by outcome"),
    Quote("Value", "pg_game", "Rules", "moved better best value_within value_by"),
    Quote("Value", "pg_game", "Value", "rules_of value"),
    Quote("Forcing", "pg_game", "Rules", "reaches"),
    Quote("Forcing", "pg_game", "Value", "Forces"),
    Quote("Valid", "pg_cert", "Valid",
          "IsSound IsValidClaim IsValid AreSoundBefore IsLeastFault IsFirstFault"),
]

HEAD = """# The words of the theorems

These are the definitions of which the theorems of [THEOREM.md](THEOREM.md) speak, as they
are in `crates/*/specs`. `bench/theorem.py` writes this page and `.ci/run` compares it with the
sources. A comment (`--`) says what the definition below it means; long lines are cut.

How to read them: `f : A → B → C` says that `f` takes an `A` and a `B` and gives a `C`, and the
lines below it define `f` by cases. `ℕ` are the numbers from 0, `suc n` is `n + 1`, `[]` is the
empty list, `x ∷ xs` a list that begins with `x`. `Bool` is `true` or `false`; `Type 0` marks a
statement, `A × B` says both, `A ⊎ B` one of them, `(v : ℕ) → A` says `A` of all `v`, and `a ≡ b`
that both are equal. A `record` lists what must hold, each with a name. `FinSet nat_cmp` is a
finite set of numbers, `contains s v` says whether `v` is in `s`; `list_all`, `list_any`, `filter`
and `map` are the usual ones on lists, and `range_with_len 0 n` is the list of the numbers below n.
"""

TYPES = """Types (`Game`, `Position`, `Kind`, `Side`, `Score`, `Goal`, `Cert` and others) stand in
`crates/*/src` under the same names.
"""

NOTES = {
    "Games": "A game has a `kind`, a `field` (lines of points, or a graph with two terminals),"
    " marks `x` and `y`, a side `turn` that is to move, and the number `bias` of points that Y"
    " claims in a turn.",
    "Positions and moves": "A position has the points `x` and `y` of the sides, the side `turn`"
    " that is to move, and the number `left` of points that it still claims in this turn.",
    "Value": "`value` recurs on the number of free points. The laws"
    " `pg_game::value_is_outcome_when_over` and `pg_game::value_is_best_move` say that this number"
    " plays no part, and determine the value.",
    "Valid": "`Passes` is the table of the thirteen conditions on a node. With the criteria it"
    " takes some 500 lines, which aren't quoted: docs/FORMATS.md says the conditions in words"
    " (\"When a certificate is valid for a game\"). Whoever asks only whether an accepted claim is"
    " true needn't read them, since `pg_check::valid_claims_are_forced` says so of every valid"
    " certificate.",
}


def definition(text: str, name: str) -> list[str]:
    """The lines of a definition, with the remark above it.

    >>> definition("-- one\\nabbrev pub one : ℕ\\none = 1\\n\\nabbrev pub two : ℕ\\n", "one")
    ['-- one', 'abbrev pub one : ℕ', 'one = 1']
    """
    found = re.search(rf"(?:^--.*\n)*{HEAD_OF}{name}\b.*\n(?:.+\n)*", text, re.MULTILINE)
    return found[0].splitlines() if found else sys.exit(f"no definition of {name}")


def laid_out(line: str) -> list[str]:
    """The line, cut at spaces where it is too long.

    >>> [len(part) for part in laid_out("-- " + "word " * 30)]
    [97, 57]
    """
    indent = len(line) - len(line.lstrip())
    further = "-- " if line.startswith("--") else " " * (indent + 4)
    return textwrap.wrap(line, COLUMNS, subsequent_indent=further, break_long_words=False,
                         break_on_hyphens=False)


def taken_names(text: str) -> dict[str, str]:
    """The names that a file takes from others, each with the module that it names."""
    pattern = r"^(?:unfoldable )?(?:pub )?use Rattle\.([\w.]+)\.\{(.*)\}"
    found = re.findall(pattern, text, re.MULTILINE)
    return {name.split(" as ")[-1].strip(): path.replace(".", "/")
            for path, names in found for name in names.split(",")}


def imports(text: str) -> dict[str, str]:
    """The names that a file takes from the repository's crates, each with its module. A prelude
    passes names on: theirs is the module from which it takes them.

    >>> imports("use Rattle.pg_game.specs.Field.{field_points, field_lines as lines}")
    {'field_points': 'pg_game/specs/Field', 'lines': 'pg_game/specs/Field'}
    >>> imports("use Rattle.pg_cert.specs.Prelude.{Game, Kind}")["Game"]
    'pg_game/specs/declared/game/Game'
    """
    taken = taken_names(text)
    for name, module in taken.items():
        if re.fullmatch(r"pg_\w+/specs/Prelude", module):
            passed = (kit.TOP / "crates" / f"{module}.antt").read_text()
            taken[name] = taken_names(passed)[name]
    return {name: module for name, module in taken.items() if module.startswith("pg_")}


def others() -> list[str]:
    """Where the words of the repository's specs stand that the quotes cite, but don't quote."""
    known = {name for quote in QUOTES for name in quote.names.split()}
    places: dict[str, set[str]] = {}
    for quote in QUOTES:
        own = re.findall(rf"{HEAD_OF}(\w+)", quote.text(), re.MULTILINE)
        modules = imports(quote.text()) | dict.fromkeys(own, f"{quote.crate}/specs/{quote.module}")
        lines = itertools.chain.from_iterable(quote.blocks())
        code = " ".join(line for line in lines if not line.startswith("--"))
        for name in modules.keys() & set(re.findall(r"(?<![\w.])\w+", code)) - known:
            places.setdefault(modules[name], set()).add(name)
    items = [f"- {', '.join(f'`{name}`' for name in sorted(names))}: `crates/{module}.antt`"
             for module, names in sorted(places.items()) if "/declared/" not in module]
    return [line for it in items for line in textwrap.wrap(it, COLUMNS, subsequent_indent="  ")]


def defined() -> str:
    """The text of docs/DEFINED.md."""
    page, count = [HEAD], 0
    for heading, quotes in itertools.groupby(QUOTES, lambda quote: quote.heading):
        note = textwrap.fill(NOTES.get(heading, ""), COLUMNS, break_on_hyphens=False)
        page.append(f"## {heading}\n" + (f"\n{note}\n" if note else ""))
        for quote in quotes:
            text = "\n\n".join(map("\n".join, quote.blocks()))
            count += sum(map(bool, text.split("\n")))
            page.append(f"`crates/{quote.crate}/specs/{quote.module}.antt`:\n\n```\n{text}\n```\n")
    if count > MOST_LINES:
        sys.exit(f"{count} lines are quoted, and {MOST_LINES} are the limit")
    page.append("## Not quoted\n\nThe definitions above cite these besides:\n")
    return "\n".join([*page, *others(), "", TYPES])


def contract(text: str, name: str) -> str | None:
    """The contract of a function, or the fields of a record: what follows its name.

    >>> contract("fn one() -> u8\\n    ensures exact { result ≡ 1 }\\n{\\n    1\\n}\\n", "one")
    '() -> u8\\n    ensures exact { result ≡ 1 }'
    """
    found = (re.search(rf"\bfn {name}\b((?s:.*?))\n *\{{", text)
             or re.search(rf"^pub record {name}\b((?:.*\n)(?:.+\n)*)", text, re.MULTILINE))
    return found[1] if found else None


def has_clause(found: str, clause: str) -> bool:
    """Whether the contract has the clause, or the record the field.

    >>> has_clause("() -> u8\\n    ensures exact { result ≡ 1 }", "exact")
    True
    """
    return re.search(rf"(?:ensures|pub) {clause} [{{:]", found) is not None


def is_there(crate: str, path: str, clauses: list[str]) -> bool:
    """Whether the crate has the function or record, with these clauses or fields. The name may
    stand behind its module (`laws::f`) or its type (`Player::f`)."""
    *owner, name = path.split("::")
    module = owner[0] if owner and owner[0].islower() else "*"
    head = rf"^impl(?:<[^>]*>)? {owner[0]}\b" if owner and module == "*" else ""
    folder = kit.TOP / "crates" / crate
    for file in [*folder.glob(f"src/{module}.rt"), *folder.glob(f"specs/{module}.antt")]:
        text = file.read_text()
        start = re.search(head, text, re.MULTILINE)
        found = contract(text[start.start():], name) if start else None
        if found is not None and all(has_clause(found, clause) for clause in clauses):
            return True
    return False


def edit_folders(crate: str) -> list[pathlib.Path]:
    """Returns where the must-fail edits of a crate are: those that the gate tries, and others."""
    return [kit.TOP / "crates" / crate / "must-fail", kit.TOP / "bench" / "edits" / crate]


def lost(text: str) -> list[str]:
    """The names on the page that aren't in the sources: functions, clauses, and must-fail edits."""
    flat = " ".join(text.split())
    named = re.findall(r"`(pg_\w+)::([\w:]+)(?: \(([\w, ]+)\))?`", flat)
    wrong = [f"{crate}::{path} ({clauses})" for crate, path, clauses in named
             if not is_there(crate, path, re.findall(r"\w+", clauses))]
    for names, crate in re.findall(r"((?:`[a-z0-9-]+`(?:, | and )?)+) of `(pg_\w+)`", flat):
        for name in re.findall(r"`([a-z0-9]+(?:-[a-z0-9]+)+)`", names):
            if not any((folder / f"{name}.edit").is_file() for folder in edit_folders(crate)):
                wrong.append(f"edit {name} of {crate}")
    return wrong


def listed(text: str) -> list[str]:
    """Returns the modules of definitions in a list of files.

    >>> listed("1. Files: `pg_io/specs`: Files, Console; `IsNoWorse` (`pg_game`).")
    ['pg_io/specs/Files', 'pg_io/specs/Console']
    """
    found = re.findall(r"`(pg_\w+/specs)`: ([^;.`]*)", " ".join(text.split()))
    return [f"{folder}/{name}" for folder, names in found for name in re.findall(r"\w+", names)]


def unlisted(text: str) -> list[str]:
    """Returns the definitions that are cited in the files to be read, but are in no such file and
    not named on the page. Text is that of the page."""
    part = text[text.index("## What must be read"):text.index("The laws also use")]
    modules, single = listed(part), set(re.findall(r"`(\w+)`", part))
    heads, missing = tuple(f"{it}/" for it in modules), set[str]()
    for module in modules:
        cited = imports((kit.TOP / "crates" / f"{module}.antt").read_text())
        missing |= {f"{name} of {place}" for name, place in cited.items()
                    if "/specs/" in place and "/declared/" not in place and name not in single
                    and not f"{place}/".startswith(heads)}
    return sorted(missing)


def main() -> int:
    """Writes the page, or checks both."""
    words = kit.parser(__doc__, None)
    words.add_argument("--check", action="store_true", help="write nothing, and compare")
    is_check = words.parse_args().check
    text = defined()
    page = PAGE.read_text()
    wrong = [f"not in the sources: {name}" for name in lost(page)]
    wrong += [f"to be read, but not listed: {name}" for name in unlisted(page)]
    if not is_check:
        DEFINED.write_text(text)
    elif not DEFINED.is_file() or DEFINED.read_text() != text:
        wrong.append("docs/DEFINED.md differs from the sources: run bench/theorem.py")
    print("\n".join(wrong or ["docs/THEOREM.md and docs/DEFINED.md agree with the sources"]))
    return 1 if wrong else 0


if __name__ == "__main__":
    sys.exit(main())
