#!/usr/bin/env python3
"""Tries the must-fail edits that the gate does not: bench/edits/NAME/*.edit, wrong bodies of crate
NAME that the prover must refuse. The gate tries those of crates/NAME/must-fail (docs/GATE.md).

    bench/edits.py [NAME..]     tries those of these crates, or of all
    bench/edits.py --check      looks whether each crate's were tried as it stands

Works on a copy of the files that git doesn't ignore, with these edits where `rt ci` looks for them,
and over what `rt ci` has kept on this machine. To try all of them takes as long as all proofs
together. If all edits of a crate are refused, bench/edits/tried.txt gets a sum of the crate's code,
definitions and edits; `--check`, which the gate calls, compares it. So an edit counts as tried
until one of these changes, whatever changes in the crates below. What is wrong is printed, and the
status is then 1. A crate without a sum is only named. Unproved.
"""
from __future__ import annotations

import hashlib
import pathlib
import re
import shutil
from collections.abc import Iterable

import kit
import width

EDITS = kit.TOP / "bench" / "edits"
TRIED = EDITS / "tried.txt"


def sum_of(top: pathlib.Path, name: str) -> str:
    """Returns a sum of what a crate's edits were tried on: its code, definitions and edits."""
    found = hashlib.sha256()
    folders = [top / "crates" / name / part for part in ("src", "specs")]
    for folder in [*folders, top / "bench" / "edits" / name]:
        for file in sorted(it for it in folder.rglob("*") if it.is_file()):
            text = file.read_bytes()
            found.update(f"{file.relative_to(top)} {len(text)}\n".encode() + text)
    return found.hexdigest()


def noted(text: str) -> dict[str, str]:
    """Returns the sums in a text of lines `NAME SUM`, by the names of the crates.

    >>> noted("pg_base 12\\npg_game 34\\n")
    {'pg_base': '12', 'pg_game': '34'}
    """
    return dict(line.split(" ") for line in text.splitlines())


def refused(lines: Iterable[str]) -> set[str]:
    """Returns which edits were refused, as NAME/EDIT, by the lines that `rt ci` prints. One that
    the prover refused for a name in a proof alone shows nothing, nor does one at a limit.

    >>> said = "rt: must-fail a/b.edit: refused, as it must be"
    >>> refused([f"{said}: src/lib.rt:1:1: error", f"{said} (only by a limit)", "rt: a proved"])
    {'a/b'}
    >>> refused(["rt: must-fail a/c.edit: NOT REFUSED"])
    set()
    """
    pattern = re.compile(r"(?:rt: )?must-fail (\w+/[\w.-]+)\.edit: refused, as it must be(?! \()")
    return {it[1] for line in lines if (it := pattern.match(line))}


def known() -> list[str]:
    """Returns the names of the crates that have edits here."""
    return sorted(folder.name for folder in EDITS.iterdir() if folder.is_dir())


def edits_of(name: str) -> set[str]:
    """Returns a crate's edits, as NAME/EDIT."""
    return {f"{name}/{file.stem}" for file in (EDITS / name).glob("*.edit")}


def changed(top: pathlib.Path, names: Iterable[str], sums: dict[str, str]) -> list[str]:
    """Returns what there is to say of each crate that has changed since its edits were tried."""
    return [f"{name} has changed since its edits were tried: run bench/edits.py {name}"
            for name in names if name in sums and sums[name] != sum_of(top, name)]


def check(names: list[str]) -> int:
    """Compares the sums of these crates, and names those without one; returns 1 if one differs."""
    sums = noted(TRIED.read_text())
    lacking = [name for name in names if name not in sums]
    if lacking:
        print("not tried since they were put into bench/edits:", *lacking)
    return kit.end(changed(kit.TOP, names, sums))


def try_in(copy: pathlib.Path, names: list[str]) -> int:
    """Tries the edits of these crates in the copy, and notes those whose edits are refused."""
    done = kit.call("sh", "-c", 'exec rt ci "$@" 2>&1', "rt", *names, cwd=copy, errors="replace")
    lines = [*map(str.strip, done.stdout.splitlines())]
    print(*lines[-2:], sep="\n")
    found = refused(lines)
    sums = noted(TRIED.read_text()) if TRIED.is_file() else {}
    sums.update({it: sum_of(copy, it) for it in names if edits_of(it) <= found})
    present = set(known())
    rows = [f"{name} {sums[name]}\n" for name in sorted(sums) if name in present]
    TRIED.write_text("".join(rows))
    missed = sorted(set().union(*map(edits_of, names)) - found)
    return kit.end(f"{it}: not refused" for it in missed)


def main() -> int:
    """Tries edits, or looks whether they were tried."""
    words = kit.parser(__doc__, None)
    words.add_argument("--check", action="store_true", help="try nothing, and compare sums")
    words.add_argument("names", metavar="NAME", nargs="*", help="all if left out")
    given = words.parse_args()
    names = given.names or known()
    for name in set(names) - set(known()):
        words.error(f"there are no edits of {name} in bench/edits")
    if given.check:
        return check(names)
    with kit.files() as folder:
        copy = folder / "posgame"
        for file in width.tracked():
            (copy / file).parent.mkdir(parents=True, exist_ok=True)
            shutil.copy2(kit.TOP / file, copy / file)
        kit.call("git", "init", "-q", cwd=copy, check=True)
        for must_fail in copy.glob("crates/*/must-fail"):
            shutil.rmtree(must_fail)
        for name in names:
            shutil.copytree(EDITS / name, copy / "crates" / name / "must-fail")
        return try_in(copy, names)


if __name__ == "__main__":
    raise SystemExit(main())
