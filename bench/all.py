#!/usr/bin/env python3
"""Runs the benches that measure or try the programs, and writes docs/FIGURES.md: instructions,
seconds and memory, with the limits.

    bench/all.py [--only WORD].. [--long] [--out FILE]

The programs are those that `rt ci` or `rt run` left in crates/NAME/out, for posgame, posgame_draw,
posgame_settle and test_rows. A bench whose program is missing, that fails or takes too long is a
line of its own. It takes an hour, on a quiet machine; `--long` also gives posgame 20,000 mutated
files and arguments and kills it 200 times. Unproved.
"""
from __future__ import annotations

import datetime
import os
import pathlib
import platform
import re
import resource
import subprocess
import sys
import textwrap
import time

import kit

# The title of each bench, and its script with the words for it.
BENCHES = {
    "Switching games classed and solved": "games.py classes",
    "Searches": "games.py searches",
    "Connectivity games and games on vectors": "games.py families",
    "Large certificates checked": "games.py certificates",
    "Drawn certificates checked": "games.py drawn",
    "Large game files": "games.py files",
    "Boards settled": "settling.py",
    "Random games settled": "settling.py --random 100",
    "Boards split and joined": "joining.py",
    "Plays with their undo on a board": "parts.py board",
    "Searches for threat lines": "parts.py threat",
    "Searches for private pairs": "parts.py match",
    "Pictures of examples, and the largest ones": "pictures.py",
    "Books played in Chromium": "pages.py",
    "Certificates with images": "images.py",
    "The lessons of docs/TUTORIAL.md":
        f"tutorial.py {kit.built('posgame')} --draw {kit.built('posgame_draw')} "
        f"--settle {kit.built('posgame_settle')} --play {kit.built('posgame_play')}",
    "Screens of games at a terminal": "table.py screens",
    "Lines typed at a terminal": "table.py lines",
    "Lines typed at certificates": "duel.py",
    "Games against a search": "computer.py",
    "Files, names and consoles of the system that fail, and kills": "real_files.py",
    "Mutated files, words and dialogues": "fuzz.py --runs 20000",
    **{f"Mutated inputs of the part `{part}`": f"fuzz.py --part {part} --runs 3000"
       for part in ("settle", "draw", "play", "python", "page")},
    "Worst cases":
        f"worst.py --draw {kit.built('posgame_draw')} --settle {kit.built('posgame_settle')} "
        f"--play {kit.built('posgame_play')}",
    "Each allocation of 22 runs refused in turn": "memory.py",
    "Certificates that reviews check": "checked.py",
}
# Those that are run by --long alone.
LONG = {"real_files.py", "fuzz.py", "pages.py"}
# The longest that a bench may take, in seconds.
LIMIT = 3600


def laid_out(lines: list[str]) -> list[str]:
    """The lines as Markdown: rows of tables as they are, others as a paragraph each."""
    text: list[str] = []
    for line in filter(None, lines):
        is_row = line.startswith("|")
        text += [] if is_row and "".join(text[-1:]).startswith("|") else [""]
        text += [line] if is_row else textwrap.wrap(line, 100, break_on_hyphens=False)
    return text


def section(title: str, script: str, *words: str) -> tuple[str, bool]:
    """The text of a bench, and whether all went well."""
    begin, why = time.monotonic(), ""
    try:
        done = kit.call(sys.executable, f"bench/{script}", *words, cwd=kit.TOP, timeout=LIMIT)
        lines, end = done.stdout.splitlines(), f"ended with status {done.returncode}"
        if done.returncode:
            why = ": ".join([end, *done.stderr.strip().splitlines()[-1:]])[:240]
    except subprocess.TimeoutExpired as late:
        lines, why = (late.stdout or b"").decode().splitlines(), f"not done after {LIMIT} s"
    seconds = time.monotonic() - begin
    used = resource.getrusage(resource.RUSAGE_CHILDREN).ru_maxrss // 1024
    tail = [f"`bench/{script}`, {seconds:.0f} s. The greatest process of the benches so far took "
            f"{used} MB, those of valgrind among them."] + [f"**{why}**"] * bool(why)
    text = [f"## {title}", *laid_out(lines or ["Nothing was printed."]), *laid_out(tail), ""]
    return "\n".join(text), not why


def head() -> str:
    """The text above all benches: the commit, the processor and the system."""
    done = kit.call("git", "rev-parse", "--short", "HEAD", cwd=kit.TOP)
    text = pathlib.Path("/proc/cpuinfo").read_text(encoding="ascii", errors="replace")
    models = [*re.findall(r"^model name\s*: *(.*)$", text, re.MULTILINE), platform.machine()]
    return f"""# Figures

Measured by `bench/all.py` on {datetime.date.today()} at {done.stdout.strip() or "unknown"}:
{os.cpu_count()} processors ({models[0]}), {platform.system()} {platform.release()}.
Instructions are counted by callgrind, whatever else the machine does; seconds are by the clock. A
row `limit` has the greatest figure that is allowed; a figure above its limit is in bold type.
"""


def main() -> int:
    given = kit.options(
        __doc__, None, out=("", "the file written"), long=(False, "the long ones too"),
        only=([], "benches with this word in their names; docs/FIGURES.md stays"))
    texts, wrong, left = [head()], [], []
    for title, command in BENCHES.items():
        script, *words = command.split()
        if script in LONG and not given.long:
            left.append(f"- {title} (`bench/{script}`)\n")
        elif not given.only or any(it in f"{title} {command}" for it in given.only):
            print(title, flush=True)
            text, is_well = section(title, script, *words)
            texts.append(text)
            wrong += [] if is_well else [title]
    if left and not given.only:
        texts.append("## Not run here\n\n" + "".join(left))
    kit.write_page(texts, given, "FIGURES.md")
    return kit.end(wrong)


if __name__ == "__main__":
    raise SystemExit(main())
