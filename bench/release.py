#!/usr/bin/env python3
"""Tries what is released: version, licences, README, man pages, completion, install and package.

Usage: release.py [--quick] [--dpkg]
With --quick no built program is needed, and it takes some seconds: install and package are tried in
small trees whose programs are scripts. Without it the proved programs are installed, packaged in
two folders and run in an environment whose PATH is /usr/bin:/bin. With --dpkg the Debian package is
also installed on this machine, run and removed, which needs root. One line is printed for each row;
the status is 1 if a row failed. A row whose tool is missing is skipped. Nothing here is proved.
"""
from __future__ import annotations

import argparse
import hashlib
import itertools
import os
import pathlib
import re
import shutil
import subprocess
import sys
import tempfile
import time
from typing import Callable, Mapping, Optional, Sequence, Union

TOP = pathlib.Path(__file__).resolve().parent.parent
PAGES = ("posgame.1", "posgame-draw.1", "posgame-settle.1", "posgame-play.1", "posgame.5")
SCRIPTS = ("install", "package", "completions/posgame.bash")
STARTERS = (
    "posgame",
    "posgame-draw",
    "posgame-settle",
    "posgame-play",
    "posgame-why",
    "launch/posgame",
    "launch/posgame-draw",
    "launch/posgame-settle",
    "launch/posgame-play",
)
CLUSTER = ("cluster/settle-one", "cluster/settle.sbatch", "cluster/try-slurm")
APACHE = "cfc7749b96f63bd31c3c42b5c471bf756814053e847c10f3eb003417bc523d30"
BARE = {"PATH": "/usr/bin:/bin"}
EPOCH = "1700000000"
CHANGED = r"^## (\S+) \((unreleased|\d{4}-\d\d-\d\d)\)$"
PROGRAMS = ("posgame", "posgame_draw", "posgame_settle", "posgame_play")
SECTIONS = (
    "Three minutes",
    "What it decides",
    "What is proved",
    "Where to go",
    "Install",
    "Not proved, and trusted",
    "Beside other tools",
    "Licence",
)
CITATION_KEYS = {
    "cff-version",
    "message",
    "type",
    "title",
    "abstract",
    "authors",
    "version",
    "date-released",
    "license",
    "keywords",
}


Row = Callable[[pathlib.Path], list[str]]


class Skipped(Exception):
    """Why a row is not tried."""


def need(tool: str) -> None:
    """Skips the row if the command is missing."""
    if shutil.which(tool) is None:
        raise Skipped(f"there is no {tool}")


def run(
    words: Sequence[Union[str, pathlib.Path]],
    cwd: Optional[pathlib.Path] = None,
    env: Optional[Mapping[str, str]] = None,
    umask: int = -1,
) -> subprocess.CompletedProcess[str]:
    """Runs a command, with no input and its output as text."""
    texts = [str(it) for it in words]
    return subprocess.run(
        texts,
        cwd=cwd,
        env=env,
        umask=umask,
        stdin=subprocess.DEVNULL,
        capture_output=True,
        text=True,
    )


def differs(name: str, found: object, expected: object) -> list[str]:
    """Returns a problem if the two differ."""
    return [] if found == expected else [f"{name}: {found!r:.300} in place of {expected!r:.300}"]


def text_of(name: str) -> str:
    """Returns a file of the repository."""
    return (TOP / name).read_text(encoding="utf-8")


def first_group(pattern: str, text: str) -> str:
    """Returns the first group of the first match, or nothing."""
    match = re.search(pattern, text, re.MULTILINE)
    return match.group(1) if match else ""


def versions(_: pathlib.Path) -> list[str]:
    """Compares the version, and its date, everywhere with VERSION and CHANGELOG.md, whose first
    section may be that of a version that isn't released yet."""
    version, citation = text_of("VERSION").strip(), text_of("CITATION.cff")
    changes = re.findall(CHANGED, text_of("CHANGELOG.md"), re.MULTILINE)
    last, date = changes[changes[0][1] == "unreleased"]
    problems = [] if re.fullmatch(r"\d+\.\d+\.\d+", version) else [f"VERSION is {version!r}"]
    problems += differs("CHANGELOG.md", last, version)
    problems += differs("CITATION.cff", first_group(r"^version: (\S+)$", citation), version)
    problems += differs("CITATION.cff", first_group(r'^date-released: "(.*)"$', citation), date)
    moment = time.strptime(date, "%Y-%m-%d")
    written = time.strftime(f"%B {moment.tm_mday}, %Y", moment)
    for page in PAGES:
        source = text_of(f"man/{page}")
        problems += differs(
            page, first_group(r"^This page describes posgame (.*)\.$", source), version
        )
        problems += differs(page, first_group(r"^\.Dd (.+)$", source), written)
    package = first_group(r'^version = "(.*)"$', text_of("python/pyproject.toml"))
    problems += differs("python/pyproject.toml", package, version)
    for path in sorted(TOP.glob("crates/*/src/*.rt")):
        said = first_group(r'\bVERSION: &str = "(.*)";$', path.read_text(encoding="utf-8"))
        problems += differs(path.name, said, version) if said else []
    return problems


def licences(_: pathlib.Path) -> list[str]:
    """Looks for both licences, and the keys of the citation."""
    digest = hashlib.sha256((TOP / "LICENSE-APACHE").read_bytes()).hexdigest()
    problems = differs("LICENSE-APACHE", digest, APACHE)
    if not text_of("LICENSE-MIT").startswith(
        "MIT License\n\nCopyright (c) 2026 The posgame authors\n"
    ):
        problems.append("LICENSE-MIT has another beginning")
    if "MIT OR Apache-2.0" not in text_of("README.md"):
        problems.append("README.md does not name the licence")
    keys = set(re.findall(r"^([a-z-]+):", text_of("CITATION.cff"), re.MULTILINE))
    return problems + differs("keys of CITATION.cff", sorted(keys), sorted(CITATION_KEYS))


def readme(_: pathlib.Path) -> list[str]:
    """Looks at README.md's size, the order of its sections, and the files that it names."""
    text = text_of("README.md")
    problems = [f"line {at} is long" for at, it in enumerate(text.splitlines(), 1) if len(it) > 100]
    if text.count("\n") > 150:
        problems.append("more than 150 lines")
    problems += differs("sections", tuple(re.findall(r"^## (.*)$", text, re.MULTILINE)), SECTIONS)
    named = set(re.findall(r"\b(?:docs|examples|bench|python)/[\w./-]+\w", text))
    named |= set(re.findall(r"\./([a-z][\w./-]*\w)", text)) | set(
        re.findall(r"\b[A-Z]+[A-Z.\w-]*\.(?:md|cff)\b", text)
    )
    for name in sorted(named):
        if not any((TOP / place / name).exists() for place in ("", "docs")):
            problems.append(f"there is no {name}")
    places = [TOP / "docs" / "DEFINITIONS.md", *(TOP / "docs" / "tutorial").glob("*.md")]
    pages = "\n".join(it.read_text(encoding="utf-8") for it in places)
    for title in re.findall(
        r'"([A-Z][^"]+)"', text[text.index("## Where to go") : text.index("## Install")]
    ):
        if not re.search(rf"^(# \d+\.|##) {re.escape(title)}", pages, re.MULTILINE):
            problems.append(f"no lesson or section is called {title!r}")
    return problems


def crates(_: pathlib.Path) -> list[str]:
    """Looks for each crate of crates.txt in docs/ARCHITECTURE.md."""
    lines = [it.split("#")[0].split(":")[0].split() for it in text_of("crates.txt").splitlines()]
    listed = [it[0] for it in lines if it]
    named = re.findall(r"^- \*\*`(\w+)`\*\*: ", text_of("docs/ARCHITECTURE.md"), re.MULTILINE)
    return differs("crates of docs/ARCHITECTURE.md", sorted(named), sorted(listed))


def synopsis(page: str) -> list[str]:
    """Returns the calls in the synopsis of a man page, as a usage line has them."""
    source = text_of(f"man/{page}")
    part = source[source.index(".Sh SYNOPSIS\n") : source.index(".Sh DESCRIPTION\n")].splitlines()[
        1:
    ]
    calls: list[str] = []
    for line in part:
        words = line.split()
        if words[0] == ".Nm":
            calls.append(" ".join(words[1:]) or page.split(".")[0])
            continue
        rest = " ".join(words[1:] if words[0] == ".Op" else words)
        rest = re.sub(r"\.?\b(?:Ar|Cm) |\.(?:Ar|Cm) ", "", rest).replace(
            " Op ", " ["
        ) + "]" * rest.count(" Op ")
        rest = re.sub(r"\.?Fl -", "--", rest)
        calls[-1] += f" [{rest}]" if words[0] == ".Op" else f" {rest}"
    return calls


def manual(_: pathlib.Path) -> list[str]:
    """Compares the synopses with docs/FORMATS.md, and has the pages read by mandoc."""
    usage = re.findall(r"^    (posgame .*)$", text_of("docs/FORMATS.md"), re.MULTILINE)
    problems = [] if len(usage) > 10 else ["docs/FORMATS.md shows no usage"]
    problems += differs(
        "calls of posgame.1", [it for it in synopsis("posgame.1") if it[7] == " "], usage
    )
    drawing = re.findall(r"^    (posgame-draw .*)$", text_of("docs/FORMATS.md"), re.MULTILINE)
    problems += [] if len(drawing) == 6 else ["docs/FORMATS.md shows other calls of posgame-draw"]
    problems += differs(
        "calls of posgame-draw.1", synopsis("posgame-draw.1"),
        ["posgame-draw [OPTIONS] GAME [CERT [NODE]]",
         "posgame-draw [OPTIONS] GAME RECORD [--move K]",
         "posgame-draw --book [--depth K] [--layout FILE] GAME CERT"],
    )
    called = r"^    (posgame-settle .*(?:\n {8,}\[.*)*)$"
    found = re.findall(called, text_of("docs/FORMATS.md"), re.MULTILINE)
    settling = [" ".join(it.split()) for it in found]
    problems += [] if settling else ["docs/FORMATS.md shows no call of posgame-settle"]
    problems += differs("calls of posgame-settle.1", synopsis("posgame-settle.1"), settling)
    playing = re.findall(r"^    (posgame-play .*)$", text_of("docs/FORMATS.md"), re.MULTILINE)
    problems += differs("calls of posgame-play.1", synopsis("posgame-play.1"), playing)
    blocks = re.findall(r"\.Bd -literal.*\n(posgame[^.]*)\.Ed\n", text_of("man/posgame.5"))
    for name, block in zip(("noughts-and-crosses.game", "breaker-in-the-centre.cert"), blocks):
        problems += differs(name, text_of(f"examples/{name}"), block)
    problems += differs("files shown in posgame.5", len(blocks), 2)
    if problems:
        return problems
    need("mandoc")
    lint = run(["mandoc", "-Tlint", *PAGES], cwd=TOP / "man")
    return differs("mandoc -Tlint", lint.stdout + lint.stderr, "")


COMPLETE = """
source "$1"
shift
for line; do
    COMP_WORDS=($line)
    [ "${line% }" = "$line" ] || COMP_WORDS+=("")
    COMP_CWORD=$((${#COMP_WORDS[@]} - 1))
    "_${COMP_WORDS[0]//-/_}" 2> /dev/null
    echo "${COMPREPLY[*]}"
done
"""
COMPLETIONS = (
    ("posgame s", "solve span"),
    ("posgame gen ", "bridge rows scatter"),
    ("posgame vec ", "check play solve"),
    ("posgame solve wh", "wheel.game"),
    ("posgame check diamond.game diamond-t", "diamond-trees-and-cuts.cert"),
    ("posgame span check path-connectivity.game path-p", "path-parts.cert"),
    ("posgame gen scatter 1 2 3 4 whe", "wheel.game"),
    ("posgame gen rows whe", ""),
    ("posgame gen rows 3 whe", "wheel.game"),
    ("posgame gen bridge 3 wheel.game diamond-t", "diamond-trees-and-cuts.cert"),
    ("posgame report diamond.game diamond-t", "diamond-trees-and-cuts.cert"),
    ("posgame record wheel.game two-c", "two-children.record"),
    ("posgame review --", "--positions"),
    ("posgame vec play whe", "wheel.game"),
    ("posgame span play wheel.game x.cert --", "--side"),
    ("posgame review empty-board-both.game two-c", "two-children.record"),
    ("posgame solve --", "--images --positions"),
    ("posgame play wheel.game x.cert --", "--side"),
    ("posgame check --", ""),
    ("posgame play --side ", "x y"),
    ("posgame play --side = x wh", "wheel.game"),
    ("posgame solve --positions 50 wh", "wheel.game"),
    ("posgame check wheel.game x.cert ", ""),
    ("posgame-draw tippy-c", "tippy-corner.game"),
    ("posgame-draw wheel.game tippy-by", "tippy-by-its-corner.cert"),
    ("posgame-draw --b", "--blank --book"),
    ("posgame-draw --no-l", "--no-legend --no-lines"),
    ("posgame-draw --size ", ""),
    ("posgame-draw --size 300 tippy-c", "tippy-corner.game"),
    ("posgame-draw --no-lines wheel.game tippy-by", "tippy-by-its-corner.cert"),
    ("posgame-draw --d", "--depth"),
    ("posgame-draw --book tippy-c", "tippy-corner.game"),
    ("posgame-draw --book --depth 4 wheel.game tippy-by", "tippy-by-its-corner.cert"),
    ("posgame-draw --book wheel.game tippy-by", "tippy-by-its-corner.cert"),
    ("posgame-settle tippy-c", "tippy-corner.game"),
    ("posgame-settle --nodes 50 wheel.game tippy-by", "tippy-by-its-corner.cert"),
    ("posgame-settle --entries = 9 wheel.game x.cert ", ""),
    ("posgame-settle wheel.game x.cert --", "--entries --help --images --json --nodes "
     "--positions --progress --version"),
    ("posgame-settle --positions ", ""),
    ("posgame-settle mo", "moves"),
    ("posgame-settle spl", "split"),
    ("posgame-settle split tippy-c", "tippy-corner.game"),
    ("posgame-settle split tippy-corner.game ../exam", "../examples"),
    ("posgame-settle split tippy-corner.game --", "--most"),
    ("posgame-settle split tippy-corner.game --most ", ""),
    ("posgame-settle jo", "join"),
    ("posgame-settle join tippy-c", "tippy-corner.game"),
    ("posgame-settle join tippy-corner.game ../exam", "../examples"),
    ("posgame-settle join tippy-corner.game . tippy-by", "tippy-by-its-corner.cert"),
    ("posgame-settle join tippy-corner.game --", "--images --nodes"),
    ("posgame-settle join tippy-corner.game --nodes ", ""),
    ("posgame-settle moves tippy-c", "tippy-corner.game"),
    ("posgame-settle moves tippy-corner.game --", "--entries --json --nodes --positions "
     "--progress"),
    ("posgame-play tippy-c", "tippy-corner.game"),
    ("posgame-play --record two-c", "two-children.record"),
    ("posgame-play --record = two-c", "two-children.record"),
    ("posgame-play --record x.record tippy-c", "tippy-corner.game"),
    ("posgame-play wheel.game --",
     "--computer --help --layout --record --side --turn --version"),
    ("posgame-play wheel.game whe", ""),
    ("posgame-play wheel.game --turn ", "x y"),
    ("posgame-play wheel.game --computer ", "x y"),
    ("posgame-play wheel.game --layout pla", ""),
    ("posgame-play tippy-corner.game tippy-by", "tippy-by-its-corner.cert"),
    ("posgame-play --side y tippy-corner.game tippy-by", "tippy-by-its-corner.cert"),
    ("posgame-play tippy-corner.game tippy-by-its-corner.cert whe", ""),
)


def completion(_: pathlib.Path) -> list[str]:
    """Completes lines in examples/ by bash."""
    ran = run(
        ["bash", "-c", COMPLETE, "complete", TOP / SCRIPTS[2], *(line for line, _ in COMPLETIONS)],
        cwd=TOP / "examples",
    )
    offered = [" ".join(sorted(line.split())) for line in ran.stdout.splitlines()]
    if len(offered) != len(COMPLETIONS):
        return [f"bash said {ran.stderr!r:.300}"]
    return [
        it
        for at, (line, due) in enumerate(COMPLETIONS)
        for it in differs(f"'{line}'", offered[at], due)
    ]


def scripts(_: pathlib.Path) -> list[str]:
    """Reads the scripts by bash and shellcheck, and calls them with arguments that mean nothing."""
    read = (*SCRIPTS, *STARTERS, *CLUSTER, ".ci/run")
    problems = [
        it for name in read for it in differs(name, run(["bash", "-n", TOP / name]).stderr, "")
    ]
    for words in (["install", "--what"], ["install", "a", "b"], ["install", "--uninstall", "-x"]):
        ended = run([TOP / words[0], *words[1:]])
        problems += differs(
            " ".join(words), (ended.returncode, "./install [PREFIX]" in ended.stderr), (2, True)
        )
    problems += differs("package x", run([TOP / "package", "x"]).returncode, 1)
    if not problems and shutil.which("shellcheck"):
        checked = run(["shellcheck", "-x", "-s", "bash", *read], cwd=TOP)
        problems += differs("shellcheck", checked.stdout, "")
    return problems


class Tree:
    """A small tree with the files that are installed, a crate below scripts for the programs, and
    one of tests."""

    def __init__(self, folder: pathlib.Path) -> None:
        self.folder = folder
        folder.mkdir()
        for name in ("install", "package"):
            shutil.copy2(TOP / name, folder / name)
        for it in (
            "VERSION",
            "posgame-why",
            "launch",
            "completions",
            "man",
            "docs",
            "examples",
            "layouts",
            "README.md",
            "CHANGELOG.md",
            "CITATION.cff",
            "LICENSE-MIT",
            "LICENSE-APACHE",
        ):
            (folder / it).symlink_to(TOP / it)
        listed = folder / "crates.txt"
        listed.write_text(
            "# low\npg_low:\n" + "".join(f"{it}: pg_low\n" for it in (*PROGRAMS, "test_low"))
        )
        os.utime(listed, (1000, 1000))
        for crate in ("pg_low", *PROGRAMS, "test_low"):
            (folder / "crates" / crate / "src").mkdir(parents=True)
            self.touch(crate, 1000)

    def touch(self, crate: str, moment: int) -> None:
        """Writes the crate's source, as of this moment."""
        source = self.folder / "crates" / crate / "src" / "lib.rt"
        source.write_text("// source\n")
        os.utime(source, (moment, moment))

    def build(self, moment: int) -> None:
        """Makes the programs, as of this moment."""
        for crate in PROGRAMS:
            program = self.folder / "crates" / crate / "out" / crate
            program.parent.mkdir(exist_ok=True)
            program.write_text('#!/bin/sh\n# GLIBC_2.34 GLIBC_2.4\necho "$@"\n')
            program.chmod(0o755)
            os.utime(program, (moment, moment))

    def prover(self, status: int) -> None:
        """Makes a ./prove that notes that it was called, and ends so."""
        script = self.folder / "prove"
        script.write_text(f'#!/bin/sh\necho "$@" >> "{self.folder}/proved"\nexit {status}\n')
        script.chmod(0o755)

    def installs(self) -> tuple[int, bool, int]:
        """Installs: the status, whether ./prove was called, and how many files are there."""
        (self.folder / "proved").unlink(missing_ok=True)
        prefix = self.folder / "prefix"
        shutil.rmtree(prefix, ignore_errors=True)
        ended = run([self.folder / "install", prefix])
        files = sum(not it.is_dir() for it in prefix.rglob("*")) if prefix.exists() else 0
        return ended.returncode, (self.folder / "proved").exists(), files


def only_proved(top: pathlib.Path) -> list[str]:
    """Installs where programs are missing, current, or older than a source."""
    tree = Tree(top / "tree")
    problems = differs("no program, no ./prove", tree.installs(), (1, False, 0))
    tree.prover(1)
    problems += differs("no program", tree.installs(), (1, True, 0))
    tree.build(2000)
    status, called, files = tree.installs()
    problems += differs("current programs", (status, called, files > 50), (0, False, True))
    tree.touch("test_low", 3000)
    problems += differs("a newer test", tree.installs(), (0, False, files))
    tree.touch("pg_low", 3000)
    problems += differs("a newer source", tree.installs(), (1, True, 0))
    tree.prover(0)
    problems += differs("a newer source, and a proof", tree.installs(), (0, True, files))
    return problems


def removes(top: pathlib.Path) -> list[str]:
    """Installs twice beside other files, and removes what was installed alone."""
    tree, prefix = Tree(top / "removal"), top / "prefix"
    tree.build(2000)
    (prefix / "bin").mkdir(parents=True)
    (prefix / "bin" / "other").write_text("")
    before, install = sorted(prefix.rglob("*")), tree.folder / "install"
    removal: list[Union[str, pathlib.Path]] = [install, "--uninstall", prefix]
    problems = differs("nothing to remove", run(removal).returncode, 1)
    for _ in range(2):
        problems += differs("install", run([install, prefix]).returncode, 0)
    if problems:
        return problems
    said = run([prefix / "bin/posgame", "check", "a b", "c"], env=BARE)
    problems = differs("bin/posgame", (said.stdout, said.returncode), ("check a b c\n", 0))
    problems += differs("uninstall", run(removal).returncode, 0)
    return problems + differs("what is left", sorted(prefix.rglob("*")), before)


def packed(
    folder: pathlib.Path, env: Optional[Mapping[str, str]] = None, umask: int = 0o022
) -> tuple[list[str], dict[str, bytes]]:
    """Packages a tree: problems, and the bytes of each file of dist/."""
    ended = run([folder / "package"], env=env, umask=umask)
    dist = folder / "dist"
    problems = differs("package", (ended.returncode, ended.stderr), (0, ""))
    if problems:
        return problems, {}
    problems += differs(
        "SHA256SUMS", run(["sha256sum", "-c", "--quiet", "SHA256SUMS"], cwd=dist).stdout, ""
    )
    version = text_of("VERSION").strip()
    files = {it.name: it.read_bytes() for it in dist.iterdir()}
    due = ["SHA256SUMS", f"posgame-{version}-linux-x86_64.tar.xz", f"posgame_{version}_amd64.deb"]
    return problems + differs("files of dist", sorted(files), due), files


def same_packages(top: pathlib.Path) -> list[str]:
    """Packages two small trees at different times and umasks, and compares all bytes."""
    need("dpkg-deb")
    env = {**os.environ, "SOURCE_DATE_EPOCH": EPOCH}
    made: list[dict[str, bytes]] = []
    for name, mask in (("one", 0o022), ("another-with-a-longer-name", 0o077)):
        tree = Tree(top / name)
        tree.build(2000 + len(made))
        problems, files = packed(tree.folder, env=env, umask=mask)
        if problems:
            return problems
        made.append(files)
        time.sleep(1.1)
    return [f"{name} differs" for name in made[0] if made[0][name] != made[1][name]]


def copied_tree(folder: pathlib.Path) -> None:
    """Copies the checkout with the programs, and without what is not committed."""
    listed = run(["git", "-C", TOP, "ls-files", "-z"]).stdout.split("\0")[:-1]
    for name in [*listed, *(f"crates/{it}/out/{it}" for it in PROGRAMS)]:
        (folder / name).parent.mkdir(parents=True, exist_ok=True)
        shutil.copy2(TOP / name, folder / name)


def real_packages(top: pathlib.Path) -> list[str]:
    """Packages the proved programs here and in a copy, and compares all bytes."""
    need("dpkg-deb")
    problems, here = packed(TOP)
    if problems:
        return problems
    copied_tree(top / "copy")
    epoch = run(["git", "-C", TOP, "log", "-1", "--format=%ct"]).stdout.strip()
    problems, there = packed(top / "copy", env={**os.environ, "SOURCE_DATE_EPOCH": epoch})
    return problems or [f"{name} differs" for name in here if here[name] != there.get(name)]


def serves(prefix: pathlib.Path, folder: pathlib.Path) -> list[str]:
    """Runs what is installed below the prefix, in a bare environment."""
    folder.mkdir()
    examples = prefix / "share/doc/posgame/examples"
    game, cert = f"{examples}/bridg-it.game", f"{examples}/bridg-it-trees-and-cuts.cert"
    picture = text_of("docs/pictures/bridg-it-trees.svg")
    both = "accepted x x win\naccepted y y win\n"
    rows = (
        (["posgame", "solve", game, "found.cert"], "class first-mover\n", 0),
        (["posgame", "check", game, "found.cert"], both, 0),
        (["posgame", "check", game, cert], both, 0),
        (["posgame", "gen", "rows", "3", "three.game"], "game 9 points 8 lines\n", 0),
        (["posgame", "check", game, "missing.cert"], "", 5),
        (["posgame", "nothing"], "words: no meaning\n", 2),
        (["posgame-draw", game, cert], picture, 0),
        (["posgame-settle", game, "settled.cert"], "class first-mover\n", 0),
        (["posgame", "check", game, "settled.cert"], both, 0),
        (["posgame-settle", "missing.game", "settled.cert"], "", 5),
        (["posgame-play", "missing.game"], "", 5),
    )
    problems = []
    for words, said, status in rows:
        ended = run([prefix / "bin" / words[0], *words[1:]], cwd=folder, env=BARE)
        found = ended.stdout, ended.returncode, bool(ended.stderr)
        problems += differs(" ".join(words), found, (said, status, status != 0))
    why = run([prefix / "bin/posgame-why", "G6"], env=BARE)
    return problems + differs("posgame-why G6", (why.returncode, "G6" in why.stdout), (0, True))


def commands_of(text: str) -> list[tuple[str, str]]:
    """Returns the commands that a text shows, each with the lines that are shown below it.

    >>> commands_of("$ cat a\\nb\\n.Ed\\n.Dl $ draw a \\\\e\\n    > b\\n")
    [('cat a', 'b\\n'), ('draw a     > b', '')]
    """
    lines = text.replace("\\e\n", "").replace("\n.Dl ", "\n").splitlines()
    found = []
    for at, line in enumerate(lines):
        if line.startswith("$ "):
            due = itertools.takewhile(lambda it: it[:1] not in "$.", lines[at + 1 :])
            found.append((line[2:], "".join(f"{it}\n" for it in due)))
    return found


def indented(name: str) -> str:
    """Returns the indented lines of a document."""
    return "".join(f"{it[4:]}\n" for it in text_of(name).splitlines() if it[:4] in ("", "    "))


def examples_of(page: str) -> str:
    """Returns the examples of a man page."""
    source = text_of(f"man/{page}")
    return source[source.index(".Sh EXAMPLES\n") : source.index(".Sh SEE ALSO\n")]


def shown(prefix: pathlib.Path, folder: pathlib.Path) -> list[str]:
    """Runs the commands that README.md, docs/FORMATS.md and the man pages show, with an empty
    input, and compares what they print with what is shown, if anything is."""
    folder.mkdir()
    for name in ("posgame", "posgame-draw", "posgame-settle", "posgame-play", "posgame-why"):
        (folder / name).symlink_to(prefix / "bin" / name)
    examples = folder / "examples"
    shutil.copytree(prefix / "share/doc/posgame/examples", examples)
    pages = [(folder, indented("README.md")), (folder, indented("docs/FORMATS.md"))]
    pages += [(folder, examples_of(it)) for it in ("posgame.1", "posgame-settle.1")]
    pages += [(examples, examples_of(it)) for it in ("posgame-draw.1", "posgame-play.1")]
    env, problems, count = {"PATH": f"{prefix}/bin:/usr/bin:/bin", "HOME": str(folder)}, [], 0
    for place, text in pages:
        for command, due in commands_of(text):
            count += 1
            if command.startswith("cat "):
                (place / command[4:]).write_text(due, encoding="utf-8")
            said = run(["bash", "-c", command], cwd=place, env=env)
            problems += differs(command, (said.stdout if due else "", said.returncode), (due, 0))
    picture = (folder / "bridg-it.svg").read_text(encoding="utf-8")
    if picture != text_of("docs/pictures/bridg-it-trees.svg"):
        problems.append("bridg-it.svg is not the picture of README.md")
    return problems + differs("commands that are shown", count, 16)


def served(prefix: pathlib.Path, folder: pathlib.Path) -> list[str]:
    """Checks an example by the commands of docs/SERVER.md."""
    folder.mkdir()
    for ending in ("game", "cert"):
        name = "bridg-it.game" if ending == "game" else "bridg-it-trees-and-cuts.cert"
        shutil.copy2(prefix / "share/doc/posgame/examples" / name, folder / ending)
    block = re.search(r"^```bash\n(.*?)^```", text_of("docs/SERVER.md"), re.MULTILINE | re.DOTALL)
    if block is None:
        return ["docs/SERVER.md shows no commands"]
    env = {"PATH": f"{prefix}/bin:/usr/bin:/bin", "folder": str(folder)}
    said = run(["bash", "-c", block[1]], env=env)
    answer = folder / "answer"
    found = answer.read_text(encoding="utf-8") if answer.is_file() else said.stderr
    return differs("docs/SERVER.md", (said.returncode, found),
                   (0, "accepted x x win\naccepted y y win\n"))


def installed(top: pathlib.Path) -> list[str]:
    """Installs the proved programs, runs them, and removes them."""
    prefix = top / "real"
    prefix.mkdir()
    ended = run([TOP / "install", prefix])
    if ended.returncode:
        return [f"install: {ended.stderr!r:.300}"]
    problems = serves(prefix, top / "work") + shown(prefix, top / "shown")
    problems += served(prefix, top / "served")
    problems += differs("uninstall", run([TOP / "install", "--uninstall", prefix]).returncode, 0)
    return problems + differs("what is left", sorted(prefix.iterdir()), [])


def unpacked(top: pathlib.Path) -> list[str]:
    """Unpacks the archive and the Debian package of dist/, and runs what is in them."""
    version, dist = text_of("VERSION").strip(), TOP / "dist"
    archive = dist / f"posgame-{version}-linux-x86_64.tar.xz"
    problems = differs("tar", run(["tar", "-xJf", archive, "-C", top]).returncode, 0)
    problems += serves(top / f"posgame-{version}", top / "of-the-archive")
    deb = dist / f"posgame_{version}_amd64.deb"
    problems += differs("dpkg-deb", run(["dpkg-deb", "-x", deb, top / "deb"]).returncode, 0)
    return problems + serves(top / "deb/usr", top / "of-the-deb")


def by_dpkg(top: pathlib.Path) -> list[str]:
    """Installs the Debian package on this machine, runs it, and removes it."""
    if os.geteuid() != 0:
        raise Skipped("it needs root")
    if run(["dpkg", "-s", "posgame"]).returncode == 0:
        raise Skipped("posgame is installed on this machine")
    deb = TOP / "dist" / f"posgame_{text_of('VERSION').strip()}_amd64.deb"
    put = run(["dpkg", "-i", deb])
    if put.returncode:
        return [f"dpkg -i: {put.stderr!r:.300}"]
    listed = run(["dpkg", "-L", "posgame"]).stdout.split()
    problems = serves(pathlib.Path("/usr"), top / "of-the-machine")
    problems += differs("dpkg -V", run(["dpkg", "-V", "posgame"]).stdout, "")
    problems += differs("dpkg -r", run(["dpkg", "-r", "posgame"]).returncode, 0)
    left = [it for it in listed if "posgame" in it and os.path.lexists(it)]
    return problems + differs("what is left", left, [])


def rows_of(quick: bool, dpkg: bool) -> list[Row]:
    """Returns the rows that are asked for, in their order."""
    rows: list[Row] = [versions, licences, readme, crates, manual, completion, scripts]
    rows += [only_proved, removes, same_packages]
    rows += [] if quick else [installed, real_packages, unpacked]
    return rows + ([by_dpkg] if dpkg else [])


def passes(row: Row) -> bool:
    """Tries a row in a folder of its own, and prints what came of it."""
    name, began = row.__name__.replace("_", " "), time.time()
    with tempfile.TemporaryDirectory() as folder:
        try:
            problems = row(pathlib.Path(folder))
        except Skipped as why:
            print(f"release: {name}: skipped, {why}", flush=True)
            return True
    said = "failed" if problems else "ok"
    print(f"release: {name}: {said} ({time.time() - began:.1f} s)", flush=True)
    for it in problems:
        print(f"    {it}", flush=True)
    return not problems


def main() -> int:
    words = argparse.ArgumentParser(
        description=__doc__, formatter_class=argparse.RawDescriptionHelpFormatter
    )
    words.add_argument("--quick", action="store_true", help="only what needs no built program")
    words.add_argument(
        "--dpkg", action="store_true", help="also install the package on this machine"
    )
    given = words.parse_args()
    ends = [passes(row) for row in rows_of(given.quick, given.dpkg)]
    return 0 if all(ends) else 1


if __name__ == "__main__":
    sys.exit(main())
