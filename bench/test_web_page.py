"""Tests of the page in web/, as far as neither the module nor a browser is needed:
`python3 -m unittest discover -s bench`. What isn't installed is skipped. Unproved.
"""
from __future__ import annotations

import base64
import hashlib
import html.parser
import pathlib
import re
import shutil
import subprocess
import sys
import tempfile
import unittest

import kit

WEB = kit.TOP / "web"
sys.path.insert(0, str(WEB))

import page  # noqa: E402

MODULES = sorted((WEB / "src").glob("*.js"))
COLUMNS, MOST_LINES = 100, 800
# How long the check of types may take. On a machine without other work it takes a few seconds.
TYPES_SECONDS = 60
# The shortest module of WebAssembly.
EMPTY = b"\0asm\1\0\0\0"


def node_version() -> int:
    """Returns the first number of node's version, or 0 if it isn't there."""
    said = kit.call("node", "--version").stdout if shutil.which("node") else ""
    return int("".join(re.findall(r"^v(\d+)", said)) or 0)


class Elements(html.parser.HTMLParser):
    """Collects the identities of a page, those that labels name, and what its scripts contain."""

    def __init__(self, text: str) -> None:
        super().__init__()
        self.ids: list[str] = []
        self.named: list[str] = []
        self.scripts: dict[str, str] = {}
        self.policy = self.script = ""
        self.feed(text)

    def handle_starttag(self, tag: str, attrs: list[tuple[str, str | None]]) -> None:
        given = {name: value or "" for name, value in attrs}
        self.ids += [given["id"]] if "id" in given else []
        self.named += [given[it] for it in ("for", "aria-labelledby") if it in given]
        self.script = given.get("id", "main") if tag == "script" else ""
        if given.get("http-equiv") == "Content-Security-Policy":
            self.policy = given["content"]

    def handle_endtag(self, tag: str) -> None:
        self.script = ""

    def handle_data(self, data: str) -> None:
        if self.script:
            self.scripts[self.script] = self.scripts.get(self.script, "") + data


class Sources(unittest.TestCase):
    def test_lines(self) -> None:
        texts = {it.name: it.read_text(encoding="utf-8").splitlines() for it in MODULES}
        self.assertLessEqual(sum(map(len, texts.values())), MOST_LINES)
        wide = [name for name, rows in texts.items() for row in rows if len(row) > COLUMNS]
        self.assertEqual(wide, [])

    @unittest.skipIf(node_version() < 20, "node 20 isn't installed")
    def test_functions(self) -> None:
        done = kit.call("node", "--test", WEB / "tests")
        self.assertEqual(done.returncode, 0, done.stdout)
        self.assertGreaterEqual(int(re.findall(r"^# pass (\d+)", done.stdout, re.M)[0]), 14)

    @unittest.skipUnless(shutil.which("tsc"), "node-typescript isn't installed")
    def test_types(self) -> None:
        try:
            done = kit.call("tsc", "-p", WEB, timeout=TYPES_SECONDS)
        except subprocess.TimeoutExpired:
            self.skipTest(f"tsc takes more than {TYPES_SECONDS} s here")
        self.assertEqual((done.returncode, done.stdout), (0, ""))


class Pages(unittest.TestCase):
    def setUp(self) -> None:
        self.text = page.page(EMPTY)
        self.page = Elements(self.text)

    def test_order(self) -> None:
        self.assertEqual(page.ordered("worker"), ("form", "worker"))
        names = page.ordered("page")
        self.assertEqual(sorted(names), sorted(it.stem for it in MODULES if it.stem != "worker"))
        self.assertLess(names.index("game"), names.index("board"))

    def test_joined(self) -> None:
        for name in "page", "worker":
            self.assertIsNone(re.search("^(import|export) ", page.joined(name), re.MULTILINE))

    @unittest.skipIf(node_version() < 20, "node 20 isn't installed")
    def test_syntax(self) -> None:
        with tempfile.TemporaryDirectory() as folder:
            for name in "main", "worker":
                path = pathlib.Path(folder, f"{name}.mjs")
                path.write_text(self.page.scripts[name], encoding="utf-8")
                done = kit.call("node", "--check", path)
                self.assertEqual(done.stderr, "")

    def test_policy(self) -> None:
        digest = base64.b64encode(hashlib.sha256(self.page.scripts["main"].encode()).digest())
        self.assertIn(f"script-src 'sha256-{digest.decode()}' 'wasm-unsafe-eval';",
                      self.page.policy)
        self.assertTrue(self.page.policy.startswith("default-src 'none'; "))
        self.assertNotRegex(self.page.policy, r"https?:|\*|'unsafe-eval'|'self'")

    def test_nothing_from_outside(self) -> None:
        found = re.findall(r"https?://[^\"'\s]*", self.text)
        self.assertEqual(set(found), {"http://www.w3.org/2000/svg"})

    def test_names(self) -> None:
        ids = self.page.ids
        self.assertEqual(len(ids), len(set(ids)))
        self.assertEqual({*self.page.named} - {*ids}, set())
        used = set(re.findall(r"\$\('([\w-]+)'\)", self.page.scripts["main"]))
        said = set(re.findall(r"^  '?([\w-]+)'?: (?:async )?\(\) => ", self.page.scripts["main"],
                              re.MULTILINE))
        self.assertGreater(len(said), 15)
        self.assertEqual(used - {*ids}, set())
        self.assertEqual({it for it in said if it not in ids}, {"grid"} & said)

    def test_texts(self) -> None:
        for row in self.page.scripts["texts"].splitlines():
            self.assertEqual(row.count("\t"), 1)
        asked = set(re.findall(r"texts\.get\('([\w-]+)'\)", self.page.scripts["main"]))
        keys = {row.split("\t")[0] for row in self.page.scripts["texts"].splitlines()}
        self.assertGreaterEqual(len(asked), 3)
        self.assertEqual(asked - keys, set())

    def test_same_again(self) -> None:
        self.assertEqual(self.text, page.page(EMPTY))


if __name__ == "__main__":
    unittest.main()
