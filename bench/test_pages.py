"""Tests of bench/pages.py and bench/browser.py, as far as no browser is needed:
`python3 -m unittest discover -s bench`. The frames are the examples of RFC 6455. Unproved.
"""
from __future__ import annotations

import io
import pathlib
import tempfile
import unittest

import browser
import kit
import pages
import played
import tables
from browser import Frame

CERT = """posgame-cert 2
# two claims
claim x x win
nodes 4
0 1|3|x|over
0|3|y|all 1:0 2:0
||y|weaker 1
||x|move 0 1
claim x y draw
nodes 1
|4|x|pairs 0-1 2-5
"""


def frame(hexadecimal: str) -> Frame:
    """Reads a frame from bytes in hexadecimal digits."""
    return browser.read_frame(io.BytesIO(bytes.fromhex(hexadecimal)).read)


class Frames(unittest.TestCase):
    def test_key(self) -> None:
        found = browser.accept_key(b"dGhlIHNhbXBsZSBub25jZQ==")
        self.assertEqual(found, "s3pPLMBiTxaQ9kYGzzhZRbK+xOo=")

    def test_masked(self) -> None:
        found = browser.frame_bytes(browser.TEXT, b"Hello", bytes.fromhex("37fa213d"))
        self.assertEqual(found.hex(), "818537fa213d7f9f4d5158")
        self.assertEqual(frame(found.hex()), Frame(True, browser.TEXT, b"Hello"))

    def test_parts(self) -> None:
        self.assertEqual(frame("010348656c"), Frame(False, browser.TEXT, b"Hel"))
        self.assertEqual(frame("80026c6f"), Frame(True, 0, b"lo"))

    def test_long(self) -> None:
        for size, head in (256, "827e0100"), (65536, "827f0000000000010000"):
            self.assertEqual(frame(head + "61" * size), Frame(True, 2, b"a" * size))
            sent = browser.frame_bytes(browser.TEXT, b"a" * size, b"abcd")
            self.assertEqual(frame(sent.hex()), Frame(True, browser.TEXT, b"a" * size))

    def test_no_bytes(self) -> None:
        self.assertEqual(browser.masked(b"", b"abcd"), b"")


class Expected(unittest.TestCase):
    def test_nodes(self) -> None:
        found = pages.nodes_of(CERT)
        self.assertEqual([len(it) for it in found], [4, 1])
        self.assertEqual(found[0][1], pages.Node(1, 1, 0, (0, 0)))
        self.assertEqual(found[0][2].children, (1,))
        self.assertEqual(found[1][0], pages.Node(0, 1, 2, ()))

    def test_pages(self) -> None:
        found = pages.pages_of(CERT)
        self.assertEqual([*found], ["p4", "p3", "p2", "p1", "p2-1"])
        links = [targets for _, targets in found.values()]
        self.assertEqual(links, [[], ["p4", "p4"], ["p3"], ["p3"], []])

    def test_rows(self) -> None:
        found = [*pages.books(None)]
        self.assertEqual(len({it.name for it in found}), len(found))
        for it in found:
            self.assertTrue((kit.EXAMPLES / it.game).is_file(), it.game)
            self.assertTrue((kit.EXAMPLES / it.cert).is_file(), it.cert)
            self.assertTrue((kit.EXAMPLES / it.layout).exists(), it.layout)
        self.assertEqual([it.name for it in pages.books(found[0].name)], [found[0].name])

    def test_places(self) -> None:
        found = pages.from_corner([(28, 12), (14, 36), (28, 12)])
        self.assertEqual(found, [(0, 24), (14, 0)])
        self.assertEqual(pages.from_corner([]), [])


class Played(unittest.TestCase):
    GAME = "posgame 1\nkind switching\nvertices 3\nterminals 0 1\nedge 0 2\nedge 2 1\nturn x\n"

    def test_two_edges(self) -> None:
        found = played.played(self.GAME, "posgame-cert 1\nclaim x y win\nnodes 1\n||x|cuts 0 / 1\n")
        self.assertEqual(found, "posgame-cert 1\nclaim x y win\nnodes 5\n1|0|x|over\n0|1|x|over\n"
                                "1||y|move 0 0\n0||y|move 1 1\n||x|all 0:3 1:2\n")

    def test_diamond(self) -> None:
        names = "diamond.game", "diamond-trees-and-cuts.cert"
        found = pages.nodes_of(played.played(*((kit.EXAMPLES / it).read_text() for it in names)))
        self.assertEqual([len(nodes) for nodes in found], [20, 17])

    def test_others(self) -> None:
        self.assertEqual(played.played(self.GAME, CERT), CERT)
        self.assertEqual(played.played("posgame 1\nkind maker-maker\n", CERT), CERT)


class Tables(unittest.TestCase):
    def test_edges(self) -> None:
        game = "posgame-span 1\nvertices 3\nedge 0 1\nedge 1 2\nedge 0 2\nx 0\nturn y\n"
        cert = "posgame-span-cert 1\nclaim y x\ntrees 1 / 2\nclaim y y\nparts 0 0 1\n"
        trees, parts = tables.tables_of(game, cert)
        self.assertEqual([row[3] for row in trees[1:]], ["", "first", "second"])
        self.assertEqual([row[2] for row in trees[1:]], ["Maker", "free", "free"])
        self.assertEqual([row[3] for row in parts[1:]],
                         ["inside a part", "between parts", "between parts"])
        self.assertEqual(trees[1][:2], ["0", "0 and 1"])

    def test_vectors(self) -> None:
        game = "posgame-vectors 1\nrows 2\ntarget 11\nvector 10\nvector 01\ny 1\nturn x\n"
        table, = tables.tables_of(game, "posgame-cert 1\nclaim x y win\nnodes 1\n|1|x|cuts e / 0\n")
        self.assertEqual(table[1:], [["0", "10", "free", "second"], ["1", "01", "Cut", ""]])

    def test_first(self) -> None:
        self.assertEqual(tables.role("trees first 3 1 / 2".split(), 3, []), "claimed first")

    def test_kinds(self) -> None:
        self.assertTrue(tables.is_family("# one\nposgame-span 1\n"))
        self.assertFalse(tables.is_family("posgame 1\n"))
        self.assertFalse(tables.is_family(""))


class Markup(unittest.TestCase):
    @unittest.skipUnless(pages.has_xmllint(), "there is no xmllint")
    def test_errors(self) -> None:
        with tempfile.TemporaryDirectory() as folder:
            path = pathlib.Path(folder, "page.html")
            path.write_text("<!DOCTYPE html><main><p>one</p></main>", encoding="ascii")
            self.assertEqual(pages.markup_errors(path), [])
            path.write_text("<!DOCTYPE html><p>one</b></p><blink>", encoding="ascii")
            self.assertEqual(len(pages.markup_errors(path)), 2)


if __name__ == "__main__":
    unittest.main()
