"""The code cells of the notebooks, run without Jupyter: what they print and show is stored."""
from __future__ import annotations

import ast
import contextlib
import io
import json
import unittest
from typing import Any, Dict, List, Tuple

from posgame.programs import is_there

from beside import TOP

NOTEBOOKS = sorted(TOP.glob("python/notebooks/*.ipynb"))


def run_cell(source: str, names: Dict[str, Any]) -> Tuple[str, Any]:
    """Runs a cell; returns what it prints, and the value of its last line if that has one."""
    tree, value = ast.parse(source), None
    last = tree.body.pop() if isinstance(tree.body[-1], ast.Expr) else None
    with contextlib.redirect_stdout(io.StringIO()) as printed:
        exec(compile(tree, "cell", "exec"), names)
        if isinstance(last, ast.Expr):
            value = eval(compile(ast.Expression(last.value), "cell", "eval"), names)
    return printed.getvalue(), value


def stored_outputs(cell: Dict[str, Any]) -> Tuple[str, Dict[str, str]]:
    """Returns what a cell printed when the notebook was run, and how its value was shown."""
    outputs: List[Dict[str, Any]] = cell["outputs"]
    printed = "".join("".join(one["text"]) for one in outputs if one["output_type"] == "stream")
    shown = {kind: "".join(text) for one in outputs if one["output_type"] == "execute_result"
             for kind, text in one["data"].items()}
    return printed, shown


class Notebooks(unittest.TestCase):
    """Each notebook was run, and would give the same outputs again."""

    def test_outputs(self) -> None:
        self.assertGreater(len(NOTEBOOKS), 0)
        for path in NOTEBOOKS:
            names: Dict[str, Any] = {"__name__": "__main__"}
            cells = json.loads(path.read_text(encoding="utf-8"))["cells"]
            for cell in [cell for cell in cells if cell["cell_type"] == "code"]:
                with self.subTest(notebook=path.name, cell=cell["execution_count"]):
                    printed, value = run_cell("".join(cell["source"]), names)
                    was_printed, was_shown = stored_outputs(cell)
                    self.assertEqual(printed, was_printed)
                    self.assertEqual("" if value is None else repr(value),
                                     was_shown.get("text/plain", ""))
                    if "image/svg+xml" in was_shown and is_there("posgame-draw"):
                        self.assertEqual(value._repr_svg_(), was_shown["image/svg+xml"])

    def test_form(self) -> None:
        for path in NOTEBOOKS:
            text = path.read_text(encoding="utf-8")
            cells = json.loads(text)["cells"]
            codes = [cell for cell in cells if cell["cell_type"] == "code"]
            self.assertEqual([cell["execution_count"] for cell in codes],
                             list(range(1, len(codes) + 1)))
            shown = [stored_outputs(cell)[1] for cell in codes]
            self.assertTrue(any("image/svg+xml" in one for one in shown))
            for word in ("/home", "/root", "/tmp", "/usr", "Traceback"):
                self.assertNotIn(word, text)


if __name__ == "__main__":
    unittest.main()
