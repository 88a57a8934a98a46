#!/usr/bin/env python3
"""Puts the page together: one HTML file with its style, its script and the program in it.

    web/page.py MODULE PAGE

MODULE is the program as WebAssembly (`posgame.wasm`), PAGE the file that is written. The sources
are in web/src/. Modules are joined by leaving out `import` and `export`, each after those that it
imports, so their top names must differ. The module is packed by gzip and stands in base64 in the
page. A script runs only if its sum is named by the page's Content-Security-Policy, which lets
nothing in from outside. The same sources and module give the same page, to the byte. Unproved.
"""
from __future__ import annotations

import base64
import gzip
import hashlib
import pathlib
import re
import sys

TOP = pathlib.Path(__file__).resolve().parent.parent
SOURCES = TOP / "web" / "src"
IMPORT = re.compile(r"^import\s[^;]*?from '\./(\w+)\.js';\n", re.MULTILINE)


def source(name: str) -> str:
    """Returns the text of a file of the page."""
    return (SOURCES / name).read_text(encoding="utf-8")


def ordered(name: str, before: tuple[str, ...] = ()) -> tuple[str, ...]:
    """Returns the modules that a module needs, itself last, each after those that it imports."""
    for needed in IMPORT.findall(source(f"{name}.js")):
        if needed not in before:
            before = ordered(needed, before)
    return (*before, name)


def joined(name: str) -> str:
    """Returns a module and all that it needs as one script."""
    texts = (IMPORT.sub("", source(f"{it}.js")) for it in ordered(name))
    return "\n".join(re.sub(r"^export ", "", it, flags=re.MULTILINE) for it in texts)


def policy(script: str) -> str:
    """Returns what the page may do: run its own script and modules of WebAssembly, start its own
    worker, and show its own pictures, styles and books. Nothing is fetched, sent or navigated."""
    digest = base64.b64encode(hashlib.sha256(script.encode()).digest()).decode()
    return "; ".join((
        "default-src 'none'", f"script-src 'sha256-{digest}' 'wasm-unsafe-eval'",
        "worker-src blob:", "style-src 'unsafe-inline'", "img-src data:", "form-action 'none'",
        "base-uri about:"))


def page(module: bytes) -> str:
    """Returns the page with a module in it."""
    script = joined("page")
    codes = (TOP / "launch" / "codes.txt").read_text(encoding="utf-8")
    parts = {
        "POLICY": policy(script), "STYLE": source("page.css"), "SCRIPT": script,
        "WORKER": joined("worker"), "TEXTS": codes + source("texts.txt"),
        "GAMES": source("games.txt"), "VERSION": (TOP / "VERSION").read_text().strip(),
        "MODULE": base64.b64encode(gzip.compress(module, 9, mtime=0)).decode(),
    }
    assert not any("</script" in it for it in parts.values())
    return re.sub(r"@([A-Z]+)@", lambda it: parts[it[1]], source("page.html"))


def main() -> int:
    if len(sys.argv) != 3:
        print(__doc__, file=sys.stderr)
        return 2
    text = page(pathlib.Path(sys.argv[1]).read_bytes())
    pathlib.Path(sys.argv[2]).write_text(text, encoding="utf-8")
    return 0


if __name__ == "__main__":
    raise SystemExit(main())
