"""Builds the wheel with the standard library alone, so `pip install ./python` fetches nothing.

Name, version and the like are those of pyproject.toml. The same sources give the same bytes.
"""
from __future__ import annotations

import base64
import hashlib
import io
import pathlib
import re
import tarfile
import zipfile
from typing import Dict, List, Optional

NAME = "posgame"
TOP = pathlib.Path(__file__).resolve().parents[1]
WHEEL = "Wheel-Version: 1.0\nGenerator: posgame_build\nRoot-Is-Purelib: true\nTag: py3-none-any\n"
Settings = Optional[Dict[str, str]]


def value_of(key: str) -> str:
    """Returns the value of a key of pyproject.toml that is a text."""
    text = (TOP / "pyproject.toml").read_text(encoding="utf-8")
    found = re.search(rf'^{key} = (?:{{ text = )?"(.*?)"', text, re.M)
    if found is None:
        raise ValueError(f"pyproject.toml has no {key}")
    return found[1]


def metadata() -> str:
    """Returns the metadata of the package, with README.md as its description."""
    lines = ["Metadata-Version: 2.1", f"Name: {NAME}", f"Version: {value_of('version')}",
             f"Summary: {value_of('description')}", f"License: {value_of('license')}",
             f"Requires-Python: {value_of('requires-python')}",
             "Provides-Extra: graphs", 'Requires-Dist: networkx; extra == "graphs"',
             "Provides-Extra: notebooks", 'Requires-Dist: jupyter; extra == "notebooks"',
             "Description-Content-Type: text/markdown", ""]
    return "\n".join([*lines, (TOP / "README.md").read_text(encoding="utf-8")])


def sources() -> List[pathlib.Path]:
    """Returns the files of the package."""
    return [*sorted((TOP / NAME).glob("*.py")), TOP / NAME / "py.typed"]


def digest(data: bytes) -> str:
    """Returns the hash of a file as RECORD writes it."""
    return base64.urlsafe_b64encode(hashlib.sha256(data).digest()).rstrip(b"=").decode()


def write_wheel(folder: str, files: Dict[str, bytes]) -> str:
    """Writes a wheel of some files and the metadata; returns the name of its file."""
    info = f"{NAME}-{value_of('version')}.dist-info"
    files = {**files, f"{info}/METADATA": metadata().encode(), f"{info}/WHEEL": WHEEL.encode()}
    rows = [f"{name},sha256={digest(data)},{len(data)}\n" for name, data in files.items()]
    files[f"{info}/RECORD"] = "".join([*rows, f"{info}/RECORD,,\n"]).encode()
    wheel = f"{NAME}-{value_of('version')}-py3-none-any.whl"
    with zipfile.ZipFile(pathlib.Path(folder, wheel), "w") as archive:
        for name, data in files.items():
            entry = zipfile.ZipInfo(name)
            entry.external_attr = 0o100644 << 16
            archive.writestr(entry, data, zipfile.ZIP_DEFLATED)
    return wheel


def build_wheel(wheel_directory: str, config_settings: Settings = None,
                metadata_directory: Optional[str] = None) -> str:
    """Writes the wheel; returns the name of its file (PEP 517)."""
    return write_wheel(wheel_directory, {f"{NAME}/{path.name}": path.read_bytes()
                                         for path in sources()})


def build_editable(wheel_directory: str, config_settings: Settings = None,
                   metadata_directory: Optional[str] = None) -> str:
    """Writes a wheel that names this folder, for `pip install -e` (PEP 660)."""
    return write_wheel(wheel_directory, {f"{NAME}.pth": f"{TOP}\n".encode()})


def build_sdist(sdist_directory: str, config_settings: Settings = None) -> str:
    """Writes the archive of the sources; returns the name of its file (PEP 517)."""
    top = f"{NAME}-{value_of('version')}"
    paths = [TOP / "pyproject.toml", TOP / "README.md", pathlib.Path(__file__), *sources()]
    files = {str(path.resolve().relative_to(TOP)): path.read_bytes() for path in paths}
    with tarfile.open(pathlib.Path(sdist_directory, f"{top}.tar.gz"), "w:gz") as archive:
        for name, data in {**files, "PKG-INFO": metadata().encode()}.items():
            entry = tarfile.TarInfo(f"{top}/{name}")
            entry.size = len(data)
            archive.addfile(entry, io.BytesIO(data))
    return f"{top}.tar.gz"
