"""Packs the client for `pip install ./clients/python`. pip calls these functions (PEP 517), and needs no network: a
package of plain files wants no other tool."""

from __future__ import annotations

import base64
import hashlib
import os
import re
import tarfile
import zipfile
from pathlib import Path
from typing import Any, List, Optional, Tuple

HERE = Path(__file__).resolve().parent
PACKED = ("hipac/*.py", "hipac/py.typed", "hipac_live.py")
WHEEL = "Wheel-Version: 1.0\nGenerator: hipac\nRoot-Is-Purelib: true\nTag: py3-none-any\n"


def _field(name: str) -> str:
    """A field of pyproject.toml. (tomllib is there only since Python 3.11.)"""
    found = re.search(rf'(?m)^{name} = "(.*)"$', (HERE / "pyproject.toml").read_text(encoding="utf-8"))
    if found is None:
        raise ValueError(f"pyproject.toml has no {name}")
    return found[1]


def _metadata() -> str:
    fields = {"Metadata-Version": "2.1", "Name": _field("name"), "Version": _field("version"),
              "Summary": _field("description"), "Requires-Python": _field("requires-python"),
              "Description-Content-Type": "text/markdown"}
    head = "".join(f"{name}: {value}\n" for name, value in fields.items())
    return head + "\n" + (HERE / "README.md").read_text(encoding="utf-8")


def _named() -> str:
    return f"{_field('name')}-{_field('version')}"


def _files() -> List[Path]:
    return sorted(path for pattern in PACKED for path in HERE.glob(pattern))


def _record(name: str, content: bytes) -> str:
    """The line of a file in the wheel's record."""
    digest = base64.urlsafe_b64encode(hashlib.sha256(content).digest()).rstrip(b"=").decode()
    return f"{name},sha256={digest},{len(content)}\n"


def build_wheel(wheel_directory: str, config_settings: Any = None, metadata_directory: Optional[str] = None) -> str:
    """Makes the wheel in a folder, and returns its name."""
    about, record = f"{_named()}.dist-info", ""
    name = f"{_named()}-py3-none-any.whl"
    parts: List[Tuple[str, bytes]] = [(path.relative_to(HERE).as_posix(), path.read_bytes()) for path in _files()]
    parts += [(f"{about}/METADATA", _metadata().encode()), (f"{about}/WHEEL", WHEEL.encode())]
    with zipfile.ZipFile(os.path.join(wheel_directory, name), "w", zipfile.ZIP_DEFLATED) as wheel:
        for part, content in parts:
            wheel.writestr(part, content)
            record += _record(part, content)
        wheel.writestr(f"{about}/RECORD", f"{record}{about}/RECORD,,\n")
    return name


def build_sdist(sdist_directory: str, config_settings: Any = None) -> str:
    """Makes the archive of the sources in a folder, and returns its name."""
    name = f"{_named()}.tar.gz"
    with tarfile.open(os.path.join(sdist_directory, name), "w:gz") as archive:
        for path in [*_files(), *(HERE / it for it in ("pyproject.toml", "packing.py", "README.md"))]:
            archive.add(path, f"{_named()}/{path.relative_to(HERE).as_posix()}")
    return name
