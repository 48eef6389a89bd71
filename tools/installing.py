"""Installs the programs, the libraries, the tools and the client for Python below a folder.

    PREFIX/bin                the programs, and hipac-tools
    PREFIX/include, lib       hipac.h, libhipac.a and libhipac.so, and lib/pkgconfig/hipac.pc
    PREFIX/lib/hipac          what the tools and the client for Python are, as they lie in the repository
"""

from __future__ import annotations

import os
import shutil
from collections.abc import Mapping

import library
import repo

PKG_CONFIG = """prefix={prefix}
libdir=${{prefix}}/lib
includedir=${{prefix}}/include

Name: hipac
Description: a rule manager over typed objects, with a proof, in the process of a program
Version: 1
Libs: -L${{libdir}} -lhipac
Cflags: -I${{includedir}}
"""

# What stands below PREFIX/lib/hipac as in the repository.
FOLDERS = ("tools/hipac_tools", "clients/python/hipac")
FILES = ("hipac-tools", "clients/python/hipac_live.py", "clients/python/pyproject.toml", "clients/python/packing.py",
         "clients/python/README.md")


def put(source: str, to: str, mode: int = 0o644) -> None:
    """Copies a file, and makes its folder. One that is in use is replaced, and not written over."""
    os.makedirs(os.path.dirname(to), exist_ok=True)
    part = f"{to}.part"
    shutil.copyfile(source, part)
    os.chmod(part, mode)
    os.replace(part, to)


def point(to: str, at: str) -> None:
    """Makes a link with this text."""
    os.makedirs(os.path.dirname(at), exist_ok=True)
    if os.path.lexists(at):
        os.remove(at)
    os.symlink(to, at)


def install(prefix: str, programs: Mapping[str, str], libraries: str) -> None:
    """Installs these programs, by the names that they are called by, and the libraries of a folder."""
    prefix = os.path.abspath(prefix)
    here = os.path.join(prefix, "lib", "hipac")
    for name, path in programs.items():
        put(path, os.path.join(prefix, "bin", name), 0o755)
        point(f"../../bin/{name}", os.path.join(here, name))
    put(library.HEADER, os.path.join(prefix, "include", "hipac.h"))
    put(os.path.join(libraries, library.ARCHIVE), os.path.join(prefix, "lib", library.ARCHIVE))
    put(os.path.join(libraries, library.SHARED), os.path.join(prefix, "lib", library.SONAME), 0o755)
    point(library.SONAME, os.path.join(prefix, "lib", library.SHARED))
    point(f"../{library.SONAME}", os.path.join(here, library.SONAME))
    for name in FOLDERS:
        shutil.rmtree(os.path.join(here, name), ignore_errors=True)
        shutil.copytree(os.path.join(repo.TOP, name), os.path.join(here, name),
                        ignore=shutil.ignore_patterns("__pycache__"))
    for name in FILES:
        put(os.path.join(repo.TOP, name), os.path.join(here, name), 0o755 if name == "hipac-tools" else 0o644)
    point("../lib/hipac/hipac-tools", os.path.join(prefix, "bin", "hipac-tools"))
    os.makedirs(os.path.join(prefix, "lib", "pkgconfig"), exist_ok=True)
    with open(os.path.join(prefix, "lib", "pkgconfig", "hipac.pc"), "w", encoding="utf-8") as file:
        file.write(PKG_CONFIG.format(prefix=prefix))
