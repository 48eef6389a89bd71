"""Makes libhipac.a and libhipac.so of what rt builds of the crate hipac_c, for C. gcc and binutils do it.

rt's archive lacks the three functions by which the crate allocates, which the toolchain has in an archive of its own.
Both are joined into one object, and only the functions of include/hipac.h can be seen from outside.
"""

from __future__ import annotations

import os
import re
import shutil
import subprocess
import tempfile

import repo

CRATE = "hipac_c"
HEADER = os.path.join(repo.TOP, "include", "hipac.h")
ARCHIVE = "libhipac.a"
SHARED = "libhipac.so"

# The name that a program remembers of the shared library: its number changes if a function does.
SONAME = "libhipac.so.1"


def exports() -> list[str]:
    """The functions of the header: the names that both libraries show."""
    with open(HEADER, encoding="utf-8") as file:
        return re.findall(r"(?m)^[a-z][a-z0-9_ ]* \**(hipac_\w+)\(", file.read())


def allocation() -> str:
    """The toolchain's archive with the functions by which a crate allocates: they call malloc, realloc and free."""
    return os.path.join(os.path.dirname(repo.output_of(["rt", "doc"])), "c", "liblibc_c.a")


def run(*words: str) -> None:
    subprocess.run(words, stdin=subprocess.DEVNULL, check=True)


def make(made: str, folder: str) -> None:
    """Makes both libraries in a folder, of the archive that rt made. A tool that is missing is an OSError."""
    os.makedirs(folder, exist_ok=True)
    archive, shared = os.path.join(folder, ARCHIVE), os.path.join(folder, SHARED)
    with tempfile.TemporaryDirectory(prefix="hipac-library-") as room:
        names, script, whole = (os.path.join(room, name) for name in ("names", "script", "hipac.o"))
        with open(names, "w", encoding="utf-8") as file:
            file.write("".join(f"{name}\n" for name in exports()))
        with open(script, "w", encoding="utf-8") as file:
            file.write("{ global: " + "".join(f"{name}; " for name in exports()) + "local: *; };\n")
        run("ld", "-r", "-o", whole, "--whole-archive", made, allocation())
        run("objcopy", f"--keep-global-symbols={names}", whole)
        if os.path.exists(archive):
            os.remove(archive)
        run("ar", "rcsD", archive, whole)
        run("gcc", "-shared", "-o", shared, f"-Wl,-soname,{SONAME}", f"-Wl,--version-script={script}", "-Wl,-z,defs",
            "-Wl,-z,relro,-z,now", whole)


def are_there(folder: str) -> bool:
    """Whether both libraries are in a folder."""
    return all(os.path.isfile(os.path.join(folder, name)) for name in (ARCHIVE, SHARED))


def lacking() -> list[str]:
    """The programs that make the libraries and aren't there."""
    return [name for name in ("ld", "objcopy", "ar", "gcc") if not shutil.which(name)]
