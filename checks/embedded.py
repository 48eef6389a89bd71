#!/usr/bin/env python3
"""Checks the library for C: every function from C, sessions from C and from Python, its examples and its installation.

    checks/embedded.py [--sessions N] [--lines N] [--jobs N] [--only WORD]

$HIPAC_LIBRARY names a libhipac.so, beside which libhipac.a lies. Otherwise the library is the one that ./build hipac_c
has made of the files as they stand. Without one, only what needs none is checked: the header, the packing of the client
for Python, and how archives are joined and installed. A line says so.

The programs in C (checks/embedded) are linked with libhipac.a, and run plainly, under valgrind and with gcc's
AddressSanitizer: no access out of bounds, no leak. Random sessions are those of checks/live_sessions.py: the same bytes
come from hipac_live, from the library in C and from the client for Python. HIPAC_LIVE names the program as there.
The last line is 'N passed, M failed'.
"""

from __future__ import annotations

import argparse
import functools
import importlib.util
import json
import os
import shutil
import subprocess
import sys
import tempfile
import zipfile
from collections.abc import Callable, Iterator
from dataclasses import dataclass
from types import ModuleType

from harness import ENVIRONMENT, TOP, by_pipe, bytes_of, command_of, expect, run_checks
from live_sessions import SessionMaker

import installing  # (they lie in tools/, which harness has put on the path)
import library
import repo

sys.path.insert(0, os.path.join(TOP, "clients", "python"))
from hipac import Answer, Base, Refused  # noqa: E402

HERE = os.path.join(TOP, "checks", "embedded")
INCLUDE = os.path.join(TOP, "include")
EXAMPLES = os.path.join(TOP, "examples")
RULES = os.path.join(EXAMPLES, "orders", "rules.rules")

# The time limit of a command, in seconds: valgrind is slow.
LIMIT = 1800

COMPILE = ["gcc", "-std=c11", "-Wall", "-Wextra", "-Wpedantic", "-Werror", "-O1", "-g", "-pthread", f"-I{INCLUDE}"]
VALGRIND = ["valgrind", "-q", "--error-exitcode=9", "--leak-check=full", "--show-leak-kinds=all",
            "--errors-for-leak-kinds=all"]
REFUSES = ["-DREFUSES", "-Wl,--wrap=malloc,--wrap=realloc,--wrap=free"]

# How each program in C is run: further words for gcc, and what stands before it.
WAYS: dict[str, tuple[list[str], list[str]]] = {
    "plainly": ([], []),
    "under valgrind": ([], VALGRIND),
    "with AddressSanitizer": (["-fsanitize=address"], []),
}

# Each with these words and without them.
TREES: list[list[str]] = [[], ["--tree"]]
CHECKED: list[list[str]] = [[], ["--checked"]]
STATIC: list[list[str]] = [[], ["-static"]]

# So many times fewer lines under valgrind, which takes some 50 times as long.
FEWER = {"under valgrind": 20}

# The most KiB by which the memory of many lines may grow: that of the system's pages. Both tools keep what was freed.
MOST_GROWN = {"plainly": 256}
KEPT_BY_TOOLS = 1_000_000


@dataclass
class Libraries:
    """The library's files, where the programs of the checks are made, and the words that start hipac_live."""

    shared: str
    archive: str
    room: str
    live: list[str]


def run(words: list[str], **how) -> str:
    """What a command prints, which must end with status 0 and say nothing on standard error."""
    done = subprocess.run(words, stdin=subprocess.DEVNULL, capture_output=True, text=True, timeout=LIMIT, check=False,
                          **how)
    expect((done.returncode, done.stderr), (0, ""), " ".join(words))
    return done.stdout


# ---- without a library


def header() -> None:
    """The header is C and C++, and its functions are the exports of the crate."""
    for words in (["gcc", "-std=c11"], ["g++", "-std=c++17"] if shutil.which("g++") else ["gcc", "-std=c99"]):
        language = "c++" if words[0] == "g++" else "c"
        run([*words, "-Wall", "-Wextra", "-Wpedantic", "-Werror", "-fsyntax-only", "-x", language,
             os.path.join(INCLUDE, "hipac.h")])
    with open(os.path.join(TOP, "crates", library.CRATE, "src", "lib.rt"), encoding="utf-8") as file:
        exported = [line.split("fn ")[1].split("(")[0] for line in file if 'extern "C" fn ' in line]
    expect(sorted(library.exports()), sorted(exported), "the functions of the header, and those of the crate")


def install_client(source: str, target: str) -> None:
    """Installs the client as pip does, or by what pip calls if there is no pip."""
    if importlib.util.find_spec("pip"):
        run([sys.executable, "-m", "pip", "install", "-q", "--no-index", "--disable-pip-version-check",
             "--root-user-action=ignore", "--no-compile", "--target", target, source])
        return
    os.makedirs(target)
    name = run([sys.executable, "-c", f"import packing; print(packing.build_wheel({target!r}))"], cwd=source).strip()
    with zipfile.ZipFile(os.path.join(target, name)) as wheel:
        wheel.extractall(target)


def packed() -> None:
    """The client is installed without a network, and the installed one is what lies here."""
    with tempfile.TemporaryDirectory(prefix="hipac-pip-") as room:
        source, target = os.path.join(room, "source"), os.path.join(room, "target")
        shutil.copytree(os.path.join(TOP, "clients", "python"), source, ignore=shutil.ignore_patterns("__pycache__"))
        install_client(source, target)
        names = sorted(name for name in os.listdir(os.path.join(source, "hipac")))
        expect(sorted(os.listdir(os.path.join(target, "hipac"))), names, "the installed files")
        text = "import hipac, hipac_live; print(hipac.__file__, hipac_live.RuleBase.__name__)"
        places = {**os.environ, "PYTHONPATH": target, "PYTHONDONTWRITEBYTECODE": "1"}
        said = run([sys.executable, "-c", text], cwd=room, env=places)
        expect(said, f"{target}/hipac/__init__.py RuleBase\n", "the installed client")


# What rt's archive of the crate is like, in C: the exports, a name that isn't to be seen, and what allocates.
LIKE_RUST = """
#include "hipac.h"
struct place { uint64_t is_there; uint8_t *at; };
extern struct place rattle_alloc(size_t size, size_t alignment);
extern void rattle_dealloc(uint8_t *at, size_t size, size_t alignment);
uint32_t hidden(void) { struct place new = rattle_alloc(7, 1); rattle_dealloc(new.at, 7, 1); return new.is_there; }
uint32_t hipac_version(void) { return hidden() + 6; }
"""

# A program on what is installed.
SAYS_VERSION = """
#include <hipac.h>
#include <stdio.h>
int main(void) { printf("%u\\n", hipac_version()); return 0; }
"""


def written(folder: str, name: str, text: str) -> str:
    path = os.path.join(folder, name)
    with open(path, "w", encoding="utf-8") as file:
        file.write(text)
    return path


def by_pkg_config(prefix: str, source: str, made: str, *more: str) -> dict[str, str]:
    """Compiles a program against what is installed below a folder, and gives the environment that it runs in."""
    places = {**os.environ, "PKG_CONFIG_PATH": os.path.join(prefix, "lib", "pkgconfig"),
              "LD_LIBRARY_PATH": os.path.join(prefix, "lib")}
    words = run(["pkg-config", "--cflags", "--libs", "hipac"], env=places).split()
    run(["gcc", source, "-o", made, *more, *words])
    return places


def joined() -> None:
    """What rt makes and what allocates become two libraries, which are installed and found by pkg-config. (Here what rt
    makes is made by gcc.)"""
    with tempfile.TemporaryDirectory(prefix="hipac-joined-") as room:
        made, archive = os.path.join(room, "like_rust.o"), os.path.join(room, "liblike_rust.a")
        run(["gcc", "-c", "-fPIC", f"-I{INCLUDE}", written(room, "like_rust.c", LIKE_RUST), "-o", made])
        run(["ar", "rcs", archive, made])
        library.make(archive, room)
        for name, words in ((library.SHARED, ["-D"]), (library.ARCHIVE, ["-g"])):
            expect(shown([*words, os.path.join(room, name)]), ["hipac_version"], f"what {name} shows")
        prefix, program = os.path.join(room, "prefix"), os.path.join(room, "program")
        for _ in range(2):
            installing.install(prefix, {"hipac": program} if os.path.exists(program) else {}, room)
            for more in STATIC:
                places = by_pkg_config(prefix, written(room, "program.c", SAYS_VERSION), program, *more)
                expect(run([program], env=places), "7\n", "a program by pkg-config")
        expect(run([os.path.join(prefix, "bin", "hipac")]), "7\n", "an installed program")
        tools = subprocess.run([os.path.join(prefix, "bin", "hipac-tools"), "--help"], capture_output=True, check=False)
        expect((tools.returncode, b"check" in tools.stdout), (0, True), tools.stderr)


# ---- from C


def shown(words: list[str]) -> list[str]:
    """The names that nm shows with these words."""
    lines = run(["nm", "--defined-only", *words]).splitlines()
    return sorted(line.split()[-1] for line in lines if len(line.split()) == 3)


def names(them: Libraries) -> None:
    """Both libraries show the header's functions and nothing else, and a program remembers the soname."""
    expect(shown(["-D", them.shared]), sorted(library.exports()), "what the .so shows")
    expect(shown(["-g", them.archive]), sorted(library.exports()), "what the .a shows")
    expect(library.SONAME in run(["objdump", "-p", them.shared]), True, "the soname")


def compiled(them: Libraries, source: str, name: str, words: list[str]) -> str:
    """A program in C that has the library in it."""
    made = os.path.join(them.room, name)
    if not os.path.exists(made):
        part = tempfile.mktemp(dir=them.room)
        run([*COMPILE, os.path.join(HERE, source), "-o", part, *words, them.archive])
        os.rename(part, made)
    return made


def calls(them: Libraries, way: str, words: list[str], refuses: bool = False) -> None:
    """The program that calls each function finds all as it is to be."""
    for_gcc, before = WAYS[way]
    name = f"calls-{len(for_gcc)}-{refuses}"
    made = compiled(them, "calls.c", name, [*for_gcc, *(REFUSES if refuses else [])])
    print(f"{way}: {' '.join(words)}: " + " ".join(run([*before, made, *words]).split("\n")), flush=True)


# ---- sessions


def reading_back() -> ModuleType:
    """The module of the client's tests that writes answers from their objects."""
    spec = importlib.util.spec_from_file_location(
        "reading_back", os.path.join(TOP, "clients", "python", "tests", "reading_back.py"))
    if spec is None or spec.loader is None:
        raise ImportError("reading_back")
    module = importlib.util.module_from_spec(spec)
    spec.loader.exec_module(module)
    return module


LINES_OF: Callable = reading_back().lines_of


def from_python(them: Libraries, first: bytes, later: bytes, tree: bool, checked: bool) -> bytes:
    """The answers of a session by the client for Python, written again from its objects."""
    try:
        base = Base(first, by="library", library=them.shared, tree=tree, checked=checked)
    except Refused as refused:
        return f"{refusal(refused)}\n".encode()
    with base:
        told = list(LINES_OF(Answer(base.opening, count=base.units)))
        for line in later.removesuffix(b"\n").split(b"\n") if later else []:
            base.replay([line])
            answer = base.last_replayed
            told += [refusal(answer)] if isinstance(answer, Refused) else LINES_OF(answer)
    return "".join(f"{line}\n" for line in told).encode()


def refusal(refused: Refused) -> str:
    """The line that a refusal was read from: in S8 the word comes before the path."""
    words = (refused.limit, refused.path) if refused.code == "S8" else (refused.path, refused.limit)
    return " ".join(word for word in ("refused", refused.code, *words) if word)


def session(them: Libraries, seed: int) -> None:
    """The same bytes from hipac_live, from the library in C, and from the client for Python."""
    made = SessionMaker(seed)
    first, later = made.input()
    for words in [[*tree, *checked] for tree in TREES for checked in CHECKED]:
        wanted = by_pipe([*them.live, "--workers", "1", *words], first + later)
        program = compiled(them, "session.c", "session", [])
        expect(by_pipe([program, *words], first + later), wanted, f"status, answers and standard error from C: {words}")
        if seed % 2:
            with tempfile.NamedTemporaryFile() as file:
                file.write(json.dumps(made.script, indent=1).encode())
                file.flush()
                expect(by_pipe([program, *words, "--script", file.name], later), wanted, "the same with a file")
        told = from_python(them, first.rstrip(b"\r\n"), later, "--tree" in words, "--checked" in words)
        expect(told, wanted[1], f"answers from Python: {words}")


def client_tests(them: Libraries) -> None:
    """The tests of the client for Python, by the library."""
    done = subprocess.run([sys.executable, os.path.join(TOP, "clients", "python", "tests", "run.py"), "--library"],
                          env={**os.environ, "HIPAC_LIBRARY": them.shared}, stdin=subprocess.DEVNULL,
                          capture_output=True, text=True, timeout=LIMIT, check=False)
    expect((done.returncode, done.stdout), (0, ""), done.stderr)


# ---- the examples, and what is installed


def desks(them: Libraries) -> None:
    """The order desk in C and in Lua: the same answers, which are kept."""
    folder = os.path.join(EXAMPLES, "embedded")
    wanted = bytes_of(os.path.join(folder, "desk.answers")).decode()
    made = os.path.join(them.room, "desk")
    run([*COMPILE, os.path.join(folder, "desk.c"), "-o", made, them.archive])
    expect(run([made, RULES]), wanted, "the desk in C")
    expect(run(["luajit", os.path.join(folder, "desk.lua"), RULES, them.shared]), wanted, "the desk in Lua")


def installed(them: Libraries) -> None:
    """What is installed is found by pkg-config, and works from there."""
    prefix = os.path.join(them.room, "prefix")
    programs = {"hipac-live": them.live[-1]}
    for name in ("hipac", "hipac_check", "hipac_text"):
        if name.upper() in os.environ:
            programs[name.replace("_", "-")] = os.environ[name.upper()]
    installing.install(prefix, programs, os.path.dirname(them.shared))
    made, wanted = os.path.join(them.room, "installed"), bytes_of(os.path.join(EXAMPLES, "embedded", "desk.answers"))
    for more in STATIC:
        places = by_pkg_config(prefix, os.path.join(EXAMPLES, "embedded", "desk.c"), made, *more)
        expect(run([made, RULES], env=places), wanted.decode(), f"the desk by pkg-config, with {more}")
    text = ("import hipac\nwith hipac.Base(rules='version 1 class item {}') as base:\n"
            "    print(hipac.find_library(), base.transaction('create item(7) emit 5').emits)")
    places.update(PYTHONPATH=os.path.join(prefix, "lib", "hipac", "clients", "python"), PYTHONDONTWRITEBYTECODE="1")
    places.pop("HIPAC_LIBRARY", None)
    found = os.path.join(prefix, "lib", "hipac", library.SONAME)
    expect(run([sys.executable, "-c", text], env=places, cwd=prefix), f"{found} [5]\n", "the client for Python")
    if "hipac" in programs:
        script = os.path.join(EXAMPLES, "oversell.json")
        words = [os.path.join(prefix, "bin", "hipac-tools"), "check", script]
        done = subprocess.run(words, stdin=subprocess.DEVNULL, capture_output=True, timeout=LIMIT, check=False)
        expect(done.returncode, 0, f"hipac-tools: {done.stderr.decode()}")


# ---- all


Checks = Iterator[tuple[str, Callable[[], None]]]
"""The name and the function of each check."""


def checks_without_library() -> Checks:
    yield "the header", header
    yield "the client is packed", packed
    yield "libraries are joined", joined


def checks(them: Libraries, given: argparse.Namespace) -> Checks:
    """Those that take longest come first."""
    for way in reversed(WAYS):
        part = FEWER.get(way, 1)
        lines = ["lines", str(given.lines // part), str(MOST_GROWN.get(way, KEPT_BY_TOOLS))]
        for words in (["functions"], lines, ["threads", "100", "4"]):
            yield f"{way}: {' '.join(words)}", functools.partial(calls, them, way, words)
        yield f"{way}: refuse", functools.partial(calls, them, way, ["refuse"], refuses=True)
    for name, check in {"the client's tests": client_tests, "the desks": desks, "installed": installed,
                        "names": names}.items():
        yield name, functools.partial(check, them)
    for seed in range(given.sessions):
        yield f"session {seed}", functools.partial(session, them, seed)


def shared_library() -> str:
    """The library's path, or an empty one where there is none."""
    place = repo.proved_place(library.CRATE)
    built = os.path.join(place, library.SHARED) if library.are_there(place) else ""
    return os.environ.get("HIPAC_LIBRARY") or built


def main() -> int:
    parser = argparse.ArgumentParser(description=__doc__, formatter_class=argparse.RawDescriptionHelpFormatter)
    parser.add_argument("--sessions", type=int, default=300, help="how many sessions are made at random (300)")
    parser.add_argument("--lines", type=int, default=100_000, help="how many lines one base answers (100,000)")
    parser.add_argument("--jobs", type=int, default=os.cpu_count() or 1, help="how many checks go on at once")
    parser.add_argument("--only", default="", help="the checks whose names have this word")
    given = parser.parse_args()
    with tempfile.TemporaryDirectory(prefix="hipac-embedded-") as room:
        shared = shared_library()
        every = list(checks_without_library())
        if shared:
            os.environ.update(ENVIRONMENT)
            archive = os.path.join(os.path.dirname(os.path.abspath(shared)), library.ARCHIVE)
            them = Libraries(os.path.abspath(shared), archive, room, command_of("hipac_live"))
            every += checks(them, given)
        else:
            print("there is no library, which ./build hipac_c makes: only what needs none is checked")
        return run_checks([it for it in every if given.only in it[0]], given.jobs)


if __name__ == "__main__":
    sys.exit(main())
