#!/usr/bin/env python3
"""Runs the unit tests, without proofs and with all checks at run time.

    tools/unit_tests.py [NAME ..]            runs those of these folders of tests/, or all
    tools/unit_tests.py --layout [NAME ..]   lays out their files as `rt fmt` does

One crate is made of all of them in a temporary folder, beside copies of the libraries that they use: each folder of
tests/ is a module of it. So `rt try --test` compiles the libraries once. The tests of a program stand in
tests/PROGRAM_tests, and have the program's modules beside their own. A count for each folder comes at the end, and
then 'N passed, M failed'.
"""

from __future__ import annotations

import os
import re
import signal
import subprocess
import sys
import tempfile

sys.dont_write_bytecode = True

import repo  # noqa: E402 (they leave no file beside them)
import running  # noqa: E402

TESTS = os.path.join(repo.TOP, "tests")

# The crate that is made of the tests.
CRATE = "unit_tests"

# The time limit of all tests together, in seconds.
LIMIT = 900

# A test's line, with its folder and what came of it.
TEST = re.compile(r"(?m)^test (\w+)::\S+ \.\.\. (ok|FAILED)$")


class NotRun(Exception):
    """Why no test was run."""


def text_of(path: str) -> str:
    with open(path, encoding="utf-8") as file:
        return file.read()


def write(path: str, text: str) -> None:
    os.makedirs(os.path.dirname(path), exist_ok=True)
    with open(path, "w", encoding="utf-8") as file:
        file.write(text)


def folders() -> list[str]:
    """The folders of tests."""
    return sorted(name for name in os.listdir(TESTS) if os.path.isfile(os.path.join(TESTS, name, "lib.rs")))


class Room:
    """A small repository in which the tests of some folders are one crate."""

    def __init__(self, top: str, names: list[str], known: dict[str, repo.Crate]):
        self.top, self.known = top, known
        self.crate = os.path.join(top, "crates", CRATE)
        # The path of each file of the crate, and that of the file in this repository that it is made from.
        self.origins: dict[str, str] = {}
        for name in names:
            self.add(name)
        self.uses, self.libraries = self.used()
        self.write_root(names)
        whole = repo.Crate(CRATE, f"{CRATE}: {' '.join([*self.uses, *self.libraries])}", (), ())
        repo.copy_crates([whole, *(known[name] for name in self.uses)], top, parts=("src",))

    def add(self, name: str) -> None:
        """Adds the files of a folder, and the modules of the program that it tests, if any."""
        folder = os.path.join(TESTS, name)
        modules = re.findall(r"(?m)^mod (\w+);$", text_of(os.path.join(folder, "lib.rs")))
        for file in sorted(it for it in os.listdir(folder) if it.endswith(".rs")):
            module = file[: -len(".rs")]
            if module == "lib":
                self.origins[f"src/{name}.rt"] = os.path.join(folder, file)
            elif module in modules:
                self.origins[f"src/{name}/{module}.rt"] = os.path.join(folder, file)
            else:
                raise NotRun(f"tests/{name}/lib.rs doesn't name the module {module}")
        program = name[: -len("_tests")]
        if program in repo.programs(self.known):
            sources = os.path.join(repo.TOP, "crates", program, "src")
            for file in sorted(it for it in os.listdir(sources) if it != "main.rt"):
                self.origins[f"src/{name}/{file}"] = os.path.join(sources, file)

    def used(self) -> tuple[list[str], list[str]]:
        """The libraries of this repository whose names stand in the tests, with all that they use, and those of the
        toolchain that the tests or these name."""
        words = {word for path in self.origins.values() for word in re.findall(r"\b(\w+)::", text_of(path))}
        named = [name for name in self.known if name in words and not repo.is_program(name)]
        uses = repo.with_used(named, self.known)
        libraries = {it for crate in self.known.values() for it in crate.libraries if crate.name in uses or it in words}
        return uses, sorted(libraries)

    def write_root(self, names: list[str]) -> None:
        """Writes the files of the crate, and a root that names the folders."""
        modules = "".join(f"#[cfg(test)]\nmod {name};\n" for name in names)
        write(os.path.join(self.crate, "src", "lib.rt"), f"//! All unit tests.\n#![tactic(auto)]\n\n{modules}")
        for path, origin in self.origins.items():
            write(os.path.join(self.crate, path), text_of(origin))

    def laid_out(self) -> dict[str, str]:
        """The texts as `rt fmt` lays them out, of the files of tests that have another layout."""
        subprocess.run(["rt", "fmt"], cwd=self.crate, stdin=subprocess.DEVNULL, check=True)
        texts = {origin: text_of(os.path.join(self.crate, path)) for path, origin in self.origins.items()}
        return {path: text for path, text in texts.items() if path.endswith(".rs") and text != text_of(path)}

    def named_as_here(self, line: str) -> str:
        """A line of what rt said, with the paths of this repository."""
        named = re.sub(r"\bsrc/[\w/]+\.rt\b", lambda found: self.origin_of(found[0]), line)
        return named.replace(self.top + os.sep, "")

    def origin_of(self, path: str) -> str:
        return os.path.relpath(self.origins[path], repo.TOP) if path in self.origins else path

    def run(self) -> tuple[str, int]:
        """Runs the tests, and prints what rt says as it comes: the whole of it, and the status of rt."""
        said = []
        how = {"cwd": self.crate, "stdout": subprocess.PIPE, "stderr": subprocess.STDOUT, "text": True}
        trying = running.start(["rt", "try", "--test", "--seconds", str(LIMIT)], errors="replace", **how)
        try:
            for line in running.lines_of(trying):
                said.append(self.named_as_here(line))
                print(said[-1], end="", flush=True)
            return "".join(said), trying.wait()
        finally:
            running.stop(trying)


def results(names: list[str], said: str, status: int) -> dict[str, tuple[int, int]]:
    """How many tests of each folder passed and failed. A folder without a test counts as one that failed, and so does
    an end of rt that no failed test explains."""
    ended = TEST.findall(said)
    counts = {}
    for name in names:
        words = [word for folder, word in ended if folder == name]
        counts[name] = (words.count("ok"), words.count("FAILED") if words else 1)
    if status != 0 and not any(failed for _, failed in counts.values()):
        counts[f"rt try, which ended with status {status}"] = (0, 1)
    return counts


def change_layout(names: list[str]) -> int:
    """Lays out the files of these folders."""
    with tempfile.TemporaryDirectory(prefix="unit-tests-") as top:
        for path, text in Room(top, names, repo.crates()).laid_out().items():
            write(path, text)
            print(f"laid out: {os.path.relpath(path, repo.TOP)}")
    return 0


def run_tests(names: list[str]) -> int:
    """Runs the tests of these folders, and gives the status."""
    with tempfile.TemporaryDirectory(prefix="unit-tests-") as top:
        room = Room(top, names, repo.crates())
        said, status = room.run()
        counts = results(names, said, status)
        other = room.laid_out()
        for path in other:
            print(f"FAILED {os.path.relpath(path, repo.TOP)}: tools/unit_tests.py --layout lays it out")
        counts["layout of the files"] = (int(not other), len(other))
    for name, (passed, failed) in counts.items():
        print(f"{name}: {passed} passed, {failed} failed")
    passed, failed = (sum(count[at] for count in counts.values()) for at in (0, 1))
    print(f"{passed} passed, {failed} failed")
    return 1 if failed else 0


def main(words: list[str]) -> int:
    signal.signal(signal.SIGTERM, lambda number, _: sys.exit(128 + number))
    names = [word for word in words if word != "--layout"] or folders()
    if set(names) - set(folders()):
        sys.exit(f"{__doc__}\nThe folders: {' '.join(folders())}")
    try:
        return change_layout(names) if "--layout" in words else run_tests(names)
    except NotRun as error:
        print(f"FAILED {error}\n0 passed, 1 failed")
        return 1


if __name__ == "__main__":
    sys.exit(main(sys.argv[1:]))
