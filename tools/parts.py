"""The parts of a test run: each is a command. They run side by side, and each has a line when it ends."""

from __future__ import annotations

import os
import queue
import re
import shutil
import subprocess
import sys
import threading
import time
from collections.abc import Callable, Mapping
from dataclasses import dataclass, field
from typing import Optional, TextIO

import repo
import running

LOGS = os.path.join(repo.BUILT, "test")

# How a line begins that is shown though nothing failed.
NOTE = "test: note: "

# Seconds between two lines that tell what is at work, where nothing else is told.
PAUSE = 60

# The command, or the module of Python, by which a package of Debian's shows itself, if that has another name.
SIGNS = {"procps": "pgrep", "graphviz": "dot", "chromium-driver": "chromedriver"}
MODULES = {"python3-jsonschema": "jsonschema", "python3-selenium": "selenium"}

# A line that begins to tell of a failure, the most lines of one failure, and the most of one part.
TELLS = re.compile(r"^(FAILED|FAIL:|ERROR:|Traceback)|\.\.\. FAILED$|: error: ")
MOST_OF_FAILURE = 12
MOST_OF_PART = 60


def telling_lines(said: str) -> list[str]:
    """The lines of what a part said that tell why it failed: each failure with what follows it, or else the end."""
    lines, found, left = said.rstrip("\n").split("\n"), [], 0
    for line in lines:
        left = MOST_OF_FAILURE if TELLS.search(line) else left
        if left > 0 and line.strip():
            found.append(line)
        left -= 1
    return (found or lines[-20:])[:MOST_OF_PART]


@dataclass(frozen=True)
class Part:
    """A part of a test run."""

    name: str
    words: list[str]
    # The parts that must have passed before it starts, and the packages of Debian's that it needs.
    needs: tuple[str, ...] = ()
    packages: tuple[str, ...] = ()
    # Whether it says how many passed and failed. Otherwise its status alone counts.
    has_count: bool = True
    # The folder that it runs in, below the top, and variables of its environment.
    folder: str = "."
    variables: Mapping[str, str] = field(default_factory=dict)
    # Whether its lines are shown as they come, and the parts whose failure ends it, or keeps it from starting.
    is_shown: bool = False
    ended_by: tuple[str, ...] = ()
    # What finds the lines that tell of failures in what it said.
    telling: Callable[[str], list[str]] = telling_lines


@dataclass(frozen=True)
class Result:
    """What came of a part: how many passed and failed, the lines that tell of failures or of what is to be noted, how
    many seconds it took, and for how many a processor worked on it."""

    passed: int
    failed: int
    lines: list[str]
    seconds: float = 0.0
    work: float = 0.0


def count_of(part: Part, said: str, status: int) -> tuple[int, int]:
    """How many of a part's tests passed and failed, by what it said and its status."""
    counts = repo.count_in(said) or unittest_count(said)
    if not part.has_count:
        counts = (1, 0) if status == 0 else (0, 1)
    if counts is None or (status != 0 and counts[1] == 0):
        # It died, or it didn't say what it tested.
        return (counts[0] if counts else 0), 1
    return counts


def unittest_count(said: str) -> Optional[tuple[int, int]]:
    """The counts of unittest, if it says them: of all its runs together."""
    runs = re.findall(r"(?m)^Ran (\d+) tests? in .*\n+(OK|FAILED)(.*)$", said)
    if not runs:
        return None
    every = sum(int(number) for number, _, _ in runs)
    failed = sum(int(number) for _, _, what in runs for number in re.findall(r"(?:failures|errors)=(\d+)", what))
    return every - failed, failed


def log_of(name: str) -> str:
    """The file that keeps what a part says."""
    return os.path.join(LOGS, f"{name}.log")


def is_there(package: str) -> bool:
    """Whether a package of Debian's is installed, by whatever way."""
    if package in MODULES:
        test = [f"import {MODULES[package]}"]
        pythons = filter(shutil.which, [sys.executable, "/usr/bin/python3"])
        quiet = subprocess.DEVNULL
        return any(subprocess.call([it, "-c", *test], stdin=quiet, stderr=quiet) == 0 for it in pythons)
    return shutil.which(SIGNS.get(package, package)) is not None


class Run:
    """A test run: what passed and failed so far, and what is at work."""

    def __init__(self, installs: bool = False):
        self.begun = time.monotonic()
        self.passed, self.failed = 0, 0
        self.results: dict[str, Result] = {}
        self.installs = installs and os.geteuid() == 0 and shutil.which("apt-get") is not None
        self.commands: dict[str, subprocess.Popen] = {}
        # The parts that were ended early, each with the part that had failed.
        self.ended: dict[str, str] = {}
        os.makedirs(LOGS, exist_ok=True)

    def say(self, text: str) -> None:
        print(f"test: {text}", flush=True)

    def minute(self) -> int:
        return int(time.monotonic() - self.begun) // 60

    def all_of(self, parts: list[Part], places: int) -> None:
        """Runs these parts, so many at a time, each after those that it needs."""
        self.install([package for part in parts for package in part.packages])
        self.say(f"{len(parts)} parts, {places} at a time; what each says: .built/test/PART.log")
        left, told = list(parts), time.monotonic()
        ended: queue.Queue[tuple[Part, Result]] = queue.Queue()
        at_work: list[str] = []
        while left or at_work:
            for part in self.startable(left, [part.name for part in parts])[: places - len(at_work)]:
                left.remove(part)
                at_work.append(part.name)
                threading.Thread(target=lambda part=part: ended.put((part, self.result_of(part))), daemon=True).start()
            try:
                part, result = ended.get(timeout=1)
            except queue.Empty:
                if time.monotonic() - told > PAUSE:
                    self.say(f"minute {self.minute()}; at work: {' '.join(at_work)}")
                    told = time.monotonic()
                continue
            at_work.remove(part.name)
            self.add(part.name, result, f"{len(parts) - len(left) - len(at_work)} of {len(parts)} parts")
            if result.failed:
                self.end_early([it for it in parts if it.name in at_work], part.name)
            told = time.monotonic()

    def startable(self, left: list[Part], names: list[str]) -> list[Part]:
        """The parts that can start, in order: nothing that they need is still to end."""
        return [part for part in left if all(it in self.results for it in part.needs if it in names)]

    def end_early(self, parts: list[Part], failed: str) -> None:
        """Ends those of these parts that this failure ends."""
        for part in parts:
            if failed in part.ended_by and part.name in self.commands and part.name not in self.ended:
                self.ended[part.name] = failed
                running.stop_group(self.commands[part.name])

    def add(self, name: str, result: Result, so_far: str) -> None:
        """Notes what came of a part, and says it."""
        self.results[name] = result
        self.passed += result.passed
        self.failed += result.failed
        if result.lines:
            print("\n".join(result.lines), flush=True)
        counts = f"{result.passed} passed, {result.failed} failed"
        self.say(f"{name}: {counts}; {result.seconds:.0f} seconds, {result.work:.0f} of one processor "
                 f"({so_far}, minute {self.minute()})")

    def result_of(self, part: Part) -> Result:
        """Runs a part to its end."""
        lacking = [it for it in part.packages if not is_there(it)]
        if lacking:
            return Result(0, 1, [f"FAILED {part.name}: lacks packages: apt-get install {' '.join(lacking)}"])
        needs = [it for it in (*part.needs, *part.ended_by) if it in self.results]
        failed = [it for it in needs if self.results[it].failed]
        if failed:
            return Result(0, 1, [f"FAILED {part.name}: not run, since this failed: {' '.join(failed)}"])
        begun = time.monotonic()
        try:
            status, said, work = self.run_command(part)
        except OSError as error:
            return Result(0, 1, [f"FAILED {part.name}: {error}"])
        seconds = time.monotonic() - begun
        if part.name in self.ended:
            why = f"FAILED {part.name}: ended, since this failed: {self.ended[part.name]}"
            return Result(0, 1, [why], seconds, work)
        passed, failures = count_of(part, said, status)
        if not failures:
            return Result(passed, 0, [it for it in said.splitlines() if it.startswith(NOTE)], seconds, work)
        return Result(passed, failures, [f"FAILED {part.name}: status {status}", *part.telling(said)], seconds, work)

    def run_command(self, part: Part) -> tuple[int, str, float]:
        """Runs a part's command: its status, what it said, which its log keeps, and the work of processors on it."""
        log = log_of(part.name)
        with open(log, "w", encoding="utf-8") as file:
            where = os.path.join(repo.TOP, part.folder)
            command = running.start(part.words, cwd=where, env={**os.environ, **part.variables},
                                    stdout=subprocess.PIPE if part.is_shown else file, stderr=subprocess.STDOUT,
                                    text=True, errors="replace", start_new_session=True)
            self.commands[part.name] = command
            if part.is_shown:
                self.show(command, file)
            work = running.wait_and_measure(command)
        with open(log, encoding="utf-8", errors="replace") as read:
            return command.returncode, read.read(), work

    def show(self, command: subprocess.Popen, log: TextIO) -> None:
        """Shows a command's lines as they come, those of `rt` with the minute. Its log keeps them, and its count."""
        for line in running.lines_of(command):
            text = line.rstrip("\n")
            shown = f"{text} (minute {self.minute()})" if text.startswith("rt: ") else text
            print(shown, file=log, flush=True)
            if not repo.count_in(text):
                print(shown, flush=True)

    def install(self, packages: list[str]) -> None:
        """Installs those of these packages that are not there, if this run may."""
        lacking = sorted({it for it in packages if not is_there(it)})
        if not lacking or not self.installs:
            return
        self.say(f"installing {' '.join(lacking)}")
        log, quiet = os.path.join(LOGS, "packages.log"), {**os.environ, "DEBIAN_FRONTEND": "noninteractive"}
        with open(log, "w", encoding="utf-8") as file:
            for words in (["update"], ["install", "-y", "--no-install-recommends", *lacking]):
                ended = subprocess.run(["apt-get", *words], env=quiet, stdin=subprocess.DEVNULL, stdout=file,
                                       stderr=subprocess.STDOUT, check=False)
        if ended.returncode != 0:
            self.say(f"apt-get ended with status {ended.returncode}: .built/test/packages.log has its words")

    def stop(self) -> None:
        """Ends the commands that run, and all that they started."""
        for command in self.commands.values():
            running.stop_group(command)

    def finish(self) -> int:
        """Says what failed once more, and how long each part took; the last line has the counts. Gives the status."""
        failures = {name: result for name, result in self.results.items() if result.failed}
        if failures:
            self.say("what failed, once more:")
            for result in failures.values():
                print("\n".join(result.lines), flush=True)
        work = repo.minutes(sum(result.work for result in self.results.values()))
        self.say(f"{repo.minutes(time.monotonic() - self.begun)} on {len(os.sched_getaffinity(0))} processors, "
                 f"{work} of one processor")
        print(f"{self.passed} passed, {self.failed} failed", flush=True)
        return 1 if self.failed else 0
