"""Runs the program. It alone decides whether a script is accepted; the tools explain its decision."""

from __future__ import annotations

import os
import subprocess
import sys
import threading
from dataclasses import dataclass
from pathlib import Path

from .command import FAILED, is_text

REPOSITORY = Path(__file__).resolve().parents[2]

# What the launcher says before it makes the program, or waits for it. That takes a minute, so it is shown at once.
PROGRESS = ("making the program", "makes the program: waiting")


@dataclass(frozen=True)
class Ended:
    """How a run of the program ended: its status, and what it wrote to standard output and standard error."""

    status: int
    output: str
    errors: str


def program_path() -> str:
    """The program: $HIPAC if that is set, else `./hipac` at the repository's root."""
    return os.environ.get("HIPAC") or str(REPOSITORY / "hipac")


def read_errors(pipe: int, lines: list[str]) -> None:
    """Collects the lines of a program's standard error, and shows at once those that ask for patience."""
    with open(pipe, encoding="utf-8", errors="replace") as errors:
        for line in errors:
            lines.append(line)
            if any(words in line for words in PROGRESS):
                print(line, end="", file=sys.stderr, flush=True)


def run_script(content: bytes, words: list[str]) -> Ended:
    """Runs the program on a script, which may be text."""
    return run(content, [*words_for(is_text(content)), *words])


def words_for(is_notation: bool) -> list[str]:
    """The words of the command line for a text in the notation, or for JSON."""
    return ["--text"] if is_notation else []


def run(script_bytes: bytes, words: list[str], path: str = "") -> Ended:
    """Runs the program, or the one at a path, with these words of the command line and the script on its standard
    input. A program that can't be started counts as one that failed."""
    reads, writes = os.pipe()
    lines: list[str] = []
    reader = threading.Thread(target=read_errors, args=(reads, lines))
    reader.start()
    try:
        ended = subprocess.run([path or program_path(), *words], input=script_bytes, stdout=subprocess.PIPE,
                               stderr=writes, check=False)
    except OSError as fault:
        return Ended(FAILED, "", f"the program can't be run: {fault}\n")
    finally:
        os.close(writes)
        reader.join()
    return Ended(ended.returncode, ended.stdout.decode("utf-8", "replace"), "".join(lines))
