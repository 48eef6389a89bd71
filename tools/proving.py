"""`rt ci` as a part of a test run."""

from __future__ import annotations

import os
import re
import shutil

import repo
from parts import Part

# How many checks run at a time, at most: each takes up to 4 GB.
MOST_JOBS = 4

# Lines of rt that tell of a failure, and the one after which the next lines say why.
FAILURES = re.compile(
    r"BAD EDIT|NOT REFUSED|NOT PROVED|FAILED|^rt: .* (is not what|ended with status|had not ended) |: error: "
)
REASONS_FOLLOW = re.compile(r"^rt: .* the first lines of what it said:")
REASONS = 7

# The most lines of failures that are shown once more.
MOST_LINES = 100


def failures_in(said: str) -> list[str]:
    """The lines of what `rt ci` said that tell of a failure, with the reasons that follow them."""
    found, left = [], 0
    for line in said.splitlines():
        if line.startswith("rt: "):
            left = 0
        if REASONS_FOLLOW.search(line):
            left = REASONS
        elif FAILURES.search(line):
            left = max(left, 1)
        if left > 0:
            left -= 1
            found.append(line)
    if not repo.count_in(said):
        found.append("it said no count")
    return found[:MOST_LINES]


# What a copy of the repository leaves out: what git doesn't see, and the edits that checks/must_fail.py tries.
LEFT_OUT = (".git", ".built", "out", "__pycache__", repo.GATE_EDITS)


def copied(to: str) -> str:
    """A copy of the files here, as the top of a repository, without the edits of the gate: `rt ci` would prove each
    crate a second time to try them."""
    shutil.copytree(repo.TOP, to, symlinks=True, ignore=shutil.ignore_patterns(*LEFT_OUT))
    os.mkdir(os.path.join(to, ".git"))
    return to


def part(folder: str, crates: list[str], ended_by: tuple[str, ...]) -> Part:
    """The part that runs `rt ci` on a copy, on these crates alone if there are any."""
    processors = len(os.sched_getaffinity(0))
    variables = {"RT_JOBS": str(min(processors, MOST_JOBS)), **os.environ}
    return Part("rt_ci", ["rt", "ci", *crates], folder=folder, variables=variables, is_shown=True, ended_by=ended_by,
                telling=failures_in)
