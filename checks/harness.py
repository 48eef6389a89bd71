"""What the checks share: expectations, runs of programs, and the count at the end."""

from __future__ import annotations

import concurrent.futures
import os
import subprocess
import sys
from collections.abc import Callable, Iterable

TOP = os.path.dirname(os.path.dirname(os.path.abspath(__file__)))
sys.path[:0] = [os.path.join(TOP, "tools")]
sys.dont_write_bytecode = True

import repo  # noqa: E402 (it lies in tools/)
import unproved  # noqa: E402

# The time limit of one command, in seconds.
LIMIT = 300

# The most characters of an answer that an unmet expectation shows.
MOST_SHOWN = 1500

# (otherwise the sanitizer of an unproved program ends it where an allocation is refused)
ENVIRONMENT = {"ASAN_OPTIONS": "allocator_may_return_null=1"}


class Failed(Exception):
    """A check has failed."""


def expect(found, wanted, what) -> None:
    """Fails if something isn't as it is to be."""
    if found != wanted:
        raise Failed(f"{what}: {str(found)[-MOST_SHOWN:]!r}, and not {str(wanted)[-MOST_SHOWN:]!r}")


def files_of_git(*patterns: str) -> list[str]:
    """The paths of the files that git knows or would add, below the top, if they are there."""
    words = ["git", "ls-files", "-z", "--cached", "--others", "--exclude-standard", *patterns]
    paths = subprocess.check_output(words, cwd=TOP, text=True).split("\0")
    return [path for path in paths if os.path.isfile(os.path.join(TOP, path))]


def bytes_of(path: str) -> bytes:
    with open(path, "rb") as file:
        return file.read()


def command_of(name: str) -> list[str]:
    """The words that start a program, as tools/start does. The environment's HIPAC, for hipac, names another one."""
    named = os.environ.get(name.upper())
    if named:
        if not os.access(named, os.X_OK):
            sys.exit(f"FAILED there is no program {named}")
        return [os.path.abspath(named)]
    proved = repo.proved_place(name)
    if os.access(proved, os.X_OK):
        return [proved]
    subprocess.run([os.path.join(TOP, "tools", "unproved.py"), name], stdin=subprocess.DEVNULL, check=True)
    return [*unproved.loader(), os.path.join(repo.unproved_place(name), "program")]


def by_pipe(command: list[str], given: bytes) -> tuple[int, bytes, bytes]:
    """The status, the standard output and the standard error of a program that reads this from a pipe."""
    done = subprocess.run(command, input=given, timeout=LIMIT, check=False, env=ENVIRONMENT, capture_output=True)
    return done.returncode, done.stdout, done.stderr


def run_checks(checks: Iterable[tuple[str, Callable]], jobs: int = 1) -> int:
    """Runs checks, each with its name, so many at a time. It prints what failed, and then 'N passed, M failed', and
    gives the status."""
    passed, failed = 0, 0
    with concurrent.futures.ThreadPoolExecutor(jobs) as pool:
        running = [(title, pool.submit(check)) for title, check in checks]
        for title, one in running:
            try:
                one.result()
                passed += 1
            except (Failed, OSError, ValueError, subprocess.SubprocessError) as error:
                failed += 1
                print(f"FAILED {title}\n  {error}", flush=True)
    print(f"{passed} passed, {failed} failed")
    return 1 if failed else 0
