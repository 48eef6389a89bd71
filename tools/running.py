"""Starts and ends commands for the scripts here: none outlives them."""

from __future__ import annotations

import os
import signal
import subprocess
import time
from collections.abc import Iterator
from typing import Any

# The time limit for a command to end its children, in seconds.
STOP_LIMIT = 30

# Seconds between two looks at whether a command has ended.
PAUSE = 0.05


def start(words: list[str], **how: Any) -> subprocess.Popen:
    """Starts a command that gets nothing to read. It is told to end when the thread that started it ends, however that
    ends."""
    return subprocess.Popen(["setpriv", "--pdeathsig", "TERM", *words], stdin=subprocess.DEVNULL, **how)


def lines_of(command: subprocess.Popen) -> Iterator[str]:
    """The lines that a command writes to the pipe that it was started with, as they come."""
    assert command.stdout
    yield from command.stdout


def wait_and_measure(command: subprocess.Popen) -> float:
    """Waits for a command's end: the seconds that processors worked for it and what it started."""
    _, status, used = os.wait4(command.pid, 0)
    command.returncode = os.waitstatus_to_exitcode(status)
    return used.ru_utime + used.ru_stime


def stop(running: subprocess.Popen) -> None:
    """Ends a command, which then ends its children."""
    if running.poll() is None:
        running.terminate()
        try:
            running.wait(STOP_LIMIT)
        except subprocess.TimeoutExpired:
            running.kill()
            running.wait()


def has_ended(running: subprocess.Popen) -> bool:
    """Whether a command has ended. Its status is left for the thread that waits for it."""
    try:
        return os.waitid(os.P_PID, running.pid, os.WEXITED | os.WNOHANG | os.WNOWAIT) is not None
    except ChildProcessError:
        return True


def stop_group(running: subprocess.Popen) -> None:
    """Ends a command that has a session of its own, and all that it started."""
    for number in (signal.SIGTERM, signal.SIGKILL):
        try:
            os.killpg(running.pid, number)
        except ProcessLookupError:
            return
        limit = time.monotonic() + STOP_LIMIT
        while not has_ended(running) and time.monotonic() < limit:
            time.sleep(PAUSE)
