"""Journals: the lines of rule bases on disk."""

from __future__ import annotations

import fcntl
import os
import time
from pathlib import Path
from typing import Iterator, TypeVar, Union

from .errors import JournalFault

# Seconds for which another process may have the journal.
LOCK_LIMIT = 3

SomeJournal = TypeVar("SomeJournal", bound="Journal")


class Journal:
    """The lines of a rule base on disk, one to a line, so that whoever sends them again has the same rule base.

    A line is in the file and synced before `append` returns. A last line without its line feed was cut off while it was
    written, and is dropped when the journal is opened. One process at a time has the journal.
    """

    def __init__(self, path: Union[str, "os.PathLike[str]"]):
        self.path = Path(path)
        self._file = open(self.path, "ab", buffering=0)  # pylint: disable=consider-using-with
        try:
            self._lock()
            self._size = sum(len(line) for line in self._whole_lines())
            self._cut()
            self._sync_folder()
        except BaseException:
            self._file.close()
            raise
        self._is_broken = False

    def _lock(self) -> None:
        """Has the file for this process. One that was killed a moment ago may still be about to let go of it."""
        deadline = time.monotonic() + LOCK_LIMIT
        while True:
            try:
                return fcntl.flock(self._file, fcntl.LOCK_EX | fcntl.LOCK_NB)
            except BlockingIOError:
                if time.monotonic() > deadline:
                    raise JournalFault(f"{self.path}: another process has this journal") from None
                time.sleep(0.05)

    def _whole_lines(self) -> Iterator[bytes]:
        with open(self.path, "rb") as file:
            yield from (line for line in file if line.endswith(b"\n"))

    def _cut(self) -> None:
        """Leaves the whole lines alone."""
        self._file.truncate(self._size)
        os.fsync(self._file)

    def _sync_folder(self) -> None:
        """Syncs the file's name."""
        folder = os.open(self.path.parent, os.O_RDONLY)
        try:
            os.fsync(folder)
        finally:
            os.close(folder)

    def lines(self) -> Iterator[bytes]:
        """The lines without their line feeds."""
        return (line[:-1] for line in self._whole_lines())

    def append(self, line: bytes) -> None:
        """Adds a line and syncs it. Where that fails it is a JournalFault: the line isn't in the journal.

        Where it can't even be taken out again, the journal takes no more lines.
        """
        if b"\n" in line:
            raise ValueError("a line of a journal has no line feed")
        if self._is_broken or self._file.closed:
            raise JournalFault(f"{self.path}: the journal takes no more lines")
        try:
            left = memoryview(line + b"\n")
            while left:
                left = left[self._file.write(left):]
            os.fsync(self._file)
            self._size += len(line) + 1
        except OSError as fault:
            self._undo()
            raise JournalFault(f"{self.path}: a line can't be written: {fault}") from fault
        except BaseException:
            self._undo()
            raise

    def _undo(self) -> None:
        try:
            self._cut()
        except OSError:
            self._is_broken = True

    def close(self) -> None:
        self._file.close()

    def __enter__(self: SomeJournal) -> SomeJournal:
        return self

    def __exit__(self, *_: object) -> None:
        self.close()
