"""A rule base in a program that stays up, hipac-live."""

from __future__ import annotations

import contextlib
import logging
import os
import signal
import subprocess
import threading
from collections import deque
from typing import IO, Optional, Sequence

from .errors import AnswerFault
from .ways import End, Way

_LOG = logging.getLogger("hipac")

# So many lines of standard error are kept for the exception, each of so many bytes at most.
_KEPT_ERRORS = 100
_LONGEST_ERROR = 4096

# Seconds that the program may take to end once its input has ended, and its standard error to end after it.
_STOP_LIMIT = 10
_ERRORS_LIMIT = 1


def _pipe(stream: Optional[IO[bytes]]) -> IO[bytes]:
    """One end of a pipe to a process that was started with it."""
    if stream is None:
        raise ValueError("the process was started without this pipe")
    return stream


class Program(Way):
    """The process: lines in, lines out, and what it says on standard error. Threads may share it.

    A line and its answer never cross: the program reads a whole line before it writes, and the next line is sent when
    the answer has been read. So no pipe can fill up against the other. A thread of its own empties standard error.
    """

    name = "the program"

    def __init__(self, words: Sequence[str], is_script_sent: bool = True):
        """`is_script_sent` says that the script is the first line. Otherwise the words name its file."""
        pipe = subprocess.PIPE
        # A session of its own: an interrupt from the keyboard is for the client, which then ends the program.
        self._process = subprocess.Popen(words, stdin=pipe, stdout=pipe, stderr=pipe, start_new_session=True)
        self._errors: "deque[str]" = deque(maxlen=_KEPT_ERRORS)
        self._to, self._from = _pipe(self._process.stdin), _pipe(self._process.stdout)
        words_of = _pipe(self._process.stderr)
        self._is_script_sent = is_script_sent
        self.turn = threading.Lock()
        self.pid = self._process.pid
        self._listener = threading.Thread(target=self._listen, args=[words_of], name="hipac standard error",
                                          daemon=True)
        self._listener.start()

    def _listen(self, errors: IO[bytes]) -> None:
        with errors as stream:
            for raw in iter(lambda: stream.readline(_LONGEST_ERROR), b""):
                line = raw.decode("utf-8", "replace")
                self._errors.append(line)
                _LOG.warning("%s", line.rstrip("\n"))

    def open(self, script: bytes) -> Optional[bytes]:
        return self.send(script) if self._is_script_sent else None

    def send(self, line: bytes) -> Optional[bytes]:
        self._to.write(line + b"\n")
        self._to.flush()
        return None

    def read(self) -> Optional[str]:
        raw = self._from.readline()
        try:
            return raw[:-1].decode("utf-8") if raw.endswith(b"\n") else None
        except UnicodeDecodeError:
            raise AnswerFault(f"{raw[:200]!r} is no line of UTF-8") from None

    def kill(self) -> None:
        """Kills the process, and what it has started."""
        if self._process.poll() is None:
            with contextlib.suppress(ProcessLookupError):
                os.killpg(self._process.pid, signal.SIGKILL)

    def end(self) -> End:
        """Ends the input, and waits for the process."""
        with contextlib.suppress(OSError):
            self._to.close()
        try:
            self._process.wait(_STOP_LIMIT)
        except subprocess.TimeoutExpired:
            self.kill()
            self._process.wait()
        self._from.close()
        self._listener.join(_ERRORS_LIMIT)
        return End(self._process.returncode, "".join(self._errors))
