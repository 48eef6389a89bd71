"""What answers the lines of a rule base: a program that stays up, or the library in this process."""

from __future__ import annotations

from typing import ContextManager, NamedTuple, Optional


class End(NamedTuple):
    """How a way has ended: the status of the program, what it said on standard error, and why, if there is more to say.
    The library's ends have the statuses that the program's would have."""

    status: int
    errors: str = ""
    why: str = ""


class Way:
    """A way to have lines answered. A line is sent, and then its answer is read."""

    turn: ContextManager[object]
    """What a call is made in: one call after the other."""
    pid: int
    """The number of the process in which the rules run."""
    name: str
    """What answers, in the words of an exception."""

    def open(self, script: bytes) -> Optional[bytes]:
        """Sends the script. If the answer is there at once, it is what this returns."""
        raise NotImplementedError

    def send(self, line: bytes) -> Optional[bytes]:
        """Sends a line. If the answer is there at once, it is what this returns."""
        raise NotImplementedError

    def get(self, class_name: str, key: int) -> Optional[bytes]:
        """Asks for one object, as a line in JSON does. Only where `has_get` is set."""
        raise NotImplementedError

    has_get = False

    def read(self) -> Optional[str]:
        """The next line of the answer without its line feed, or None where no whole line comes any more."""
        raise NotImplementedError

    def kill(self) -> None:
        """Ends it at once, also in the middle of an answer."""
        raise NotImplementedError

    def end(self) -> End:
        """Ends it, and says how it ended."""
        raise NotImplementedError
