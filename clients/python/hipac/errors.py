"""What can go wrong."""

from __future__ import annotations

import json
import re
from typing import Any, Mapping, Optional, Tuple

# The status with which the program ends after a fault, and what the faults are.
FAULT_STATUS = 4
FAULTS = {"F1": "no memory", "F2": "a read failed", "F3": "a write failed"}

REFUSALS = {
    "S1": "no JSON text", "S2": "a wrong shape", "S3": "no whole number of 64 bits", "S4": "an unknown or doubled name",
    "S5": "over a limit", "S6": "an unknown version", "S8": "what may end with A3, A6 or A7",
}
"""What the code of a refusal says."""

# So much of the part that is refused is shown in the exception's text.
_SHOWN = 60


class HipacError(Exception):
    """Any error of this module."""


class Refused(HipacError):
    """A line that is refused. Nothing of it has happened.

    `code` is S1 to S6; S5 has a `limit`, the word of the limit. Of JSON, S2, S3 and S4 have a `path` into the line's
    value, and `part` is what stands there, if the path leads anywhere. Of a text, S1 to S4 have a `place`, the line and
    the column in the text that the call was given, both from 1, and `part` is what that line goes on with there.
    A checked rule base has S8, too, whose `limit` is `kinds` or `depth`, or `kinds unit N` with a path in the body of
    that unit of the script; `path` is that of the value, also of a text.
    """

    def __init__(self, code: str, path: Optional[str] = None, limit: Optional[str] = None, part: Any = None,
                 place: Optional[Tuple[int, int]] = None):
        at = path if place is None else f"{place[0]}:{place[1]}"
        reason = REFUSALS[code] if place is None or code != "S1" else "not in the notation"
        told = " ".join(word for word in ("refused", code, at, limit) if word) + f" ({reason})"
        if at is not None:
            shown = json.dumps(part, ensure_ascii=False) if place is None else part or "the end"
            told += ": " + (shown if len(shown) <= _SHOWN else shown[:_SHOWN] + " ..")
        super().__init__(told)
        self.code, self.path, self.limit, self.part, self.place = code, path, limit, part, place


class ProgramEnded(HipacError):
    """The rule base has ended, and its state is lost: the program has ended, memory ran out in the library, or the rule
    base is closed.

    `status` is the program's exit status, or the number of the signal that killed it with a minus sign. `errors` is
    what it said on standard error. `fault` is F1, F2 or F3 where it met one. The library has the status 4 and the fault
    F1 when memory ran out, and else 0. `is_kept` says whether the line of this call is in the journal: then it runs,
    once, when the rule base is recovered. Without a journal a line that wasn't answered is lost.
    """

    def __init__(self, status: int, errors: str = "", why: str = "", is_kept: bool = False):
        said = re.search(r"^fault (F[123])\s*\Z", errors, re.MULTILINE) if status == FAULT_STATUS else None
        fault = said[1] if said else None
        if not why:
            why = "the program " + (f"was killed by signal {-status}" if status < 0 else f"ended with status {status}")
            why += f" ({fault}: {FAULTS[fault]})" if fault else ""
            why += "; it said:\n" + errors.rstrip() if status > 0 and errors.strip() and not fault else ""
        super().__init__(why)
        self.status, self.errors, self.fault, self.why, self.is_kept = status, errors, fault, why, is_kept


class TimedOut(ProgramEnded):
    """No answer has come in time. So the program was killed, since its next answer might be to any line."""


class AnswerFault(HipacError):
    """What was written is no answer; the exception says which line."""


class LibraryMissing(HipacError):
    """There is no libhipac, or what is there isn't one."""


class WrongThread(HipacError):
    """A rule base of the library was called from another thread than the one that opened it, or in the middle of
    another call. Nothing was sent, and the rule base is as it was."""


class JournalFault(HipacError):
    """A journal that can't be used."""


class SnapshotFault(HipacError):
    """A snapshot after which some rules would not fire as they do in this rule base. `differences` says why, by the
    rules' names."""

    def __init__(self, differences: Mapping[str, str]):
        super().__init__("a snapshot would differ: " + "; ".join(f"{rule} {why}" for rule, why in differences.items()))
        self.differences = dict(differences)
