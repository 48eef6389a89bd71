"""A rule base of hipac, asked from Python.

    >>> from pathlib import Path
    >>> from hipac import Base
    >>> with Base(rules=Path("examples/oversell.rules")) as base:
    ...     unit = base.transaction("update item(7) set stock = $stock", stock=2)
    ...     print(unit, unit.emits)
    ...     print(base.get("item", 7)["stock"])
    unit 4 committed []
    2

`Base(..)` has its rules in this process, by the library libhipac. `Base(.., by="program")` has them in a program that
stays up, hipac-live: nothing else changes.

`docs/LIVE.md` describes the lines and the answers, `docs/SCRIPT.md` the statements of a transaction. A rule base is
given texts, or else JSON: then a statement is the list that a script has. A value of the language is an int, a bool or
a str.

A transaction that aborts is an answer, and no exception: its unit says so. These are exceptions:

- `Refused`: the line has a fault. Nothing of it has happened, and the rule base goes on.
- `ProgramEnded`: the rule base has ended, and its state is lost. Each later call raises it again.
- `AnswerFault`: what was written is no answer. The rule base is ended; later calls raise `ProgramEnded`.
- `JournalFault`: a journal is in use, can't be written, or is another rule base's. Nothing was sent.
- `SnapshotFault`: a snapshot wouldn't go on as the rule base does.
- `LibraryMissing`: there is no libhipac.
- `WrongThread`: a rule base of the library was called from another thread than its own. Nothing was sent.
"""

from .answers import (
    Act, Answer, Detached, Emit, Ending, Fire, Node, Object, ObjectOperation, RuleOperation, State, Sub, Unit, Value,
)
from .base import PROGRAM, WAYS, Base
from .errors import (
    FAULTS, REFUSALS, AnswerFault, HipacError, JournalFault, LibraryMissing, ProgramEnded, Refused, SnapshotFault,
    TimedOut, WrongThread,
)
from .journals import Journal
from .library import find_library
from .scripts import Rules, Script

__all__ = [
    "Act", "Answer", "AnswerFault", "Base", "Detached", "Emit", "Ending", "FAULTS", "Fire", "HipacError", "Journal",
    "JournalFault", "LibraryMissing", "Node", "Object", "ObjectOperation", "PROGRAM", "ProgramEnded", "REFUSALS",
    "Refused", "RuleOperation", "Rules", "Script", "SnapshotFault", "State", "Sub", "TimedOut", "Unit", "Value", "WAYS",
    "WrongThread", "find_library",
]
