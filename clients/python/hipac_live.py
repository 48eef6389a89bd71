"""A client of hipac-live: a rule base in a program that stays up, asked from Python.

`RuleBase(..)` is `hipac.Base(.., by="program")`. All else is the package's, which says what there is.
"""

from typing import Any, Optional

from hipac import (
    FAULTS, PROGRAM, REFUSALS, Act, Answer, AnswerFault, Base, Detached, Emit, Ending, Fire, HipacError, Journal,
    JournalFault, Node, Object, ObjectOperation, ProgramEnded, Refused, RuleOperation, Rules, Script, SnapshotFault,
    State, Sub, TimedOut, Unit, Value,
)

__all__ = [
    "Act", "Answer", "AnswerFault", "Detached", "Emit", "Ending", "FAULTS", "Fire", "HipacError", "Journal",
    "JournalFault", "Node", "Object", "ObjectOperation", "PROGRAM", "ProgramEnded", "REFUSALS", "Refused", "RuleBase",
    "RuleOperation", "Rules", "Script", "SnapshotFault", "State", "Sub", "TimedOut", "Unit", "Value",
]


class RuleBase(Base):
    """`Base` by the program. The options are those of `Base`."""

    def __init__(self, script: Optional[Script] = None, **options: Any):
        options.setdefault("by", "program")
        super().__init__(script, **options)
