"""What is known of a report's nodes beyond their lines: why they happened, and why they ended as they did."""

from __future__ import annotations

from dataclasses import dataclass, field
from typing import Any, List, Optional, Set, Tuple

from .language import Form
from .report import End, Holder, Operation, Sub, walk
from .values import Occurrence, Primitive, Row


@dataclass
class Signal:
    """One signal, at which rules may be triggered, even if none was. They are numbered through the whole script."""

    primitive: Optional[Primitive]
    within: Holder
    path: str
    depth: int
    operation: Optional[Operation] = None
    triggered: List[str] = field(default_factory=list)
    number: int = 0

    @property
    def heard(self) -> Primitive:
        """What rules hear. There is none of the statement `fire`, which no rule hears."""
        if self.primitive is None:
            raise ValueError("no rule hears of a statement `fire`")
        return self.primitive

    def __str__(self) -> str:
        return str(self.primitive) if self.primitive is not None else "a statement `fire`"


QUERY, NO, EXPRESSION = "query", "no", "expression"
"""The words of entries that have no aggregate."""


@dataclass
class Given:
    """An earlier query that a predicate names: the first row of its answer, and how many rows there are."""

    name: str
    row: Row
    rows: int


@dataclass
class Query:
    """What an entry of a condition found: the keys of its answer, or its fault and the key of the object that met it.
    If it asked for one object by its key and that doesn't fit: the first test of its predicate that failed, and the
    values in it. Of a `let`, whose word is the one of its aggregate, the value as a text; None if it has none. A `let`
    that looks at no rows is on no class. `known` are the values of earlier `let`s that it names."""

    name: str
    on: str
    objects: int
    given: List[Given] = field(default_factory=list)
    known: List[Tuple[str, str]] = field(default_factory=list)
    word: str = QUERY
    value: Optional[str] = None
    key: Optional[int] = None
    keys: List[int] = field(default_factory=list)
    fault: Optional[str] = None
    fault_key: Optional[int] = None
    failed: Form = None
    values: List[Tuple[Form, str]] = field(default_factory=list)


@dataclass
class Stop:
    """Why a transaction aborted: the statement that aborted it, or the firing that vetoed."""

    end: End
    words: str
    path: str = ""
    firing: Optional[Any] = None


ABORT, VETO, NO_ABORT = range(3)
"""Why a task never ran: a transaction round its trigger aborted, a rule before it vetoed, or (an exclusive task) no
transaction round it aborted."""


@dataclass
class Dropped:
    """A task that was made and never ran: why, and the node whose end dropped it. If the condition had been tested
    before, the task was the action's."""

    rule: str
    mode: str
    is_tested: bool
    trigger: Signal
    occurrence: Occurrence
    why: int
    by: Any = None


@dataclass
class Note:
    """A node's parent and place in the script; for a top-level transaction the unit's number, for a firing its
    trigger and whether it vetoed because it failed and its rule is closed, for an aborted node the reason."""

    parent: Optional[Holder]
    path: str = ""
    unit: Optional[int] = None
    trigger: Optional[Signal] = None
    occurrence: Optional[Occurrence] = None
    queries: List[Query] = field(default_factory=list)
    stop: Optional[Stop] = None
    vetoed_by_failing: bool = False
    signals: List[Signal] = field(default_factory=list)
    dropped: List[Dropped] = field(default_factory=list)


def ancestry(node: Any) -> List[Any]:
    """The nodes around this one, the innermost first."""
    found = []
    while node.note is not None and node.note.parent is not None:
        node = node.note.parent
        found.append(node)
    return found


def is_idle(task: Any) -> bool:
    """Whether an action ran and neither changed nor signalled anything, in its subtransactions either. That nothing
    was signalled is only known for a course that was followed."""
    inner = list(walk(task))
    if task.note.occurrence is None or not all(isinstance(node, Sub) and node.end.committed for node in inner):
        return False
    top = (ancestry(task) or [task])[-1]
    return not any(signal.within is node for signal in top.note.signals for node in [task, *inner])


def aborted_before(node: Any, around: Set[int]) -> Optional[Any]:
    """The innermost aborted node, from this one outwards, that had ended when what happened in those around did."""
    for holder in [node, *ancestry(node)]:
        if id(holder) in around:
            return None
        if not holder.end.committed:
            return holder
    return None


def undone_by(node: Any) -> Optional[Any]:
    """The innermost node around an item that aborted, which undid it; None if the item wasn't undone."""
    for holder in ancestry(node):
        if not holder.end.committed:
            return holder
    return None
