"""What is answered."""

from __future__ import annotations

import json
from dataclasses import dataclass, field
from typing import Dict, List, Optional, Union

Value = Union[int, bool, str]
"""A value of the language."""


@dataclass(frozen=True)
class Ending:
    """How a transaction ended: committed, or aborted with a cause A1 to A9. A9 is a veto, and has its rule; in version
    4 it may have a message."""

    cause: Optional[str] = None
    rule: Optional[str] = None
    message: Optional[Value] = None

    @property
    def committed(self) -> bool:
        return self.cause is None

    def __str__(self) -> str:
        message = None if self.message is None else json.dumps(self.message, ensure_ascii=False)
        words = ("aborted", self.cause, self.rule, message)
        return "committed" if self.cause is None else " ".join(filter(None, words))


@dataclass
class ObjectOperation:
    """`create`, `update` or `delete` of an object, with the whole row after it."""

    verb: str
    class_name: str
    key: int
    fields: Dict[str, Value] = field(default_factory=dict)


@dataclass
class RuleOperation:
    """`install`, `enable`, `disable` or `remove` of a rule."""

    verb: str
    rule: str


@dataclass
class Emit:
    """A value that was emitted, also where it was undone later."""

    value: Value


@dataclass
class Sub:
    """A subtransaction."""

    ending: Ending
    items: List["Node"] = field(default_factory=list)


@dataclass
class Fire:
    """A condition that was tested: `satisfied`, `unsatisfied` or `fault`, and that with its cause.

    `action` is how the action ended. It is None where there was none, and where it runs `later`, as a task of its own.
    """

    rule: str
    mode: str
    condition: str
    fault: Optional[Ending] = None
    action: Optional[Ending] = None
    later: bool = False
    items: List["Node"] = field(default_factory=list)


@dataclass
class Act:
    """An action that was queued or detached."""

    rule: str
    mode: str
    ending: Ending
    items: List["Node"] = field(default_factory=list)


Node = Union[ObjectOperation, RuleOperation, Emit, Sub, Fire, Act]
"""What stands in a tree."""


class _Ended:
    """A transaction by its end."""

    ending: Ending

    @property
    def committed(self) -> bool:
        return self.ending.committed

    @property
    def cause(self) -> Optional[str]:
        """A1 to A9, or None where it is committed."""
        return self.ending.cause

    @property
    def message(self) -> Optional[Value]:
        """The message of the veto that aborted it, or None."""
        return self.ending.message


@dataclass
class Detached(_Ended):
    """A top-level transaction of a cascade: the task of a rule, in the mode that detached it."""

    mode: str
    rule: str
    ending: Ending
    emits: List[Value] = field(default_factory=list)
    tree: Optional[List[Node]] = None

    def __str__(self) -> str:
        return f"{self.mode} {self.rule} {self.ending}"


@dataclass
class Unit(_Ended):
    """A transaction, or a moment of the clock with its `time`; and the cascade of what it detached.

    The cascade is in the order in which it ran, each generation after the one that detached it. A tree is None where no
    trees were asked for.
    """

    number: int
    time: Optional[int]
    ending: Ending
    emits: List[Value] = field(default_factory=list)
    tree: Optional[List[Node]] = None
    cascade: List[Detached] = field(default_factory=list)

    @property
    def all_emits(self) -> List[Value]:
        """What the unit and then its cascade emitted."""
        return self.emits + [value for task in self.cascade for value in task.emits]

    def __str__(self) -> str:
        return f"unit {self.number}" + ("" if self.time is None else f" time {self.time}") + f" {self.ending}"


@dataclass
class Object:
    """An object; `thing["stock"]` is the value of a field."""

    class_name: str
    key: int
    fields: Dict[str, Value]

    def __getitem__(self, name: str) -> Value:
        return self.fields[name]

    def __str__(self) -> str:
        row = (f"{name}={json.dumps(value, ensure_ascii=False)}" for name, value in self.fields.items())
        return " ".join([self.class_name, str(self.key), *row])


@dataclass
class State:
    """The objects by class and key, and the status of each rule: `absent`, `enabled` or `disabled`."""

    objects: List[Object] = field(default_factory=list)
    rules: Dict[str, str] = field(default_factory=dict)

    def find(self, class_name: str, key: int) -> Optional[Object]:
        """The object, or None where there is none."""
        return next((it for it in self.objects if (it.class_name, it.key) == (class_name, key)), None)

    def all(self, class_name: str) -> List[Object]:
        """The objects of a class in rising key order."""
        return [it for it in self.objects if it.class_name == class_name]


@dataclass
class Answer:
    """The answer to any line: the units that ran, or the state; and how many units have run so far."""

    units: List[Unit] = field(default_factory=list)
    state: State = field(default_factory=State)
    count: int = 0
