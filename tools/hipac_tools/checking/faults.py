"""A fault of a script: its refusal, its place, and what is said about it."""

from __future__ import annotations

from dataclasses import dataclass
from typing import Optional

from ..positions import Node
from .dialect import Dialect, JSON


@dataclass(frozen=True)
class Note:
    """Another place that has to do with a fault, and what it has to do with it."""

    text: str
    start: int
    end: int


@dataclass(frozen=True)
class Fault:
    """Why a script is refused. `refusal` is what the program says of it, as `S2 /rules/0` or `S5 expr`."""

    refusal: str
    start: int
    end: int
    message: str
    hints: tuple[str, ...] = ()
    notes: tuple[Note, ...] = ()


class Refused(Exception):
    """A fault was found: the part of the script that has it isn't read further."""

    def __init__(self, fault: Fault):
        super().__init__(fault.message)
        self.fault = fault


class Faulty(Exception):
    """A script was read, and has these faults, in the order of checks."""

    def __init__(self, faults: list[Fault]):
        super().__init__(faults[0].message)
        self.faults = faults


@dataclass(frozen=True)
class Place:
    """A value of the script with its path, which is empty for the root, and how the script is written."""

    node: Node
    path: str = ""
    dialect: Dialect = JSON

    def item(self, position: int) -> Place:
        return Place(self.node.items[position], f"{self.path}/{position}", self.dialect)

    def items(self) -> list[Place]:
        return [self.item(position) for position in range(len(self.node.items))]

    def member(self, name: str) -> Place:
        return Place(self.node.members[name][1], f"{self.path}/{name}", self.dialect)

    def note(self, text: str) -> Note:
        return Note(text, self.node.start, self.node.end)

    def wrong_shape(self, message: str, *hints: str, notes: tuple[Note, ...] = ()) -> Refused:
        return self.refused(f"S2 {self.path or '/'}", message, hints, notes)

    def bad_number(self, message: str, *hints: str) -> Refused:
        return self.refused(f"S3 {self.path or '/'}", message, hints)

    def bad_name(self, message: str, *hints: str, notes: tuple[Note, ...] = ()) -> Refused:
        return self.refused(f"S4 {self.path or '/'}", message, hints, notes)

    def over_limit(self, word: str, message: str, *hints: str, notes: tuple[Note, ...] = ()) -> Refused:
        return self.refused(f"S5 {word}", message, hints, notes)

    def refused(self, refusal: str, message: str, hints: tuple[str, ...] = (), notes: tuple[Note, ...] = (),
                at: Optional[Node] = None) -> Refused:
        """The fault at this value, or told at another node that says more of it."""
        node = at or self.node
        return Refused(Fault(refusal, node.start, node.end, message, tuple(hint for hint in hints if hint), notes))
