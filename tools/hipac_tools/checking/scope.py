"""What the parts of a script may name, and what is gathered on the way."""

from __future__ import annotations

from dataclasses import dataclass, field, replace
from typing import Callable, Mapping, Optional, TypeVar

from ..language import Form
from .faults import Fault, Note, Place, Refused
from .forms import Forms, LATEST

Result = TypeVar("Result")

MOST_FAULTS = 20
"""So many faults of a script are told at once."""


@dataclass(frozen=True)
class Class:
    """A class, with the place of its name and the kind of each field."""

    name: str
    place: Place
    kinds: Mapping[str, str]

    def declared(self) -> tuple[Note, ...]:
        return (self.place.note("the class is here:"),)


@dataclass(frozen=True)
class Row:
    """A name that stands for a row of a class: a query, or a variable of `each`, `with`, `no` or an aggregate."""

    name: str
    class_read: Class
    place: Place
    is_query: bool


@dataclass(frozen=True)
class Warned:
    """Something that the program accepts and that can't be meant (a warning), or that could be better (a hint); `help`
    may be empty, or several lines."""

    place: Place
    message: str
    help: str = ""
    word: str = "warning"


class Enough(Exception):
    """So many faults were found that no more are told."""


@dataclass
class Gathered:
    """The faults that were found, and what the advice at the end rests on."""

    faults: list[Fault] = field(default_factory=list)
    is_doubtful: bool = False
    """Whether a class, a field or a rule couldn't be read, so that a name which seems to be unknown may be its."""
    is_rule_doubtful: bool = False
    """The same of a query of the rule that is read."""
    warnings: list[Warned] = field(default_factory=list)
    awaited: dict[str, Place] = field(default_factory=dict)
    """The signals that rules wait for, each with its first place."""
    signalled: set[str] = field(default_factory=set)
    installed: set[str] = field(default_factory=set)

    def go_on(self, read: Callable[[], Result]) -> Optional[Result]:
        """Reads a part of the script. A fault in it is kept, and the reading goes on behind that part."""
        try:
            return read()
        except Refused as refusal:
            self.keep(refusal.fault)
            return None

    def go_on_with(self, read: Callable[[], Result], otherwise: Result) -> Result:
        """The same with what a faulty part counts as."""
        found = self.go_on(read)
        return otherwise if found is None else found

    def keep(self, fault: Fault) -> None:
        """Keeps a fault; what may only follow from an earlier one is left out."""
        if self.faults and fault.refusal.startswith("S4") and (self.is_doubtful or self.is_rule_doubtful):
            return
        self.faults.append(fault)
        if len(self.faults) == MOST_FAULTS:
            raise Enough

    def warn(self, place: Place, message: str, help: str = "") -> None:
        self.warnings.append(Warned(place, message, help))

    def hint(self, place: Place, message: str, help: str = "") -> None:
        self.warnings.append(Warned(place, message, help, "hint"))


@dataclass(frozen=True)
class Scope:
    """The names that are known at a place of the script."""

    classes: Mapping[str, Class]
    rules: Mapping[str, Place]
    gathered: Gathered
    forms: Forms = LATEST
    rows: Mapping[str, Row] = field(default_factory=dict)
    values: Mapping[str, Place] = field(default_factory=dict)
    """The names of `let`s."""
    not_yet: Mapping[str, str] = field(default_factory=dict)
    """Names that aren't known at the place although they may seem to be, each with the reason."""
    has_occurrence: bool = True
    """Whether something occurred: not in a body of the script."""
    shapes: Optional[list[tuple[Form, ...]]] = None
    """The simple events that the parts of the occurrence may be, if they are few."""

    def with_row(self, row: Row) -> Scope:
        return replace(self, rows={**self.rows, row.name: row})

    def with_value(self, name: str, place: Place) -> Scope:
        return replace(self, values={**self.values, name: place})

    def taken(self) -> Mapping[str, Place]:
        """The names of rows and of `let`s, which are one set."""
        return {**{name: row.place for name, row in self.rows.items()}, **self.values}

    def noun_of(self, name: object, otherwise: str) -> str:
        """What a name that is taken is of."""
        return "a `let`" if isinstance(name, str) and name in self.values else otherwise

    def queries(self) -> list[str]:
        return [name for name, row in self.rows.items() if row.is_query]

    def elsewhere(self, name: str) -> Optional[str]:
        """What another thing of this name is, where a row is expected."""
        if name in self.not_yet:
            return self.not_yet[name]
        if name in self.values:
            return f'`{name}` is a `let`, and its value is ["value", "{name}"]'
        return f"`{name}` is a class, and the name of a row is expected here" if name in self.classes else None
