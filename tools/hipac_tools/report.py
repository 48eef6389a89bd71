"""The report of a run, as `./hipac --tree` writes it, read into a tree of plain objects.

Values stay texts as in the report: a page's script can't represent all 64-bit integers as numbers, and nothing here
computes with them.
"""

from __future__ import annotations

import json
from dataclasses import dataclass, field
from typing import Any, Iterator, List, Optional, Tuple, Union

from .language import DETACHED, MODES, OBJECT_OPERATIONS, STATUS_OPERATIONS


class ReportFault(Exception):
    """A text that isn't a report; it says which line isn't one of a report."""


@dataclass(frozen=True)
class End:
    """How a transaction ended: committed if there is no cause. After a veto: the rule's name, and the message as the
    report writes it, if there is one."""

    cause: Optional[str] = None
    rule: Optional[str] = None
    message: Optional[str] = None

    @property
    def committed(self) -> bool:
        return self.cause is None

    def __str__(self) -> str:
        if self.cause is None:
            return "committed"
        return " ".join(["aborted", self.cause] + [one for one in (self.rule, self.message) if one is not None])

    def is_veto_of(self, rule: str) -> bool:
        """Whether the rule of this name vetoed."""
        return self.cause == "A9" and self.rule == rule


COMMITTED = End()


@dataclass
class Operation:
    """One line `op`: on an object (with its row after it) or on a rule."""

    verb: str
    name: str
    key: Optional[int] = None
    fields: Tuple[Tuple[str, str], ...] = ()
    note: Any = field(default=None, compare=False, repr=False)

    @property
    def on_object(self) -> bool:
        return self.verb in OBJECT_OPERATIONS

    @property
    def subject(self) -> str:
        return self.name if self.key is None else f"{self.name} {self.key}"

    @property
    def row(self) -> str:
        return " ".join(f"{name}={value}" for name, value in self.fields)

    def __str__(self) -> str:
        return " ".join(part for part in ("op", self.verb, self.subject, self.row) if part)


@dataclass
class Emit:
    """A value that was emitted, even if it was undone later."""

    value: str
    note: Any = field(default=None, compare=False, repr=False)

    def __str__(self) -> str:
        return "emit " + self.value


@dataclass
class Sub:
    """A statement `sub`: a subtransaction."""

    end: End
    items: List["Node"] = field(default_factory=list)
    note: Any = field(default=None, compare=False, repr=False)

    def __str__(self) -> str:
        return f"sub {self.end}"


@dataclass
class Fire:
    """A condition task. Its action is an End, or the word `none` or `later`."""

    rule: str
    mode: str
    condition: str
    action: Union[End, str]
    items: List["Node"] = field(default_factory=list)
    note: Any = field(default=None, compare=False, repr=False)

    @property
    def end(self) -> End:
        """A firing without an action in it undoes nothing, so it counts as committed."""
        return self.action if isinstance(self.action, End) else COMMITTED

    def __str__(self) -> str:
        return f"fire {self.rule} {self.mode} {self.condition} {self.action}"


@dataclass
class Act:
    """An action task, queued or detached."""

    rule: str
    mode: str
    end: End
    items: List["Node"] = field(default_factory=list)
    note: Any = field(default=None, compare=False, repr=False)

    def __str__(self) -> str:
        return f"act {self.rule} {self.mode} {self.end}"


@dataclass
class Transaction:
    """A top-level transaction: a unit's own (no rule, no mode), or one of its cascade."""

    end: End
    rule: Optional[str] = None
    mode: Optional[str] = None
    emits: List[str] = field(default_factory=list)
    items: List["Node"] = field(default_factory=list)
    note: Any = field(default=None, compare=False, repr=False)


Node = Union[Operation, Emit, Sub, Fire, Act]
Holder = Union[Transaction, Sub, Fire, Act]


@dataclass
class Unit:
    """An item `tx` or a moment of the clock, with the cascade of what it detached."""

    number: int
    moment: Optional[int]
    transactions: List[Transaction]


@dataclass(frozen=True)
class FinalObject:
    name: str
    key: int
    fields: Tuple[Tuple[str, str], ...]

    @property
    def row(self) -> str:
        return " ".join(f"{name}={value}" for name, value in self.fields)


@dataclass
class Report:
    units: List[Unit] = field(default_factory=list)
    objects: List[FinalObject] = field(default_factory=list)
    rules: List[Tuple[str, str]] = field(default_factory=list)


def children(node: Any) -> List[Node]:
    """The items of a node that can have some, else none."""
    return getattr(node, "items", [])


def walk(node: Any) -> Iterator[Node]:
    """All nodes below this one, in order of time."""
    stack = list(reversed(children(node)))
    while stack:
        here = stack.pop()
        yield here
        stack.extend(reversed(children(here)))


def read(text: str) -> Report:
    """Reads a report; raises ReportFault if it isn't one."""
    lines = text.split("\n")
    if lines[-1] != "":
        raise ReportFault(f"line {len(lines)}: the report doesn't end with a line feed")
    return _Reader(lines[:-1]).report()


class _Reader:
    """Reads a report's lines once, keeping the open nodes."""

    def __init__(self, lines: List[str]):
        self.lines = lines
        self.at = 0
        self.open: List[Any] = []

    def report(self) -> Report:
        result = Report()
        for self.at, line in enumerate(self.lines):
            try:
                if self._line(line, result):
                    break
            except (ValueError, IndexError):
                raise ReportFault(f"line {self.at + 1}: {line[:80]!r} is no line of a report here")
        if not self.lines or self.lines[self.at] != "end" or self.at + 1 != len(self.lines):
            raise ReportFault(f"line {self.at + 1}: the report has no last line `end`")
        return result

    def _line(self, line: str, result: Report) -> bool:
        """Takes one line; returns whether it is the last."""
        if line.startswith("  "):
            self._item(line)
            return False
        word, _, rest = line.partition(" ")
        if word == "unit":
            self._unit(rest, result)
        elif word in DETACHED:
            rule, _, end = rest.partition(" ")
            self._transaction(Transaction(_end(end), rule, word), result.units[-1].transactions)
        elif word == "emit":
            self.open[0].emits.append(rest)
        elif word == "object":
            name, key, fields = (rest + " ").split(" ", 2)
            result.objects.append(FinalObject(name, int(key), _fields(fields.rstrip(" "))))
        elif word == "rule":
            name, status = rest.split(" ")
            result.rules.append((name, status))
        elif line not in ("final", "end"):
            raise ValueError
        return line == "end"

    def _unit(self, rest: str, result: Report) -> None:
        number, _, end = rest.partition(" ")
        moment = None
        if end.startswith("time "):
            _, time, end = end.split(" ", 2)
            moment = int(time)
        result.units.append(Unit(int(number), moment, []))
        self._transaction(Transaction(_end(end)), result.units[-1].transactions)

    def _transaction(self, transaction: Transaction, transactions: List[Transaction]) -> None:
        transactions.append(transaction)
        self.open = [transaction]

    def _item(self, line: str) -> None:
        text = line.lstrip(" ")
        level = (len(line) - len(text)) // 2
        if not 1 <= level <= len(self.open):
            raise ValueError
        node = _node(text)
        del self.open[level:]
        self.open[-1].items.append(node)
        if hasattr(node, "items"):
            self.open.append(node)


def _node(text: str) -> Node:
    word, _, rest = text.partition(" ")
    if word == "op":
        return _operation(rest)
    if word == "emit":
        return Emit(rest)
    if word == "sub":
        return Sub(_end(rest))
    rule, mode, rest = rest.split(" ", 2)
    if mode not in MODES:
        raise ValueError
    if word == "act":
        return Act(rule, mode, _end(rest))
    if word != "fire":
        raise ValueError
    condition, _, action = rest.partition(" ")
    if condition == "fault":
        cause, _, action = action.partition(" ")
        condition = "fault " + cause
    return Fire(rule, mode, condition, action if action in ("none", "later") else _end(action))


def _operation(text: str) -> Operation:
    verb, _, rest = text.partition(" ")
    if verb in STATUS_OPERATIONS:
        return Operation(verb, rest)
    if verb not in OBJECT_OPERATIONS:
        raise ValueError
    name, key, fields = (rest + "  ").split(" ", 2)
    return Operation(verb, name, int(key), _fields(fields.rstrip(" ")))


def _end(text: str) -> End:
    if text == "committed":
        return COMMITTED
    words = text.split(" ", 3)
    if words[0] != "aborted" or len(words) not in ((3, 4) if words[1] == "A9" else (2,)):
        raise ValueError
    return End(*words[1:])


def _fields(text: str) -> Tuple[Tuple[str, str], ...]:
    """The fields `name=value`; a text value may contain spaces and equal signs."""
    fields = []
    decoder = json.JSONDecoder()
    at = 0
    while at < len(text):
        equals = text.index("=", at)
        if text[equals + 1:equals + 2] == '"':
            _, end = decoder.raw_decode(text, equals + 1)
        else:
            end = text.find(" ", equals)
            end = len(text) if end < 0 else end
        fields.append((text[at:equals], text[equals + 1:end]))
        at = end + 1
    return tuple(fields)


def write(report: Report, trees: bool = True) -> str:
    """The report's text, the inverse of `read`; without its trees if they aren't wanted."""
    lines: List[str] = []
    for unit in report.units:
        for transaction in unit.transactions:
            head = f"unit {unit.number}" + ("" if unit.moment is None else f" time {unit.moment}")
            if transaction.rule is not None:
                head = f"{transaction.mode} {transaction.rule}"
            lines.append(f"{head} {transaction.end}")
            lines.extend("emit " + value for value in transaction.emits)
            if trees:
                _write_items(transaction.items, 1, lines)
    lines.append("final")
    for thing in report.objects:
        lines.append(" ".join(part for part in ("object", thing.name, str(thing.key), thing.row) if part))
    lines.extend(f"rule {name} {status}" for name, status in report.rules)
    lines.append("end")
    return "\n".join(lines) + "\n"


def _write_items(items: List[Node], level: int, lines: List[str]) -> None:
    for node in items:
        lines.append("  " * level + str(node))
        _write_items(children(node), level + 1, lines)
