"""Values and expressions of a script, evaluated over named rows and the occurrence that triggered a rule.

Scripts are the lists that JSON gives. The program has accepted the script before this module reads it, so forms and
names are right, and only run-time faults occur here.
"""

from __future__ import annotations

import json
from dataclasses import dataclass, field, replace
from typing import Any, Callable, Dict, List, Optional, Tuple

from .language import GREATEST, LEAST


class Fault(Exception):
    """A cause A1 to A8 of an evaluation or a statement, with words for it."""

    def __init__(self, cause: str, words: str):
        super().__init__(words)
        self.cause = cause
        self.words = words


@dataclass(frozen=True)
class Row:
    """An object as it was found."""

    name: str
    key: int
    fields: Dict[str, Any]


@dataclass(frozen=True)
class Primitive:
    """Something that was signalled: an operation on an object, a signal, a commit event, or a moment."""

    kind: str
    name: str = ""
    key: Optional[int] = None
    old: Optional[Dict[str, Any]] = None
    new: Optional[Dict[str, Any]] = None
    arguments: Tuple[Any, ...] = ()
    moment: Optional[int] = None

    def __str__(self) -> str:
        if self.kind == "commit":
            return "the commit event"
        if self.kind == "time":
            return f"moment {self.moment}"
        if self.kind == "signal":
            arguments = ", ".join(value_text(value) for value in self.arguments)
            return f"signal {self.name} [{arguments}]"
        return f"{self.kind} {self.name} {self.key}"


@dataclass(frozen=True)
class Occurrence:
    """An event's occurrence, by the signals that make it up. For the statement `fire` it has none and the count 0.
    `is_counted` says that it contains a closure, so that the count is more than the number of parts."""

    signals: Tuple[Any, ...]
    count: int
    is_counted: bool = False

    @property
    def parts(self) -> Tuple[Primitive, ...]:
        return tuple(signal.primitive for signal in self.signals)


@dataclass
class Environment:
    """What an expression may name: the occurrence, rows by name, whole answers by the query's name, the values of
    `let`s, and the clock's moment."""

    occurrence: Optional[Occurrence] = None
    rows: Dict[str, Row] = field(default_factory=dict)
    answers: Dict[str, List[Row]] = field(default_factory=dict)
    values: Dict[str, Any] = field(default_factory=dict)
    now: int = 0

    def naming(self, name: str, row: Row) -> "Environment":
        """The same with one more row named."""
        return replace(self, rows={**self.rows, name: row})

    def holding(self, name: str, value: Any) -> "Environment":
        """The same with one more value named."""
        return replace(self, values={**self.values, name: value})


def value_text(value: Any) -> str:
    """A value as the report writes it."""
    if value is True or value is False:
        return "true" if value else "false"
    return str(value) if isinstance(value, int) else json.dumps(value, ensure_ascii=False)


def is_int(value: Any) -> bool:
    return isinstance(value, int) and not isinstance(value, bool)


def kind_of(value: Any) -> str:
    if isinstance(value, bool):
        return "bool"
    return "int" if isinstance(value, int) else "text"


def evaluate(expression: Any, environment: Environment) -> Any:
    """The expression's value; raises Fault with one of A3 to A6."""
    if not isinstance(expression, list):
        return expression
    word = expression[0]
    if word in _BINARY:
        left = evaluate(expression[1], environment)
        right = evaluate(expression[2], environment)
        return _BINARY[word](word, left, right)
    if word in ("and", "or"):
        return _decided(expression, environment)
    return _FORMS[word](expression, environment)


def truth(expression: Any, environment: Environment, what: str) -> bool:
    """The value of a predicate or a test, which must be a boolean."""
    value = evaluate(expression, environment)
    if not isinstance(value, bool):
        raise Fault("A3", f"{what} gives {value_text(value)}, which is no truth value")
    return value


def _in_range(value: int, words: str) -> int:
    if not LEAST <= value <= GREATEST:
        raise Fault("A4", words + " is outside 64 bits")
    return value


def put_together(word: str, total: Any, term: Any) -> Any:
    """What an aggregate of this word comes to with one more term; `total` is None before the first one."""
    if word == "count":
        return (total or 0) + 1
    if word == "sum":
        if not is_int(term):
            raise Fault("A3", f"`sum` asks for whole numbers and met {value_text(term)}")
        return _in_range((total or 0) + term, f"the sum {total or 0} + {value_text(term)}")
    if isinstance(term, bool):
        raise Fault("A3", f"`{word}` asks for whole numbers or texts and met {value_text(term)}")
    if total is None:
        return term
    return term if _ordered("<" if word == "least" else ">", term, total) else total


def key_after(greatest: Optional[int], name: str) -> int:
    """The next key of a class, by its greatest one."""
    return 1 if greatest is None else _in_range(greatest + 1, f"the next key of {name}")


def _arithmetic(word: str, left: Any, right: Any) -> int:
    if not (is_int(left) and is_int(right)):
        raise _unfit(word, left, right, "two whole numbers")
    words = f"{left} {word} {right}"
    if word in ("/", "%"):
        if right == 0:
            raise Fault("A5", words + " divides by zero")
        quotient = abs(left) // abs(right) * (1 if (left < 0) == (right < 0) else -1)
        _in_range(quotient, words)
        return quotient if word == "/" else left - quotient * right
    return _in_range({"+": left + right, "-": left - right, "*": left * right}[word], words)


def _equal(word: str, left: Any, right: Any) -> bool:
    if kind_of(left) != kind_of(right):
        raise _unfit(word, left, right, "two values of one kind")
    return (left == right) == (word == "=")


def _ordered(word: str, left: Any, right: Any) -> bool:
    if isinstance(left, str) and isinstance(right, str):
        left, right = left.encode(), right.encode()
    elif not (is_int(left) and is_int(right)):
        raise _unfit(word, left, right, "two whole numbers or two texts")
    return {"<": left < right, "<=": left <= right, ">": left > right, ">=": left >= right}[word]


def _unfit(word: str, left: Any, right: Any, wanted: str) -> Fault:
    return Fault("A3", f"`{word}` asks for {wanted} and met {value_text(left)} and {value_text(right)}")


_BINARY: Dict[str, Callable[[str, Any, Any], Any]] = {}
_BINARY.update({word: _arithmetic for word in ("+", "-", "*", "/", "%")})
_BINARY.update({word: _equal for word in ("=", "!=")})
_BINARY.update({word: _ordered for word in ("<", "<=", ">", ">=")})


def _decided(expression: List[Any], environment: Environment) -> bool:
    """`and` and `or`: the right side counts only if the left doesn't decide."""
    word = expression[0]
    left = truth(expression[1], environment, f"the left of `{word}`")
    if left == (word == "or"):
        return left
    return truth(expression[2], environment, f"the right of `{word}`")


def _negative(expression: List[Any], environment: Environment) -> int:
    value = evaluate(expression[1], environment)
    if not is_int(value):
        raise Fault("A3", f"`neg` asks for a whole number and met {value_text(value)}")
    return _in_range(-value, f"neg {value}")


def _not(expression: List[Any], environment: Environment) -> bool:
    return not truth(expression[1], environment, "what stands in `not`")


def _of(expression: List[Any], environment: Environment) -> Any:
    row = environment.rows[expression[1]]
    if expression[2] not in row.fields:
        raise Fault("A3", f"{row.name} {row.key} has no field {expression[2]}")
    return row.fields[expression[2]]


def _key(expression: List[Any], environment: Environment) -> int:
    return environment.rows[expression[1]].key


def _part(expression: List[Any], environment: Environment) -> Primitive:
    if environment.occurrence is None:
        raise Fault("A6", f"`{expression[0]}` stands where there is no occurrence")
    parts = environment.occurrence.parts
    if not parts:
        raise Fault("A6", f"`{expression[0]}` asks for part {expression[1]}, and a rule that `fire` runs has no event")
    if expression[1] >= len(parts):
        raise Fault("A6", f"the occurrence has no part {expression[1]}")
    return parts[expression[1]]


def _lacking(expression: List[Any], part: Primitive) -> Fault:
    return Fault("A6", f"part {expression[1]} is {part}, which has no `{expression[0]}`")


def _side(expression: List[Any], environment: Environment) -> Any:
    part = _part(expression, environment)
    row = part.new if expression[0] == "new" else part.old
    if row is None:
        raise _lacking(expression, part)
    if expression[2] not in row:
        raise Fault("A3", f"{part.name} {part.key} has no field {expression[2]}")
    return row[expression[2]]


def _id(expression: List[Any], environment: Environment) -> int:
    part = _part(expression, environment)
    if part.key is None:
        raise _lacking(expression, part)
    return part.key


def _argument(expression: List[Any], environment: Environment) -> Any:
    part = _part(expression, environment)
    if part.kind != "signal":
        raise _lacking(expression, part)
    if expression[2] >= len(part.arguments):
        raise Fault("A6", f"{part} has no argument {expression[2]}")
    return part.arguments[expression[2]]


def _moment(expression: List[Any], environment: Environment) -> int:
    part = _part(expression, environment)
    if part.moment is None:
        raise _lacking(expression, part)
    return part.moment


def _count(expression: List[Any], environment: Environment) -> int:
    if environment.occurrence is None:
        raise Fault("A6", "`count` stands where there is no occurrence")
    return _in_range(environment.occurrence.count, "the count")


_FORMS: Dict[str, Callable[[List[Any], Environment], Any]] = {
    "neg": _negative, "not": _not, "of": _of, "key": _key, "new": _side, "old": _side,
    "id": _id, "arg": _argument, "time": _moment, "count": _count,
    "value": lambda expression, environment: environment.values[expression[1]],
    "now": lambda expression, environment: _in_range(environment.now, "the moment"),
}
