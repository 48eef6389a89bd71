"""The language of scripts as data, once for all tools: forms with their parts, modes and kinds, limits.

A form is a list that begins with a word. `check` names the parts of a form in its messages. Code that walks over a
script asks for the sort of a part: another form, a body, or a plain value. This module also answers the questions about
an event or a predicate that several tools ask.
"""

from __future__ import annotations

import re
from dataclasses import dataclass
from itertools import islice, product
from typing import Any, Iterable, Iterator, Mapping, Optional

Form = Any
"""An event, an expression or a statement, as JSON gives it."""

# ---- forms: the words, and for each the names of its parts

OBJECT_OPERATIONS = ("create", "update", "delete")
STATUS_OPERATIONS = ("install", "enable", "disable", "remove")
RULE_OPERATIONS = STATUS_OPERATIONS + ("fire",)
RANGES = ("=", "<", "<=", ">", ">=")
"""The comparisons of which a predicate's first one says which objects are looked at."""
TWO_OPERANDS = ("+", "-", "*", "/", "%", "and", "or", "=", "!=", "<", "<=", ">", ">=")
ONE_OPERAND = ("neg", "not")
COMPOSITE = ("or", "seq", "closure")

EVENTS: dict[str, tuple[str, ...]] = {
    **{word: ("class",) for word in OBJECT_OPERATIONS},
    "signal": ("name",), "commit": (), "at": ("t",), "every": ("first", "period"),
    **{word: ("event", "event") for word in COMPOSITE},
}

OF_THE_OCCURRENCE: dict[str, tuple[str, ...]] = {
    "new": ("i", "field"), "old": ("i", "field"), "id": ("i",), "arg": ("i", "j"), "time": ("i",), "count": (),
}
OF_A_PART = tuple(word for word, parts in OF_THE_OCCURRENCE.items() if "i" in parts)
OF_A_ROW: dict[str, tuple[str, ...]] = {"of": ("row", "field"), "key": ("row",)}
OF_A_LET: dict[str, tuple[str, ...]] = {"value": ("let",)}
OF_THE_CLOCK: dict[str, tuple[str, ...]] = {"now": ()}
LEAVES = (*OF_A_ROW, *OF_THE_OCCURRENCE, *OF_A_LET, *OF_THE_CLOCK)
"""The forms that take a value from something else than expressions."""
EXPRESSIONS: dict[str, tuple[str, ...]] = {
    **{word: ("a", "b") for word in TWO_OPERANDS}, **{word: ("a",) for word in ONE_OPERAND},
    **OF_A_ROW, **OF_THE_OCCURRENCE, **OF_A_LET, **OF_THE_CLOCK,
}

OVER_ROWS: dict[str, tuple[str, ...]] = {
    "count": ("x", "class", "predicate"),
    **{word: ("x", "class", "predicate", "term") for word in ("sum", "least", "greatest")},
}
AGGREGATES: dict[str, tuple[str, ...]] = {**OVER_ROWS, "next": ("class",)}
"""What stands in a `let` beside expressions."""

ENTRIES: dict[str, tuple[str, ...]] = {"no": ("x", "class", "predicate"), "let": ("name", "aggregate")}
"""The entries of a condition that are no queries."""

STATEMENTS: dict[str, tuple[str, ...]] = {
    "create": ("class", "key", "pairs"), "update": ("class", "key", "pairs"), "delete": ("class", "key"),
    "signal": ("name", "args"), "emit": ("expression",), "if": ("expression", "body", "body"),
    "each": ("name", "class", "predicate", "body"), "for": ("query", "body"),
    "with": ("name", "class", "key", "body"), "let": ("name", "aggregate", "body"), "sub": ("body", "otherwise"),
    "abort": (), "veto": ("message?",),
    **{word: ("rule",) for word in RULE_OPERATIONS},
}

OPTIONAL = "?"
"""Ends the name of a last part that may be left out."""

ITEMS: dict[str, tuple[str, ...]] = {"tx": ("body",), "clock": ("t",)}

# ---- the versions

VERSIONS = (1, 2, 4)
OF_FOURTH_VERSION = ("value", "now", "let", "no", *AGGREGATES)
"""The words of version 4, each in its place; elsewhere `count` and `next` are no new words."""
CLOSED = "closed"
"""A rule's seventh part."""


def is_fourth(version: int) -> bool:
    return version == 4


def expressions_of(version: int) -> dict[str, tuple[str, ...]]:
    return EXPRESSIONS if is_fourth(version) else {word: parts for word, parts in EXPRESSIONS.items()
                                                   if word not in (*OF_A_LET, *OF_THE_CLOCK)}


def statements_of(version: int) -> dict[str, tuple[str, ...]]:
    if is_fourth(version):
        return STATEMENTS
    return {word: () if word == "veto" else parts for word, parts in STATEMENTS.items() if word != "let"}


def counts(parts: tuple[str, ...]) -> range:
    """How many parts a form may have after its word."""
    return range(len(parts) - any(part.endswith(OPTIONAL) for part in parts), len(parts) + 1)

# ---- the sort of each part, by its name


NAME, PLACE, MOMENT, PERIOD, EVENT, EXPRESSION, AGGREGATE, PAIRS, ARGUMENTS, BODY = (
    "name", "place", "moment", "period", "event", "expression", "aggregate", "pairs", "arguments", "body")
SORTS = {
    **dict.fromkeys(("name", "class", "row", "field", "query", "rule", "let", "x"), NAME),
    **dict.fromkeys(("i", "j"), PLACE), "t": MOMENT, "first": MOMENT, "period": PERIOD, "event": EVENT,
    **dict.fromkeys(("a", "b", "expression", "predicate", "key", "term", "message?"), EXPRESSION),
    "aggregate": AGGREGATE, "pairs": PAIRS, "args": ARGUMENTS, "body": BODY, "otherwise": BODY,
}

# ---- what a part of an occurrence has

HAVING: dict[str, tuple[str, ...]] = {
    "new": ("create", "update"), "old": ("update", "delete"), "id": OBJECT_OPERATIONS, "arg": ("signal",),
    "time": ("at", "every"),
}
"""The simple events whose occurrence has the value that a form asks a part for."""

# ---- modes, kinds and limits

MODES = ("immediate", "deferred", "separate", "dependent", "exclusive")
SECOND_VERSION_MODE = "exclusive"
DETACHED = ("separate", "dependent", "exclusive")
"""The modes whose tasks run in a top-level transaction of their own."""

KINDS = ("int", "bool", "text")
DEFAULT_DEPTH, MOST_DEPTH = 8, 16
MOST_LEVELS = 16
"""So deep do events, expressions and statements nest."""
MOST_MOMENTS = 1_000
MOST_SHAPES = 64
"""So many kinds of occurrences of one event are told apart."""
MOST_PLACE = 65_535
NAME_LETTERS, MOST_NAME_BYTES = re.compile(r"[A-Za-z][A-Za-z0-9_]*"), 32
LEAST, GREATEST = -(2 ** 63), 2 ** 63 - 1


def modes_of(version: int) -> tuple[str, ...]:
    return tuple(mode for mode in MODES if mode != SECOND_VERSION_MODE) if version == 1 else MODES


def is_name(text: str) -> bool:
    return NAME_LETTERS.fullmatch(text) is not None and len(text) <= MOST_NAME_BYTES


def sorts(parts: Iterable[str]) -> list[str]:
    """The sorts of a form's parts."""
    return [SORTS[part] for part in parts]


def statements(body: list[Form]) -> Iterator[Form]:
    """All statements of a body and its inner bodies, in written order."""
    for statement in body:
        yield statement
        for part, sort in zip(statement[1:], sorts(STATEMENTS[statement[0]])):
            if sort == BODY:
                yield from statements(part)


def is_beginning(items: list[Form]) -> bool:
    """Whether a script's items only install rules and create objects, and so are the beginning of a rule base that
    stays up: what its rules wait for comes later."""
    if not all(word == "tx" for word, _ in items):
        return False
    words = {statement[0] for _, body in items for statement in body}
    return "install" in words and words <= {"install", "create"}


# ---- events

def patterns(event: Form) -> Iterator[Form]:
    """The simple events that an event is made of, from left to right."""
    if event[0] not in COMPOSITE:
        yield event
        return
    for part in event[1:]:
        yield from patterns(part)


def has_one_part(event: Form) -> bool:
    """Whether each occurrence of an event is one simple occurrence: it has no `seq` and no `closure`. Such an event
    doesn't depend on the past."""
    if event[0] == "or":
        return has_one_part(event[1]) and has_one_part(event[2])
    return event[0] not in COMPOSITE


def shapes(event: Form) -> Optional[list[tuple[Form, ...]]]:
    """The simple events of the parts of an event's occurrences, one list for each choice of `or`; None if there are
    very many."""
    found = list(islice(_shapes(event), MOST_SHAPES + 1))
    return found if len(found) <= MOST_SHAPES else None


def _shapes(event: Form) -> Iterator[tuple[Form, ...]]:
    if event[0] == "or":
        for part in event[1:]:
            yield from _shapes(part)
    elif event[0] in COMPOSITE:
        first, second = (list(islice(_shapes(part), MOST_SHAPES + 1)) for part in event[1:])
        yield from (a + b for a, b in product(first, second))
    else:
        yield (event,)


def moments_of(pattern: Form, former: int, now: int) -> range:
    """The moments above `former` and up to `now` that a simple event names: all, or one more than the limit."""
    if pattern[0] == "at":
        return range(pattern[1], pattern[1] + 1) if former < pattern[1] <= now else range(0)
    if pattern[0] != "every":
        return range(0)
    first, period = pattern[1:]
    turns_past = max(0, (former - first) // period + 1)
    return range(first + turns_past * period, now + 1, period)[:MOST_MOMENTS + 1]


def due_moments(events: Iterable[Form], former: int, now: int) -> list[int]:
    """The moments that are due when the clock moves from `former` to `now`: all, or one more than the limit."""
    moments = {moment for event in events for pattern in patterns(event) for moment in moments_of(pattern, former, now)}
    return sorted(moments)[:MOST_MOMENTS + 1]


# ---- aggregates


@dataclass(frozen=True)
class Over:
    """The rows that a query, `no` or an aggregate looks at, and the term that an aggregate takes of each."""

    name: str
    class_name: str
    predicate: Form
    term: Optional[Form] = None


def is_over_rows(aggregate: Form) -> bool:
    """Whether it is an aggregate over rows; `["count"]` by itself is an expression."""
    return isinstance(aggregate, list) and aggregate[0] in OVER_ROWS and len(aggregate) > 1


def over(aggregate: Form) -> Optional[Over]:
    """What an aggregate over rows looks at; None for another one and for an expression."""
    return Over(*aggregate[1:]) if is_over_rows(aggregate) else None


def needs_no_row(aggregate: Form) -> bool:
    """Whether an aggregate over rows looks at no row: the number of a class's objects, or their least or greatest
    key."""
    rows = over(aggregate)
    if rows is None or rows.predicate is not True:
        return False
    return rows.term is None or aggregate[0] in ("least", "greatest") and rows.term == ["key", rows.name]


def is_next(aggregate: Form) -> bool:
    return isinstance(aggregate, list) and aggregate[0] == "next"


def is_single(aggregate: Form) -> bool:
    """Whether it is an expression."""
    return not is_over_rows(aggregate) and not is_next(aggregate)


# ---- predicates

def is_key_asked(name: str, test: Form) -> bool:
    """Whether a test compares the key of its row with an expression that doesn't depend on the row."""
    key = ["key", name]
    if not isinstance(test, list) or test[0] != "=" or key not in test[1:]:
        return False
    return not names_row(test[2] if test[1] == key else test[1], name)


def asks_part(name: str, predicate: Form, kinds: Mapping[str, str]) -> bool:
    """Whether a predicate begins by comparing the key of its row, or a field, with an expression that doesn't depend on
    the row, so that only the objects that meet this are looked at. `kinds` are those of the class's fields."""
    test = conjuncts(predicate)[0]
    if not isinstance(test, list) or test[0] not in RANGES:
        return False
    return any(_is_ordered(side, name, kinds) and not names_row(other, name)
               for side, other in (test[1:], test[:0:-1]))


def _is_ordered(side: Form, name: str, kinds: Mapping[str, str]) -> bool:
    """Whether an expression is the key of the row, or a field of it by which objects are in order: no boolean."""
    if side == ["key", name]:
        return True
    return isinstance(side, list) and side[:2] == ["of", name] and kinds.get(side[2]) in ("int", "text")


def conjuncts(predicate: Form) -> list[Form]:
    """The tests that `and` joins, in the order of evaluation."""
    if isinstance(predicate, list) and predicate[0] == "and":
        return conjuncts(predicate[1]) + conjuncts(predicate[2])
    return [predicate]


def names_row(expression: Form, name: str) -> bool:
    """Whether an expression depends on the row itself, which isn't known before the object is found."""
    return any(leaf[0] in OF_A_ROW and leaf[1] == name for leaf in leaves(expression))


def leaves(expression: Form) -> list[Form]:
    """The forms in an expression that take a value from something else, from left to right."""
    if not isinstance(expression, list):
        return []
    if expression[0] in LEAVES:
        return [expression]
    return [leaf for part in expression[1:] for leaf in leaves(part)]
