"""The reading of bodies and statements, and of what they share with conditions: rows and values."""

from __future__ import annotations

from typing import Callable, Mapping

from ..language import RULE_OPERATIONS
from ..positions import Node
from .cursor import Cursor
from .expressions import begins_expression, read_expression, read_sum
from .tokens import Kind
from .words import AGGREGATES, LET, STATEMENTS

A_CLASS, A_ROW = "the name of a class", "a name for the row"


def read_body(cursor: Cursor, level: int = 1) -> Node:
    """A body that stands so deep in others. A `;` may stand after each statement."""
    cursor.check_level(level)
    start, statements = cursor.symbol("{").start, []
    while not cursor.is_symbol("}"):
        statements.append(read_statement(cursor, level))
        if cursor.is_symbol(";"):
            cursor.take()
    cursor.take()
    return cursor.listing(statements, start)


def read_statement(cursor: Cursor, level: int) -> Node:
    """A statement in a body of this level."""
    if not cursor.is_word(*STATEMENTS, called="a statement"):
        cursor.fault()
    word = cursor.take()
    return cursor.form(word.value, PARTS[word.value](cursor, level + 1), word.start)


# ---- rows and values


def read_rows(cursor: Cursor) -> list[Node]:
    """The name of a row, its class, and what is true of the row. The class stands first in the text."""
    class_name = cursor.name(A_CLASS)
    return [cursor.name(A_ROW), class_name, read_where(cursor)]


def read_where(cursor: Cursor) -> Node:
    if not cursor.is_word("where"):
        return cursor.absent(True)
    cursor.take()
    return read_expression(cursor)


def read_let(cursor: Cursor) -> list[Node]:
    """A name and its value, after the word `let`."""
    if not cursor.is_name("a name for the value") or cursor.is_now():
        cursor.fault()
    name = cursor.leaf()
    cursor.symbol("=")
    return [name, read_aggregate(cursor)]


def read_aggregate(cursor: Cursor) -> Node:
    """The value of a `let`: an aggregate, or an expression."""
    if not cursor.is_word(*AGGREGATES):
        return read_expression(cursor)
    word = cursor.take()
    if word.value == "next":
        return cursor.form("next", [cursor.name(A_CLASS)], word.start)
    if word.value == "count":
        return cursor.form("count", read_rows(cursor), word.start)
    term = read_expression(cursor)
    cursor.word("over")
    return cursor.form(word.value, [*read_rows(cursor), term], word.start)


# ---- the parts of statements, after their words


def no_parts(cursor: Cursor, level: int) -> list[Node]:
    return []


def parts_of_setting(cursor: Cursor, level: int) -> list[Node]:
    """Of `create` and `update`: an object, and the values of fields."""
    parts = read_object(cursor)
    if not cursor.is_word("set"):
        return [*parts, cursor.absent([])]
    start = cursor.now.start
    cursor.take()
    return [*parts, cursor.listing(cursor.several(read_pair, ","), start)]


def read_object(cursor: Cursor) -> list[Node]:
    """A class, and a key in parentheses."""
    class_name = cursor.name(A_CLASS)
    cursor.symbol("(")
    key = read_expression(cursor)
    cursor.symbol(")")
    return [class_name, key]


def read_pair(cursor: Cursor) -> Node:
    """A field and its value, in which a comparison has parentheses, so that no `=` follows the `=`."""
    field = cursor.name("the name of a field")
    cursor.symbol("=")
    return cursor.listing([field, read_sum(cursor)], field.start)


def parts_of_delete(cursor: Cursor, level: int) -> list[Node]:
    return read_object(cursor)


def parts_of_signal(cursor: Cursor, level: int) -> list[Node]:
    name = cursor.name("the name of a signal")
    if not cursor.is_symbol("("):
        return [name, cursor.absent([])]
    start = cursor.take().start
    arguments = [] if cursor.is_symbol(")") else cursor.several(read_expression, ",")
    cursor.symbol(")")
    return [name, cursor.listing(arguments, start)]


def parts_of_emit(cursor: Cursor, level: int) -> list[Node]:
    return [read_expression(cursor)]


def parts_of_if(cursor: Cursor, level: int) -> list[Node]:
    """`else if ..` is `else { if .. }`."""
    test, body = read_expression(cursor), read_body(cursor, level)
    if not cursor.is_word("else"):
        return [test, body, cursor.absent([])]
    start = cursor.take().start
    if not cursor.is_word("if"):
        return [test, body, read_body(cursor, level)]
    cursor.check_level(level)
    return [test, body, cursor.listing([read_statement(cursor, level)], start)]


def parts_of_each(cursor: Cursor, level: int) -> list[Node]:
    return [*read_rows(cursor), read_body(cursor, level)]


def parts_of_for(cursor: Cursor, level: int) -> list[Node]:
    return [cursor.name("the name of a query"), read_body(cursor, level)]


def parts_of_with(cursor: Cursor, level: int) -> list[Node]:
    """The name of the row stands last in the text."""
    parts = read_object(cursor)
    cursor.word("as")
    return [cursor.name(A_ROW), *parts, read_body(cursor, level)]


def parts_of_let(cursor: Cursor, level: int) -> list[Node]:
    return [*read_let(cursor), read_body(cursor, level)]


def parts_of_sub(cursor: Cursor, level: int) -> list[Node]:
    body = read_body(cursor, level)
    if not cursor.is_word("otherwise"):
        return [body, cursor.absent([])]
    cursor.take()
    return [body, read_body(cursor, level)]


def parts_of_veto(cursor: Cursor, level: int) -> list[Node]:
    """A message, if an expression begins here. The bare word `let` begins the next statement."""
    is_let = cursor.now.kind is Kind.WORD and cursor.now.value == LET
    return [read_expression(cursor)] if not is_let and begins_expression(cursor) else []


def parts_of_operation(cursor: Cursor, level: int) -> list[Node]:
    return [cursor.name("the name of a rule")]


PARTS: Mapping[str, Callable[[Cursor, int], list[Node]]] = {
    "create": parts_of_setting, "update": parts_of_setting, "delete": parts_of_delete, "signal": parts_of_signal,
    "emit": parts_of_emit, "if": parts_of_if, "each": parts_of_each, "for": parts_of_for, "with": parts_of_with,
    "let": parts_of_let, "sub": parts_of_sub, "abort": no_parts, "veto": parts_of_veto,
    **dict.fromkeys(RULE_OPERATIONS, parts_of_operation),
}
