"""The reading of expressions: a function for each level of operators, and one for operands.

The level of nesting grows in parentheses, after `not`, and right of `and` and `or`.
"""

from __future__ import annotations

from typing import Callable

from ..positions import Node
from .cursor import Cursor
from .tokens import Kind
from .words import PRODUCTS, RELATIONS, SUMS, VALUES

A_VALUE, AN_OPERATOR = "a value", "an operator"


def begins_expression(cursor: Cursor) -> bool:
    """Whether an expression begins at the token."""
    return (cursor.is_kind(Kind.NUMBER, A_VALUE) or cursor.is_kind(Kind.TEXT, A_VALUE)
            or cursor.is_symbol("(", "-", called=A_VALUE) or cursor.is_word(*VALUES, called=A_VALUE)
            or cursor.is_name(A_VALUE))


def read_expression(cursor: Cursor, level: int = 1) -> Node:
    cursor.check_level(level)
    left = read_conjunction(cursor, level)
    if not cursor.is_word("or", called=AN_OPERATOR):
        return left
    return joined(cursor, left, lambda: read_expression(cursor, level + 1))


def read_conjunction(cursor: Cursor, level: int) -> Node:
    cursor.check_level(level)
    left = read_negation(cursor, level)
    if not cursor.is_word("and", called=AN_OPERATOR):
        return left
    return joined(cursor, left, lambda: read_conjunction(cursor, level + 1))


def read_negation(cursor: Cursor, level: int) -> Node:
    cursor.check_level(level)
    if not cursor.is_word("not", called=A_VALUE):
        return read_comparison(cursor, level)
    start = cursor.take().start
    return cursor.form("not", [read_negation(cursor, level + 1)], start)


def read_comparison(cursor: Cursor, level: int) -> Node:
    """At most one comparison: they don't chain."""
    left = read_sum(cursor, level)
    if not cursor.is_symbol(*RELATIONS, called=AN_OPERATOR):
        return left
    return joined(cursor, left, lambda: read_sum(cursor, level))


def read_sum(cursor: Cursor, level: int = 1) -> Node:
    return read_chain(cursor, SUMS, lambda: read_product(cursor, level))


def read_product(cursor: Cursor, level: int) -> Node:
    return read_chain(cursor, PRODUCTS, lambda: read_unary(cursor, level))


def read_chain(cursor: Cursor, operators: tuple[str, ...], operand: Callable[[], Node]) -> Node:
    """Operands with operators between them, grouped to the left."""
    left, number = operand(), 0
    while cursor.is_symbol(*operators, called=AN_OPERATOR):
        cursor.check_chain(number)
        left, number = joined(cursor, left, operand), number + 1
    return left


def joined(cursor: Cursor, left: Node, right: Callable[[], Node]) -> Node:
    """The operator at the token, with its operands."""
    operator = cursor.take().value
    return cursor.form(operator, [left, right()], left.start)


def read_unary(cursor: Cursor, level: int) -> Node:
    """An operand, perhaps with a `-` before it. A number right after that is a negative number."""
    if not cursor.is_symbol("-", called=A_VALUE):
        return cursor.number(A_VALUE) if cursor.is_kind(Kind.NUMBER, A_VALUE) else read_operand(cursor, level)
    start = cursor.take().start
    if cursor.is_kind(Kind.NUMBER, A_VALUE):
        return Node(-cursor.take().value, start, cursor.end)
    return cursor.form("neg", [read_operand(cursor, level)], start)


def read_operand(cursor: Cursor, level: int) -> Node:
    """An operand that is no number."""
    if cursor.is_kind(Kind.TEXT, A_VALUE):
        return cursor.leaf()
    if cursor.is_word("true", "false", called=A_VALUE):
        token = cursor.take()
        return Node(token.value == "true", token.start, token.end)
    if cursor.is_symbol("(", called=A_VALUE):
        cursor.take()
        inner = read_expression(cursor, level + 1)
        cursor.symbol(")")
        return inner
    if cursor.is_word("new", "old", called=A_VALUE):
        tag, part = cursor.take(), read_part(cursor)
        cursor.symbol(".")
        return cursor.form(tag.value, [part, cursor.name("the name of a field")], tag.start)
    return read_of_event(cursor) if cursor.is_word("event", called=A_VALUE) else read_named(cursor)


def read_named(cursor: Cursor) -> Node:
    """A name alone, or what a row of that name has. The bare word `now` alone is the moment of the clock."""
    is_now, name = cursor.is_now(), cursor.name(A_VALUE)
    if not cursor.is_symbol("."):
        return cursor.form("now", [], name.start) if is_now else cursor.form("value", [name], name.start)
    cursor.take()
    if cursor.is_word("key"):
        cursor.take()
        return cursor.form("key", [name], name.start)
    return cursor.form("of", [name, cursor.name("the name of a field")], name.start)


def read_part(cursor: Cursor) -> Node:
    """The number of a part of the event; the first one needs none."""
    if not cursor.is_symbol("["):
        return cursor.absent(0)
    cursor.take()
    number = cursor.number("a number, that of a part")
    cursor.symbol("]")
    return number


def read_of_event(cursor: Cursor) -> Node:
    """What a part of the event has, or the number of its occurrences."""
    start, has_part = cursor.take().start, cursor.is_symbol("[")
    part = read_part(cursor)
    cursor.symbol(".")
    if not has_part and cursor.is_word("count"):
        cursor.take()
        return cursor.form("count", [], start)
    if not cursor.is_word("key", "time", "arg"):
        cursor.fault()
    word = cursor.take().value
    if word != "arg":
        return cursor.form("id" if word == "key" else "time", [part], start)
    cursor.symbol("(")
    number = cursor.number("a number, that of an argument")
    cursor.symbol(")")
    return cursor.form("arg", [part, number], start)
