"""The reading of events."""

from __future__ import annotations

from ..language import OBJECT_OPERATIONS
from ..positions import Node
from .cursor import Cursor
from .words import EVENTS

AN_EVENT = "an event"
JOINTS = {"or": "or", "then": "seq"}


def read_event(cursor: Cursor, level: int = 1) -> Node:
    """An event that stands so deep in others. It has `or` or `then`, whichever comes first, and no other."""
    cursor.check_level(level)
    event = read_simple_event(cursor, level)
    if not cursor.is_word(*JOINTS):
        return event
    word, number = cursor.now.value, 0
    while cursor.is_word(word):
        cursor.check_chain(number)
        cursor.take()
        event = cursor.form(JOINTS[word], [event, read_simple_event(cursor, level)], event.start)
        number += 1
    return event


def read_simple_event(cursor: Cursor, level: int) -> Node:
    """An event that isn't `or` or `then`, or one in parentheses."""
    if cursor.is_symbol("(", called=AN_EVENT):
        cursor.take()
        event = read_event(cursor, level + 1)
        cursor.symbol(")")
        return event
    if not cursor.is_word(*EVENTS, called=AN_EVENT):
        cursor.fault()
    word = cursor.take()
    if word.value in OBJECT_OPERATIONS:
        return cursor.form(word.value, [cursor.name("the name of a class")], word.start)
    if word.value == "signal":
        return cursor.form(word.value, [cursor.name("the name of a signal")], word.start)
    if word.value == "moment":
        return cursor.form("at", [cursor.number("a number, the moment")], word.start)
    if word.value == "every":
        return read_every(cursor, word.start)
    return read_closure(cursor, word.start, level) if word.value == "closure" else cursor.form("commit", [], word.start)


def read_every(cursor: Cursor, start: int) -> Node:
    """After the word `every`. The period stands first in the text."""
    period = cursor.number("a number, the period")
    cursor.word("from")
    return cursor.form("every", [cursor.number("a number, the first moment"), period], start)


def read_closure(cursor: Cursor, start: int, level: int) -> Node:
    """After the word `closure`."""
    cursor.symbol("(")
    each = read_event(cursor, level + 1)
    cursor.word("until")
    last = read_event(cursor, level + 1)
    cursor.symbol(")")
    return cursor.form("closure", [each, last], start)
