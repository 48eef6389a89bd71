"""The reading of scripts, and of lines to a running rule base.

A text becomes the tree that JSON has, with the place of each value. What is read isn't checked yet: unknown names,
limits and the like are found as they are in JSON.
"""

from __future__ import annotations

from typing import Callable

from ..language import KINDS, MODES
from ..positions import Node
from .cursor import Cursor
from .events import read_event
from .statements import read_body, read_let, read_rows
from .tokens import Kind, NotText
from .words import LET, LET_FROM

A_CLASS, A_FIELD, A_RULE = "the name of a class", "the name of a field", "the name of a rule"
THE_END = "the end"


def read_text(text: str) -> Node:
    """The tree of a script; raises NotText at the first place that no script could have."""
    return read_script(Cursor(text))


def read_bytes(content: bytes) -> Node:
    """The same of bytes: a text ends where they are no UTF-8, and that is a fault in its turn."""
    text = decoded(content)
    return read_script(Cursor(text, is_cut=len(text.encode("utf-8")) < len(content)))


def decoded(content: bytes) -> str:
    """The text of bytes, up to the first that is no UTF-8."""
    try:
        return content.decode("utf-8")
    except UnicodeDecodeError as fault:
        return content[:fault.start].decode("utf-8")


def read_line(text: str) -> Node:
    """The tree of a line to a running rule base: an item, or `show`."""
    cursor = Cursor(text)
    if not cursor.is_word("transaction", "clock", "show"):
        cursor.fault()
    if cursor.now.value == "show":
        line = cursor.form("show", [], cursor.take().start)
    else:
        line = read_item(cursor)
    check_end(cursor)
    return line


def read_script(cursor: Cursor) -> Node:
    """The classes come first, then the rules, then the items."""
    script = Node({}, cursor.now.start, cursor.now.end)
    key = cursor.word("version")
    put(script, "version", cursor.number("a number, the version"), key.start)
    cursor.version = script.value["version"]
    if cursor.is_word("depth"):
        key = cursor.take()
        put(script, "depth", cursor.number("a number, the depth"), key.start)
    put(script, "classes", read_each(cursor, read_class, "class"))
    put(script, "rules", read_each(cursor, read_rule, "rule"))
    put(script, "items", read_each(cursor, read_item, "transaction", "clock"))
    check_end(cursor)
    script.end = max(script.start, cursor.end)
    return script


def check_end(cursor: Cursor) -> None:
    if not cursor.is_kind(Kind.END, THE_END):
        cursor.fault()


def put(script: Node, name: str, member: Node, at: int | None = None) -> None:
    """A member of the script. Its name has the place of its word, or of the member itself."""
    start = member.start if at is None else at
    script.members[name] = (Node(name, start, start + len(name)), member)
    script.value[name] = member.value


def read_each(cursor: Cursor, read: Callable[[Cursor], Node], *words: str) -> Node:
    """Parts, for as long as one of the words begins another."""
    start, parts = cursor.now.start, []
    while cursor.is_word(*words):
        parts.append(read(cursor))
    return cursor.listing(parts, start)


def read_class(cursor: Cursor) -> Node:
    start = cursor.take().start
    name = cursor.name(A_CLASS)
    begin = cursor.symbol("{").start
    fields = cursor.several(read_field, ",") if cursor.is_name(A_FIELD) else []
    cursor.symbol("}")
    return cursor.listing([name, cursor.listing(fields, begin)], start)


def read_field(cursor: Cursor) -> Node:
    name = cursor.name(A_FIELD)
    cursor.symbol(":")
    kind = cursor.leaf() if cursor.is_word(*KINDS) else cursor.fault()
    return cursor.listing([name, kind], name.start)


def read_rule(cursor: Cursor) -> Node:
    start = cursor.take().start
    name = cursor.name(A_RULE)
    closed = [cursor.leaf()] if cursor.is_word("closed") else []
    cursor.word("on")
    event, first_mode = read_event(cursor), read_mode(cursor)
    queries = read_each(cursor, read_query, "if")
    cursor.word("do")
    second_mode, action = read_mode(cursor), read_body(cursor)
    return cursor.listing([name, event, first_mode, queries, second_mode, action, *closed], start)


def read_mode(cursor: Cursor) -> Node:
    """A mode that isn't written is `immediate`."""
    return cursor.leaf() if cursor.is_word(*MODES, called="a mode") else cursor.absent("immediate")


def read_query(cursor: Cursor) -> Node:
    """An entry of a condition, with the word `if` before it."""
    cursor.take()
    start = cursor.now.start
    if not cursor.is_word("some", "no", LET):
        cursor.fault()
    if cursor.now.value == LET:
        return read_let_entry(cursor, start)
    word = cursor.take().value
    rows = read_rows(cursor)
    if word == "no":
        return cursor.form(word, rows, start)
    name = rows[0]
    if name.value == LET and cursor.version >= LET_FROM:
        raise NotText(f"from version {LET_FROM} on, a row of a condition isn't called `let`", name.start, name.end)
    return cursor.listing(rows, start)


def read_let_entry(cursor: Cursor, start: int) -> Node:
    """A `let` of a condition. Before version 4 its tree would be that of a row that is called `let`."""
    if cursor.version < LET_FROM:
        cursor.refuse(f"a `let` of a condition needs version {LET_FROM}")
    cursor.take()
    return cursor.form(LET, read_let(cursor), start)


def read_item(cursor: Cursor) -> Node:
    """A transaction, or a move of the clock."""
    word = cursor.take()
    if word.value == "clock":
        return cursor.form("clock", [cursor.number("a number, the new time")], word.start)
    return cursor.form("tx", [read_body(cursor)], word.start)
