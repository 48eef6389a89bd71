"""The canonical text of bodies and statements, and of what they share with conditions: rows and values."""

from __future__ import annotations

from ..language import Form
from .expression_texts import expression_text, message_text, name_text, single_text, value_name_text
from .words import Level

INDENT = "  "


def new_line(depth: int) -> str:
    return "\n" + INDENT * depth


# ---- rows and values


def rows_text(name: str, class_name: str, predicate: Form) -> str:
    where = "" if predicate is True else f" where {expression_text(predicate)}"
    return f"{name_text(class_name)} {name_text(name)}{where}"


def let_text(name: str, aggregate: Form) -> str:
    """A `let` with its value; in a statement the body follows."""
    return f"let {value_name_text(name)} = {aggregate_text(aggregate)}"


def aggregate_text(aggregate: Form) -> str:
    """The value of a `let`."""
    if not isinstance(aggregate, list) or len(aggregate) == 1:
        return single_text(aggregate)
    word, *parts = aggregate
    if word == "next":
        return f"next {name_text(parts[0])}"
    if word == "count":
        return f"count {rows_text(*parts)}"
    if word in ("sum", "least", "greatest"):
        return f"{word} {expression_text(parts[3])} over {rows_text(*parts[:3])}"
    return single_text(aggregate)


# ---- bodies and statements


def body_text(body: list[Form], depth: int) -> str:
    """A body whose last line is at this depth."""
    if not body:
        return "{}"
    inner = "".join(new_line(depth + 1) + statement_text(statement, depth + 1) for statement in body)
    return f"{{{inner}{new_line(depth)}}}"


def statement_text(statement: Form, depth: int = 0) -> str:
    """A statement at this depth."""
    word, *parts = statement
    if word in ("create", "update"):
        return f"{word} {object_text(*parts[:2])}{pairs_text(parts[2])}"
    if word == "delete":
        return f"delete {object_text(*parts)}"
    if word == "signal":
        return f"signal {name_text(parts[0])}{arguments_text(parts[1])}"
    if word == "emit":
        return f"emit {expression_text(parts[0])}"
    if word == "veto":
        return f"veto {message_text(parts[0])}" if parts else "veto"
    if word == "abort":
        return word
    return nesting_text(word, parts, depth)


def nesting_text(word: str, parts: list[Form], depth: int) -> str:
    """A statement with bodies, or an operation on a rule."""
    if word == "if":
        test, body, other = parts
        return f"if {expression_text(test)} {body_text(body, depth)}{after_text('else', other, depth)}"
    if word == "sub":
        return f"sub {body_text(parts[0], depth)}{after_text('otherwise', parts[1], depth)}"
    if word == "each":
        return f"each {rows_text(*parts[:3])} {body_text(parts[3], depth)}"
    if word == "for":
        return f"for {name_text(parts[0])} {body_text(parts[1], depth)}"
    if word == "with":
        name, class_name, key, body = parts
        return f"with {object_text(class_name, key)} as {name_text(name)} {body_text(body, depth)}"
    if word == "let":
        return f"{let_text(*parts[:2])} {body_text(parts[2], depth)}"
    return f"{word} {name_text(parts[0])}"


def after_text(word: str, body: list[Form], depth: int) -> str:
    """A word and a body; nothing if the body is empty."""
    return f" {word} {body_text(body, depth)}" if body else ""


def object_text(class_name: str, key: Form) -> str:
    return f"{name_text(class_name)}({expression_text(key)})"


def pairs_text(pairs: list[Form]) -> str:
    values = ", ".join(f"{name_text(field)} = {expression_text(value, Level.SUM)}" for field, value in pairs)
    return f" set {values}" if pairs else ""


def arguments_text(arguments: list[Form]) -> str:
    return f"({', '.join(map(expression_text, arguments))})" if arguments else ""
