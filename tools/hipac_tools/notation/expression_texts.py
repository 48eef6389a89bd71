"""The canonical text of names, texts and expressions.

An expression is in parentheses where its level is below the least one of its place, and nowhere else.
"""

from __future__ import annotations

from dataclasses import dataclass

from ..language import Form
from .words import AGGREGATES, LET, NAME, NOW, OPERATORS, RESERVED, Level

ESCAPES = {'"': '\\"', "\\": "\\\\", "\b": "\\b", "\f": "\\f", "\n": "\\n", "\r": "\\r", "\t": "\\t"}


@dataclass(frozen=True)
class Levelled:
    """The text of an expression without parentheses round it, and its level."""

    text: str
    level: Level = Level.OPERAND

    def within(self, least: Level) -> str:
        """The text in a place that has this least level."""
        return self.text if self.level >= least else f"({self.text})"


# ---- names and texts


def name_text(name: str) -> str:
    """A name, in backquotes if it is a reserved word."""
    return f"`{name}`" if name in RESERVED else name


def value_name_text(name: str) -> str:
    """The name of a `let` or a value, in backquotes also if it is the word for the moment."""
    return f"`{NOW}`" if name == NOW else name_text(name)


def quoted(text: str) -> str:
    """A text in quotes. Only quotes, backslashes and control characters are escaped."""
    return '"' + "".join(ESCAPES.get(one) or (one if ord(one) >= 32 else f"\\u{ord(one):04x}") for one in text) + '"'


# ---- expressions


def expression_text(expression: Form, least: Level = Level.OR) -> str:
    """An expression in a place that has this least level."""
    return levelled(expression).within(least)


def levelled(expression: Form) -> Levelled:
    """An expression without parentheses round it."""
    if not isinstance(expression, list):
        return literal(expression)
    word, *parts = expression
    if word in OPERATORS:
        operator = OPERATORS[word]
        left, right = expression_text(parts[0], operator.left), expression_text(parts[1], operator.right)
        return Levelled(f"{left} {word} {right}", operator.level)
    if word == "not":
        return Levelled(f"not {expression_text(parts[0], Level.NOT)}", Level.NOT)
    if word == "neg":
        return negated(parts[0])
    return Levelled(leaf_text(word, parts))


def literal(value: Form) -> Levelled:
    if isinstance(value, bool):
        return Levelled("true" if value else "false")
    if isinstance(value, int):
        return Levelled(str(value), Level.UNARY if value < 0 else Level.OPERAND)
    return Levelled(quoted(value))


def negated(operand: Form) -> Levelled:
    """A `-` before an operand. A number has parentheses there, since a number right after a `-` is a negative one."""
    is_number = isinstance(operand, int) and not isinstance(operand, bool)
    text = f"({operand})" if is_number else expression_text(operand, Level.OPERAND)
    return Levelled(f"-{text}", Level.UNARY)


def leaf_text(word: str, parts: list[Form]) -> str:
    """A form that takes a value from a row, from the event, from a `let` or from the clock."""
    if word == "of":
        return f"{name_text(parts[0])}.{name_text(parts[1])}"
    if word == "key":
        return f"{name_text(parts[0])}.key"
    if word == "value":
        return value_name_text(parts[0])
    if word == NOW:
        return NOW
    if word in ("new", "old"):
        return f"{word}{part_text(parts[0])}.{name_text(parts[1])}"
    if word == "count":
        return "event.count"
    what = {"id": "key", "time": "time"}.get(word) or f"arg({parts[1]})"
    return f"event{part_text(parts[0])}.{what}"


def part_text(part: int) -> str:
    """The number of a part of the event; the first one needs none."""
    return f"[{part}]" if part else ""


# ---- where words go before names


def apart(text: str, words: tuple[str, ...]) -> str:
    """An expression, in parentheses if it begins with a bare word that would be read as another one."""
    first = NAME.match(text)
    return f"({text})" if first is not None and first.group() in words else text


def message_text(expression: Form) -> str:
    """An expression after `veto`."""
    return apart(expression_text(expression), (LET,))


def single_text(expression: Form) -> str:
    """An expression that is the value of a `let`."""
    return apart(expression_text(expression), AGGREGATES)
