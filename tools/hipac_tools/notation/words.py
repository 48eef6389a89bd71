"""The words of the notation, and the levels of its operators."""

from __future__ import annotations

import re
from dataclasses import dataclass
from enum import IntEnum

from .. import language
from ..language import MODES, OBJECT_OPERATIONS, RULE_OPERATIONS

NAME = re.compile(r"[A-Za-z][A-Za-z0-9_]*")

EVENTS = OBJECT_OPERATIONS + ("signal", "commit", "moment", "every", "closure")
"""The words that begin events."""
STATEMENTS = (
    OBJECT_OPERATIONS + ("signal", "emit", "if", "each", "for", "with", "let", "sub", "abort", "veto") + RULE_OPERATIONS
)
"""The words that begin statements."""
VALUES = ("not", "true", "false", "new", "old", "event")
"""The words that begin expressions, beside names."""
AGGREGATES = tuple(language.AGGREGATES)
"""At the beginning of a `let`'s value such a word begins an aggregate, and is no name. So an expression there that
begins with one of them as a name is in parentheses."""
LET = "let"
"""After `veto` this word begins the next statement, and is no name: a message that begins with it is in parentheses."""
LET_FROM = 4
"""The version from which on an entry of a condition that begins with this word is a `let`. Before, JSON has the same
parts for a row that is called so."""
NOW = "now"
"""As a whole value this word is the moment of the clock. A value of that name is in backquotes, and so is its `let`."""

RESERVED = frozenset(
    ("on", "if", "do", "where", "as", "set", "else", "otherwise", "then", "until", "and", "or", "key")
    + MODES + VALUES + tuple(word for word in STATEMENTS if word != LET)
)
"""The words that are no names unless they stand in backquotes. The others have a meaning only where no name can
stand."""


class Level(IntEnum):
    """The levels of expressions, the loosest first."""

    OR = 1
    AND = 2
    NOT = 3
    RELATION = 4
    SUM = 5
    PRODUCT = 6
    UNARY = 7
    OPERAND = 8


@dataclass(frozen=True)
class Operator:
    """The level of an operator of two operands, and the least levels of these."""

    level: Level
    left: Level
    right: Level


RELATIONS = ("=", "!=", "<", "<=", ">", ">=")
SUMS = ("+", "-")
PRODUCTS = ("*", "/", "%")
OPERATORS = {
    "or": Operator(Level.OR, Level.AND, Level.OR),
    "and": Operator(Level.AND, Level.NOT, Level.AND),
    **dict.fromkeys(RELATIONS, Operator(Level.RELATION, Level.SUM, Level.SUM)),
    **dict.fromkeys(SUMS, Operator(Level.SUM, Level.SUM, Level.PRODUCT)),
    **dict.fromkeys(PRODUCTS, Operator(Level.PRODUCT, Level.PRODUCT, Level.UNARY)),
}

MOST_NESTED = 64
"""So deep may each body, event and expression nest in a text, and so many operators may stand in a chain. A script that
isn't refused needs less."""
