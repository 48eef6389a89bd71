"""How messages name the forms of the language, and the words that other languages have in their places."""

from __future__ import annotations

from dataclasses import dataclass
from typing import Mapping

from .. import language


@dataclass(frozen=True)
class Shape:
    """A list of fixed parts, as `[name, fields]`."""

    what: str
    parts: tuple[str, ...]

    def written(self) -> str:
        return f"[{', '.join(self.parts)}]"


@dataclass(frozen=True)
class Grammar:
    """Lists that begin with a word; the word says which parts follow."""

    what: str
    words: Mapping[str, tuple[str, ...]]
    habits: Mapping[str, str]
    """Words that other languages have in these places, with the word meant."""
    later: tuple[str, ...] = ()
    """Words of later versions than the script's."""

    def written(self, word: str) -> str:
        return f"[{', '.join((quoted(word), *self.words[word]))}]".replace(language.OPTIONAL, "")

    def named(self) -> str:
        """`event` of `an event`."""
        return self.what.split(" ", 1)[1]


def quoted(word: str) -> str:
    return f'"{word}"'


CLASS = Shape("a class", ("name", "fields"))
FIELD = Shape("a field", ("name", "kind"))
RULE = Shape("a rule", ("name", "event", "ec", "queries", "ca", "action"))
CLOSED_RULE = Shape("a rule", (*RULE.parts, quoted(language.CLOSED)))
QUERY = Shape("a query", ("name", "class", "predicate"))
PAIR = Shape("a pair", ("field", "expression"))

ROOT_MEMBERS = {
    "version": "the number 1, 2 or 4",
    "depth": "how deep firings may nest, 1 to 16",
    "classes": "a list of classes, perhaps empty",
    "rules": "a list of rules, perhaps empty",
    "items": "a list of transactions and clock moves, perhaps empty",
}
NEEDED_MEMBERS = ("version", "classes", "rules", "items")

KIND_HABITS = {
    "integer": "int", "number": "int", "long": "int", "i64": "int", "int64": "int",
    "boolean": "bool", "string": "text", "str": "text",
}

MODE_HABITS = {
    "now": "immediate", "later": "deferred", "detached": "separate", "decoupled": "separate", "independent": "separate",
}

EVENTS = Grammar(
    "an event",
    language.EVENTS,
    {
        "insert": "create", "modify": "update", "change": "update", "remove": "delete", "then": "seq",
        "sequence": "seq", "any": "or", "time": "at",
    },
)

EXPRESSION_HABITS = {
    "==": "=", "eq": "=", "is": "=", "<>": "!=", "ne": "!=", "lt": "<", "le": "<=", "=<": "<=", "gt": ">",
    "ge": ">=", "=>": ">=", "&&": "and", "||": "or", "!": "not", "mod": "%", "rem": "%", "div": "/", "add": "+",
    "plus": "+", "sub": "-", "minus": "-", "mul": "*", "times": "*", "negate": "neg", "get": "of", "field": "of",
    "after": "new", "before": "old", "let": "value",
}

STATEMENT_HABITS = {
    "insert": "create", "set": "update", "modify": "update", "print": "emit", "raise": "signal", "trigger": "fire",
    "foreach": "each", "when": "if", "try": "sub", "rollback": "abort", "uninstall": "remove",
    "assert": "create", "retract": "delete", "notify": "emit", "refuse": "veto", "reject": "veto",
}


@dataclass(frozen=True)
class Forms:
    """The forms of a version."""

    version: int
    expressions: Grammar
    statements: Grammar
    aggregates: Grammar
    entries: Grammar

    @property
    def is_fourth(self) -> bool:
        return language.is_fourth(self.version)


def forms_of(version: int) -> Forms:
    """The forms of a version, and the words of the later ones."""
    is_fourth = language.is_fourth(version)
    # In earlier versions the moment of an occurrence is the nearest to what `now` may mean.
    habits = EXPRESSION_HABITS if is_fourth else {**EXPRESSION_HABITS, "now": "time"}
    let = {} if is_fourth else {"let": "with"}
    later = () if is_fourth else language.OF_FOURTH_VERSION
    return Forms(
        version, Grammar("an expression", language.expressions_of(version), habits, later),
        Grammar("a statement", language.statements_of(version), {**STATEMENT_HABITS, **let}, later),
        Grammar("an aggregate", language.AGGREGATES, {}),
        Grammar("an entry", language.ENTRIES if is_fourth else {}, {}))


ITEMS = Grammar(
    "an item",
    language.ITEMS,
    {"transaction": "tx", "time": "clock", "wait": "clock", "run": "tx"},
)

LATEST = forms_of(language.VERSIONS[-1])
GRAMMARS = (EVENTS, LATEST.expressions, LATEST.statements, LATEST.aggregates, ITEMS)
