"""What people usually mean who write what isn't in the notation. Nothing else depends on it."""

from __future__ import annotations

from typing import Callable, NamedTuple

from ..near import nearest
from . import words
from .tokens import Kind, Token
from .words import AGGREGATES, LET, MODES, NOW, RELATIONS, RESERVED, STATEMENTS

OTHER_WORDS = {
    "insert": "create", "assert": "create", "modify": "update", "retract": "delete", "when": "if", "raise": "veto",
    "rollback": "abort", "elif": "else", "elsif": "else", "elseif": "else", "try": "sub", "catch": "otherwise",
    "has": "where", "at": "moment", "seq": "then", "tx": "transaction", "begin": "transaction", "integer": "int",
    "boolean": "bool", "string": "text", "id": "key", "exists": "some", "var": "let", "declare": "let",
    "print": "emit", "notify": "emit", "foreach": "each", "reject": "veto", "refuse": "veto", "trigger": "rule",
    "after": "on", "table": "class", "deftemplate": "class", "defrule": "rule", "immediately": "immediate",
    "detached": "separate",
}
"""Words of other languages and of the JSON form, and what they are here."""
OTHER_AGGREGATES = {
    "max": "greatest", "min": "least", "maximum": "greatest", "minimum": "least", "total": "sum",
}


class Around(NamedTuple):
    """The token at which a text stops being a script, those round it, and what could have stood there."""

    earlier: Token
    before: Token
    token: Token
    after: Token
    wanted: tuple[str, ...]

    @property
    def found(self) -> str:
        """The token as it is written, if it is a word or a symbol."""
        return str(self.token.value)

    @property
    def last(self) -> str:
        return str(self.before.value)

    def wants(self, *any_of: str) -> bool:
        return any(one in self.wanted for one in any_of)

    def wants_name(self) -> bool:
        return any(one.startswith(("the name", "a name")) for one in self.wanted)


def hint(around: Around) -> str:
    """A hint, or nothing."""
    for guess in HINTS:
        if found := guess(around):
            return found
    return ""


# ---- symbols


def at_operator(a: Around) -> str:
    """Operators of other languages."""
    if a.token.kind is not Kind.SYMBOL:
        return ""
    if a.found in ("-", "/") and a.after.value == a.found:
        return "a comment begins with `#`"
    if a.found == "=" and a.last == "=":
        return "equal is one `=`"
    if a.found == ">" and a.last == "<":
        return "not equal is `!=`"
    if a.found in ("<", ">") and a.last == "=":
        return f"it is written `{a.found}=`"
    if a.found == "=" and a.after.value == ">" and a.wants("`do`"):
        return "an action begins with `do`"
    if a.found in RELATIONS and a.wants("an operator"):
        return "comparisons don't chain, and as a value of `set` one is in parentheses"
    return "a minus after a minus is in parentheses" if a.found == "-" == a.last and a.wants("a value") else ""


def at_symbol(a: Around) -> str:
    """Other symbols."""
    if a.token.kind is not Kind.SYMBOL:
        return ""
    if a.found == "-" and a.wanted[-1].startswith("a number"):
        return "a negative number stands only in expressions"
    if a.found == "[" and a.last == "arg":
        return "brackets choose a part, and stand before the point: `event[1].arg(0)`"
    if a.found == "{" and a.wanted == ("`version`",):
        return "this looks like JSON: the name of a script as text ends with `.rules`"
    if a.found == "," and a.wants("`if`") and a.wants("`do`"):
        return "each query has an `if` of its own, without a comma between"
    if a.found == "," and a.before.is_named() and a.wants("a statement"):
        return "a statement has one name"
    if a.found == ":" and a.wanted == ("`=`",):
        return "here it is `=`"
    return "a body is in braces" if a.found in (";", ":") and a.wants("`{`") else ""


# ---- aggregates and values


def at_aggregate(a: Around) -> str:
    """Within an aggregate, or where one isn't understood."""
    if is_begun_aggregate(a):
        if a.found == "(" and a.last in ("count", "next"):
            return f"as in `let n = {a.last} order{' o' if a.last == 'count' else ''}`, without parentheses"
        return f"`{a.last}` begins an aggregate here; a value that begins with this name is in parentheses"
    if a.wants("`.`") and a.before.kind is Kind.WORD and a.last not in RESERVED and (found := after_value(a)):
        return found
    if a.wants("`over`") and a.wants("an operator") and a.found not in RELATIONS:
        return "as in `let s = sum o.price over order o`"
    if a.wants("`some`") and a.found in AGGREGATES:
        return f"values are found by `let`: `if let n = {a.found} ..`"
    return "that there is none is `if no item i where ..`" if a.wants("`some`") and a.found == "not" else ""


def is_begun_aggregate(a: Around) -> bool:
    """Whether an aggregate's word stands right before the token, at the beginning of a `let`'s value."""
    is_word = a.last in AGGREGATES and a.before.kind is Kind.WORD
    return is_word and a.earlier.value == "=" and a.wanted[0] in ("the name of a class", "a value")


def after_value(a: Around) -> str:
    """After a name that was read as a value."""
    if a.token.is_named():
        if a.last in ("some", "no"):
            return "each query has an `if` of its own"
        if a.last in (LET, "over"):
            return f"`{a.last}` is a name here: something is missing before it"
        if a.last == "value":
            return "a value is its name alone"
        if a.last.lower() in OTHER_AGGREGATES:
            return f"here it is `{OTHER_AGGREGATES[a.last.lower()]}`"
        if a.last in AGGREGATES and a.found not in RESERVED:
            return f"an aggregate is the value of a `let`: `let n = {a.last} ..`"
    if a.token.kind is Kind.SYMBOL and a.found == "(":
        if a.last in ("id", "arg", "time", "count") and a.earlier.value != "=":
            return f"what the event has is `event.{'key' if a.last == 'id' else a.last}`"
        return "`now` has no parentheses" if a.last == NOW else "an operand has no arguments"
    return ""


# ---- names


def at_name(a: Around) -> str:
    """Where a name should stand, or stands too much."""
    if a.wanted == ("`closed`", "`on`") and OTHER_WORDS.get(a.found.lower()) != "on":
        return "each rule waits for an event, as `on update item`"
    if a.wanted == ("a name for the row",) and a.token.kind is Kind.SYMBOL and a.last != "as":
        return "as in `some item i where i.stock < 0`"
    if a.wanted == ("`(`",) and a.before.is_named() and a.last not in ("arg", "closure"):
        return f"an object is its class and its key in parentheses: `{a.last}(7)`"
    if a.token.kind is Kind.TEXT and a.wants_name():
        return "a name has no quotes"
    is_query = a.token.kind in (Kind.WORD, Kind.TEXT) and a.wants("`some`") and a.found != "exists"
    return "a condition asks for objects; test the values of the event by an `if` within `do`" if is_query else ""


# ---- words


def at_word(a: Around) -> str:
    """Words of the notation that stand in a wrong place."""
    if a.token.kind is not Kind.WORD:
        return ""
    is_value, is_name = a.wants("a value"), a.wants_name()
    if a.found in ("or", "then") and a.wants("`or`", "`then`"):
        return "`or` and `then` mix only in parentheses"
    if a.found == "then" and a.wants("`do`"):
        return "an action begins with `do`"
    if a.found == "key" and is_value:
        return "the key of the row i is `i.key`, that of the event's object `event.key`"
    if a.found != NOW and a.last == "." and a.earlier.value == "event" and a.wants("`arg`"):
        return "an argument of a signal is `event.arg(0)`, a field of the event's object `new.NAME` or `old.NAME`"
    if a.found == "key" and a.wanted == ("the name of a field",) and a.last == ".":
        return "the key of the event's object is `event.key`; a field of that name is in backquotes"
    if a.found == "not" and is_value:
        return "here `not` is in parentheses"
    if (a.found in RESERVED or a.found == NOW) and is_name:
        return f"`{a.found}` is a word of the notation; as a name it is in backquotes"
    if a.found == "in" and a.wants("`{`"):
        return "`for` takes a query's rows; for a class it is `each item i where ..`"
    is_bare = a.found in STATEMENTS or a.found in ("then", "begin")
    return "a body is in braces" if is_bare and a.wants("`{`") else ""


def at_misplaced_word(a: Around) -> str:
    """Words of the notation that belong to another part of the script."""
    if a.token.kind is not Kind.WORD:
        return ""
    if a.found == "closed" and a.wants("a mode", "`rule`"):
        return "`closed` stands after the name of the rule"
    if a.found == NOW and a.wants("`time`"):
        return "the moment of the clock is `now`"
    if a.found == "show" and a.wants("`clock`"):
        return "`show` is a line to a running rule base, and no item of a script"
    if a.earlier.value == "some" and a.wants("`where`") and a.wants("`if`"):
        return "`no` and `some` each stand alone: `if no item i where ..`"
    is_late = a.found == "class" and a.wants("`transaction`") or a.found == "rule" and a.wants("`clock`")
    if is_late and not a.wants("`show`"):
        return "classes come first, then rules, then transactions and moves of the clock"
    return ""


def at_other_word(a: Around) -> str:
    """Words of other languages, and words that are nearly one that could stand here."""
    if a.token.kind is not Kind.WORD:
        return ""
    known = [one[1:-1] for one in a.wanted if one.startswith("`") and one[1:2].isalpha()]
    for group, members in GROUPS.items():
        known += members if a.wants(group) else ()
    meant = OTHER_WORDS.get(a.found.lower(), a.found.lower())
    if meant != a.found and meant in known:
        return f"here it is `{meant}`"
    near = nearest(a.found, known)
    return f"did you mean `{near}`?" if near else ""


GROUPS = {"a statement": STATEMENTS, "an event": words.EVENTS, "a mode": MODES}
"""The words of the groups that a fault names."""

HINTS: tuple[Callable[[Around], str], ...] = (
    at_operator, at_symbol, at_aggregate, at_name, at_word, at_misplaced_word, at_other_word,
)
"""The guesses, the surest first."""
