"""The reading of bodies and statements. At one value its form comes first, then its level, and then its parts."""

from __future__ import annotations

from dataclasses import replace
from typing import Callable

from ..language import MOST_LEVELS, OF_A_LET, RULE_OPERATIONS
from ..values import kind_of
from ..wording import listed
from .expressions import new_row_at, read_aggregate, read_class, read_expression, read_predicate
from .faults import Place
from .forms import PAIR
from .parts import (
    Limit, did_you_mean, first_word, form_at, known_name_at, list_at, name_at, names_there, new_name_at,
    shape_at, short_list_at, up_to_bare,
)
from .scope import Class, Row, Scope

ARGUMENTS = Limit("a signal", 32, "arguments", "args")


def read_body(place: Place, scope: Scope, level: int = 1, what: str = "a body") -> None:
    """Reads the statements of a body, which are so deep, 1 for an outermost body."""
    statements = list_at(place, what, "statements")
    if first_word(place.node) in scope.forms.statements.words:
        raise statements[0].wrong_shape("a body is a list of statements, and this is a statement's word",
                                        "put the statement into a list of its own: [[word, ..]]")
    for statement in up_to_bare(statements):
        scope.gathered.go_on(lambda: read_statement(statement, scope, level))


def read_statement(place: Place, scope: Scope, level: int) -> None:
    word, parts = form_at(place, scope.forms.statements)
    if word == "veto" and not scope.has_occurrence:
        hint = f"a transaction's own body ends itself with {place.dialect.abort}"
        raise place.wrong_shape(f"{place.dialect.veto} stands only in a rule's action", hint)
    if level > MOST_LEVELS:
        message = f"statements nest at most {MOST_LEVELS} levels, and this is the first one at level {level}"
        raise place.over_limit("nesting", message)
    if word in RULE_OPERATIONS:
        read_rule_operation(word, parts, scope)
    elif word in READERS:
        READERS[word](parts, scope, level)


# ---- operations on objects


def read_key(place: Place, scope: Scope) -> None:
    read_expression(place, scope)
    if isinstance(place.node.value, (bool, str)):
        scope.gathered.warn(place, "a key is a whole number: this always ends with A3")


def read_create(parts: list[Place], scope: Scope, level: int) -> None:
    made = read_class(parts[0], scope)
    scope.gathered.go_on(lambda: read_key(parts[1], scope))
    named = read_pairs(parts[2], made, scope)
    missing = [field for field in made.kinds if field not in named]
    if missing and len(named) == len(parts[2].node.items):
        fields = listed([f"`{field}`" for field in missing])
        lacking = f"{fields} is missing" if len(missing) == 1 else f"{fields} are missing"
        raise parts[2].bad_name(f"`create` names each field; {lacking}", notes=made.declared())


def read_update(parts: list[Place], scope: Scope, level: int) -> None:
    changed = read_class(parts[0], scope)
    scope.gathered.go_on(lambda: read_key(parts[1], scope))
    read_pairs(parts[2], changed, scope)


def read_delete(parts: list[Place], scope: Scope, level: int) -> None:
    read_class(parts[0], scope)
    read_key(parts[1], scope)


def read_pairs(place: Place, changed: Class, scope: Scope) -> dict[str, Place]:
    """The fields that the pairs name, each once and one of the class's. A pair with a fault names none."""
    named: dict[str, Place] = {}
    for pair in up_to_bare(list_at(place, "the pairs", "pairs [field, expression]")):
        scope.gathered.go_on(lambda: read_pair(pair, place, changed, scope, named))
    return named


def read_pair(pair: Place, pairs: Place, changed: Class, scope: Scope, named: dict[str, Place]) -> None:
    field_place, value_place = shape_at(pair, PAIR, outside=pairs)
    field = new_name_at(field_place, "a field's name", "a pair for the field", named)
    if field not in changed.kinds:
        message = f"the class `{changed.name}` has no field `{field}`"
        raise field_place.bad_name(message, which_field(field, changed), notes=changed.declared())
    read_expression(value_place, scope)
    warn_of_kind(value_place, field, changed.kinds[field], scope)
    named[field] = field_place


def which_field(field: str, changed: Class) -> str:
    """What may be meant by a field that the class doesn't have."""
    known = list(changed.kinds)
    return did_you_mean(field, known) or (names_there("field", known) if known else "it has no fields")


def warn_of_kind(place: Place, field: str, kind: str, scope: Scope) -> None:
    """A value that is written out has a kind; where that isn't the field's, the statement can't succeed."""
    value = place.node.value
    if isinstance(value, list):
        return
    if kind_of(value) != kind:
        message = f"the field `{field}` is of kind {kind} and this is of kind {kind_of(value)}: it always ends with A3"
        scope.gathered.warn(place, message)


# ---- signals, values, rules


def read_signal(parts: list[Place], scope: Scope, level: int) -> None:
    scope.gathered.signalled.add(name_at(parts[0], "a signal's name"))
    for argument in short_list_at(parts[1], "the arguments", "expressions", ARGUMENTS):
        within = replace(scope, not_yet={**scope.not_yet, **argument_names(argument)})
        scope.gathered.go_on(lambda: read_expression(argument, within))


def argument_names(argument: Place) -> dict[str, str]:
    """The name before a `=`, where an argument of a signal is written as one with a name, and what is meant."""
    node = argument.node
    if not argument.dialect.is_text or first_word(node) != "=" or first_word(node.items[1]) not in OF_A_LET:
        return {}
    name = node.items[1].value[1]
    return {name: "arguments have no names: a rule reads them by their order, as `event.arg(0)`"}


def read_emit(parts: list[Place], scope: Scope, level: int) -> None:
    read_expression(parts[0], scope)


def read_veto(parts: list[Place], scope: Scope, level: int) -> None:
    """The message, if there is one."""
    for message in parts:
        read_expression(message, scope)


def read_rule_operation(word: str, parts: list[Place], scope: Scope) -> None:
    rule = known_name_at(parts[0], "a rule's name", "rule", scope.rules)
    if word == "install":
        scope.gathered.installed.add(rule)


# ---- statements that hold statements


def read_if(parts: list[Place], scope: Scope, level: int) -> None:
    go_on = scope.gathered.go_on
    go_on(lambda: read_expression(parts[0], scope))
    go_on(lambda: read_body(parts[1], scope, level + 1))
    read_body(parts[2], scope, level + 1)


def read_each(parts: list[Place], scope: Scope, level: int) -> None:
    """The predicate and the body know the variable."""
    name = new_row_at(parts[0], scope)
    inner = scope.with_row(Row(name, read_class(parts[1], scope), parts[0], False))
    scope.gathered.go_on(lambda: read_predicate(parts[2], inner, name, f"`each` `{name}`"))
    read_body(parts[3], inner, level + 1)


def read_with(parts: list[Place], scope: Scope, level: int) -> None:
    """The body knows the variable, and the key doesn't."""
    name = new_row_at(parts[0], scope)
    row = Row(name, read_class(parts[1], scope), parts[0], False)
    hint = "it names the row that this key finds, and is known after it"
    scope.gathered.go_on(lambda: read_expression(parts[2], replace(scope, not_yet={name: hint})))
    read_body(parts[3], scope.with_row(row), level + 1)


def read_let(parts: list[Place], scope: Scope, level: int) -> None:
    """The body knows the name, and the aggregate doesn't."""
    name = new_let_at(parts[0], scope)
    scope.gathered.go_on(lambda: read_aggregate(parts[1], replace(scope, not_yet={name: LET_IS_KNOWN_AFTER_IT})))
    read_body(parts[2], scope.with_value(name, parts[0]), level + 1)


def new_let_at(place: Place, scope: Scope) -> str:
    hint = "the name of a `let` is new among the names that are known"
    noun = scope.noun_of(place.node.value, "a row")
    return new_name_at(place, "the name of a `let`", noun, scope.taken(), hint)


LET_IS_KNOWN_AFTER_IT = "it names the value that this gives, and is known after it"


def read_for(parts: list[Place], scope: Scope, level: int) -> None:
    """Goes over the answer of one of the rule's queries."""
    name, queries = name_at(parts[0], "a query's name"), scope.queries()
    if name not in queries:
        in_action = f"this rule has no query `{name}`"
        message = in_action if scope.has_occurrence else "a transaction's own body has no queries"
        raise parts[0].bad_name(message, for_what_else(parts[0], queries, scope))
    read_body(parts[1], scope, level + 1)


def for_what_else(place: Place, queries: list[str], scope: Scope) -> str:
    name = place.node.value
    if name in scope.rows:
        return f"`{name}` is a variable, which is one row; `for` goes over a query's answer"
    if name in scope.values:
        return f"`{name}` is a `let`, which is one value; `for` goes over a query's answer"
    if not scope.has_occurrence:
        return f"`for` stands in a rule's action; here {place.dialect.each} finds rows"
    return did_you_mean(name, queries) or (names_there("query", queries) if queries else "its condition has no queries")


def read_sub(parts: list[Place], scope: Scope, level: int) -> None:
    scope.gathered.go_on(lambda: read_body(parts[0], scope, level + 1))
    read_body(parts[1], scope, level + 1, "`otherwise`")


READERS: dict[str, Callable[[list[Place], Scope, int], None]] = {
    "create": read_create, "update": read_update, "delete": read_delete, "signal": read_signal, "emit": read_emit,
    "if": read_if, "each": read_each, "for": read_for, "with": read_with, "let": read_let, "sub": read_sub,
    "veto": read_veto,
}
