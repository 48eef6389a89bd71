"""The reading of expressions. At one value its form comes first, then its level, a text's length, and its parts."""

from __future__ import annotations

from ..language import HAVING, MOST_LEVELS, OF_A_LET, OF_A_ROW, OF_THE_OCCURRENCE, is_key_asked
from ..notation.event_texts import event_text
from ..wording import listed
from .faults import Place
from .parts import (
    check_whole, did_you_mean, first_word, form_at, index_at, is_number, kind_of, known_name_at, name_at, names_there,
    new_name_at,
)
from .scope import Class, Row, Scope

MOST_TEXT_BYTES = 1_024

PART, ARGUMENT = "the number of a part", "the number of an argument"


def read_expression(place: Place, scope: Scope, level: int = 1) -> None:
    """Reads an expression that stands so deep in others, 1 for one by itself."""
    value = place.node.value
    if is_number(place.node):
        check_whole(place)
        check_level(place, level)
    elif isinstance(value, bool):
        check_level(place, level)
    elif isinstance(value, str):
        check_level(place, level)
        check_text(place, value)
    else:
        read_form(place, scope, level)


def read_predicate(place: Place, scope: Scope, name: str, what: str) -> None:
    """Reads the predicate of the row of this name; `what` is the query or statement that it belongs to. Where it asks
    for the row's key, but not first, more objects of the class are looked at than that one."""
    read_expression(place, scope)
    first, *later = conjuncts(place)
    if is_key_asked(name, first.node.value):
        return
    for test in later:
        if is_key_asked(name, test.node.value):
            of = scope.rows[name].class_read.name
            message = f"with this test of the key first, {what} looks at one object of `{of}` only"
            scope.gathered.hint(test, message)
            return


def read_over(parts: list[Place], scope: Scope, what: str) -> tuple[Row, Scope]:
    """The variable, the class and the predicate of `no` or of an aggregate: its row, and what is known inside."""
    row = Row(new_row_at(parts[0], scope), read_class(parts[1], scope), parts[0], False)
    inner = scope.with_row(row)
    scope.gathered.go_on(lambda: read_predicate(parts[2], inner, row.name, f"{what} `{row.name}`"))
    return row, inner


def new_row_at(place: Place, scope: Scope) -> str:
    hint = "a variable's name is new among the names that are known"
    noun = scope.noun_of(place.node.value, "a row")
    return new_name_at(place, "a variable's name", noun, scope.taken(), hint)


def read_class(place: Place, scope: Scope) -> Class:
    return scope.classes[known_name_at(place, "a class's name", "class", scope.classes)]


def read_aggregate(place: Place, scope: Scope) -> None:
    """Reads what a `let` gives a name: an aggregate, or an expression. `["count"]` is an expression."""
    word = first_word(place.node)
    if word not in scope.forms.aggregates.words or (word == "count" and len(place.node.items) == 1):
        read_expression(place, scope)
        return
    _, parts = form_at(place, scope.forms.aggregates)
    if word == "next":
        read_class(parts[0], scope)
        return
    row, inner = read_over(parts, scope, f"`{word}`")
    for term in parts[3:]:
        read_expression(term, inner)


def conjuncts(place: Place) -> list[Place]:
    """The tests that `and` joins, in the order in which they are made."""
    if first_word(place.node) == "and":
        return conjuncts(place.item(1)) + conjuncts(place.item(2))
    return [place]


def check_level(place: Place, level: int) -> None:
    if level > MOST_LEVELS:
        message = f"an expression has at most {MOST_LEVELS} levels, and this is the first value at level {level}"
        raise place.over_limit("expr", message)


def check_text(place: Place, text: str) -> None:
    size = len(text.encode("utf-8"))
    if size > MOST_TEXT_BYTES:
        raise place.over_limit("text", f"a text has at most {MOST_TEXT_BYTES:,} bytes, and this has {size:,}")


def read_form(place: Place, scope: Scope, level: int) -> None:
    if not isinstance(place.node.value, list):
        raise place.wrong_shape(
            f"an expression is a number, a truth value, a text or a list [word, ..], and this is {kind_of(place.node)}")
    if place.dialect.is_text and first_word(place.node) in OF_A_LET and not scope.forms.is_fourth:
        name = place.node.value[1]
        raise place.wrong_shape("a name alone as a value is of version 4", field_meant(place, name, scope))
    word, parts = form_at(place, scope.forms.expressions)
    check_level(place, level)
    if word in OF_THE_OCCURRENCE:
        read_of_occurrence(place, word, parts, scope)
    elif word in OF_A_ROW:
        read_of_row(word, parts, scope)
    elif word in OF_A_LET:
        value_at(parts[0], scope)
    else:
        for part in parts:
            read_expression(part, scope, level + 1)


def read_of_row(word: str, parts: list[Place], scope: Scope) -> None:
    """`of` and `key`. Only the form of a field's name is looked at; that the row's class lacks it is a warning."""
    row = row_at(parts[0], scope)
    if word == "of":
        field = name_at(parts[1], "a field's name")
        kinds = row.class_read.kinds
        if field not in kinds:
            message = f"the class `{row.class_read.name}` has no field `{field}`: this always ends with A3"
            scope.gathered.warn(parts[1], message, did_you_mean(field, kinds))


def row_at(place: Place, scope: Scope) -> Row:
    """The name of a row that is known."""
    name = name_at(place, "the name of a row")
    if name not in scope.rows:
        raise place.bad_name(f"no row is called `{name}` here", which_row(name, scope))
    return scope.rows[name]


def value_at(place: Place, scope: Scope) -> None:
    """The name of a `let` that is known."""
    name = name_at(place, "the name of a `let`")
    if name not in scope.values:
        raise place.bad_name(f"no `let` is called `{name}` here", which_value(place, name, scope))


def which_value(place: Place, name: str, scope: Scope) -> str:
    """What may be meant by the name of a `let` that isn't known."""
    if name in scope.rows:
        return f"`{name}` is a row, and a field of it is {place.dialect.field_of(name)}"
    known = list(scope.values)
    there = names_there("let", known) if known else "no `let` is known here"
    quoted = f'; a text is in quotes: `"{name}"`' if place.dialect.is_text else ""
    return scope.not_yet.get(name) or field_meant(place, name, scope) or did_you_mean(name, known) or there + quoted


def field_meant(place: Place, name: str, scope: Scope) -> str:
    """The field of a row that is known, where a name alone is a field's, as SQL has it."""
    rows = [row for row in scope.rows.values() if name in row.class_read.kinds]
    return f"did you mean {place.dialect.field_of(rows[-1].name, name)}?" if rows else ""


def which_row(name: str, scope: Scope) -> str:
    """What may be meant by the name of a row that isn't known."""
    known = list(scope.rows)
    there = names_there("row", known) if known else "no row has a name here"
    return scope.elsewhere(name) or did_you_mean(name, known) or there


def read_of_occurrence(place: Place, word: str, parts: list[Place], scope: Scope) -> None:
    """The forms that look at what occurred: numbers of parts and arguments, and the field of `new` and `old`."""
    if word == "arg":
        index_at(parts[0], PART)
        index_at(parts[1], ARGUMENT)
    elif word != "count":
        index_at(parts[0], PART)
        if word in ("new", "old"):
            name_at(parts[1], "a field's name")
    if not scope.has_occurrence:
        asked = place.dialect.asked(place.node.value)
        message = f"nothing has occurred in a transaction's own body: `{asked}` always ends with A6 here"
        scope.gathered.warn(place, message)
    elif word != "count" and scope.shapes is not None:
        warn_of_part(place, word, parts, scope)


def warn_of_part(place: Place, word: str, parts: list[Place], scope: Scope) -> None:
    """A part that no occurrence of the rule's event has, or that never has the value asked for."""
    number = parts[0].node.value
    found = [shape[number] for shape in scope.shapes or () if number < len(shape)]
    if not found:
        most = max(map(len, scope.shapes or ()), default=0)
        known = "it has one part, part 0" if most == 1 else f"its parts are 0 to {most - 1}"
        scope.gathered.warn(place, f"the rule's event has no part {number}: this always ends with A6", known)
    elif all(pattern[0] not in HAVING[word] for pattern in found):
        events = listed(list(dict.fromkeys(map(event_text, found))), "or")
        asked = place.dialect.asked(place.node.value)
        message = f"part {number} of the rule's event is {events}, which has no `{asked}`: this always ends with A6"
        scope.gathered.warn(place, message)
    elif word in ("new", "old"):
        warn_of_field(parts[1], {pattern[1] for pattern in found if pattern[0] in HAVING[word]}, scope)


def warn_of_field(place: Place, classes: set[str], scope: Scope) -> None:
    """A field that the class of the part lacks, where only one class comes in question."""
    field, (name, *others) = place.node.value, sorted(classes)
    if not others and field not in scope.classes[name].kinds:
        message = f"the class `{name}` has no field `{field}`: this always ends with A3"
        scope.gathered.warn(place, message, did_you_mean(field, scope.classes[name].kinds))
