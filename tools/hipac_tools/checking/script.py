"""The reading of a whole script in the order of checks: the root, the version, the depth, the classes, the form and
name of each rule, each rule's other parts, and the items. It is the program's order, so the first fault is its refusal.
Behind a fault the reading goes on where that is sound: with the next part, statement or rule.
"""

from __future__ import annotations

from dataclasses import dataclass, replace
from typing import Optional

from ..language import (
    CLOSED, KINDS, MODES, MOST_DEPTH, MOST_MOMENTS, SECOND_VERSION_MODE, VERSIONS, is_beginning, is_name, modes_of,
    shapes,
)
from ..positions import Node, shortened
from ..wording import listed
from .dialect import Dialect, JSON
from .events import Moments, read_event
from .expressions import read_aggregate, read_class, read_over, read_predicate
from .faults import Faulty, Place, Refused
from .forms import (
    CLASS, CLOSED_RULE, FIELD, Forms, ITEMS, KIND_HABITS, MODE_HABITS, NEEDED_MEMBERS, QUERY, ROOT_MEMBERS, RULE, Shape,
    forms_of,
)
from .guards import hint_of_faults
from .parts import (
    Limit, did_you_mean, first_word, form_at, kind_of, list_at, new_name_at, shape_at, short_list_at, up_to_bare,
    whole_number_at, word_at,
)
from .scope import Class, Enough, Gathered, Row, Scope, Warned
from .statements import LET_IS_KNOWN_AFTER_IT, new_let_at, read_body

CLASSES = Limit("a script", 64, "classes", "classes")
FIELDS = Limit("a class", 32, "fields", "fields")
RULES = Limit("a script", 256, "rules", "rules")


@dataclass(frozen=True)
class Script:
    """A script that has no fault: how many of each it has, and what can't be meant in it."""

    rules: int
    classes: int
    items: int
    warnings: list[Warned]


def read_script(root: Node, is_live: bool = False, dialect: Dialect = JSON) -> Script:
    """Reads a script; raises Faulty with its faults, of which the first is the program's refusal. A live script is the
    beginning of a rule base that stays up."""
    gathered, script = Gathered(), None
    try:
        script = read_parts(Place(root, "", dialect), gathered, is_live)
    except Refused as refusal:
        gathered.faults.append(refusal.fault)
    except Enough:
        pass
    if script is None or gathered.faults:
        raise Faulty(gathered.faults)
    return script


def read_parts(place: Place, gathered: Gathered, is_live: bool) -> Script:
    """Reads all parts in the order of checks, and then looks for advice."""
    check_members(place)
    version = gathered.go_on_with(lambda: read_version(place.member("version")), VERSIONS[-1])
    if "depth" in place.node.members:
        gathered.go_on(lambda: read_depth(place.member("depth")))
    for key in place.node.doubled:
        gathered.warn(Place(key), f"the member `{shortened(key.value)}` stands here again: its last value counts")
    classes = read_classes(place.member("classes"), gathered)
    forms = forms_of(version)
    names, heads = read_heads(place.member("rules"), forms, gathered)
    scope = Scope(classes, names, gathered, forms)
    moments = Moments()
    for parts in heads:
        read_rule(parts, scope, moments, place.member("version"))
    items = read_items(place.member("items"), replace(scope, has_occurrence=False), moments)
    if not gathered.faults:
        advise(place.member("items"), heads, scope, is_live)
    return Script(len(heads), len(classes), items, gathered.warnings)


def advise(items: Place, heads: list[list[Place]], scope: Scope, is_live: bool) -> None:
    """Warnings and hints that rest on the whole script."""
    is_live = is_live or is_beginning(items.node.value)
    if is_live:
        warn_of_silence_in_a_beginning(scope, len(items.node.items))
    else:
        warn_of_silence(scope, len(items.node.items))
    kinds = {name: one.kinds for name, one in scope.classes.items()}
    hint_of_faults(heads, items, kinds, is_live or not items.node.items, scope)


# ---- the root, its version and depth


def check_members(place: Place) -> None:
    """The members that must be there, perhaps `depth`, and no others. A member too many is shown itself."""
    node, members = place.node, listed(NEEDED_MEMBERS)
    if not isinstance(node.value, dict):
        raise place.wrong_shape(f"a script is an object with the members {members}, and this is {kind_of(node)}")
    missing = [name for name in NEEDED_MEMBERS if name not in node.members]
    for name, (key, _) in node.members.items():
        if name not in ROOT_MEMBERS:
            raise extra_member(place, key, missing)
    if missing:
        first, others = missing[0], [f"`{name}`" for name in missing[1:]]
        too = f", and so {'is' if len(others) == 1 else 'are'} {listed(others)}" if others else ""
        raise place.wrong_shape(f"the member `{first}` is missing{too}", f'"{first}" is {ROOT_MEMBERS[first]}')


def extra_member(place: Place, key: Node, missing: list[str]) -> Refused:
    meant = did_you_mean(key.value, missing) or f"its members are {listed(ROOT_MEMBERS)}"
    return place.refused("S2 /", f"a script has no member `{shortened(key.value)}`", (meant,), at=key)


def read_version(place: Place) -> int:
    version = whole_number_at(place, "the version")
    if version not in VERSIONS:
        raise place.refused("S6", f"version {version} isn't known: there are {listed(map(str, VERSIONS))}")
    return version


def read_depth(place: Place) -> None:
    depth = whole_number_at(place, "the depth")
    if not 1 <= depth <= MOST_DEPTH:
        raise place.over_limit("depth", f"the depth is 1 to {MOST_DEPTH}, and this is {depth}")


# ---- declarations: of classes, fields and rules


@dataclass(frozen=True)
class Declaration:
    """How a class, a field or a rule is declared: its shape, and its words in messages."""

    shape: Shape
    what: str
    noun: str


A_CLASS = Declaration(CLASS, "a class's name", "a class")
A_FIELD = Declaration(FIELD, "a field's name", "a field")
A_RULE = Declaration(RULE, "a rule's name", "a rule")
A_CLOSED_RULE = Declaration(CLOSED_RULE, "a rule's name", "a rule")


def declared(place: Place, one: Declaration, names: dict[str, Place], gathered: Gathered,
             hint: str = "", outside: Optional[Place] = None) -> Optional[list[Place]]:
    """The parts of a declaration, with its name put among the others; None if it has another shape. If the name is lost
    by a fault, a name that seems unknown later may be this one."""
    parts = gathered.go_on(lambda: shape_at(place, one.shape, hint, outside))
    if parts is None:
        name = first_word(place.node)
        if name is None or not is_name(name):
            gathered.is_doubtful = True
        else:
            names.setdefault(name, place.item(0))
        return None
    first = parts[0]
    name = gathered.go_on(lambda: new_name_at(first, one.what, one.noun, names))
    if name is not None:
        names[name] = first
    elif not isinstance(first.node.value, str) or first.node.value not in names:
        gathered.is_doubtful = True
    return parts


def declarations(place: Place, what: str, items: str, limit: Limit, gathered: Gathered) -> list[Place]:
    """The declarations in a list; none if the list has a fault itself."""
    found = gathered.go_on(lambda: short_list_at(place, what, items, limit))
    if found is None:
        gathered.is_doubtful = True
    return list(up_to_bare(found or []))


# ---- classes


def read_classes(place: Place, gathered: Gathered) -> dict[str, Class]:
    classes: dict[str, Class] = {}
    names: dict[str, Place] = {}
    for class_place in declarations(place, "`classes`", "classes [name, fields]", CLASSES, gathered):
        known = len(names)
        parts = declared(class_place, A_CLASS, names, gathered)
        gathered.is_doubtful = gathered.is_doubtful or parts is None
        kinds = {} if parts is None else read_fields(parts[1], gathered)
        if len(names) > known:
            name, name_place = list(names.items())[-1]
            classes[name] = Class(name, name_place, kinds)
    return classes


def read_fields(place: Place, gathered: Gathered) -> dict[str, str]:
    """The kind of each field. One whose kind can't be read has some kind, so that its name is known."""
    kinds: dict[str, str] = {}
    places: dict[str, Place] = {}
    for field_place in declarations(place, "the fields of a class", "fields [name, kind]", FIELDS, gathered):
        known = len(places)
        parts = declared(field_place, A_FIELD, places, gathered, outside=place)
        kind = read_kind(parts[1], gathered) if parts else KINDS[0]
        if len(places) > known:
            kinds[list(places)[-1]] = kind
    return kinds


def read_kind(place: Place, gathered: Gathered) -> str:
    return gathered.go_on_with(lambda: word_at(place, "a kind", KINDS, KIND_HABITS), KINDS[0])


# ---- rules


def read_heads(place: Place, forms: Forms, gathered: Gathered) -> tuple[dict[str, Place], list[list[Place]]]:
    """The places of all rules' names, and the parts of each rule; only the forms and the names are read."""
    heads: list[list[Place]] = []
    names: dict[str, Place] = {}
    for rule_place in declarations(place, "`rules`", "rules", RULES, gathered):
        is_long = forms.is_fourth and len(rule_place.node.items) == len(CLOSED_RULE.parts)
        form = A_CLOSED_RULE if is_long else A_RULE
        parts = declared(rule_place, form, names, gathered, other_head(rule_place.node, forms))
        if parts is not None:
            heads.append(parts)
    return names, heads


def other_head(node: Node, forms: Forms) -> str:
    """What helps where a rule of five parts has its second mode in the place of the queries, or where one of seven is
    closed."""
    parts, items = len(RULE.parts), node.items
    if len(items) == parts + 1 and items[parts].value == CLOSED and not forms.is_fourth:
        return "closed rules are of version 4"
    if len(items) > parts and forms.is_fourth:
        return f"its seventh part is \"{CLOSED}\", or it is left out"
    forgotten = len(items) == parts - 1 and items[2].value in MODES and items[3].value in MODES
    return "the queries stand between the modes; where there are none, write []" if forgotten else ""


def read_rule(parts: list[Place], scope: Scope, moments: Moments, version_place: Place) -> None:
    """The other parts of a rule. Its action knows all names of its condition."""
    _, event, event_mode, entries, action_mode, action, *closing = parts
    gathered, version = scope.gathered, scope.forms.version
    gathered.is_rule_doubtful = False
    is_event = gathered.go_on_with(lambda: is_event_read(event, scope, moments), False)
    gathered.go_on(lambda: read_mode(event_mode, version_place, version))
    asking = replace(scope, shapes=shapes(event.node.value) if is_event else None)
    acting = gathered.go_on(lambda: read_condition(entries, asking))
    gathered.is_rule_doubtful = gathered.is_rule_doubtful or acting is None
    gathered.go_on(lambda: read_mode(action_mode, version_place, version))
    gathered.go_on(lambda: read_body(action, acting or asking, what="the action of a rule"))
    gathered.is_rule_doubtful = False
    for place in closing:
        gathered.go_on(lambda: read_closing(place))


def is_event_read(place: Place, scope: Scope, moments: Moments) -> bool:
    """Reads an event. That is so once it is read without a fault."""
    read_event(place, scope, moments)
    return True


def read_mode(place: Place, version_place: Place, version: int) -> None:
    if place.node.value == SECOND_VERSION_MODE and version == 1:
        said = version_place.note("the script says version 1 here:")
        raise place.wrong_shape("the mode `exclusive` is of version 2", notes=(said,))
    word_at(place, "a mode", modes_of(version), MODE_HABITS)


def read_closing(place: Place) -> None:
    if place.node.value != CLOSED:
        raise place.wrong_shape(f"the seventh part of a rule is \"{CLOSED}\", or it is left out")


# ---- conditions

AN_ENTRY = "queries [name, class, predicate]"


def read_condition(place: Place, scope: Scope) -> Scope:
    """The entries of a condition; what is known after them."""
    entries = list_at(place, "the condition", AN_ENTRY)
    word = first_word(place.node)
    if word in scope.forms.expressions.words:
        message = f"a condition is a list of {AN_ENTRY}, and this is a text"
        raise entries[0].wrong_shape(message, "a test that needs no object is an `if` in the action")
    for position, entry in enumerate(up_to_bare(entries)):
        within = replace(scope, not_yet=later_names(entries[position + 1:], scope.forms))
        knowing = scope.gathered.go_on(lambda: read_entry(entry, place, within))
        scope.gathered.is_rule_doubtful = scope.gathered.is_rule_doubtful or knowing is None
        scope = scope if knowing is None else replace(knowing, not_yet=scope.not_yet)
    return scope


def read_entry(entry: Place, entries: Place, scope: Scope) -> Scope:
    """One entry; what is known after it."""
    if first_word(entry.node) in scope.forms.entries.words:
        word, parts = form_at(entry, scope.forms.entries)
        if word == "let":
            return read_let_entry(parts, scope)
        read_over(parts, scope, "`no`")
        return scope
    row = read_query(entry, entries, scope)
    scope = scope.with_row(row)
    scope.gathered.go_on(lambda: read_predicate(entry.item(2), scope, row.name, f"the query `{row.name}`"))
    return scope


def read_let_entry(parts: list[Place], scope: Scope) -> Scope:
    """A name, which is known after its aggregate."""
    name = new_let_at(parts[0], scope)
    within = replace(scope, not_yet={**scope.not_yet, name: LET_IS_KNOWN_AFTER_IT})
    scope.gathered.go_on(lambda: read_aggregate(parts[1], within))
    return scope.with_value(name, parts[0])


def read_query(query_place: Place, queries: Place, scope: Scope) -> Row:
    """The row that a query finds; its predicate is read later."""
    name_place, class_place, _ = shape_at(query_place, QUERY, other_entry(query_place.node, scope.forms), queries)
    noun = scope.noun_of(name_place.node.value, "a query")
    name = new_name_at(name_place, "a query's name", noun, scope.taken())
    return Row(name, read_class(class_place, scope), name_place, True)


def other_entry(node: Node, forms: Forms) -> str:
    """What helps where an entry that isn't of the script's version stands in a condition."""
    return "`no` is of version 4" if first_word(node) == "no" and not forms.is_fourth else ""


QUERY_COMES_LATER = "that query comes later: a predicate knows its own row and the queries before it"
LET_COMES_LATER = "that `let` comes later: an entry knows the names before it"


def later_names(entries: list[Place], forms: Forms) -> dict[str, str]:
    """The names that later entries have, as far as they can be seen before these are read, and why they aren't
    known."""
    found = {}
    for place in entries:
        word = first_word(place.node)
        if word is not None and word not in forms.entries.words:
            found[word] = QUERY_COMES_LATER
        elif word == "let" and len(place.node.items) > 1 and isinstance(place.node.items[1].value, str):
            found[place.node.items[1].value] = LET_COMES_LATER
    return found


# ---- items


@dataclass
class Clock:
    """The time to which the items have moved the clock, and where they did."""

    time: int = 0
    moved: Optional[Place] = None


def read_items(place: Place, scope: Scope, moments: Moments) -> int:
    """Transactions and moves of the clock, which begins at 0 and doesn't go back."""
    clock = Clock()
    what = "items [\"tx\", body] and [\"clock\", t]"
    items: list[Place] = scope.gathered.go_on_with(lambda: list_at(place, "`items`", what), [])
    for item in up_to_bare(items):
        scope.gathered.go_on(lambda: read_item(item, scope, moments, clock))
    return len(items)


def read_item(item: Place, scope: Scope, moments: Moments, clock: Clock) -> None:
    word, parts = form_at(item, ITEMS)
    if word == "tx":
        read_body(parts[0], scope, what="the body of a transaction")
    else:
        read_move(parts[0], clock, moments)


def read_move(place: Place, clock: Clock, moments: Moments) -> None:
    time, former = whole_number_at(place, "the clock's time"), clock.time
    if time < former or time < 0:
        moved = clock.moved
        stands, notes = ("stands", (moved.note("it was moved there here:"),)) if moved else ("begins", ())
        raise place.wrong_shape(f"the clock {stands} at {former} and doesn't go back to {time}", notes=notes)
    clock.time, clock.moved = time, place
    due = len(moments.due(former, time))
    if due > MOST_MOMENTS:
        message = f"this move of the clock from {former} to {time} has more than {MOST_MOMENTS:,} due moments"
        hint = f"the moments are those that {place.dialect.moments} name in any rule of the script"
        raise place.over_limit("moments", message, hint)


def warn_of_silence(scope: Scope, items: int) -> None:
    """Rules that can never be triggered. A library without items has its bodies elsewhere and isn't looked at."""
    gathered = scope.gathered
    if items == 0:
        return
    for rule, place in scope.rules.items():
        if rule not in gathered.installed:
            gathered.warn(place, f"the rule `{rule}` is never installed, and so never triggered")
    for signal, place in gathered.awaited.items():
        if signal not in gathered.signalled:
            gathered.warn(place, f"nothing in this script signals `{signal}`", what_is_signalled(signal, gathered))


def warn_of_silence_in_a_beginning(scope: Scope, items: int) -> None:
    """What can't be meant even if any transaction may follow: a signal that rules wait for, and that isn't signalled
    where another is whose name is near."""
    gathered = scope.gathered
    for rule, place in scope.rules.items():
        if items and rule not in gathered.installed:
            gathered.hint(place, f"the rule `{rule}` isn't installed here: a later transaction has to install it")
    for signal, place in gathered.awaited.items():
        meant = what_is_signalled(signal, gathered)
        if signal not in gathered.signalled and meant:
            gathered.warn(place, f"nothing in this script signals `{signal}`", meant)


def what_is_signalled(signal: str, gathered: Gathered) -> str:
    """The question whether another signal is meant, which is signalled."""
    return did_you_mean(signal, sorted(gathered.signalled))
