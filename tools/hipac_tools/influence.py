"""What each source of a script does, and what of that may happen.

A source is the script's own transactions, the clock, or a rule's action. What it does is simple events (an operation on
a class, a signal, a moment, a commit) and rule operations. All is read from the text: conditions are assumed possibly
true. So what isn't found here can't happen in any run; what is found may happen.
"""
from __future__ import annotations

from dataclasses import dataclass, field
from typing import Iterator

from . import language
from .language import Form
from .rulebase import RuleBase

THE_SCRIPT = "the script"
THE_CLOCK = "the clock"
ANY_SCRIPT = "any script"
"""Stands for all transactions and moments there could be, where a script has no transaction."""
ANY_LATER = "any later transaction"
"""Stands for all transactions and moments that could follow those of a script."""

COMMIT = ("commit",)

Pattern = tuple
"""A simple event, as a tuple, so that it can stand in a set."""


@dataclass
class Deeds:
    """What one source does: the simple events that it makes, and its rule operations as pairs of word and rule."""
    events: set[Pattern] = field(default_factory=set)
    operations: set[tuple[str, str]] = field(default_factory=set)


@dataclass(frozen=True)
class Reach:
    """What may happen: the simple events, the rules that may be installed, and the rules that may fire."""
    events: frozenset[Pattern]
    installed: frozenset[str]
    firing: frozenset[str]


def all_deeds(rulebase: RuleBase, is_live: bool = False) -> dict[str, Deeds]:
    """The deeds of each source, by its name: first the script, the clock and what may follow, then the rules in order.
    Transactions may follow if the rule base stays up, or if the script's items are only a beginning."""
    sources = _items_deeds(rulebase)
    if THE_SCRIPT in sources and (is_live or language.is_beginning(rulebase.items)):
        sources[ANY_LATER] = _later_deeds(rulebase, sources[THE_SCRIPT])
    for rule in rulebase.rules:
        deeds = body_deeds(rule.action)
        if rule.detaches:
            deeds.events.add(COMMIT)
        sources[rule.name] = deeds
    return sources


def body_deeds(body: list[Form]) -> Deeds:
    """What the statements of a body do."""
    deeds = Deeds()
    for statement in language.statements(body):
        if statement[0] in language.OBJECT_OPERATIONS + ("signal",):
            deeds.events.add((statement[0], statement[1]))
        elif statement[0] in language.RULE_OPERATIONS:
            deeds.operations.add((statement[0], statement[1]))
    return deeds


def _items_deeds(rulebase: RuleBase) -> dict[str, Deeds]:
    """What a script's items do. Each of its units has a commit event, moments too."""
    patterns = {tuple(one) for rule in rulebase.rules for one in language.patterns(rule.event)}
    if not any(word == "tx" for word, _ in rulebase.items):
        installs = {("install", rule.name) for rule in rulebase.rules}
        return {ANY_SCRIPT: Deeds(patterns, installs)}
    script, end = Deeds({COMMIT}, set()), _end_of_clock(rulebase)
    for word, content in rulebase.items:
        if word == "tx":
            deeds = body_deeds(content)
            script.events |= deeds.events
            script.operations |= deeds.operations
    clock = Deeds({one for one in patterns if language.moments_of(list(one), 0, end)}, set())
    if clock.events:
        clock.events.add(COMMIT)
        return {THE_SCRIPT: script, THE_CLOCK: clock}
    return {THE_SCRIPT: script}


def _end_of_clock(rulebase: RuleBase) -> int:
    """The time to which the script moves the clock."""
    return max((content for word, content in rulebase.items if word == "clock"), default=0)


def _later_deeds(rulebase: RuleBase, script: Deeds) -> Deeds:
    """All that may follow a script: any event but a moment that has passed, and the installation of any rule that the
    script doesn't install."""
    patterns = {tuple(one) for rule in rulebase.rules for one in language.patterns(rule.event)}
    end = _end_of_clock(rulebase)
    passed = {one for one in patterns
              if one[0] in ("at", "every") and not language.moments_of(list(one), end, language.GREATEST)}
    installs = {("install", rule.name) for rule in rulebase.rules} - script.operations
    return Deeds(patterns - passed | {COMMIT}, installs)


def last_patterns(event: Form) -> Iterator[Pattern]:
    """The simple events at which an event may occur. Its other events only have to come before."""
    if event[0] == "or":
        yield from last_patterns(event[1])
        yield from last_patterns(event[2])
    elif event[0] in ("seq", "closure"):
        yield from last_patterns(event[2])
    else:
        yield tuple(event)


def setting_off(event: Form, possible: frozenset[Pattern]) -> set[Pattern]:
    """Those of `last_patterns` at which an event may occur, if only these simple events are possible."""
    if event[0] == "or":
        return setting_off(event[1], possible) | setting_off(event[2], possible)
    if event[0] in ("seq", "closure"):
        return setting_off(event[2], possible) if setting_off(event[1], possible) else set()
    return {tuple(event)} & possible


def reach(rulebase: RuleBase, sources: dict[str, Deeds]) -> Reach:
    """What may happen: grows from what the items do, by the rules that may then fire, until nothing is new."""
    rules = {rule.name: rule for rule in rulebase.rules}
    doing = [name for name in sources if name not in rules]
    firing: set[str] = set()
    while True:
        events = frozenset(event for name in doing for event in sources[name].events)
        operations = {operation for name in doing for operation in sources[name].operations}
        installed = frozenset(rule for word, rule in operations if word == "install")
        new = [name for name, rule in rules.items() if name not in firing and name in installed
               and (setting_off(rule.event, events) or ("fire", name) in operations)]
        if not new:
            return Reach(events, installed, frozenset(firing))
        firing.update(new)
        doing += new
