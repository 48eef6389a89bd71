"""What looks like an oversight in a script: rules that can't fire, events that don't happen, queries over whole
classes."""
from __future__ import annotations

from typing import Iterator, Mapping

from . import language
from .influence import ANY_LATER, Deeds, Reach
from .language import Form, asks_part
from .notation.event_texts import event_text
from .rulebase import Let, RuleBase, numbered_items
from .wording import listed

Kinds = Mapping[str, Mapping[str, str]]
"""Of each class the kinds of its fields."""

FAILING = (("enable", "enabled"), ("disable", "disabled"), ("fire", "fired"))
"""The rule operations that fail where the rule is absent."""


def warnings(rulebase: RuleBase, sources: dict[str, Deeds], reach: Reach) -> list[str]:
    """All warnings, in the order of rules and names."""
    return _not_firing(rulebase, sources, reach) + _not_happening(rulebase, reach) + _not_heard(rulebase, sources)


def _not_firing(rulebase: RuleBase, sources: dict[str, Deeds], reach: Reach) -> list[str]:
    """The rules that can't fire, and why."""
    found = []
    for rule in rulebase.rules:
        by_word: dict[str, list[str]] = {}
        for source, deeds in sources.items():
            for word, name in sorted(deeds.operations):
                if name == rule.name:
                    by_word.setdefault(word, []).append(source)
        if "install" not in by_word:
            found.append(f"rule {rule.name} is never installed, so it never fires")
            found += [f"rule {rule.name} is {done} by {listed(by_word[word])}, which ends with A2 as it is absent"
                      for word, done in FAILING if word in by_word]
        elif by_word["install"] == [ANY_LATER]:
            found.append(f"rule {rule.name} isn't installed by the script, so a later transaction has to install it")
        elif rule.name not in reach.installed:
            found.append(f"rule {rule.name} never fires: it is installed only by rules that never fire, "
                         f"{listed(by_word['install'])}")
        elif rule.name not in reach.firing:
            found.append(f"rule {rule.name} never fires: it is installed, and its event never occurs")
    return found


def _not_happening(rulebase: RuleBase, reach: Reach) -> list[str]:
    """The simple events that rules wait for and that nothing makes."""
    waiting: dict[str, list[str]] = {}
    for rule in rulebase.rules:
        for pattern in {tuple(one): None for one in language.patterns(rule.event)}:
            if pattern not in reach.events:
                waiting.setdefault(event_text(list(pattern)), []).append(rule.name)
    return [f"{event} never happens, and {listed(names)} {'waits' if len(names) == 1 else 'wait'} for it"
            for event, names in waiting.items()]


def _not_heard(rulebase: RuleBase, sources: dict[str, Deeds]) -> list[str]:
    """The signals that are in no rule's event."""
    heard = {tuple(one) for rule in rulebase.rules for one in language.patterns(rule.event)}
    raised: dict[str, list[str]] = {}
    for source, deeds in sources.items():
        for word, *names in sorted(deeds.events - heard):
            if word == "signal":
                raised.setdefault(names[0], []).append(source)
    return [f"signal {name} is heard by no rule, and raised by {listed(by)}" for name, by in raised.items()]


def scans(rulebase: RuleBase) -> list[str]:
    """The queries, the `no`s, the `let`s and the statements `each` that look at all objects of a class."""
    return list(_scans(rulebase, {one.name: dict(one.fields) for one in rulebase.classes}))


def _scans(rulebase: RuleBase, kinds: Kinds) -> Iterator[str]:
    for rule in rulebase.rules:
        for entry in rule.entries:
            if isinstance(entry, Let):
                yield from (f"rule {rule.name}, {found}" for found in _scanning_let(entry.name, entry.aggregate, kinds))
            elif not (entry.is_no and entry.predicate is True
                      or asks_part(entry.name, entry.predicate, kinds[entry.class_name])):
                what = "no" if entry.is_no else "query"
                yield f"rule {rule.name}, {what} {entry.name}: all of {entry.class_name}"
        for found in _scanning(rule.action, kinds):
            yield f"rule {rule.name}, {found}"
    for item, unit, _ in numbered_items(rulebase):
        if item[0] == "tx":
            for found in _scanning(item[1], kinds):
                yield f"unit {unit}, {found}"


def _scanning(body: list[Form], kinds: Kinds) -> Iterator[str]:
    """The statements of a body that look at all objects of a class."""
    for statement in language.statements(body):
        if statement[0] == "each" and not asks_part(statement[1], statement[3], kinds[statement[2]]):
            yield f"for each {statement[1]}: all of {statement[2]}"
        elif statement[0] == "let":
            yield from _scanning_let(statement[1], statement[2], kinds)


def _scanning_let(name: str, aggregate: Form, kinds: Kinds) -> Iterator[str]:
    over = language.over(aggregate)
    if over is None or language.needs_no_row(aggregate):
        return
    if not asks_part(over.name, over.predicate, kinds[over.class_name]):
        yield f"let {name}: all of {over.class_name}"
