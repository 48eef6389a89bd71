"""Random scripts of version 4 as people write them, from a seed: they use each value as what it is, and most of a
rule's statements trigger only later rules.
"""

import os
import sys
from typing import cast

from harness import TOP

sys.path.insert(0, os.path.join(TOP, "tools"))

from tests.made_scripts import CLASSES, NUMBERS  # noqa: E402 (it lies in tools/)
from tests.made_version4 import VALUE, Version4Maker, rows_in  # noqa: E402

# The kinds of the arguments that each signal has.
SIGNATURES = {"go": ("int", "text"), "stop": ("int",)}

FIELDS = {name: dict(fields) for name, fields in cast("list[tuple[str, list[tuple[str, str]]]]", CLASSES)}

# How many of the statements that trigger an earlier rule, or their own, are kept.
BACK = 0.05


class KindedMaker(Version4Maker):
    """Makes one script. Its actions read what the rule's event says, and fire only rules that read nothing of it."""

    def __init__(self, seed):
        super().__init__(seed)
        # What the action that is made may read of its occurrence; and the kinds of the values of names.
        self.parts, self.sorts = [], {}
        # The rule that is made, and those before it.
        self.earlier = []
        self.fired = [name for name in self.rule_names if self.chance(0.4)]
        self.events = {name: self.event(0) for name in self.rule_names}

    def script(self):
        return {**super().script(), "depth": 8}

    # ---- rules

    def rule(self, name):
        self.earlier.append(name)
        self.parts = [] if name in self.fired else readings(self.events[name])
        made = super().rule(name)
        self.parts = []
        return made

    def event(self, level):
        """The event of the rule that is made, once there is one; before that, and for its parts, a random one."""
        return self.events[self.earlier[-1]] if self.earlier and level == 0 else super().event(level)

    def goes_back(self, statement):
        """Whether a statement of an action may trigger the action's own rule or an earlier one."""
        if statement[0] == "fire":
            return statement[1] in self.earlier
        return any(may_end(self.events[name], tuple(statement[:2])) for name in self.earlier)

    def make_rule(self, known, queries, level, in_action):
        verb = self.pick("install", "install", "enable", "disable", "remove", *["fire"] * 2 * bool(self.fired))
        return [verb, self.random.choice(self.fired if verb == "fire" else self.rule_names)]

    def make_signal(self, known, queries, level, in_action):
        name = self.pick(*SIGNATURES)
        return ["signal", name, self.arguments(name, known)]

    def arguments(self, name, known):
        return [self.number(known, 1) if kind == "int" else self.texts(known) for kind in SIGNATURES[name]]

    def statement(self, known, queries, level, in_action):
        made = super().statement(known, queries, level, in_action)
        # A `sub` may have a signal that this function hasn't seen.
        whole = [made, *(made[1] if made[0] == "sub" else [])]
        if in_action and any(map(self.goes_back, whole)) and not self.chance(BACK):
            return ["emit", self.number(known, 1)]
        for given in whole:
            if given[0] == "signal":
                given[2] = self.arguments(given[1], known)
        return made

    # ---- values

    def aggregate(self, known, name):
        made = super().aggregate(known, name)
        made = ["now"] if made == ["count"] and not self.in_rule else made
        self.sorts[name] = self.sort_of(made, known)
        return made

    def sort_of(self, aggregate, known):
        """The kind of the value of an aggregate that this maker makes. Those over rows give integers."""
        if not isinstance(aggregate, list):
            return {bool: "bool", str: "text", int: "int"}[type(aggregate)]
        if aggregate[0] == "value":
            return self.sorts[aggregate[1]]
        if aggregate[0] in ("of", "new", "old", "arg"):
            return next(kind for kind in ("int", "bool", "text") if aggregate in self.of_kind(kind, known))
        return "bool" if aggregate[0] in ("not", "and", "or", "=", "!=", "<", "<=", ">", ">=") else "int"

    def term(self, known, row, of):
        return self.pick(["key", row], *[["of", row, NUMBERS[of]]] * 3 * (of != "bare"), self.number(known, 1))

    def of_kind(self, kind, known):
        """What gives a value of this kind: fields of rows, values of names, and what the occurrence has."""
        values = [["value", name] for name, of in known.items() if of == VALUE and self.sorts.get(name) == kind]
        fields = [["of", name, field] for name, of in rows_in(known).items()
                  for field, its in FIELDS[of].items() if its == kind]
        return values + fields + [read for read, its in self.parts if its == kind]

    def number(self, known, level):
        if level < 2 and self.chance(0.15):
            left = self.number(known, level + 1)
            if self.chance(0.5):
                return [self.pick("/", "%"), left, self.pick(2, 3, 7)]
            return [self.pick("+", "-", "*", "/"), left, self.number(known, level + 1)]
        keys = [["key", name] for name in rows_in(known)]
        return self.pick(self.random.randint(-3, 6), self.random.randint(0, 4), ["now"],
                         *[["count"]] * self.in_rule, *keys, *self.of_kind("int", known) * 2)

    def texts(self, known):
        return self.pick(self.text(), *self.of_kind("text", known))

    def test(self, known):
        return self.pick(
            [self.pick("<", "<=", "=", "!="), self.number(known, 1), self.number(known, 1)],
            [self.pick("<", "=", "!="), self.texts(known), self.text()],
            ["not", ["=", self.number(known, 1), 3]], ["or", True, ["=", ["/", 1, 0], 1]],
            *self.of_kind("bool", known))

    def predicate(self, known):
        name = list(known)[-1]
        others = [["<", ["of", name, NUMBERS[known[name]]], 3]] * (known[name] != "bare")
        return self.pick(True, [">", ["key", name], self.random.randint(0, 4)], self.test(known), *others)


def may_end(event, pattern):
    """Whether an occurrence of the event may end with what the pattern matches."""
    if event[0] == "or":
        return may_end(event[1], pattern) or may_end(event[2], pattern)
    return may_end(event[2], pattern) if event[0] in ("seq", "closure") else tuple(event) == pattern


def readings(event):
    """What an action may read of each occurrence of the event, with the kinds."""
    places, _ = columns(event)
    return [(read, kind) for place, patterns in enumerate(places) for read, kind in common(place, patterns)]


def columns(event):
    """The patterns that may stand at each place of an occurrence, and whether there are no further places."""
    if event[0] not in ("or", "seq", "closure"):
        return [[event]], True
    (first, is_exact), (second, exact) = columns(event[1]), columns(event[2])
    if event[0] == "or":
        return ([a + b for a, b in zip(first, second)], is_exact and exact and len(first) == len(second))
    return (first + second, exact) if is_exact else (first, False)


def common(place, patterns):
    """What each of the patterns gives at this place, of one kind."""
    found = [dict(map(hashed, given(place, pattern))) for pattern in patterns]
    return [(list(read), kind) for read, kind in found[0].items() if all(other.get(read) == kind for other in found)]


def hashed(reading):
    return tuple(reading[0]), reading[1]


def given(place, pattern):
    """What one pattern gives at a place, with the kinds."""
    word = pattern[0]
    if word == "signal":
        return [(["arg", place, i], kind) for i, kind in enumerate(SIGNATURES[pattern[1]])]
    if word in ("at", "every"):
        return [(["time", place], "int")]
    if word == "commit":
        return []
    words = {"create": ["new"], "update": ["new", "old"], "delete": ["old"]}[word]
    fields = [([each, place, field], kind) for each in words for field, kind in FIELDS[pattern[1]].items()]
    return fields + [(["id", place], "int")]
