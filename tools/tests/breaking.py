"""Breaks scripts: changes an accepted script at one random place, so that most results are refused."""

from __future__ import annotations

import copy
import random
from typing import Any

WORDS = [
    "updte", "create", "emit", "veto", "clock", "for", "each", "seq", "count", "of", "=", "==", "acct", "x", "y", "bal",
    "go", "immediate", "exclusive", "later", "int", "", "1st", "a-b", "n" * 33, "é" * 600,
]
NUMBERS = [0, 1, -1, 1.5, 1.0, -0.0, 1e30, 17, 1_001, 65_536, 2 ** 63 - 1, 2 ** 63, 2 ** 64, -(2 ** 63), -(2 ** 63) - 1]
VALUES: list[Any] = NUMBERS + [
    None, True, False, [], {}, [[]], ["veto"], ["count"], ["abort"], ["commit"], ["key", "x"], ["of", "x", "bal"],
    ["arg", 0, 70_000], ["at", -1], ["every", 1, 0], ["emit", 1], ["for", "x", []], ["install", "r"],
    ["fire", "nobody"], ["neg", ["neg", 1]], ["create", "acct", 1, []], ["update", "acct", 1, [["bal", 1], ["bal", 2]]],
    ["clock", 3], ["tx", []], ["signal", "go", [1] * 33], {"a": 1}, ["a", []], ["bal", "int"], ["x", "acct", True],
    "a" * 1_025,
]


def paths_of(value: object, path: tuple = ()) -> list[tuple]:
    """The paths of all values inside a value, its own first."""
    found = [path]
    steps = value.items() if isinstance(value, dict) else enumerate(value) if isinstance(value, list) else ()
    for step, part in steps:
        found += paths_of(part, path + (step,))
    return found


def at(value: Any, path: tuple) -> Any:
    for step in path:
        value = value[step]
    return value


def put(script: object, path: tuple, part: object) -> object:
    """The script with another value at a path."""
    if not path:
        return part
    at(script, path[:-1])[path[-1]] = part
    return script


def replaced(script, path, chance):
    return put(script, path, copy.deepcopy(chance.choice(VALUES + WORDS)))


def transplanted(script, path, chance):
    return put(script, path, copy.deepcopy(at(script, chance.choice(paths_of(script)))))


def renumbered(script, path, chance):
    """A number replaced by another."""
    path = chance.choice([path for path in paths_of(script) if path and type(at(script, path)) is int] or [path])
    return put(script, path, chance.choice(NUMBERS)) if path else script


def dropped(script, path, chance):
    if path:
        del at(script, path[:-1])[path[-1]]
    return script


def renamed(script, path, chance):
    """A text with another letter, or another text of the script."""
    path = chance.choice([path for path in paths_of(script) if path and isinstance(at(script, path), str)] or [path])
    word = at(script, path)
    if not isinstance(word, str) or word == "":
        return script
    if chance.random() < 0.5:
        texts = [at(script, path) for path in paths_of(script) if isinstance(at(script, path), str)]
        return put(script, path, chance.choice(texts))
    place = chance.randrange(len(word))
    return put(script, path, word[:place] + chance.choice(["", "x", "_", " "]) + word[place + 1:])


def swapped(script, path, chance):
    parts = at(script, path)
    if isinstance(parts, list) and len(parts) > 1:
        first, second = chance.sample(range(len(parts)), 2)
        parts[first], parts[second] = parts[second], parts[first]
    return script


def doubled(script, path, chance):
    parts = at(script, path)
    if isinstance(parts, list) and parts:
        parts.insert(chance.randrange(len(parts) + 1), copy.deepcopy(chance.choice(parts)))
    elif isinstance(parts, dict):
        parts[chance.choice(["depth", "name", "itmes"])] = chance.choice([1, 16, 17, 0, "8", 8.0, None])
    return script


def wrapped(script, path, chance):
    """The value in many levels of forms, or in one more list."""
    value = at(script, path)
    levels = chance.choice([1, 2, 14, 15, 16, 17])
    kind = chance.randrange(4)
    for _ in range(levels if kind else 1):
        value = [[value], ["neg", value], ["or", value, ["commit"]], ["sub", [value], []]][kind]
    return put(script, path, value)


def unwrapped(script, path, chance):
    value = at(script, path)
    return put(script, path, value[0]) if isinstance(value, list) and value else script


def lengthened(script, path, chance):
    value = at(script, path)
    if isinstance(value, list) and value:
        value.extend(copy.deepcopy(value[-1]) for _ in range(chance.choice([32, 64, 256])))
    return script


BREAKS = [
    replaced, replaced, renumbered, transplanted, dropped, renamed, renamed, swapped, doubled, wrapped, unwrapped,
    lengthened,
]


def broken(script: object, chance: random.Random) -> object:
    """A copy of a script that is changed at one place, or sometimes at two."""
    script = copy.deepcopy(script)
    for _ in range(chance.choice([1, 1, 1, 2])):
        script = chance.choice(BREAKS)(script, chance.choice(paths_of(script)), chance)
    return script
