"""Small scripts for the tests, and random ones."""
from __future__ import annotations

import json
import random
from pathlib import Path
from typing import Any, Callable, Sequence

REPOSITORY = Path(__file__).resolve().parents[2]
EXAMPLES = sorted((REPOSITORY / "examples").glob("*.json"))

CONFUSING_NAMES = ("or", "and", "not", "key", "new", "old", "event", "count", "with", "true", "then", "if", "as", "for",
                   "each", "where", "set", "do", "on", "create", "immediate", "a", "stock", "now", "let", "no", "some",
                   "next", "sum", "least", "greatest", "over", "closed", "rule", "class", "version", "show", "moment",
                   "every", "from", "time", "arg", "count_1", "x" * 32)
CONFUSING_TEXTS = ("", "a", '"', "\\", '\\"', "a and b", ", then", "line\nbreak", "\u2028", "\u00a0", "é", "- 5",
                   "x" * 120, "many words " * 20, "\\u2028", "\x7f", "\t")
COUPLINGS = ("immediate", "deferred", "separate", "dependent", "exclusive")


def script(rules: list, items: list, classes: Sequence = (), version: int = 1, **members: Any) -> str:
    """The text of a script."""
    return json.dumps({"version": version, "classes": list(classes), "rules": rules, "items": items, **members})


def rule(name: str, event: list, action: list, ec: str = "immediate", ca: str = "immediate",
         queries: Sequence = ()) -> list:
    """A rule in its JSON form."""
    return [name, event, ec, list(queries), ca, action]


class RandomScripts:
    """Random scripts of the right shape, with names and texts that resemble words of the notation."""

    def __init__(self, seed: int) -> None:
        self.random = random.Random(seed)
        self.version = 1

    def script(self) -> dict:
        self.version = self.random.choice((1, 2, 4, 4))
        root: dict[str, Any] = {"version": self.version, "classes": self.some(self.class_form), "rules": [],
                                "items": []}
        if self.random.random() < 0.5:
            root["depth"] = self.random.randint(1, 16)
        root["rules"] = self.some(self.rule)
        clock = 0
        for _ in range(self.random.randrange(4)):
            clock += self.random.choice((0, 1, 5, 40))
            root["items"].append(self.random.choice((["clock", clock], ["tx", self.body(3)])))
            clock = max((item[1] for item in root["items"] if item[0] == "clock"), default=0)
        return root

    def some(self, make: Callable[[], Any], most: int = 3) -> list:
        return [make() for _ in range(self.random.randrange(most + 1))]

    def name(self) -> str:
        return self.random.choice(CONFUSING_NAMES)

    def class_form(self) -> list:
        return [self.name(), self.some(lambda: [self.name(), self.random.choice(("int", "bool", "text"))])]

    def rule(self) -> list:
        modes = COUPLINGS[:4] if self.version == 1 else COUPLINGS
        closed = ["closed"] * (self.version == 4 and self.random.random() < 0.5)
        return [self.name(), self.event(3), self.random.choice(modes), self.some(self.entry, 3),
                self.random.choice(modes), self.body(3), *closed]

    def entry(self) -> list:
        word = self.random.choice(("query", "no", "let") if self.version == 4 else ("query",))
        if word == "let":
            return ["let", self.name(), self.aggregate(3)]
        name = self.name()
        if word == "query":
            name = "some" if self.version == 4 and name in ("no", "let") else name
            return [name, self.name(), self.predicate()]
        return ["no", name, self.name(), self.predicate()]

    def predicate(self) -> Any:
        return True if self.random.random() < 0.3 else self.expression(3)

    def aggregate(self, depth: int) -> Any:
        word = self.random.choice(("count", "sum", "least", "greatest", "next", "expression"))
        if word == "expression":
            return self.expression(depth)
        if word == "next":
            return ["next", self.name()]
        return [word, self.name(), self.name(), self.predicate()] + [self.expression(depth)] * (word != "count")

    def event(self, depth: int) -> list:
        word = self.random.choice(("create", "update", "delete", "signal", "commit", "at", "every")
                                  + ("or", "seq", "closure") * 2 * (depth > 0))
        if word in ("or", "seq", "closure"):
            return [word, self.event(depth - 1), self.event(depth - 1)]
        if word == "at":
            return [word, self.random.randrange(50)]
        if word == "every":
            return [word, self.random.randrange(5), self.random.randrange(1, 20)]
        return [word] if word == "commit" else [word, self.name()]

    def expression(self, depth: int) -> Any:
        binary = ("+", "-", "*", "/", "%", "and", "or", "=", "!=", "<", "<=", ">", ">=")
        word = self.random.choice(("literal", "of", "key", "new", "old", "id", "arg", "time", "count")
                                  + ("value", "now") * (self.version == 4)
                                  + (binary + ("neg", "not") * 3) * (depth > 0))
        place = self.random.choice((0, 0, 1, 65535))
        if word == "literal":
            return self.random.choice((0, 1, -1, 2 ** 63 - 1, -2 ** 63, True, False) + CONFUSING_TEXTS)
        if word in binary:
            return [word, self.expression(depth - 1), self.expression(depth - 1)]
        return {"of": [word, self.name(), self.name()], "key": [word, self.name()], "new": [word, place, self.name()],
                "old": [word, place, self.name()], "arg": [word, place, self.random.randrange(3)], "count": [word],
                "id": [word, place], "time": [word, place], "value": [word, self.name()],
                "now": [word]}.get(word) or [word, self.expression(depth - 1)]

    def body(self, depth: int) -> list:
        return self.some(lambda: self.statement(depth))

    def statement(self, depth: int) -> list:
        word = self.random.choice(("create", "update", "delete", "signal", "emit", "abort", "veto", "install", "fire")
                                  + ("if", "each", "for", "with", "sub") * 2 * (depth > 0)
                                  + ("let",) * 2 * (depth > 0 and self.version == 4))
        pairs = self.some(lambda: [self.name(), self.expression(2)])
        inner = [self.body(depth - 1), self.body(depth - 1)] if depth else []
        message = self.some(lambda: self.expression(2), 1) if self.version == 4 else []
        return {"create": lambda: [word, self.name(), self.expression(2), pairs],
                "update": lambda: [word, self.name(), self.expression(2), pairs],
                "delete": lambda: [word, self.name(), self.expression(2)],
                "signal": lambda: [word, self.name(), self.some(lambda: self.expression(2))],
                "emit": lambda: [word, self.expression(3)],
                "if": lambda: [word, self.expression(3)] + inner,
                "each": lambda: [word, self.name(), self.name(), self.expression(3), inner[0]],
                "for": lambda: [word, self.name(), inner[0]],
                "with": lambda: [word, self.name(), self.name(), self.expression(2), inner[0]],
                "let": lambda: [word, self.name(), self.aggregate(2), inner[0]],
                "sub": lambda: [word] + inner,
                "veto": lambda: [word, *message],
                "install": lambda: [word, self.name()],
                "fire": lambda: [word, self.name()]}.get(word, lambda: [word])()


class RandomRuns:
    """Random scripts that the program accepts, whose rules set each other off."""

    def __init__(self, seed: int) -> None:
        self.random = random.Random(seed)

    def script(self) -> str:
        names = [f"r{number}" for number in range(self.random.randint(1, 6))]
        events = [self.event(2) for _ in names]
        later = COUPLINGS[:1] * 4 + COUPLINGS
        rules = [rule(name, event, self.body(names, 2), self.random.choice(COUPLINGS), self.random.choice(later))
                 for name, event in zip(names, events)]
        installed = [name for name in names if self.random.random() < 0.8]
        items: list = [["tx", [["install", name] for name in installed]]]
        items += [["tx", self.body(names, 3)] for _ in range(3)] + [["clock", self.random.choice((3, 12))]]
        depth = self.random.choice((1, 2, 3, 4, 8))
        return script(rules, items, [["c", [["f", "int"]]], ["d", []]], version=2, depth=depth)

    def event(self, depth: int) -> list:
        if depth and self.random.random() < 0.35:
            return [self.random.choice(("or", "seq", "closure")), self.event(depth - 1), self.event(depth - 1)]
        events: list[list] = [["create", "c"], ["update", "c"], ["delete", "c"], ["create", "d"], ["signal", "s"],
                              ["signal", "t"], ["signal", "u"], ["commit"], ["at", 7], ["every", 5, 5]]
        return self.random.choice(events)

    def body(self, names: list[str], most: int) -> list:
        return [self.statement(names) for _ in range(self.random.randint(0, most))]

    def statement(self, names: list[str]) -> list:
        key = self.random.randrange(3)
        other = self.random.choice(names)
        statements: list[list] = [
            ["sub", [["create", "c", key, [["f", 0]]]], [["update", "c", key, []]]],
            ["each", "x", "c", True, [["update", "c", ["key", "x"], [["f", 1]]]]],
            ["sub", [["delete", "c", key]], []],
            ["sub", [["create", "d", key, []]], [["delete", "d", key]]],
            ["signal", "s", []], ["signal", "t", []], ["signal", "u", []],
            ["sub", [["fire", other]], []], ["install", other]]
        return self.random.choice(statements)
