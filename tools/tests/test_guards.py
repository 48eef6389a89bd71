"""Guards that don't veto if an expression ends with a fault: `check` has a hint at each such rule, and at no other."""

from __future__ import annotations

import json
import random
import unittest
from typing import Any, Sequence

from hipac_tools import check
from hipac_tools.report import End, Fire, walk

from .making import rule, script
from .trials import REPOSITORY, followed

CLASSES = [["acct", [["bal", "int"], ["open", "bool"], ["owner", "text"]]], ["mark", []]]
UPDATED, MADE, GO = ["update", "acct"], ["create", "acct"], ["signal", "go"]
BAL, OWNER, NEW = ["of", "a", "bal"], ["of", "a", "owner"], ["new", 0, "bal"]
ITSELF = ["=", ["key", "a"], ["id", 0]]
VETO = [["veto"]]
GREATEST = 2 ** 63 - 1
HELP = '  a test in ["sub", [..], [["veto"]]] of its action vetoes then too: docs/SCRIPT.md, "Guards"'


def hints(text: str, is_live: bool = False) -> list[str]:
    """The hints of `check` at guards, without those at queries."""
    own = check.read(text.encode("utf-8"), is_live)
    if own.script is None:
        raise AssertionError(f"{own.fault}: {text}")
    return [warned.message for warned in own.script.warnings if " doesn't veto if " in warned.message]


def guarded(event: list, action: list, queries: Sequence[Any] = (), items: Sequence[Any] = ()) -> str:
    """A script with one rule, and items that do more than install it."""
    one = rule("guard", event, action, queries=queries)
    return script([one], [["tx", [["install", "guard"], ["emit", 0]]], *items], CLASSES)


def tested(test: Any, event: list = UPDATED) -> str:
    """A rule that vetoes if a test of its action is true, and its script."""
    return guarded(event, [["if", test, VETO, []]])


class Hints(unittest.TestCase):
    def assert_hint(self, text: str, words: str) -> None:
        """The one hint, or none."""
        self.assertEqual(hints(text), [f"`guard` doesn't veto if {words}"] if words else [], text)

    def test_each_operator_that_may_end_with_a_fault(self) -> None:
        for value, words in (
                (["+", NEW, 1], "`new.bal + 1` leaves 64 bits (A4)"),
                (["-", NEW, 1], "`new.bal - 1` leaves 64 bits (A4)"),
                (["*", NEW, 2], "`new.bal * 2` leaves 64 bits (A4)"),
                (["neg", NEW], "`-new.bal` leaves 64 bits (A4)"),
                (["/", 7, NEW], "`new.bal` is 0 (A5)"), (["%", 7, NEW], "`new.bal` is 0 (A5)"),
                (["/", NEW, -1], "`new.bal / -1` leaves 64 bits (A4)"),
                (["%", NEW, -1], "`new.bal % -1` leaves 64 bits (A4)"), (NEW, ""), (["+", NEW, 0], ""),
                (["/", NEW, 2], ""),
                (["%", NEW, 10], ""), (["+", ["/", NEW, 2], 5], ""), (["*", ["%", NEW, 1000], 1000], ""),
                (["+", ["/", NEW, 2], ["/", NEW, 2]], ""), (["neg", ["/", NEW, 2]], ""), (["+", ["count"], 1], ""),
                (["*", 10 ** 9, 10 ** 9], ""),
                (["*", 10 ** 10, 10 ** 10], "`10000000000 * 10000000000` leaves 64 bits (A4)"),
                (["neg", -GREATEST], ""), (["-", 0, ["neg", 5]], ""), (["/", 7, ["+", ["%", NEW, 3], 3]], ""),
                (["/", 7, ["%", NEW, 3]], "`new.bal % 3` is 0 (A5)")):
            with self.subTest(value):
                self.assert_hint(tested(["<", value, 5]), words)
                of_row = json.loads(json.dumps(value).replace('["new", 0, "bal"]', '["of", "a", "bal"]'))
                words = words.replace("new.bal", "a.bal")
                self.assert_hint(guarded(UPDATED, VETO, [["a", "acct", ["and", ITSELF, ["<", of_row, 5]]]]), words)

    def test_kinds_and_parts_that_are_not_certain(self) -> None:
        either, both = ["or", MADE, GO], ["seq", GO, MADE]
        cases: tuple[tuple[list, Any, str], ...] = (
            (either, ["<", NEW, 0], "`new.bal` is missing (A6)"), (["or", MADE, UPDATED], ["<", NEW, 0], ""),
            (["or", MADE, UPDATED], ["<", ["old", 0, "bal"], 0], "`old.bal` is missing (A6)"),
            (both, ["<", ["new", 1, "bal"], 0], ""), (both, ["<", ["id", 1], 0], ""),
            (MADE, ["new", 0, "open"], ""), (MADE, ["=", ["new", 0, "owner"], "Ada"], ""),
            (MADE, ["=", NEW, "Ada"], "`new.bal` isn't of the kind that it is compared with (A3)"),
            (MADE, NEW, "`new.bal` isn't of kind bool (A3)"),
            (MADE, ["<", ["new", 0, "open"], True], "`new.open` isn't of the kind that it is compared with (A3)"),
            (MADE, ["and", NEW, True], "`new.bal` isn't of kind bool (A3)"),
            (["at", 5], ["<", ["+", ["time", 0], 1], 9], ""),
            (["every", 5, 5], ["<", ["+", ["time", 0], 1], 9], "`event.time + 1` leaves 64 bits (A4)"))
        for event, test, words in cases:
            with self.subTest(event=event, test=test):
                self.assert_hint(tested(test, event), words)

    def test_arguments_are_certain_only_if_all_signals_are_known(self) -> None:
        test = ["<", ["arg", 0, 0], 5]
        missing = "`event.arg(0)` is missing (A6)"
        cases: tuple[tuple[list, str], ...] = (
            ([["signal", "go", [1]]], ""), ([["signal", "go", [1]], ["signal", "go", [["count"]]]], ""),
            ([["signal", "go", []]], missing), ([["signal", "go", [1]], ["signal", "go", []]], missing),
            ([["signal", "go", ["a"]], ["signal", "go", [1]]],
             "`event.arg(0)` isn't of the kind that it is compared with (A3)"),
            ([["each", "a", "acct", True, [["signal", "go", [BAL]]]]], ""))
        for signals, words in cases:
            with self.subTest(signals):
                one = rule("guard", GO, [["if", test, VETO, []]])
                text = script([one], [["tx", [["install", "guard"], *signals]]], CLASSES)
                self.assert_hint(text, words)
                self.assertEqual(hints(text, True), [f"`guard` doesn't veto if {missing}"])
        one, other = rule("guard", GO, [["if", test, VETO, []]]), rule("r", UPDATED, [["signal", "go", [NEW]]])
        self.assert_hint(script([one, other], [["tx", [["install", "r"], ["emit", 1]]]], CLASSES), "")
        self.assert_hint(script([one, other], [["tx", [["install", "r"]]]], CLASSES), missing)

    def test_tests_before_it_bound_a_value(self) -> None:
        small = ["and", ["<=", NEW, 1000], [">=", NEW, -1000]]
        large, sum_ = ["or", [">", NEW, 1000], ["<", NEW, -1000]], [">", ["*", NEW, 1000], 5]
        leaves = "`new.bal * 1000` leaves 64 bits (A4)"
        cases: tuple[tuple[list, str], ...] = (
            ([["if", ["and", small, sum_], VETO, []]], ""), ([["if", ["or", large, sum_], VETO, []]], ""),
            ([["if", small, [["if", sum_, VETO, []]], VETO]], ""),
            ([["if", large, VETO, []], ["if", sum_, VETO, []]], ""),
            ([["if", ["not", small], VETO, []], ["if", sum_, VETO, []]], ""),
            ([["if", ["or", small, sum_], VETO, []]], leaves),
            ([["if", large, [], []], ["if", sum_, VETO, []]], leaves),
            ([["if", [">", NEW, 1000], VETO, []], ["if", sum_, VETO, []]], leaves),
            ([["if", ["!=", NEW, 0], [["if", ["<", ["/", 7, ["*", NEW, NEW]], 1], VETO, []]], []]],
             "`new.bal * new.bal` leaves 64 bits (A4)"),
            ([["if", [">", NEW, 0], [["if", ["<", ["/", 7, NEW], 1], VETO, []]], []]], ""),
            ([["if", ["=", NEW, 7], [["if", ["<", ["+", NEW, 1], 1], VETO, []]], []]], ""),
            ([["if", ["or", ["=", NEW, -GREATEST - 1], [">", ["neg", NEW], 5]], VETO, []]], ""),
            ([["if", ["or", ["=", NEW, GREATEST], [">", ["+", NEW, 1], 5]], VETO, []]], ""))
        for action, words in cases:
            with self.subTest(action):
                self.assert_hint(guarded(UPDATED, action), words)

    def test_a_bound_is_of_one_row(self) -> None:
        test = [["if", ["<", ["+", BAL, 1], 0], VETO, []]]
        query = ["a", "acct", ["<", BAL, 1000]]
        anyone = ["a", "acct", True]
        leaves = "`a.bal + 1` leaves 64 bits (A4)"
        cases: tuple[tuple[list, list, str], ...] = (
            ([query], test, ""), ([query], [["for", "a", test]], ""), ([anyone], test, leaves),
            ([anyone], [["if", ["<", BAL, 1000], test, []]], ""),
            ([anyone], [["if", ["<", BAL, 1000], [["for", "a", test]], []]], leaves),
            ([], [["each", "a", "acct", ["<", BAL, 1000], test]], ""),
            ([], [["each", "a", "acct", True, test]], leaves),
            ([], [["each", "a", "acct", ["<", BAL, 1000], []], ["with", "a", "acct", 1, test]], leaves))
        for queries, action, words in cases:
            with self.subTest(queries=queries, action=action):
                self.assert_hint(guarded(UPDATED, action, queries), words)

    def test_only_what_may_keep_a_veto_from_being_reached(self) -> None:
        risk, test = ["emit", ["+", NEW, 1]], ["if", ["<", ["+", NEW, 1], 0], VETO, []]
        leaves = "`new.bal + 1` leaves 64 bits (A4)"
        cases: tuple[tuple[list, str], ...] = (
            ([risk, ["veto"]], leaves), ([["if", True, VETO, []], risk], ""),
            ([["if", True, [], VETO], test], leaves),
            ([["if", True, [risk], VETO]], ""), ([["if", True, [risk], []], ["veto"]], leaves),
            ([["if", True, [risk, ["veto"]], []]], leaves),
            ([["each", "a", "acct", True, [["if", ["of", "a", "open"], VETO, []], risk]]], leaves),
            ([["sub", [test], VETO]], ""), ([["sub", [test], []]], leaves), ([["sub", [risk], []], ["veto"]], ""),
            ([["sub", [["sub", [test], []]], VETO]], leaves), ([["sub", [["sub", [test], VETO]], []]], ""),
            ([["sub", [["abort"]], [risk, ["veto"]]]], leaves), ([["sub", [test], [["emit", "a"], ["veto"]]]], ""),
            ([["sub", [test], [["if", True, VETO, []]]]], leaves), ([risk], ""))
        for action, words in cases:
            with self.subTest(action):
                self.assert_hint(guarded(UPDATED, action), words)

    def test_a_rule_without_a_veto_has_no_hint(self) -> None:
        query = ["a", "acct", ["<", ["+", BAL, 1], 5]]
        self.assert_hint(guarded(UPDATED, [["abort"]], [query]), "")

    def test_the_hint_is_at_the_expression_and_says_what_helps(self) -> None:
        test = ["<", ["+", NEW, ["*", NEW, NEW]], ["/", 1, NEW]]
        text = tested(test)
        lines = check.accepted("x.json", check.read(text.encode("utf-8")))
        column = text.index(json.dumps(["*", NEW, NEW])) + 1
        told = f"x.json:1:{column}: hint: `guard` doesn't veto if `new.bal * new.bal` leaves 64 bits (A4)"
        self.assertEqual(lines[1], told)
        self.assertEqual(lines[4:], ["  2 more expressions of it may end with a fault", HELP])

    def test_the_examples_have_no_such_guard(self) -> None:
        for path in sorted((REPOSITORY / "examples").rglob("*.json")):
            if "-wrong" in path.name:
                continue
            own = check.read(path.read_bytes())
            if own.script is not None:
                self.assertEqual(hints(path.read_text(encoding="utf-8")), [], path.name)


OLD, KEY, COUNT, ARGUMENT = ["old", 0, "bal"], ["id", 0], ["count"], ["arg", 0, 0]
EVENTS: tuple[tuple[list, tuple[Any, ...]], ...] = (
    (UPDATED, (NEW, OLD, KEY)), (MADE, (NEW, KEY, COUNT)), (GO, (ARGUMENT, COUNT)), (["or", MADE, UPDATED], (NEW, KEY)),
    (["or", UPDATED, GO], (NEW, ARGUMENT, COUNT)), (["seq", GO, UPDATED], (ARGUMENT, ["new", 1, "bal"], COUNT)))
"""Events, with the parts of their occurrences that rules look at."""


class Chance:
    """Random guards over values at the edges of what integers can be."""

    def __init__(self, seed: int) -> None:
        self.random = random.Random(seed)

    def script(self, is_closed: bool) -> str:
        event, self.parts = self.random.choice(EVENTS)
        queries = [["a", "acct", self.test(2, ["a"])]] if self.random.random() < 0.5 else []
        action = self.action(2, ["a"] if queries else [])
        action = [["sub", action, VETO]] if is_closed else action
        one = rule("guard", event, action, queries=queries if not is_closed else [])
        if is_closed and queries:
            one[5] = [["sub", [["each", "a", "acct", queries[0][2], action[0][1]]], VETO]]
        return script([one], [["tx", [["install", "guard"]]]] + [["tx", self.body()] for _ in range(6)], CLASSES)

    def body(self) -> list:
        key, bal = self.random.randrange(3), self.number()
        made = ["create", "acct", key, [["bal", bal], ["open", self.random.random() < 0.5], ["owner", "a"]]]
        return [self.random.choice((made, ["update", "acct", key, [["bal", bal]]], ["signal", "go", self.arguments()]))]

    def arguments(self) -> list:
        some: tuple[list, ...] = ([], [1], [self.number()], ["a", 2], [True])
        return self.random.choice(some)

    def number(self) -> int:
        return self.random.choice((0, 1, -1, 7, 999, GREATEST, -GREATEST, -GREATEST - 1, 2 ** 62, -2 ** 40))

    def action(self, depth: int, rows: list[str]) -> list:
        """Statements of which each may be needed for a veto."""
        test, inner = self.test(2, rows), VETO
        if depth:
            inner = self.action(depth - 1, rows) if self.random.random() < 0.5 else VETO
        found = ["if", test, *self.random.choice(((inner, []), ([], inner), (VETO, inner)))]
        if self.random.random() < 0.2 and "b" not in rows:
            return [["each", "b", "acct", self.test(1, rows + ["b"]), self.action(0, rows + ["b"])], found]
        return [found]

    def test(self, depth: int, rows: list[str]) -> Any:
        chance = self.random.random()
        if depth and chance < 0.5:
            return [self.random.choice(("and", "or")), self.test(depth - 1, rows), self.test(depth - 1, rows)]
        word = self.random.choice(("=", "!=", "<", "<=", ">", ">="))
        test = [word, self.value(depth, rows), self.value(0, rows)]
        return ["not", test] if chance < 0.6 else test

    def value(self, depth: int, rows: list[str]) -> Any:
        chance = self.random.random()
        if depth and chance < 0.2:
            word = self.random.choice(("+", "-", "*", "/", "%", "neg"))
            operands = [self.value(depth - 1, rows) for _ in range(1 if word == "neg" else 2)]
            return [word, *operands]
        if depth and chance < 0.6:
            return [self.random.choice("/%"), self.value(depth - 1, rows), self.random.choice((2, 7, 1000, GREATEST))]
        leaves = [*self.parts, self.number(), self.random.randrange(9)]
        leaves += [["of", row, "bal"] for row in rows] + [["key", row] for row in rows]
        return self.random.choice(leaves if chance < 0.97 else [["arg", 0, 0], ["new", 1, "bal"], ["old", 0, "bal"]])


def faults_of(text: str) -> list[str]:
    """The causes A3 to A6 with which conditions and actions of the guard ended in a run."""
    run = followed(json.loads(text))
    firings = [node for unit in run.units for top in unit.transactions for node in walk(top) if isinstance(node, Fire)]
    ended = [node.condition[-2:] for node in firings if node.condition.startswith("fault")]
    ended += [node.action.cause for node in firings if isinstance(node.action, End) and node.action.cause]
    return [cause for cause in ended if "A3" <= cause <= "A6"]


class Random(unittest.TestCase):
    def test_a_guard_without_a_hint_meets_no_fault(self) -> None:
        """What always ends with a cause has a warning in place of a hint."""
        silent, met = 0, 0
        for seed in range(1000):
            text = Chance(seed).script(False)
            own = check.read(text.encode("utf-8"))
            assert own.script is not None, f"{own.fault}: {text}"
            messages = [warned.message for warned in own.script.warnings]
            is_told = any(" doesn't veto if " in message or "always ends with" in message for message in messages)
            faults = faults_of(text)
            met += bool(faults)
            silent += not is_told
            self.assertFalse(faults and not is_told, f"seed {seed}: {faults} {text}")
        self.assertGreater(min(silent, met), 200)

    def test_a_closed_guard_has_no_hint_and_meets_no_fault(self) -> None:
        for seed in range(300):
            text = Chance(seed).script(True)
            self.assertEqual((hints(text), faults_of(text)), ([], []), f"seed {seed}: {text}")


if __name__ == "__main__":
    unittest.main()
