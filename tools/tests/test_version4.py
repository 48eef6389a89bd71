"""Version 4 in the tools, without the program: what `check` says, hints at guards, `print`, `graph`, and that the
course of a script is the one of the definitions."""

from __future__ import annotations

import json
import sys
import unittest
from typing import Any

from hipac_tools import check, graph, report, rulebase
from hipac_tools.course import Course
from hipac_tools.notation.writer import rule_text

from .made_version4 import Version4Maker
from .trials import REPOSITORY

sys.path.insert(0, str(REPOSITORY / "checks"))
import definitions_run  # noqa: E402 - found by the path above

CLASSES = [["acct", [["bal", "int"], ["owner", "text"]]]]
SEEDS = range(40)


def script(entries: list, action: Any = (), *closing: str, version: int = 4, items: Any = ()) -> str:
    """A script with one rule of these entries and this action."""
    rule = ["r", ["signal", "go"], "immediate", entries, "immediate", list(action), *closing]
    return json.dumps({"version": version, "classes": CLASSES, "rules": [rule], "items": list(items)})


def refusal(text: str) -> tuple[str, str]:
    fault = check.read(text.encode()).fault
    return (fault.refusal, fault.message) if fault else ("", "")


def hints(text: str) -> list[str]:
    read = check.read(text.encode()).script
    return [one.message for one in read.warnings if one.word == "hint"] if read else []


class CheckTest(unittest.TestCase):
    def test_refusals(self) -> None:
        query, value = ["q", "acct", True], ["value", "n"]
        cases: list[tuple[list, tuple[str, str]]] = [
            ([["no", "k", "acct"]], ("S2 /rules/0/3/0", '["no", x, class, predicate] has 3 parts after its word')),
            ([["no", 1, "none", True]], ("S2 /rules/0/3/0/1", "a variable's name is a text")),
            ([["no", "k", "none", ["key", 1]]], ("S4 /rules/0/3/0/2", "there is no class `none`")),
            ([query, ["no", "q", "acct", True]], ("S4 /rules/0/3/1/1", "a row `q` is there already")),
            ([["let", "n", value]], ("S4 /rules/0/3/0/2/1", "no `let` is called `n` here")),
            ([["let", "n", 1], ["n", "acct", True]], ("S4 /rules/0/3/1/0", "a `let` `n` is there already")),
            ([["let", "n", ["sum", "s", "acct", True]]],
             ("S2 /rules/0/3/0/2", '["sum", x, class, predicate, term]')),
            ([["let", "n", ["next", "none"]]], ("S4 /rules/0/3/0/2/1", "there is no class `none`")),
            ([["q", "acct", ["count", "s", "acct", True]]], ("S2 /rules/0/3/0/2", '["count"] has no parts')),
            ([["let", "s", ["count", "s", "acct", ["=", ["key", "s"], 1]]],
              ["q", "acct", ["=", ["value", "s"], 1]]], ("", ""))]
        for entries, wanted in cases:
            with self.subTest(entries):
                found, message = refusal(script(entries))
                self.assertEqual((found, message[:len(wanted[1])]), wanted)

    def test_the_seventh_part_comes_last(self) -> None:
        self.assertEqual(refusal(script([], [], "closed"))[0], "")
        self.assertEqual(refusal(script([], [], "open"))[0], "S2 /rules/0/6")
        self.assertEqual(refusal(script([], [["emit", ["value", "n"]]], "open"))[0], "S4 /rules/0/5/0/1/1")
        self.assertEqual(refusal(script([], [], "closed", "closed"))[0], "S2 /rules/0")
        self.assertEqual(refusal(script([], [], "closed", version=2))[0], "S2 /rules/0")

    def test_words_of_version_4_in_an_earlier_one(self) -> None:
        for action, where in (([["emit", ["now"]]], "/1"), ([["let", "n", 1, []]], ""), ([["veto", 1]], "")):
            with self.subTest(action):
                self.assertEqual(refusal(script([], action, version=2))[0], "S2 /rules/0/5/0" + where)
                self.assertEqual(refusal(script([], action))[0], "")


class HintTest(unittest.TestCase):
    RISKY = [["let", "n", ["/", 6, ["arg", 0, 0]]]]

    def test_a_guard_whose_entry_may_fault(self) -> None:
        self.assertEqual(hints(script(self.RISKY, [["veto", ["value", "n"]]])),
                         ["`r` doesn't veto if `event.arg(0)` is missing (A6)"])
        self.assertEqual(hints(script(self.RISKY, [["emit", ["value", "n"]]])), [])

    def test_a_closed_guard_has_none(self) -> None:
        self.assertEqual(hints(script(self.RISKY, [["veto", ["value", "n"]]], "closed")), [])

    def test_aggregates(self) -> None:
        over = ["s", "acct", True, ["of", "s", "bal"]]
        for aggregate, message in (
                (["count", "s", "acct", True], ""),
                (["least", *over], ""),
                (["sum", *over], "`r` doesn't veto if `sum s.bal over acct s` leaves 64 bits (A4)"),
                (["sum", "s", "acct", True, ["of", "s", "owner"]],
                 "`r` doesn't veto if `s.owner` isn't of kind int (A3)")):
            with self.subTest(aggregate):
                test = ["if", ["=", 1, 1], [["veto"]], []]
                self.assertEqual(hints(script([["let", "n", aggregate]], [test]))[:1], [message] if message else [])

    def test_a_message_that_may_fault(self) -> None:
        self.assertEqual(hints(script([], [["veto", ["arg", 0, 0]]])),
                         ["`r` doesn't veto if `event.arg(0)` is missing (A6)"])


class TextTest(unittest.TestCase):
    ENTRIES = [["no", "k", "acct", ["=", ["key", "k"], ["arg", 0, 0]]], ["let", "n", ["count", "a", "acct", True]],
               ["let", "t", ["sum", "s", "acct", ["<", ["key", "s"], ["value", "n"]], ["of", "s", "bal"]]]]

    def test_print(self) -> None:
        action = [["let", "k", ["next", "acct"], [["emit", ["value", "k"]], ["emit", ["now"]]]], ["veto", "full"]]
        text = rule_text(rulebase.read(script(self.ENTRIES, action, "closed")).rules[0])
        self.assertEqual(text.split("\n"), [
            "rule r closed on signal go",
            "  if no acct k where k.key = event.arg(0)",
            "  if let n = count acct a",
            "  if let t = sum s.bal over acct s where s.key < n",
            "  do {",
            "    let k = next acct {",
            "      emit k",
            "      emit now",
            "    }",
            '    veto "full"',
            "  }"])

    def test_graph(self) -> None:
        text = script(self.ENTRIES, [["let", "m", ["least", "x", "acct", True, ["of", "x", "bal"]], []]], "closed")
        told = graph.graph_text(graph.build(rulebase.read(text)))
        self.assertIn("r (immediate, closed), on signal go", told)
        self.assertIn("rule r, let m: all of acct", told)
        for looks_at_no_row_or_at_a_part in "let n", "no k", "let t":
            self.assertNotIn(looks_at_no_row_or_at_a_part, told)


class CourseTest(unittest.TestCase):
    def test_the_course_is_that_of_the_definitions(self) -> None:
        for seed in SEEDS:
            with self.subTest(seed=seed):
                made = Version4Maker(seed).script()
                defined = definitions_run.report(definitions_run.Run(made))
                self.assertEqual(report.write(Course(rulebase.read(json.dumps(made))).report()), defined)
                self.assertEqual(report.write(report.read(defined)), defined)


if __name__ == "__main__":
    unittest.main()
