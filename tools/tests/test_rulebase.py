"""Reading a script for the tools that show one."""
from __future__ import annotations

import json
import unittest
from typing import Any

from hipac_tools import language, rulebase
from tests.making import EXAMPLES, rule, script


class Reading(unittest.TestCase):
    def test_parts_of_a_script(self) -> None:
        base = rulebase.read(script([rule("r", ["commit"], [["abort"]], "separate", queries=[["q", "c", True]])],
                                    [["tx", []], ["clock", 3]], [["c", [["f", "int"]]]], version=2, depth=4))
        self.assertEqual((base.version, base.depth, base.depth_limit), (2, 4, 4))
        self.assertEqual(base.classes, [rulebase.Class("c", [("f", "int")])])
        self.assertEqual(base.rules, [rulebase.Rule("r", ["commit"], "separate", [rulebase.Query("q", "c", True)],
                                                    "immediate", [["abort"]])])
        self.assertEqual(base.items, [["tx", []], ["clock", 3]])
        self.assertTrue(base.rules[0].detaches)

    def test_a_depth_that_is_not_given(self) -> None:
        base = rulebase.read(script([], []))
        self.assertEqual((base.depth, base.depth_limit), (None, 8))

    def test_what_is_no_script(self) -> None:
        deep = ["neg"] * 17
        for text, place in [
                ("", "no JSON text"), ("[" * 100000, "no JSON text"), ('{"version": NaN}', "no JSON text"),
                ("[]", "at /:"), ('{"version": 1}', "at /:"),
                (script([], [], version=3), "at /version:"), (script([], [], depth=0), "at /depth:"),
                (script([], [], depth=True), "at /depth:"), (script([], [], depth=None), "at /depth:"),
                (script([], [], [["c", [["f", "float"]]]]), "at /classes/0/1/0/1:"),
                (script([["r"]], []), "at /rules/0:"),
                (script([rule("1r", ["commit"], [])], []), "at /rules/0/0:"),
                (script([rule("r", ["commits"], [])], []), "at /rules/0/1:"),
                (script([rule("r", ["every", 1, 0], [])], []), "at /rules/0/1/2:"),
                (script([rule("r", ["commit"], [], "exclusive")], []), "at /rules/0/2:"),
                (script([rule("r", ["commit"], [["emit", 1.5]])], []), "at /rules/0/5/0/1:"),
                (script([rule("r", ["commit"], [["emit", 2 ** 63]])], []), "at /rules/0/5/0/1:"),
                (script([rule("r", ["commit"], [["emit", "\ud800"]])], []), "at /rules/0/5/0/1:"),
                (script([rule("r", ["commit"], [["emit", ["new", -1, "f"]]])], []), "at /rules/0/5/0/1/1:"),
                (script([rule("r", ["commit"], [["signal", "s", [["key"]]]])], []), "at /rules/0/5/0/2/0:"),
                (script([], [["tx", [["create", "c", 1, [["f"]]]]]]), "at /items/0/1/0/3/0:"),
                (script([], [["clock", -1]]), "at /items/0/1:"), (script([], [["clocks", 1]]), "at /items/0:"),
                (script([], [["tx", [["emit", nested(deep)]]]]), "at /items/0/1/0/1/1/1/1/1/1/1/1/1/1/1/1/1/1/1/1/1:")]:
            with self.subTest(text=text[:80]):
                with self.assertRaises(rulebase.Refused) as refused:
                    rulebase.read(text)
                self.assertIn(place, str(refused.exception))
                self.assertIn("./hipac-tools check", str(refused.exception))

    def test_all_examples_are_read(self) -> None:
        for example in EXAMPLES:
            root = json.loads(example.read_text(encoding="utf-8"))
            base = rulebase.read(example.read_text(encoding="utf-8"))
            self.assertEqual([one.name for one in base.rules], [one[0] for one in root["rules"]])

    def test_walks(self) -> None:
        body = [["if", True, [["abort"]], [["sub", [["veto"]], [["emit", 1]]]]], ["for", "x", [["emit", 2]]]]
        self.assertEqual([statement[0] for statement in language.statements(body)],
                         ["if", "abort", "sub", "veto", "emit", "for", "emit"])
        event = ["seq", ["or", ["commit"], ["at", 1]], ["closure", ["signal", "a"], ["signal", "b"]]]
        self.assertEqual(list(language.patterns(event)), [["commit"], ["at", 1], ["signal", "a"], ["signal", "b"]])
        self.assertFalse(language.has_one_part(event))
        self.assertTrue(language.has_one_part(event[1]))


def nested(words: list[str]) -> Any:
    inner: Any = 1
    for word in words:
        inner = [word, inner]
    return inner
