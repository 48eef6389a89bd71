"""Lines that the program refuses, and those that the client doesn't send."""

from __future__ import annotations

import unittest

from hipac import Refused

from .making import ITEM, STOCK, RuleBaseTest, rule, script

SIZE = 1_048_576


def nested(levels: int) -> list:
    """A statement of so many levels."""
    statement = ["emit", 1]
    for _ in range(levels - 1):
        statement = ["sub", [statement], []]
    return statement


def summed(levels: int):
    """An expression of so many levels."""
    expression = 1
    for _ in range(levels - 1):
        expression = ["+", expression, 1]
    return expression


def either(levels: int) -> list:
    """An event of so many levels."""
    event = ["commit"]
    for _ in range(levels - 1):
        event = ["or", event, ["commit"]]
    return event


class RefusalTest(RuleBaseTest):
    def refused(self, call, *wanted) -> Refused:
        """The refusal of a call: its code, path, limit and part."""
        with self.assertRaises(Refused) as caught:
            call()
        error = caught.exception
        self.assertEqual((error.code, error.path, error.limit, error.part), wanted)
        return error

    def test_items_with_a_fault(self):
        base = self.base(STOCK)
        before = base.show()
        for statement, wanted in (
                (["emit"], ("S2", "/1/1", None, ["emit"])),
                (["veto"], ("S2", "/1/1", None, ["veto"])),
                (["emit", 1.5], ("S3", "/1/1/1", None, 1.5)),
                (["emit", 2 ** 63], ("S3", "/1/1/1", None, 2 ** 63)),
                (["update", "item", 7, [["stok", 1]]], ("S4", "/1/1/3/0/0", None, "stok")),
                (["create", "item", 8, []], ("S4", "/1/1/3", None, [])),
                (["emit", "x" * 1025], ("S5", None, "text", None)),
                (["emit", "é" * 513], ("S5", None, "text", None)),
                (["emit", summed(17)], ("S5", None, "expr", None)),
                (nested(17), ("S5", None, "nesting", None)),
                (["signal", "go", [1] * 33], ("S5", None, "args", None)),
                (["emit", "x" * SIZE], ("S5", None, "size", None))):
            with self.subTest(wanted):
                self.refused(lambda it=statement: base.tx([["update", "item", 7, [["stock", 1]]], it]), *wanted)
        self.assertEqual((base.show(), base.units), (before, 1))
        self.assertEqual(base.tx([["emit", summed(16)], nested(16), ["signal", "go", [1] * 32]]).number, 2)

    def test_clocks_with_a_fault(self):
        ticking = rule("tick", ["every", 1, 1], [])
        base = self.base(script([ticking], [["clock", 5]]))
        self.refused(lambda: base.clock(4), "S2", "/1", None, 4)
        self.refused(lambda: base.clock(-1), "S2", "/1", None, -1)
        self.refused(lambda: base.clock(1.0), "S3", "/1", None, 1.0)
        self.refused(lambda: base.clock(1006), "S5", None, "moments", None)
        self.assertEqual((base.time, base.units), (5, 5))
        self.assertEqual((len(base.clock(1005)), base.time), (1000, 1005))

    def test_other_items(self):
        base = self.base(STOCK)
        self.refused(lambda: base.tx(5), "S2", "/1", None, 5)
        self.refused(lambda: base.item(["txx", []]), "S2", "/", None, ["txx", []])
        self.refused(lambda: base.item({"tx": []}), "S2", "/", None, {"tx": []})

    def test_scripts_with_a_fault(self):
        doubled = script(classes=[ITEM, ITEM])
        many = [[f"c{number}", []] for number in range(65)]
        wide = [["wide", [[f"f{number}", "int"] for number in range(33)]]]
        commit = rule("r", ["commit"], [])
        rules = [rule(f"r{number}", ["commit"], []) for number in range(257)]
        for given, wanted in (
                (script(rules=[["r"]]), ("S2", "/rules/0", None, ["r"])),
                ({"version": 2}, ("S2", "/", None, {"version": 2})),
                ("[]", ("S2", "/", None, [])),
                (script(items=[["clock", 0.5]]), ("S3", "/items/0/1", None, 0.5)),
                (doubled, ("S4", "/classes/1/0", None, "item")),
                (script(rules=[commit, commit]), ("S4", "/rules/1/0", None, "r")),
                (script(classes=many), ("S5", None, "classes", None)),
                (script(classes=wide), ("S5", None, "fields", None)),
                (script(rules=rules), ("S5", None, "rules", None)),
                (script(rules=[rule("r", either(17), [])]), ("S5", None, "event", None)),
                (script(depth=17), ("S5", None, "depth", None)),
                (script(items=[["tx", [["emit", "x" * SIZE]]]]), ("S5", None, "size", None)),
                (script(version=3), ("S6", None, None, None))):
            with self.subTest(wanted):
                self.refused(lambda given=given: self.base(given), *wanted)

    def test_texts_of_refusals(self):
        for parts, told in (
                (("S1",), "refused S1 (no JSON text)"),
                (("S4", "/1/0/1", None, "é"), 'refused S4 /1/0/1 (an unknown or doubled name): "é"'),
                (("S5", None, "size"), "refused S5 size (over a limit)"),
                (("S2", "/1", None, ["x" * 90]), 'refused S2 /1 (a wrong shape): ["' + "x" * 58 + " ..")):
            self.assertEqual(str(Refused(*parts)), told)

    def test_what_is_no_json(self):
        """Such lines can only come from a journal, where they are skipped."""
        base = self.base(STOCK)
        for line in ("", "{", '["tx",[["emit",NaN]]]', b'["tx",[["emit","\xff"]]]', "[" * 5000):
            base.replay([line])
            self.assertEqual(base.last_replayed.code, "S1")
        self.assertEqual((base.units, base.replayed), (1, 5))


class UnsendableTest(RuleBaseTest):
    def test_bodies_that_are_no_json(self):
        base = self.base(STOCK)
        circle = []
        circle.append(circle)
        deep = []
        for _ in range(100_000):
            deep = [deep]
        for value in (float("nan"), float("inf"), "\ud800", circle, deep):
            with self.assertRaises(ValueError):
                base.tx([["emit", value]])
        with self.assertRaises(TypeError):
            base.tx([["emit", {1, 2}]])
        self.assertEqual(base.tx([]).number, 2)

    def test_scripts_that_are_no_json(self):
        for text in ("", "{", "rules.json", '{"version":1,"version":2}', '{"version":NaN}', b"\xff"):
            with self.subTest(text), self.assertRaises(ValueError):
                self.base(text)
        with self.assertRaisesRegex(ValueError, "the path of a file is given as a Path"):
            self.base("rules.json")
        with self.assertRaises(FileNotFoundError):
            self.base(self.folder() / "rules.json")

    def test_scripts_of_each_form(self):
        text = '{"version": 1,\n "classes": [], "rules": [],\r\n\n "items": [["tx", [["emit", "é"]]]]}\n'
        path = self.folder() / "rules.json"
        path.write_text(text, encoding="utf-8")
        for given in (text, text.encode(), path):
            self.assertEqual(self.base(given).opening[0].emits, ["é"])

    def test_workers_out_of_bounds(self):
        for workers in (0, 65, -1):
            with self.assertRaises(ValueError):
                self.base(STOCK, workers=workers)


if __name__ == "__main__":
    unittest.main()
