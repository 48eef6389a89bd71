"""What the program answers, as objects: units, endings, values, cascades, trees and states."""

from __future__ import annotations

import unittest

from hipac import Act, Emit, Ending, Fire, ObjectOperation, Refused, RuleOperation, Sub

from .making import ITEM, NOTE, STOCK, RuleBaseTest, installed, rule, script

LEAST, GREATEST = -(2 ** 63), 2 ** 63 - 1

TEXTS = ("", "two words", 'a quote " and \\', "tab\tline\nreturn\r\b\f", "\x00\x01\x1f\x7f", "é ß 漢字 🦀",
         "\u2028\u2029\x85\ufeff", "x=1 y=2", "\nok 1\nrefused S1\n", "</script>", "a" * 1024)


class EndingTest(RuleBaseTest):
    def test_each_cause_of_a_body(self):
        base = self.base(STOCK)
        bodies = {
            "A1": ["create", "item", 7, [["stock", 1]]],
            "A2": ["update", "item", 8, [["stock", 1]]],
            "A3": ["update", "item", 7, [["stock", "many"]]],
            "A4": ["emit", ["*", GREATEST, 2]],
            "A5": ["emit", ["/", 1, 0]],
            "A6": ["emit", ["count"]],
            "A8": ["abort"],
            "A9": ["update", "item", 7, [["stock", -1]]],
        }
        for cause, statement in bodies.items():
            with self.subTest(cause):
                unit = base.tx([["emit", "undone"], statement])
                wanted = Ending(cause, "no_oversell" if cause == "A9" else None)
                self.assertEqual((unit.ending, unit.committed, unit.cause, unit.emits), (wanted, False, cause, []))

    def test_too_deep(self):
        base = self.base(script([rule("again", ["commit"], [], "separate")], [["tx", [["install", "again"]]]], depth=2))
        self.assertEqual([str(it.ending) for it in base.tx([]).cascade], ["committed", "aborted A7"])

    def test_endings_as_words(self):
        self.assertEqual(str(Ending("A9", "no_oversell")), "aborted A9 no_oversell")
        self.assertEqual((str(Ending("A2")), str(Ending())), ("aborted A2", "committed"))

    def test_units_are_numbered_on(self):
        base = self.base(STOCK)
        self.assertEqual([(it.number, it.time, it.committed) for it in base.opening], [(1, None, True)])
        self.assertEqual(base.tx([]).number, 2)
        self.assertEqual(base.tx([["abort"]]).number, 3)
        self.assertEqual(base.units, 3)


class ValueTest(RuleBaseTest):
    def test_values_of_each_kind(self):
        values = [0, 1, -1, LEAST, GREATEST, True, False, *TEXTS]
        unit = self.base(script()).tx([["emit", value] for value in values])
        self.assertEqual([(type(it), it) for it in unit.emits], [(type(it), it) for it in values])

    def test_values_in_fields(self):
        wanted = [{"text": text, "read": key % 2 == 0} for key, text in enumerate(TEXTS)]
        for tree in (False, True):
            base = self.base(script(), tree=tree)
            unit = base.tx([["create", "note", key, list(it.items())] for key, it in enumerate(wanted)])
            self.assertEqual([it.fields for it in base.show().objects], wanted)
            self.assertEqual(unit.tree and [it.fields for it in unit.tree], wanted if tree else None)

    def test_texts_in_a_script(self):
        base = self.base(script(items=[["tx", [["emit", text] for text in TEXTS]]]))
        self.assertEqual(base.opening[0].emits, list(TEXTS))

    def test_tuples_are_lists(self):
        self.assertEqual(self.base(STOCK).tx((("emit", ("+", 1, 2)),)).emits, [3])


class ClockTest(RuleBaseTest):
    def test_a_unit_for_each_moment(self):
        base = self.base(installed(rule("tick", ["every", 10, 10], [["emit", ["time", 0]]])))
        self.assertEqual(base.time, 0)
        self.assertEqual([(it.number, it.time, it.emits) for it in base.clock(25)], [(2, 10, [10]), (3, 20, [20])])
        self.assertEqual((base.clock(25), base.clock(29), base.time, base.units), ([], [], 29, 3))

    def test_time_goes_on_from_the_script(self):
        base = self.base(script(items=[["clock", 5], ["tx", []], ["clock", 9]]))
        self.assertEqual(base.time, 9)

    def test_items_are_run_as_they_are(self):
        base = self.base(STOCK)
        self.assertEqual([it.emits for it in base.item(["tx", [["emit", 1]]])], [[1]])
        self.assertEqual((base.item(["clock", 4]), base.time), ([], 4))


class CascadeTest(RuleBaseTest):
    def test_each_mode(self):
        base = self.base(installed(*(rule(mode, ["signal", "go"], [["emit", mode]], mode)
                                     for mode in ("immediate", "deferred", "separate", "dependent", "exclusive"))))
        unit = base.tx([["signal", "go", []]])
        self.assertEqual(unit.emits, ["immediate", "deferred"])
        self.assertEqual([(it.mode, it.rule, it.ending, it.emits, it.tree) for it in unit.cascade],
                         [(mode, mode, Ending(), [mode], None) for mode in ("separate", "dependent")])
        self.assertEqual(unit.all_emits, ["immediate", "deferred", "separate", "dependent"])
        unit = base.tx([["signal", "go", []], ["abort"]])
        self.assertEqual((unit.cause, unit.emits), ("A8", []))
        self.assertEqual([(it.mode, it.emits) for it in unit.cascade],
                         [("separate", ["separate"]), ("exclusive", ["exclusive"])])

    def test_generations_come_one_after_the_other(self):
        base = self.base(installed(
            rule("left", ["signal", "go"], [["signal", "on", [1]]], "separate"),
            rule("right", ["signal", "go"], [["signal", "on", [2]], ["veto"]], "separate"),
            rule("next", ["signal", "on"], [["emit", ["arg", 0, 0]]], "separate")))
        unit = base.tx([["signal", "go", []]])
        self.assertEqual([(it.rule, str(it.ending), it.emits) for it in unit.cascade],
                         [("left", "committed", []), ("right", "aborted A9 right", []), ("next", "committed", [1]),
                          ("next", "committed", [2])])
        self.assertEqual([it.number for it in base.item(["tx", []])], [3])

    def test_a_moment_has_a_cascade(self):
        base = self.base(installed(rule("late", ["at", 5], [["emit", "late"]], "dependent")), tree=True)
        unit, = base.clock(5)
        self.assertEqual((unit.time, unit.tree, len(unit.cascade)), (5, [], 1))
        fire = Fire("late", "dependent", "satisfied", action=Ending(), items=[Emit("late")])
        self.assertEqual(unit.cascade[0].tree, [fire])


class TreeTest(RuleBaseTest):
    def tree(self, body, *rules):
        return self.base(installed(*rules), tree=True).tx(body).tree

    def test_operations(self):
        one = rule("one", ["at", 9], [])
        body = [["create", "item", -5, [["stock", 3]]], ["update", "item", -5, []], ["delete", "item", -5]]
        body += [[verb, "one"] for verb in ("disable", "enable", "remove", "install")]
        tree = self.tree([*body, ["emit", True]], one)
        self.assertEqual(tree, [
            ObjectOperation("create", "item", -5, {"stock": 3}), ObjectOperation("update", "item", -5, {"stock": 3}),
            ObjectOperation("delete", "item", -5), RuleOperation("disable", "one"), RuleOperation("enable", "one"),
            RuleOperation("remove", "one"), RuleOperation("install", "one"), Emit(True)])

    def test_nodes_that_hold_nodes(self):
        inner = rule("inner", ["signal", "go"], [["emit", 1], ["abort"]])
        tree = self.tree([["sub", [["signal", "go", []], ["sub", [["emit", 2]], []], ["abort"]], [["emit", 3]]]], inner)
        fire = Fire("inner", "immediate", "satisfied", action=Ending("A8"), items=[Emit(1)])
        self.assertEqual(tree, [Sub(Ending("A8"), [fire, Sub(Ending(), [Emit(2)])]), Emit(3)])

    def test_conditions(self):
        none = [["i", "item", True]]
        fault = [["i", "item", ["=", ["/", 1, 0], 1]]]
        rules = [rule("empty", ["signal", "go"], [], queries=none), rule("faulty", ["signal", "go"], [], queries=fault),
                 rule("put_off", ["signal", "go"], [["emit", 1]], "immediate", "deferred")]
        base = self.base(installed(*rules), tree=True)
        self.assertEqual(base.tx([["signal", "go", []]]).tree[0].condition, "unsatisfied")
        base.tx([["create", "item", 1, [["stock", 1]]], ["remove", "empty"]])
        self.assertEqual(base.tx([["signal", "go", []]]).tree, [
            Fire("faulty", "immediate", "fault", fault=Ending("A5")),
            Fire("put_off", "immediate", "satisfied", later=True),
            Act("put_off", "deferred", Ending(), [Emit(1)])])

    def test_an_aborted_unit_keeps_its_tree(self):
        unit = self.base(STOCK, tree=True).tx([["emit", 1], ["update", "item", 7, [["stock", -1]]]])
        veto = Ending("A9", "no_oversell")
        self.assertEqual((unit.ending, unit.emits), (veto, []))
        self.assertEqual(unit.tree, [Emit(1), ObjectOperation("update", "item", 7, {"stock": -1}),
                                     Fire("no_oversell", "deferred", "satisfied", action=veto)])

    def test_no_trees_unless_asked_for(self):
        self.assertIsNone(self.base(STOCK).tx([["emit", 1]]).tree)


class StateTest(RuleBaseTest):
    def test_objects_and_rules(self):
        off, never = rule("off", ["at", 9], []), rule("never", ["at", 9], [])
        base = self.base(script([*STOCK["rules"], off, never], classes=[NOTE, ITEM, ["bare", []]]))
        base.tx([["install", "no_oversell"], ["install", "off"], ["disable", "off"], ["create", "bare", 2, []]])
        base.tx([["create", "item", key, [["stock", 10 * key]]] for key in (12, -3, 5)])
        base.tx([["create", "note", 0, [["text", "a b=1"], ["read", True]]]])
        state = base.show()
        self.assertEqual([(it.class_name, it.key, it.fields) for it in state.objects],
                         [("note", 0, {"text": "a b=1", "read": True}), ("item", -3, {"stock": -30}),
                          ("item", 5, {"stock": 50}), ("item", 12, {"stock": 120}), ("bare", 2, {})])
        self.assertEqual(state.rules, {"no_oversell": "enabled", "off": "disabled", "never": "absent"})
        self.assertEqual((state.find("item", 5)["stock"], state.find("item", 6)), (50, None))
        self.assertEqual([it.key for it in state.all("item")], [-3, 5, 12])
        self.assertEqual(base.rows("item"), state.all("item"))
        self.assertEqual((base.get("item", 5), base.get("item", 6)), (state.find("item", 5), None))

    def test_a_class_and_a_key_that_are_refused(self):
        base = self.base(STOCK)
        for ask, code, path in ((lambda: base.rows("none"), "S4", "/1"), (lambda: base.get("item", "7"), "S2", "/2")):
            with self.assertRaises(Refused) as refused:
                ask()
            self.assertEqual((refused.exception.code, refused.exception.path), (code, path))

    def test_an_empty_state(self):
        state = self.base(script()).show()
        self.assertEqual((state.objects, state.rules), ([], {}))

    def test_workers_change_nothing(self):
        answers = []
        for workers in (1, 64):
            base = self.base(STOCK, workers=workers)
            answers.append((base.tx([["update", "item", 7, [["stock", 2]]]]), base.show()))
        self.assertEqual(answers[0], answers[1])


if __name__ == "__main__":
    unittest.main()
