"""Snapshots: a new rule base that stands as another does, and goes on as it."""

from __future__ import annotations

import json
import unittest

from hipac import SnapshotFault

from .making import ITEM, NO_OVERSELL, NOTE, RuleBaseTest, installed, rule, script

REPORTS = rule("reports", ["or", ["update", "item"], ["every", 5, 5]], [["emit", ["count"]]])
ALARM = rule("alarm", ["at", 8], [["emit", ["time", 0]]], "separate")
LATE = rule("late", ["at", 12], [["emit", ["time", 0]]])
SPARE = rule("spare", ["delete", "item"], [["abort"]])
GIVEN = script([REPORTS, ALARM, LATE, NO_OVERSELL, SPARE])
PAIR = rule("pair", ["or", ["delete", "item"], ["seq", ["signal", "a"], ["signal", "a"]]], [["emit", "pair"]])
AT_END = rule("at_end", ["commit"], [["emit", "end"]])


class SnapshotTest(RuleBaseTest):
    def copy_of(self, base, **options):
        """A rule base of the snapshot's lines."""
        path = self.folder() / "journal"
        path.write_bytes(b"".join(line + b"\n" for line in base.snapshot(**options)))
        return self.recovered(path)

    def grown(self):
        base = self.base(GIVEN)
        base.tx([["install", name] for name in ("reports", "alarm", "late", "no_oversell")])
        base.tx([["create", "item", -7, [["stock", 3]]], ["create", "note", 1, [["text", 'a "b"'], ["read", True]]]])
        base.clock(9)
        base.tx([["update", "item", -7, [["stock", 2]]], ["disable", "late"]])
        return base

    def test_it_goes_on_as_before(self):
        base = self.grown()
        copy = self.copy_of(base)
        self.assertEqual((copy.show(), copy.time), (base.show(), 9))
        later = (["tx", [["update", "item", -7, [["stock", -1]]]]], ["clock", 10], ["tx", [["enable", "late"]]],
                 ["clock", 16], ["tx", [["update", "item", -7, [["stock", 8]]]]])
        for item in later:
            found = [[(it.time, str(it.ending), it.all_emits) for it in each.item(item)] for each in (base, copy)]
            self.assertEqual(found[0], found[1], item)
        self.assertEqual(copy.show(), base.show())

    def test_a_snapshot_of_a_snapshot(self):
        first = self.grown().snapshot()
        self.assertEqual(self.base(json.loads(first[0])).snapshot(), first)

    def test_what_would_differ(self):
        base = self.base(installed(PAIR, AT_END, REPORTS))
        with self.assertRaises(SnapshotFault) as fault:
            base.snapshot()
        self.assertEqual(set(fault.exception.differences), {"pair", "at_end"})
        self.assertIn("pair loses its past", str(fault.exception))
        base.tx([["signal", "a", []]])
        copy = self.copy_of(base, lose_pasts=True)
        self.assertEqual(copy.show(), base.show())
        self.assertEqual([each.tx([["signal", "a", []]]).emits for each in (base, copy)], [["pair", "end"], ["end"]])
        base.tx([["disable", "pair"], ["remove", "at_end"]])
        self.assertEqual(self.copy_of(base).show(), base.show())

    def test_a_clock_that_has_passed_many_moments(self):
        base = self.base(installed(rule("tick", ["or", ["every", 1, 1], ["every", 7, 2]], [])))
        for time in (900, 1800, 2500):
            base.clock(time)
        lines = base.snapshot()
        self.assertEqual([item for item in json.loads(lines[0])["items"] if item[0] == "clock"],
                         [["clock", 1000], ["clock", 2000], ["clock", 2500]])
        self.assertEqual(self.copy_of(base).time, 2500)

    def test_more_objects_than_a_script_may_have(self):
        base = self.base(script(classes=[NOTE]))
        for part in range(3):
            base.tx([["create", "note", 1000 * part + key, [["text", "x" * 1000], ["read", False]]]
                     for key in range(500)])
        self.assertGreater(len(base.snapshot()), 2)
        self.assertEqual(self.copy_of(base).show(), base.show())

    def test_new_rules_over_the_old_objects(self):
        base = self.grown()
        few = [["i", "item", ["<", ["of", "i", "stock"], 2]]]
        low = rule("low", ["update", "item"], [["emit", "low"]], queries=few)
        new = script([NO_OVERSELL, low], [["tx", [["install", "low"]]]], classes=[NOTE, ITEM])
        copy = self.copy_of(base, script=new)
        self.assertEqual([str(it) for it in copy.show().objects],
                         ['note 1 text="a \\"b\\"" read=true', "item -7 stock=2"])
        self.assertEqual(copy.show().rules, {"no_oversell": "enabled", "low": "enabled"})
        self.assertEqual(copy.tx([["update", "item", -7, [["stock", 1]]]]).emits, ["low"])


if __name__ == "__main__":
    unittest.main()
