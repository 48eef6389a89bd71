"""Rule bases that refuse what could end with A3, A6 or A7."""

from __future__ import annotations

import tempfile
import unittest
from pathlib import Path

from hipac import Base, Journal, ProgramEnded, Refused

from .making import BY, RuleBaseTest, installed, rule, script

ADDS = installed(rule("adds", ["signal", "go"], [["emit", ["+", ["arg", 0, 0], 1]]]))
"""Reads the first argument of `go` as a number."""

ENDLESS = script([rule("loop", ["update", "item"], [["update", "item", ["id", 0], []]])])
UNKINDED = script([rule("wrong", ["commit"], [["emit", ["neg", "a"]]])])

TEXT = "version 1 rule adds on signal go do { emit event.arg(0) + 1 } transaction { install adds }"


class Refusals(RuleBaseTest):
    def refusal(self, call) -> tuple:
        """The code, the path, the limit and the part of a refusal."""
        with self.assertRaises(Refused) as caught:
            call()
        refused = caught.exception
        return refused.code, refused.path, refused.limit, refused.part


class CheckedTest(Refusals):
    def test_lines(self):
        base = self.base(ADDS, checked=True)
        self.assertEqual(base.tx([["signal", "go", [6]]]).emits, [7])
        for body, wanted in (([["emit", 1], ["signal", "go", ["a"]]], ("S8", "/1/1/2/0", "kinds", "a")),
                             ([["signal", "go", []]], ("S8", "/1/0", "kinds", ["signal", "go", []])),
                             ([["emit", ["neg", "a"]]], ("S8", "/1/0/1/1", "kinds", "a"))):
            with self.subTest(body):
                self.assertEqual(self.refusal(lambda it=body: base.tx(it)), wanted)
        self.assertEqual(base.units, 2)

    def test_unchecked(self):
        base = self.base(ADDS)
        self.assertEqual(str(base.tx([["emit", ["neg", "a"]]])), "unit 2 aborted A3")

    def test_scripts(self):
        for given, wanted in ((UNKINDED, ("S8", "/rules/0/5/0/1/1", "kinds")), (ENDLESS, ("S8", None, "depth")),
                              (script([], [["tx", []], ["tx", [["emit", ["neg", "a"]]]]]),
                               ("S8", "/0/1/1", "kinds unit 2"))):
            with self.subTest(wanted):
                self.assertEqual(self.refusal(lambda it=given: Base(it, checked=True))[:3], wanted)
                self.base(given)

    def test_texts(self):
        base = self.base(None, rules=TEXT, checked=True)
        self.assertEqual(base.transaction("signal go(6)").emits, [7])
        refusal = self.refusal(lambda: base.transaction("signal go($x)", x="a"))
        self.assertEqual(refusal[:3], ("S8", "/1/0/2/0", "kinds"))

    def test_a_journal_has_what_was_refused(self):
        with tempfile.TemporaryDirectory() as room:
            path = Path(room) / "journal"
            with Base.recover(path, ADDS, checked=True) as base:
                self.refusal(lambda: base.tx([["signal", "go", ["a"]]]))
                base.tx([["signal", "go", [1]]])
            with Base.recover(Journal(path), checked=True) as base:
                self.assertEqual((base.replayed, base.units), (3, 2))


@unittest.skipUnless(BY == "program", "the library takes no file of signals")
class SignalsTest(Refusals):
    def test_signals(self):
        with tempfile.NamedTemporaryFile() as file:
            file.write(b'[["paid",["int"]]]')
            file.flush()
            base = self.base(ADDS, signals=file.name)
            self.assertEqual(str(base.tx([["signal", "paid", [1]]])), "unit 2 committed")
            refusal = self.refusal(lambda: base.tx([["signal", "paid", [True]]]))
            self.assertEqual(refusal, ("S8", "/1/0/2/0", "kinds", True))
        with self.assertRaises(ProgramEnded) as caught:
            Base(ADDS, signals="/nowhere/signals")
        self.assertEqual((caught.exception.status, caught.exception.errors), (3, "the signals' file can't be read\n"))
