"""The sentences of `why`, for each cause of an abort, and for each reason that a rule doesn't fire."""

import contextlib
import io
import json
import os
import tempfile
import unittest

from hipac_tools import places, why

from .trials import with_paths

CLASSES = [["acct", [["bal", "int"], ["open", "bool"]]], ["item", [["stock", "int"]]]]
ACCOUNT = ["create", "acct", 1, [["bal", 10], ["open", True]]]
GO = ["signal", "go", []]
ORDER = ["signal", "order", [7]]

ITEM = ["create", "item", 7, [["stock", 3]]]

RESERVE = ["reserve", ["signal", "order"], "immediate", [], "immediate",
           [["update", "item", ["arg", 0, 0], [["stock", -1]]]]]
OVERSELL = ["oversell", ["update", "item"], "immediate", [["low", "item", ["<", ["of", "low", "stock"], 0]]],
            "immediate", [["veto"]]]


def simple(name, event, ec="immediate", queries=(), ca="immediate", action=()):
    return [name, event, ec, list(queries), ca, list(action)]


def script(rules, *items, **more):
    written = [item if item and item[0] == "clock" else ["tx", list(item)] for item in items]
    return dict({"version": 2, "classes": CLASSES, "rules": list(rules), "items": written}, **more)


def install(*names):
    return [["install", name] for name in names]


class WhyCase(unittest.TestCase):
    maxDiff = 3000

    def answer(self, of, unit, rule=None, **more):
        """The answer's lines, none of them folded."""
        text = why.explanation(json.dumps(of).encode(), unit, rule, width=10_000, **more)
        return [line.strip() for line in with_paths(text, of).splitlines()]

    def says(self, of, unit, expected, rule=None, **more):
        self.assertEqual(self.answer(of, unit, rule, **more), expected)


class PlacesTest(unittest.TestCase):
    OF = script([], [["sub", [["abort"]], []], ["create", "note", 1, [["text", "see /items/0/1/0"]]],
                     ["create", "note", 1, [["text", "\0/items/0\0"]]]], classes=[["note", [["text", "text"]]]])

    def answer(self, text):
        return why.explanation(text.encode(), 1, width=10_000)

    def test_a_script_of_several_lines_has_lines_and_columns(self):
        text = json.dumps(self.OF, indent=1)
        line = text[:text.rindex('"create"')].count("\n")
        told = self.answer(text)
        self.assertIn(f"note 1 is there already (at line {line}:5).", told)
        self.assertIn("Within it the `sub` at line ", told)
        self.assertNotIn("/items", told)

    def test_a_script_of_one_line_has_the_places_of_its_printed_form(self):
        line = json.dumps(self.OF, indent=4)[:-1].rsplit('"create"', 1)[0].count("\n")
        told = self.answer(json.dumps(self.OF) + "\n").split("\n")
        self.assertIn(f"  `create note 1`: note 1 is there already (at line {line}:17).", told)
        self.assertEqual(told[-2], "(the script is on one line: lines and columns are those that "
                                   "`python3 -m json.tool` gives it)")
        self.assertNotIn("/items", "".join(told[:-2]).replace('"see /items/0/1/0"', ""))

    def test_only_marked_paths_of_the_script_are_told(self):
        told = places.Places('{"rules": [],\n "items": [["tx", []]]}').told
        self.assertEqual(told(f"a /items/0 at {places.marked('/items/0/1')}."), "a /items/0 at line 2:19.")
        self.assertEqual(told(places.marked("/items/7")), "/items/7")


class CausesTest(WhyCase):
    def one(self, body, cause, sentence, rules=()):
        self.says(script(rules, body), 1, [f"unit 1 aborted {cause}", sentence])

    def test_a1(self):
        self.one([ACCOUNT, ACCOUNT], "A1", "`create acct 1`: acct 1 is there already (at /items/0/1/1).")

    def test_a2(self):
        tell = simple("tell", ["signal", "go"])
        self.one([["update", "acct", 9, []]], "A2", "`update acct 9`: there is no acct 9 (at /items/0/1/0).")
        self.one([["delete", "acct", 9]], "A2", "`delete acct 9`: there is no acct 9 (at /items/0/1/0).")
        self.one([["with", "a", "acct", 9, []]], "A2", "`with acct 9`: there is no acct 9 (at /items/0/1/0).")
        self.one([["enable", "tell"]], "A2", "`enable tell`: rule tell isn't installed (at /items/0/1/0).", [tell])
        self.one([["fire", "tell"]], "A2", "`fire tell`: rule tell isn't installed (at /items/0/1/0).", [tell])

    def test_a3(self):
        fields = [["bal", 1], ["open", True]]
        self.one([["create", "acct", True, fields]], "A3", "`create acct`: the key is true, which is no whole number "
                                                           "(at /items/0/1/0).")
        self.one([ACCOUNT, ["update", "acct", 1, [["bal", "x"]]]], "A3",
                 '`update acct 1`: the field bal is of kind int, and the value is "x" (at /items/0/1/1).')
        self.one([["emit", ["+", 1, "x"]]], "A3", '`+` asks for two whole numbers and met 1 and "x" (at /items/0/1/0).')
        self.one([ACCOUNT, ["with", "a", "acct", 1, [["emit", ["of", "a", "stock"]]]]], "A3",
                 "Acct 1 has no field stock (at /items/0/1/1/4/0).")
        self.one([["if", 1, [], []]], "A3", "The test of `if` gives 1, which is no truth value (at /items/0/1/0).")

    def test_a4(self):
        self.one([["emit", ["+", 2 ** 63 - 1, 1]]], "A4", "9223372036854775807 + 1 is outside 64 bits (at "
                                                          "/items/0/1/0).")
        self.one([["emit", ["%", -2 ** 63, -1]]], "A4", "-9223372036854775808 % -1 is outside 64 bits (at "
                                                        "/items/0/1/0).")

    def test_a5(self):
        self.one([["emit", ["/", 1, 0]]], "A5", "1 / 0 divides by zero (at /items/0/1/0).")

    def test_a6(self):
        self.one([["emit", ["id", 0]]], "A6", "`id` stands where there is no occurrence (at /items/0/1/0).")
        asks = simple("asks", ["signal", "go"], action=[["emit", ["new", 0, "bal"]]])
        self.says(script([asks], [["install", "asks"], GO]), 1, [
            "unit 1 committed",
            "Though it committed, the action of rule asks ended with a fault (A6). Only the action was undone.",
            "All of its own statements ran.", "Within it the action of rule asks aborted A6:",
            "Part 0 is signal go [], which has no `new` (at /rules/0/5/0).",
            "Rule asks was triggered by signal go [] at /items/0/1/1, in the unit's own body.",
            "Rules:", "asks failed (A6)"])
        fired = simple("fired", ["signal", "go"], queries=[["a", "acct", ["=", ["key", "a"], ["id", 0]]]])
        self.assertIn("Its condition ended with a fault (A6). Query a met a fault at acct 1: `id` asks for part 0, and "
                      "a rule that `fire` runs has no event.",
                      self.answer(script([fired], install("fired") + [ACCOUNT, ["fire", "fired"]]), 1, "fired"))

    def test_a7(self):
        loop = simple("loop", ["signal", "go"], action=[GO])
        self.says(script([loop], [["install", "loop"], GO], depth=1), 1, [
            "unit 1 committed",
            "Though it committed, the action of rule loop ended with a fault (A7). Only the action was undone.",
            "All of its own statements ran.", "Within it the action of rule loop aborted A7:",
            "Signal go [] would trigger loop at depth 2, and the limit is 1 (at /rules/0/5/0).",
            "Rule loop was triggered by signal go [] at /items/0/1/1, in the unit's own body.",
            "Rules:", "loop failed (A7)"])

    def test_a8(self):
        self.one([["abort"]], "A8", "The statement `abort` (at /items/0/1/0).")

    def test_a9_tells_the_chain_that_led_to_the_veto(self):
        checked = simple("checked", ["update", "item"], "deferred", action=[["veto"]])
        shop = script([RESERVE, checked], install("reserve", "checked") + [ITEM], [ORDER])
        self.says(shop, 2, [
            "unit 2 aborted A9 checked", "Rule checked vetoed (at /rules/1/5/0).",
            "It was triggered by update item 7 (stock 3 -> -1) at /rules/0/5/0, in the action of rule reserve.",
            "It is deferred, so it ran at the end of the transaction.",
            "Rule reserve was triggered by signal order [7] at /items/1/1/0, in the unit's own body.",
            "Rules:", "reserve acted in vain", "checked (deferred) vetoed"])

    def test_a9_of_an_immediate_rule_aborts_what_it_was_triggered_in(self):
        shop = script([RESERVE, OVERSELL], install("reserve", "oversell") + [ITEM], [ORDER])
        self.says(shop, 2, [
            "unit 2 committed", "All of its own statements ran.",
            "Within it the action of rule reserve aborted A9 oversell:", "Rule oversell vetoed (at /rules/1/5/0).",
            "It was triggered by update item 7 (stock 3 -> -1) at /rules/0/5/0, in the action of rule reserve.",
            "Rule reserve was triggered by signal order [7] at /items/1/1/0, in the unit's own body.",
            "Rules:", "reserve failed (A9 oversell)", "oversell vetoed"])


class CascadeTest(WhyCase):
    RULES = [simple("always", ["signal", "go"], "separate", action=[["veto"]]),
             simple("kept", ["signal", "go"], "dependent"),
             simple("undone", ["signal", "go"], "exclusive")]

    def test_what_was_detached_and_what_was_dropped_is_told(self):
        of = script(self.RULES, install("always", "kept", "undone"), [GO, ["abort"]], [GO])
        self.says(of, 2, [
            "unit 2 aborted A8", "The statement `abort` (at /items/1/1/1).",
            "separate always aborted A9 always",
            "Rule always was triggered by signal go [] at /items/1/1/0, in the unit's own body.",
            "Rule always vetoed (at /rules/0/5/0).",
            "exclusive undone committed",
            "Rule undone was triggered by signal go [] at /items/1/1/0, in the unit's own body.",
            "Its action ran and changed nothing.",
            "dependent kept dropped",
            "Rule kept was triggered by signal go [] at /items/1/1/0, in the unit's own body.",
            "It was dropped before its condition was tested, as unit 2 aborted (A8)."])
        self.assertEqual(self.answer(of, 3)[2:4], ["Rules:", "undone (exclusive) was dropped"])
        self.says(of, 3, [
            "rule undone was triggered once in unit 3, and was dropped",
            "It was triggered by signal go [] at /items/2/1/0, in the unit's own body.",
            "It is exclusive and was dropped, as no transaction round its trigger aborted."], "undone")

    def test_a_transaction_of_its_own_that_did_nothing_or_failed(self):
        low = [["i", "item", ["and", ["=", ["key", "i"], ["id", 0]], ["<", ["of", "i", "stock"], 3]]]]
        rules = [simple("low", ["update", "item"], "dependent", low),
                 simple("gone", ["update", "item"], "separate", action=[["delete", "item", 9]])]
        of = script(rules, install("low", "gone") + [ITEM], [["update", "item", 7, [["stock", 4]]]])
        trigger = "was triggered by update item 7 (stock 3 -> 4) at /items/1/1/0, in the unit's own body."
        self.says(of, 2, [
            "unit 2 committed", "All of its own statements ran.",
            "dependent low committed", "Rule low " + trigger,
            "Its condition wasn't satisfied. Query i found nothing, as i.stock < 3 isn't true of item 7 (i.stock is "
            "4).",
            "So it did nothing.",
            "separate gone committed",
            "Though it committed, the action of rule gone ended with a fault (A2). Only the action was undone.",
            "Rule gone " + trigger,
            "Its action aborted A2. `delete item 9`: there is no item 9 (at /rules/1/5/0)."])


class FiringTest(WhyCase):
    def test_a_firing_is_told_with_its_trigger_condition_and_end(self):
        shop = script([RESERVE, OVERSELL], install("reserve", "oversell") + [ITEM], [ORDER])
        self.says(shop, 2, [
            "rule oversell was triggered once in unit 2, and vetoed",
            "fire oversell immediate satisfied aborted A9 oversell, in unit 2",
            "It was triggered by update item 7 (stock 3 -> -1) at /rules/0/5/0, in the action of rule reserve.",
            "Rule reserve was triggered by signal order [7] at /items/1/1/0, in the unit's own body.",
            "Its condition was satisfied. Query low found item 7 among 1 object of item.",
            "It vetoed (at /rules/1/5/0)."], "oversell")

    def condition(self, predicate, occurrence=ORDER, more=()):
        """The sentences on a condition that asks for an item when there is one."""
        asks = simple("asks", ["signal", occurrence[1]], queries=[["i", "item", predicate], *more])
        of = script([asks], install("asks") + [ITEM, occurrence])
        return next(line for line in self.answer(of, 1, "asks") if line.startswith("Its condition"))

    def test_of_one_object_it_is_told_which_test_it_failed(self):
        key = ["=", ["key", "i"], ["arg", 0, 0]]
        few = ["<", ["of", "i", "stock"], ["arg", 0, 0]]
        many = ["or", ["<", 5, ["of", "i", "stock"]], ["=", ["of", "i", "stock"], ["-", ["arg", 0, 0], 1]]]
        self.assertEqual(self.condition(key), "Its condition was satisfied. Query i found item 7.")
        self.assertEqual(self.condition(key, ["signal", "order", [8]]),
                         "Its condition wasn't satisfied. Query i found nothing, as there is no item 8.")
        self.assertEqual(self.condition(["and", ["and", key, few], many]),
                         "Its condition wasn't satisfied. Query i found nothing, as 5 < i.stock or i.stock = "
                         "event.arg(0) - 1 isn't true of item 7 (i.stock is 3, event.arg(0) is 7).")
        self.assertEqual(self.condition(["and", key, False]),
                         "Its condition wasn't satisfied. Query i found nothing, as false isn't true of item 7.")

    def test_the_query_that_found_nothing_is_named(self):
        queries = [["a", "acct", True], ["i", "item", [">", ["of", "i", "stock"], 5]], ["b", "acct", True]]
        asks = simple("asks", ["signal", "go"], queries=queries)
        of = script([asks], install("asks") + [ACCOUNT, GO], [["create", "item", 1, [["stock", 3]]], GO])
        first = "Its condition wasn't satisfied. Query a found acct 1 among 1 object of acct. "
        self.assertIn(first + "Query i found nothing, as there is no object of item.", self.answer(of, 1, "asks"))
        self.assertIn(first + "Query i found none that fits among 1 object of item.",
                      self.answer(of, 2, "asks"))

    def test_the_query_that_met_a_fault_is_named(self):
        faulty = ["=", ["/", 1, ["-", ["of", "b", "bal"], 10]], 0]
        asks = simple("asks", ["signal", "go"], queries=[["a", "acct", True], ["b", "acct", faulty]])
        self.assertIn("Its condition ended with a fault (A5). Query a found acct 1 among 1 object of acct. "
                      "Query b met a fault at acct 1: 1 / 0 divides by zero.",
                      self.answer(script([asks], install("asks") + [ACCOUNT, GO]), 1, "asks"))

    def trigger(self, event, *statements):
        """The sentences on the trigger of a rule that the last of these statements triggers."""
        told = simple("told", event)
        of = script([told], install("told") + [ITEM], list(statements))
        return next(line for line in self.answer(of, 2, "told") if line.startswith("It was"))

    def test_the_values_at_the_trigger_are_told(self):
        where = " at /items/1/1/0, in the unit's own body."
        self.assertEqual(self.trigger(["create", "acct"], ACCOUNT),
                         "It was triggered by create acct 1 (bal 10, open true)" + where)
        self.assertEqual(self.trigger(["update", "item"], ["update", "item", 7, []]),
                         "It was triggered by update item 7 (nothing changed)" + where)
        self.assertEqual(self.trigger(["delete", "item"], ["delete", "item", 7]),
                         "It was triggered by delete item 7 (stock 3)" + where)

    def test_the_parts_of_a_composite_event_are_told(self):
        a, b, more = ["signal", "a", [1]], ["signal", "b", [2]], ["create", "item", 8, [["stock", 1]]]
        self.assertEqual(self.trigger(["seq", ["signal", "a"], ["signal", "b"]], a, b),
                         "It was triggered by signal b [2] at /items/1/1/1, in the unit's own body, after signal a "
                         "[1] (at /items/1/1/0).")
        self.assertEqual(self.trigger(["closure", ["create", "item"], ["signal", "b"]], more, b),
                         "It was triggered by signal b [2] at /items/1/1/1, in the unit's own body, after create "
                         "item 8 (stock 1) (at /items/1/1/0); the count is 2.")

    def test_a_part_of_another_unit_is_told_with_it(self):
        pair = simple("pair", ["seq", ["signal", "a"], ["signal", "b"]])
        of = script([pair], install("pair"), [["signal", "a", []]], [["signal", "b", []]])
        self.assertIn("It was triggered by signal b [] at /items/2/1/0, in the unit's own body, after signal a [] in "
                      "unit 2 (at /items/1/1/0).", self.answer(of, 3, "pair"))

    def test_what_a_statement_fires_is_told(self):
        of = script([simple("tell", ["signal", "go"])], install("tell") + [["fire", "tell"]])
        self.assertEqual(self.answer(of, 1, "tell"), [
            "rule tell was fired once in unit 1, and did nothing",
            "fire tell immediate satisfied committed, in unit 1",
            "It was fired by the statement `fire` at /items/0/1/1, in the unit's own body.",
            "It has no condition.", "Its action ran and changed nothing."])

    def test_what_was_undone_is_told(self):
        of = script([simple("tell", ["signal", "go"], action=[["emit", 1]])], install("tell"), [GO, ["abort"]])
        answer = self.answer(of, 2, "tell")
        self.assertEqual(answer[0], "rule tell was triggered once in unit 2, and acted in vain")
        self.assertEqual(answer[-2:], ["Its action committed.", "What it did was undone, as unit 2 aborted (A8)."])

    def test_an_action_that_is_put_off_counts_once(self):
        late = simple("late", ["signal", "go"], ca="dependent", action=[["emit", 1]])
        of = script([late], install("late"), [GO], [GO, ["abort"]], [GO, GO])
        self.says(of, 2, [
            "rule late was triggered once in unit 2, and acted",
            "fire late immediate satisfied later, in unit 2",
            "It was triggered by signal go [] at /items/1/1/0, in the unit's own body.",
            "It has no condition.", "Its action is dependent, so it was put off.",
            "act late dependent committed, in dependent late",
            "It was triggered by signal go [] at /items/1/1/0, in the unit's own body.",
            "Its action is dependent, so it ran in a transaction of its own.", "Its action committed."], "late")
        answer = self.answer(of, 3, "late")
        self.assertEqual(answer[0], "rule late was triggered once in unit 3, and was dropped")
        self.assertEqual(answer[-1], "It was dropped before its action ran, as unit 3 aborted (A8).")
        self.assertEqual(self.answer(of, 4, "late")[0], "rule late was triggered twice in unit 4, and acted each time")

    def test_several_fates_are_counted(self):
        test = ["if", ["<", ["arg", 0, 0], 5], [["emit", 1]], [["if", ["<", ["arg", 0, 0], 7], [["abort"]], []]]]
        some = simple("some", ["signal", "order"], action=[test])
        of = script([some], install("some"), [["signal", "order", [key]] for key in (1, 2, 6, 7, 8, 9)])
        self.assertEqual(self.answer(of, 2, "some")[0], "rule some was triggered 6 times in unit 2: it acted twice, "
                                                        "failed once and did nothing 3 times")


class SilenceTest(WhyCase):
    TELL = simple("tell", ["signal", "go"])

    def test_never_installed(self):
        self.says(script([self.TELL], [GO]), 1, [
            "rule tell wasn't triggered in unit 1", "Its event is: signal go.",
            "It wasn't installed.",
            "What its event waits for did happen: signal go []."], "tell")

    def test_an_install_that_was_undone_doesnt_count(self):
        of = script([self.TELL], install("tell") + [["abort"]], [["emit", 1]])
        self.says(of, 2, [
            "rule tell wasn't triggered in unit 2", "Its event is: signal go.",
            "It wasn't installed.",
            "The operation install tell in unit 1 (at /items/0/1/0) doesn't count, as it was undone: unit 1 aborted "
            "(A8).",
            "Nothing that its event waits for happened either."], "tell")

    def test_removed_before(self):
        of = script([self.TELL], install("tell"), [["remove", "tell"]], [GO])
        self.assertIn("It wasn't installed, since remove tell in unit 2 (at /items/1/1/0).", self.answer(of, 3, "tell"))

    def test_disabled_before(self):
        of = script([self.TELL], install("tell"), [["disable", "tell"]], [GO])
        self.assertIn("It was disabled, since disable tell in unit 2 (at "
                      "/items/1/1/0).", self.answer(of, 3, "tell"))

    def test_disabled_within_the_unit(self):
        of = script([self.TELL], install("tell"), [["signal", "other", []], ["disable", "tell"], GO])
        self.assertIn("At signal go [] (at /items/1/1/2) it was disabled, since disable tell in unit 2 (at "
                      "/items/1/1/1).",
                      self.answer(of, 2, "tell"))

    def test_its_event_didnt_occur(self):
        of = script([self.TELL], install("tell"), [ACCOUNT, ["update", "acct", 1, []], ["update", "acct", 1, []]])
        self.says(of, 2, [
            "rule tell wasn't triggered in unit 2", "Its event is: signal go.",
            "Nothing of that happened. What did: create acct 1, update acct 1 (twice), the commit event."], "tell")

    def mentions(self, event, *signals):
        """The sentences on a rule that is never triggered, for each signal."""
        waits = simple("waits", event)
        answer = self.answer(script([waits], install("waits"), [["signal", name, []] for name in signals]), 2, "waits")
        self.assertEqual(answer[0], "rule waits wasn't triggered in unit 2")
        return [line.split(" its event didn't occur, as ")[-1] for line in answer[2:]]

    def test_a_sequence_that_waits(self):
        pair = ["seq", ["signal", "a"], ["signal", "b"]]
        of = script([simple("pair", pair)], install("pair"), [["signal", "b", []], ["signal", "a", []]])
        self.assertEqual(self.answer(of, 2, "pair")[2:], [
            "At signal b [] (at /items/1/1/0) its event didn't occur, as there was no signal a before it.",
            "At signal a [] (at /items/1/1/1) its event didn't occur, as signal b has yet to follow."])
        of = script([simple("pair", pair)], install("pair"), [["signal", "a", []], ["signal", "b", []]],
                    [["signal", "b", []]])
        self.assertEqual(self.answer(of, 3, "pair")[2:], [
            "At signal b [] (at /items/2/1/0) its event didn't occur, as no earlier signal a is left.",
            "Signal a [] in unit 2 (at /items/1/1/0) was taken by signal b [] in unit 2 (at /items/1/1/1)."])

    def test_a_closure_that_waits(self):
        batch = ["closure", ["signal", "a"], ["signal", "b"]]
        self.assertEqual(self.mentions(batch, "b", "b", "a", "a"), [
            "there was no signal a before it.", "there was no signal a before it.",
            "signal b has yet to follow.", "signal b has yet to follow."])

    def test_events_in_events_that_wait(self):
        pair, batch = ["seq", ["signal", "a"], ["signal", "b"]], ["closure", ["signal", "a"], ["signal", "c"]]
        self.assertEqual(self.mentions(["seq", pair, ["signal", "c"]], "c", "a", "b"), [
            "there was no (signal a then signal b) before it since install waits in unit 1 (at /items/0/1/0).",
            "signal b has yet to follow.", "signal c has yet to follow."])
        self.assertEqual(self.mentions(["or", pair, batch], "c", "a", "a"), [
            "there was no signal a before it.", "signal b has yet to follow and signal c has yet to follow.",
            "signal b has yet to follow and signal c has yet to follow."])
        self.assertEqual(self.mentions(["closure", ["every", 2, 2], ["signal", "b"]], "b"), [
            'there was no moment of `every 2 from 2` before it.'])
        self.assertEqual(self.mentions(["seq", ["signal", "a"], ["every", 2, 2]], "a"), [
            'the next moment of `every 2 from 2` has yet to follow.'])

    def test_too_deep(self):
        rules = [simple("outer", ["signal", "out"], action=[GO]), self.TELL]
        of = script(rules, install("outer", "tell") + [["signal", "out", []]], depth=1)
        self.assertIn("At signal go [] (at /rules/0/5/0) it was triggered, but tell would have been too deep (A7).",
                      self.answer(of, 1, "tell"))

    def test_an_earlier_sibling_vetoed(self):
        rules = [simple("stop", ["signal", "go"], action=[["veto"]]), self.TELL]
        self.says(script(rules, install("stop", "tell"), [GO]), 2, [
            "rule tell was triggered once in unit 2, and was dropped",
            "It was triggered by signal go [] at /items/1/1/0, in the unit's own body.",
            "It was dropped before its condition was tested, as rule stop vetoed first."], "tell")

    def test_a_deferred_task_that_its_transaction_took_along(self):
        late = simple("late", ["signal", "go"], "deferred")
        of = script([late], install("late"), [["sub", [GO, ["abort"]], []]])
        self.says(of, 2, [
            "rule late was triggered once in unit 2, and was dropped",
            "It was triggered by signal go [] at /items/1/1/0/1/0, in a `sub`.",
            "It was dropped before its condition was tested, as the `sub` at /items/1/1/0 aborted (A8)."], "late")
        self.assertEqual(self.answer(of, 2)[-2:], ["Rules:", "late (deferred) was dropped"])

    def test_nothing_was_signalled(self):
        self.assertIn("Nothing was signalled in that unit.", self.answer(script([self.TELL], [["abort"]]), 1, "tell"))


class PastTest(WhyCase):
    """What became of each occurrence that a sequence or a closure could have been completed with."""

    A, B = ["signal", "a", []], ["signal", "b", []]
    PAIR = simple("waits", ["seq", ["signal", "a"], ["signal", "b"]])
    BATCH = simple("waits", ["closure", ["signal", "a"], ["signal", "b"]])
    LEFT, COUNTS = "as no earlier signal a is left.", "as no earlier signal a counts."

    def told(self, rule, *items, **more):
        """The sentences on a rule in the last of these units. Unit 1 installs it."""
        of = script([rule], install("waits"), *items)
        answer = self.answer(of, len(of["items"]), "waits", **more)
        self.assertEqual(answer[0], f"rule waits wasn't triggered in unit {len(of['items'])}")
        said = [line.split(" its event didn't occur, ")[-1] for line in answer[2:]]
        return [line for line in said if not line.endswith("has yet to follow.")]

    def of_both(self, *items):
        """The fates, which are the same for the sequence and the closure."""
        pair, batch = self.told(self.PAIR, *items), self.told(self.BATCH, *items)
        self.assertEqual((pair[0], batch[0]), (self.LEFT, self.COUNTS))
        self.assertEqual(pair[1:], batch[1:])
        return pair[1:]

    def test_an_occurrence_before_a_change_of_status_is_forgotten_there(self):
        self.assertEqual(self.of_both([self.A], [["disable", "waits"], ["enable", "waits"]], [self.B]), [
            "Signal a [] in unit 2 (at /items/1/1/0) was forgotten at disable waits in unit 3 (at /items/2/1/0)."])

    def test_an_occurrence_in_an_aborted_sub_is_undone(self):
        self.assertEqual(self.of_both([["sub", [self.A, ["abort"]], []], self.B]), [
            "Signal a [] (at /items/1/1/0/1/0) was undone, as the `sub` at /items/1/1/0 aborted (A8)."])

    def test_an_occurrence_in_an_aborted_unit_is_undone(self):
        self.assertEqual(self.of_both([self.A, ["abort"]], [self.B]), [
            "Signal a [] in unit 2 (at /items/1/1/0) was undone, as unit 2 aborted (A8)."])

    def test_what_aborts_later_is_not_undone_yet(self):
        of = script([self.PAIR], install("waits"), [self.A, self.B, self.B, ["abort"]])
        self.assertEqual(self.answer(of, 2, "waits")[-2:], [
            "At signal b [] (at /items/1/1/2) its event didn't occur, as no earlier signal a is left.",
            "Signal a [] (at /items/1/1/0) was taken by signal b [] (at /items/1/1/1)."])

    def test_a_change_of_status_that_was_undone_forgets_nothing(self):
        of = script([self.PAIR], install("waits"), [self.A],
                    [["sub", [["disable", "waits"], ["enable", "waits"], ["abort"]], []], self.B])
        self.assertEqual(self.answer(of, 3, "waits")[0], "rule waits was triggered once in unit 3, and did nothing")

    def test_what_an_undone_signal_took_is_there_again(self):
        of = script([self.PAIR], install("waits"), [self.A, ["sub", [self.B, ["abort"]], []]], [self.B], [self.B])
        self.assertEqual(self.answer(of, 3, "waits")[0], "rule waits was triggered once in unit 3, and did nothing")
        self.assertEqual(self.answer(of, 4, "waits")[-1], "Signal a [] in unit 2 (at /items/1/1/0) was taken by signal "
                                                          "b [] in unit 3 (at /items/2/1/0).")

    def test_an_occurrence_that_the_rule_did_not_hear(self):
        self.assertEqual(self.of_both([["disable", "waits"], self.A, ["enable", "waits"]], [self.B]), [
            "Signal a [] in unit 2 (at /items/1/1/1) wasn't heard, as rule waits was disabled, since disable waits in "
            "unit 2 (at /items/1/1/0)."])
        of = script([self.PAIR], [self.A], install("waits") + [self.B])
        self.assertEqual(self.answer(of, 2, "waits")[-1],
                         "Signal a [] in unit 1 (at /items/0/1/0) wasn't heard, as rule waits wasn't installed.")

    def test_what_an_end_of_a_closure_took(self):
        taken = "Signal a [] in unit 2 (at /items/1/1/{}) was taken by signal b [] in unit 2 (at /items/1/1/2)."
        self.assertEqual(self.told(self.BATCH, [self.A, self.A, self.B], [self.B]), [
            "as there was no signal a since the last signal b.", taken.format(1), taken.format(0)])

    def test_a_signal_that_ends_its_own_closure(self):
        both = simple("waits", ["closure", ["signal", "a"], ["or", ["signal", "a"], ["signal", "b"]]])
        self.assertEqual(self.told(both, [self.A], [self.B]), [
            self.COUNTS, "Signal a [] in unit 2 (at /items/1/1/0) ended the closure itself, so it doesn't count."])

    def test_each_has_its_own_fate(self):
        self.assertEqual(self.told(self.PAIR, [self.A, self.B, ["sub", [self.A, ["abort"]], []]], [self.A],
                                   [["disable", "waits"], ["enable", "waits"], self.B]), [
            self.LEFT,
            "Signal a [] in unit 3 (at /items/2/1/0) was forgotten at disable waits in unit 4 (at /items/3/1/0).",
            "Signal a [] in unit 2 (at /items/1/1/2/1/0) was undone, as the `sub` at /items/1/1/2 aborted (A8).",
            "Signal a [] in unit 2 (at /items/1/1/0) was taken by signal b [] in unit 2 (at /items/1/1/1)."])

    def test_the_parts_of_a_candidate_are_told(self):
        triple = simple("waits", ["seq", self.PAIR[1], ["signal", "c"]])
        self.assertEqual(self.told(triple, [self.A, ["sub", [self.B, ["abort"]], []], ["signal", "c", []]])[-2:], [
            "as no earlier (signal a then signal b) is left.",
            "Signal a [] then signal b [] (at /items/1/1/1/1/0) was undone, as the `sub` at /items/1/1/1 aborted "
            "(A8)."])

    def test_the_last_ones_are_told_and_all_on_demand(self):
        many = [[self.A, self.B] * 6, [self.B]]
        self.assertEqual(len(self.told(self.PAIR, *many)), 6)
        self.assertEqual(self.told(self.PAIR, *many)[-1], "and 2 more before")
        self.assertEqual(len(self.told(self.PAIR, *many, most=why.ALL)), 7)

    def test_each_status_is_told_where_there_were_several(self):
        of = script([self.PAIR], install("waits"), [["disable", "waits"], self.B, ["enable", "waits"],
                                                    ["disable", "waits"], self.B])
        self.assertEqual(self.answer(of, 2, "waits")[2:], [
            "At signal b [] (at /items/1/1/1) it was disabled, since disable waits in unit 2 (at /items/1/1/0).",
            "At signal b [] (at /items/1/1/4) it was disabled, since disable waits in unit 2 (at /items/1/1/3)."])


class TwoQueriesTest(WhyCase):
    """A later query is asked with the first row of an earlier one only."""

    CLASSES = [["p", [["n", "int"]]], ["q", [["n", "int"]]]]

    def condition(self, predicate, first=True):
        asks = simple("asks", ["signal", "go"], queries=[["x", "p", first], ["y", "q", predicate]])
        rows = [["create", "p", 1, [["n", 1]]], ["create", "p", 2, [["n", 2]]], ["create", "q", 5, [["n", 2]]]]
        of = script([asks], install("asks") + rows, [GO], classes=self.CLASSES)
        return next(line for line in self.answer(of, 2, "asks") if line.startswith("Its condition"))

    def test_the_first_row_is_named_with_the_number_of_rows(self):
        found = "Its condition wasn't satisfied. Query x found p 1, 2 among 2 objects of p. "
        self.assertEqual(self.condition(["=", ["of", "y", "n"], ["of", "x", "n"]]),
                         found + "Query y found none that fits among 1 object of q, with x = p 1 (the first of 2 "
                                 "rows).")
        self.assertEqual(self.condition(["and", ["=", ["key", "y"], 5], ["=", ["of", "y", "n"], ["of", "x", "n"]]]),
                         found + "Query y found nothing, as y.n = x.n isn't true of q 5 (y.n is 2, x.n is 1), with x = "
                                 "p 1 (the first of 2 rows).")

    def test_an_only_row_is_named_alone(self):
        self.assertEqual(self.condition(["=", ["of", "y", "n"], ["of", "x", "n"]], ["=", ["key", "x"], 2]),
                         "Its condition was satisfied. Query x found p 2. Query y found q 5 among 1 object of q, with "
                         "x = p 2.")

    def test_a_query_that_names_no_other_is_told_without(self):
        self.assertTrue(self.condition(True).endswith(" Query y found q 5 among 1 object of q."))

    def test_a_fault_names_the_row_that_met_it(self):
        self.assertTrue(self.condition(["=", ["/", 1, ["-", ["of", "x", "n"], 1]], ["key", "y"]]).endswith(
            "Query y met a fault at q 5, with x = p 1 (the first of 2 rows): 1 / 0 divides by zero."))
        self.assertTrue(self.condition(True, ["=", ["/", 1, ["-", ["of", "x", "n"], 2]], 9]).endswith(
            "Query x met a fault at p 2: 1 / 0 divides by zero."))


class EverythingTest(WhyCase):
    def test_what_is_left_out_is_told_on_demand(self):
        rows = [["create", "item", key, [["stock", key]]] for key in range(80)]
        asks = simple("asks", ["signal", "go"], queries=[["i", "item", True]])
        of = script([asks], install("asks") + rows, [GO] * 14)
        short, full = self.answer(of, 2, "asks"), self.answer(of, 2, "asks", most=why.ALL)
        found = "Its condition was satisfied. Query i found item "
        self.assertIn(found + "0, 1, 2, 3, 4, 5, 6, 7 and 72 more among 80 objects of item.", short)
        self.assertEqual(short[-1], "and 2 more")
        self.assertIn(found + ", ".join(map(str, range(80))) + " among 80 objects of item.", full)
        self.assertEqual(len([line for line in full if line.startswith("fire asks")]), 14)


class DoubtTest(WhyCase):
    def test_of_a_script_that_is_too_long_only_the_report_is_told(self):
        tell = simple("tell", ["signal", "go"])
        of = script([tell], install("tell") + [GO], [["abort"]], [["disable", "tell"]], [GO])
        doubt = "The script does more than is followed here: only what the report itself tells is said here."
        self.assertEqual(self.answer(of, 2, steps=2)[1:], [
            "unit 2 aborted A8", "The statement `abort`; which statement can't be told from the report."])
        self.assertEqual(self.answer(of, 4, "tell", steps=2), [
            doubt, "rule tell wasn't triggered in unit 4", "When the unit began it was disabled.",
            "What was signalled in the unit can't be told from the report."])
        self.assertIn("What triggered rule tell can't be told from the report.", self.answer(of, 1, "tell", steps=2))


class CommandTest(unittest.TestCase):
    def run_words(self, *words):
        out, err = io.TextIOWrapper(io.BytesIO(), encoding="utf-8"), io.StringIO()
        with contextlib.redirect_stdout(out), contextlib.redirect_stderr(err):
            status = why.main(list(words))
        out.flush()
        return status, out.buffer.getvalue().decode(), err.getvalue()

    def test_statuses(self):
        with tempfile.TemporaryDirectory() as folder:
            good, bad = os.path.join(folder, "good.json"), os.path.join(folder, "bad.json")
            with open(good, "w", encoding="utf-8") as file:
                json.dump(script([simple("tell", ["signal", "go"])], [["emit", "\u00e9"]]), file)
            with open(bad, "w", encoding="utf-8") as file:
                file.write("{}")
            self.assertEqual(self.run_words(good, "1"), (0, "unit 1 committed\n  All of its own statements ran.\n"
                                                              "  No rule was triggered.\n", ""))
            self.assertEqual(self.run_words(bad, "1")[0], 2)
            self.assertIn("refused S2 /", self.run_words(bad, "1")[2])
            self.assertEqual(self.run_words(good, "2")[::2], (3, "why: there is no unit 2; the last one is unit 1\n"))
            self.assertEqual(self.run_words(good, "1", "no")[::2], (3, "why: there is no rule no; the rules are "
                                                                       "tell\n"))
            self.assertEqual(self.run_words(good, "1", "tel")[2], "why: there is no rule tel; did you mean tell?\n")
            self.assertEqual(self.run_words(good, "tell")[::2], (
                3, "why: tell is no unit's number; the words are SCRIPT UNIT [RULE]\n"))
            self.assertEqual(self.run_words(good)[0], 3)
            self.assertEqual(self.run_words("--all", good, "1"), self.run_words(good, "1"))
            self.assertEqual(self.run_words(good, "1", "--al")[0], 3)
            self.assertEqual(self.run_words(os.path.join(folder, "none.json"), "1")[0], 2)
            self.assertEqual(self.run_words("--help")[0], 0)


if __name__ == "__main__":
    unittest.main()
