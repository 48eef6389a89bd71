"""`check` on refused scripts, one by one, and on accepted ones."""

from __future__ import annotations

import os
import tempfile
import unittest
from pathlib import Path
from typing import ClassVar
from unittest import mock

from hipac_tools import check, program

from .trials import REPOSITORY, TESTS, refusals, run_word
from .refused import CASES, Case, script


class InDirectory(unittest.TestCase):
    """A test that writes scripts to a directory of its own."""

    def setUp(self) -> None:
        directory = tempfile.TemporaryDirectory()
        self.addCleanup(directory.cleanup)
        self.directory = Path(directory.name)

    def check(self, text: str | bytes, name: str = "script.json") -> tuple[int, list[str]]:
        """The status of `check` on a script, and its lines, with the file's name only."""
        file = self.directory / name
        file.write_bytes(text.encode("utf-8") if isinstance(text, str) else text)
        status, output, errors = run_word(check.main, str(file))
        self.assertEqual(errors, "")
        return status, output.replace(str(file), name).splitlines()


def place_of(case: Case) -> tuple[int, int]:
    """The line and the column at which the value begins, from 1."""
    before = case.script[:case.start].split("\n")
    return len(before), len(before[-1]) + 1


def first_of(lines: list[str]) -> list[str]:
    """The lines of the first fault."""
    later = (number for number, line in enumerate(lines) if number and line.startswith("script.json:"))
    return lines[:next(later, len(lines))]


class RefusedScripts(unittest.TestCase):
    """The messages on each script of the table, whose refusal is the program's. Of several faults the first counts."""

    refusals: ClassVar[list[str]]
    told: ClassVar[list[list[str]]]

    @classmethod
    def setUpClass(cls) -> None:
        cls.refusals = refusals([case.script for case in CASES])
        cls.told = [
            first_of(check.refused("script.json", refusal, check.read(case.script.encode("utf-8"))))
            for case, refusal in zip(CASES, cls.refusals)]

    def test_the_program_refuses_each(self) -> None:
        for case, refusal in zip(CASES, self.refusals):
            with self.subTest(case.name):
                self.assertEqual(refusal, case.refusal)

    def test_each_is_told_with_its_place_and_meaning(self) -> None:
        for case, lines in zip(CASES, self.told):
            with self.subTest(case.name):
                line, column = place_of(case)
                self.assertEqual(lines[0], f"script.json:{line}:{column}: refused {case.refusal}: {case.message}")
                said = [told for told in lines[1:] if " | " not in told and not told.endswith(" |")]
                self.assertEqual(said, [f"  {told}" for told in case.more])

    def test_the_own_reading_finds_what_the_program_refuses(self) -> None:
        for case in CASES:
            with self.subTest(case.name):
                fault = check.read(case.script.encode("utf-8")).fault
                found = fault and (fault.refusal, fault.start, fault.end)
                self.assertEqual(found, (case.refusal, case.start, case.end))

    def test_the_mark_stands_beneath_the_value(self) -> None:
        for case, lines in zip(CASES, self.told):
            if not case.script.strip():
                continue
            with self.subTest(case.name):
                source, mark = lines[1], lines[2]
                begin, end = mark.index("^"), len(mark)
                value = case.script[case.start:case.end].split("\n")[0]
                self.assertTrue(value.startswith(source[begin:end].replace("\ufffd", value[:1])), (source, mark, value))

    def test_names_of_cases_differ(self) -> None:
        self.assertEqual(len({case.name for case in CASES}), len(CASES))
        self.assertEqual(len({case.script for case in CASES}), len(CASES))


class WholeOutput(InDirectory):
    """The whole output, as a reader sees it."""

    def assert_written(self, text: str, status: int, expected: str) -> None:
        self.assertEqual(self.check(text, "bank.json"), (status, expected.strip("\n").split("\n")))

    def test_a_misspelt_word(self) -> None:
        rules = '  "rules": [\n    ["go", ["signl", "go"], "immediate", [], "immediate", []]\n  ],\n'
        text = '{\n  "version": 1,\n  "classes": [],\n' + rules + '  "items": []\n}\n'
        self.assert_written(text, 2, """
bank.json:5:12: refused S2 /rules/0/1: "signl" begins no event
  5 |     ["go", ["signl", "go"], "immediate", [], "immediate", []]
    |            ^~~~~~~~~~~~~~~
  did you mean `signal`?
""")

    def test_a_doubled_name_with_its_first_place(self) -> None:
        text = '{"version": 1, "classes": [\n  ["acct", []],\n  ["acct", []]\n], "rules": [], "items": []}'
        self.assert_written(text, 2, """
bank.json:3:4: refused S4 /classes/1/0: a class `acct` is there already
  3 |   ["acct", []]
    |    ^~~~~~
  the first one is here:
  2 |   ["acct", []],
    |    ^~~~~~
""")

    def test_a_value_of_several_lines(self) -> None:
        text = '{"version": 1, "classes": [], "rules": [], "items": [\n\t["tx", [["emit", [\n  "+",\n  2]]]]]}'
        self.assert_written(text, 2, """
bank.json:2:19: refused S2 /items/0/1/0/1: ["+", a, b] has 2 parts after its word, and this has 1
  2 | \t["tx", [["emit", [
    | \t                 ^
""")

    def test_a_long_line_is_cut(self) -> None:
        emits = '["emit", 1], ' * 40
        text = '{"version": 1, "classes": [], "rules": [], "items": [["tx", [' + emits + '["emit", x], ' + emits
        self.assert_written(text, 2, """
bank.json:1:591: refused S1: `x` is no JSON value
  1 | ..t", 1], ["emit", 1], ["emit", x], ["emit", 1], ["emit", 1], ["emit", 1], ["emit", 1], ["emit", 1], [..
    |                                 ^
  a text stands in double quotes: "x"
""")

    def test_wide_letters_stand_above_a_wide_mark(self) -> None:
        text = '{"version": 1, "classes": [["\u53e3\u5ea7", []]], "rules": [], "items": []}'
        self.assert_written(text, 2, """
bank.json:1:29: refused S2 /classes/0/0: a class's name can't begin with `\u53e3`
  1 | {"version": 1, "classes": [["\u53e3\u5ea7", []]], "rules": [], "items": []}
    |                             ^~~~~~
  a name is 1 to 32 bytes: an ASCII letter, then ASCII letters, digits or _
""")

    def test_an_accepted_script_with_a_warning(self) -> None:
        rule = '["r", ["commit"], "deferred", [], "deferred", []]'
        text = '{"version": 1, "classes": [], "rules": [' + rule + '], "items": [["tx", []]]}'
        self.assert_written(text, 0, """
bank.json: accepted (1 rule, 0 classes, 1 item)
bank.json:1:42: warning: the rule `r` is never installed, and so never triggered
  1 | {"version": 1, "classes": [], "rules": [["r", ["commit"], "deferred", [], "deferred", []]], "items":..
    |                                          ^~~
""")


class Bytes(InDirectory):
    def test_one_byte_too_many(self) -> None:
        status, lines = self.check(b" " * 1_048_577)
        self.assertEqual(status, 2)
        told = "script.json:1:1: refused S5 size: a script has at most 1,048,576 bytes, and this has more"
        self.assertEqual(lines, [told])

    def test_as_many_bytes_as_may_be(self) -> None:
        status, lines = self.check(b" " * 1_048_576)
        self.assertEqual(status, 2)
        self.assertEqual(lines[0], "script.json:1:1048577: refused S1: the text ends where a value is expected")

    def test_bytes_that_are_no_utf_8(self) -> None:
        status, lines = self.check('{"version": 1,\n "é'.encode("utf-8") + b'\xff": 1}')
        self.assertEqual(status, 2)
        self.assertEqual(lines[0], "script.json:2:4: refused S1: the bytes here are no UTF-8")

    def test_lines_that_end_as_on_windows(self) -> None:
        _, lines = self.check('{"version": 1,\r\n "classes": 1,\r\n "rules": [], "items": []}')
        self.assertEqual(lines[0].split(": ", 1)[0], "script.json:2:13")
        self.assertEqual(lines[1:3], ['  2 |  "classes": 1,', "    |             ^"])


class AcceptedScripts(InDirectory):
    def test_all_are_accepted(self) -> None:
        files = sorted((REPOSITORY / "examples").glob("*.json")) + sorted((TESTS / "accepted").glob("*.json"))
        status, output, _ = run_word(check.main, *map(str, files))
        self.assertEqual(status, 0)
        self.assertEqual(len([line for line in output.splitlines() if ".json: accepted (" in line]), len(files))

    def test_the_examples_have_no_warnings(self) -> None:
        _, output, _ = run_word(check.main, *map(str, sorted((REPOSITORY / "examples").glob("*.json"))))
        self.assertNotIn("warning", output)

    def test_the_order_desk_has_no_warnings(self) -> None:
        _, output, _ = run_word(check.main, str(REPOSITORY / "examples" / "orders" / "rules.rules"))
        self.assertEqual(output.splitlines()[1:], [])

    def test_a_signal_may_follow_a_beginning(self) -> None:
        waits = '["r", ["signal", "go"], "immediate", [], "immediate", []]'
        begins, goes_on = '["tx", [["install", "r"]]]', '["tx", [["install", "r"], ["emit", 1]]]'
        self.assertEqual(self.check(script(rules=waits, items=begins))[1][1:], [])
        self.assertEqual(self.warnings(script(rules=waits, items=goes_on)), ["nothing in this script signals `go`"])
        file = self.directory / "script.json"
        status, output, _ = run_word(check.main, "--live", str(file))
        self.assertEqual((status, output.splitlines()[1:]), (0, []))

    def test_a_beginning_is_told_of_rules_that_it_does_not_install_and_of_misspelt_signals(self) -> None:
        waits = '["r", ["signal", "paid"], "immediate", [], "immediate", []]'
        tells = '["s", ["signal", "go"], "immediate", [], "immediate", [["signal", "payd", []]]]'
        _, lines = self.check(script(rules=f"{waits}, {tells}", items='["tx", [["install", "r"]]]'))
        told = [line.split(": ", 1)[1] for line in lines if line.startswith("script.json:")] + [lines[4]]
        self.assertEqual(told, [
            "accepted (2 rules, 2 classes, 1 item)", "warning: nothing in this script signals `paid`",
            "hint: the rule `s` isn't installed here: a later transaction has to install it",
            "  did you mean `payd`?"])

    def test_counts(self) -> None:
        _, lines = self.check(script(items='["tx", []]'))
        self.assertEqual(lines, ["script.json: accepted (0 rules, 2 classes, 1 item)"])

    def warnings(self, text: str) -> list[str]:
        status, lines = self.check(text)
        self.assertEqual(status, 0)
        return [line.split("warning: ", 1)[1] for line in lines if "warning: " in line]

    def test_a_field_that_the_class_of_a_row_lacks(self) -> None:
        text = script(items='["tx", [["each", "x", "acct", true, [["emit", ["of", "x", "ball"]]]]]]')
        self.assertEqual(self.warnings(text), ["the class `acct` has no field `ball`: this always ends with A3"])

    def hints(self, predicate: str) -> list[str]:
        """The hints for a query and for an `each` with a predicate on the row `a`."""
        query = f'["r", ["update", "acct"], "immediate", [["a", "acct", {predicate}]], "immediate", []]'
        each = f'["s", ["update", "acct"], "immediate", [], "immediate", [["each", "a", "acct", {predicate}, []]]]'
        status, lines = self.check(script(rules=f"{query}, {each}"))
        self.assertEqual(status, 0)
        return [line.split("hint: ", 1)[1] for line in lines if "hint: " in line]

    def test_a_key_that_is_asked_for_too_late(self) -> None:
        key, owes = '["=", ["id", 0], ["key", "a"]]', '["<", ["of", "a", "bal"], 0]'
        hints = [f"with this test of the key first, {what} looks at one object of `acct` only"
                 for what in ("the query `a`", "`each` `a`")]
        self.assertEqual(self.hints(f'["and", {owes}, {key}]'), hints)
        self.assertEqual(self.hints(f'["and", ["and", {owes}, {owes}], ["and", {key}, {key}]]'), hints)

    def test_no_hint_where_the_whole_class_is_meant_or_one_object_is_looked_at(self) -> None:
        key, owes = '["=", ["id", 0], ["key", "a"]]', '["<", ["of", "a", "bal"], 0]'
        itself = '["=", ["key", "a"], ["+", ["of", "a", "bal"], 1]]'
        for predicate in ("true", owes, key, f'["and", {key}, {owes}]', f'["or", {owes}, {key}]',
                          f'["and", {owes}, {itself}]', f'["and", {owes}, ["not", {key}]]'):
            with self.subTest(predicate):
                self.assertEqual(self.hints(predicate), [])

    def test_a_look_at_an_occurrence_where_there_is_none(self) -> None:
        text = script(items='["tx", [["emit", ["count"]]]]')
        warning = "nothing has occurred in a transaction's own body: `count` always ends with A6 here"
        self.assertEqual(self.warnings(text), [warning])

    def on(self, event: str, value: str) -> str:
        """A script with a rule that looks at a value, and a transaction in which its event occurs."""
        rules = f'["r", {event}, "immediate", [], "immediate", [["emit", {value}]]]'
        made = '["create", "acct", 1, [["bal", 1], ["owner", "o"]]], ["signal", "go", [1]]'
        return script(rules=rules, items=f'["tx", [["install", "r"], {made}]], ["clock", 9]')

    def test_a_value_that_the_event_never_has(self) -> None:
        made, go, nine = '["create", "acct"]', '["signal", "go"]', '["at", 9]'
        for event, value, cause, warning in (
                (made, '["time", 0]', "A6", "part 0 of the rule's event is create acct, which has no `time`"),
                (made, '["old", 0, "bal"]', "A6", "part 0 of the rule's event is create acct, which has no `old`"),
                (made, '["new", 0, "ball"]', "A3", "the class `acct` has no field `ball`"),
                (made, '["id", 1]', "A6", "the rule's event has no part 1"),
                (go, '["id", 0]', "A6", "part 0 of the rule's event is signal go, which has no `id`"),
                (nine, '["arg", 0, 0]', "A6", "part 0 of the rule's event is moment 9, which has no `arg`"),
                (f'["or", {go}, {made}]', '["time", 0]', "A6",
                 "part 0 of the rule's event is signal go or create acct, which has no `time`"),
                (f'["seq", {made}, {go}]', '["arg", 0, 0]', "A6",
                 "part 0 of the rule's event is create acct, which has no `arg`"),
                (f'["closure", {made}, {go}]', '["id", 2]', "A6", "the rule's event has no part 2")):
            with self.subTest(event=event, value=value):
                text = self.on(event, value)
                self.assertEqual(self.warnings(text), [f"{warning}: this always ends with {cause}"])
                tree = program.run(text.encode("utf-8"), ["--tree"]).output
                self.assertIn(f"fire r immediate satisfied aborted {cause}", tree)

    def test_no_warning_where_some_occurrence_has_the_value(self) -> None:
        made, go = '["create", "acct"]', '["signal", "go"]'
        for event, value in (
                (made, '["new", 0, "bal"]'), (f'["or", {made}, {go}]', '["arg", 0, 0]'),
                (f'["or", {made}, ["create", "mark"]]', '["new", 0, "bal"]'),
                (f'["seq", {made}, {go}]', '["arg", 1, 0]'), (f'["or", {made}, ["seq", {go}, {made}]]', '["id", 1]')):
            with self.subTest(event=event, value=value):
                self.assertEqual(self.warnings(self.on(event, value)), [])

    def test_values_of_another_kind(self) -> None:
        text = script(items='["tx", [["update", "acct", "1", [["bal", "5"], ["owner", "o"]]]]]')
        self.assertEqual(self.warnings(text), [
            "a key is a whole number: this always ends with A3",
            "the field `bal` is of kind int and this is of kind text: it always ends with A3"])

    def test_a_signal_that_nothing_raises(self) -> None:
        text = script(rules='["r", ["signal", "paid"], "immediate", [], "immediate", []]',
                      items='["tx", [["install", "r"], ["signal", "payd", []]]]')
        self.assertEqual(self.warnings(text), ["nothing in this script signals `paid`"])
        self.assertIn("  did you mean `payd`?", self.check(text)[1])

    def test_a_member_that_stands_twice(self) -> None:
        warning = "the member `version` stands here again: its last value counts"
        self.assertEqual(self.warnings(script(more=' "version": 2,')), [warning])

    def test_a_library_without_items_has_no_warnings(self) -> None:
        self.assertEqual(self.warnings(script(rules='["r", ["signal", "go"], "immediate", [], "immediate", []]')), [])


class TheProgramDecides(InDirectory):
    """If the tool's own reading has another result, it reports the program's line."""

    def told(self, ended: program.Ended, text: str) -> tuple[int, list[str]]:
        with mock.patch.object(program, "run", return_value=ended):
            return self.check(text)

    def test_another_path(self) -> None:
        status, lines = self.told(program.Ended(2, "refused S4 /classes/1/0\n", ""), script())
        self.assertEqual(status, 2)
        self.assertEqual(lines[0], "script.json:3:63: refused S4 /classes/1/0: this name is unknown or doubled")

    def test_a_path_that_is_nowhere(self) -> None:
        _, lines = self.told(program.Ended(2, "refused S2 /classes/1/7/2\n", ""), script())
        self.assertEqual(lines[0], "script.json:3:62: refused S2 /classes/1/7/2: this value has the wrong shape")
        self.assertEqual(lines[-1], "  the value at /classes/1/7/2 isn't there; this is the nearest one round it")

    def test_a_limit(self) -> None:
        _, lines = self.told(program.Ended(2, "refused S5 patience\n", ""), script())
        self.assertEqual(lines[0], "script.json:1:1: refused S5 patience: the script passes a limit")

    def test_another_fault_than_the_own_one(self) -> None:
        _, lines = self.told(program.Ended(2, "refused S3 /depth\n", ""), script(version="3", more=' "depth": 99,'))
        told = "script.json:2:26: refused S3 /depth: this number is no whole number of 64 bits with sign"
        self.assertEqual(lines[0], told)

    def test_a_path_in_a_text_that_is_no_json(self) -> None:
        _, lines = self.told(program.Ended(2, "refused S2 /rules\n", ""), "[1")
        self.assertEqual(lines[0], "script.json:1:1: refused S2 /rules: this value has the wrong shape")

    def test_accepted_although_the_own_reading_refuses(self) -> None:
        self.assertEqual(self.told(program.Ended(0, "final\nend\n", ""), "{}"), (0, ["script.json: accepted"]))


class CommandLine(InDirectory):
    def test_no_words(self) -> None:
        status, output, errors = run_word(check.main)
        self.assertEqual((status, output), (3, ""))
        self.assertIn("usage: hipac-tools check [--live] [--proved] [--signals FILE] SCRIPT", errors)

    def test_an_unknown_option(self) -> None:
        self.assertEqual(run_word(check.main, "--fast")[0], 3)

    def test_help(self) -> None:
        status, output, _ = run_word(check.main, "--help")
        self.assertEqual(status, 0)
        self.assertIn("usage: hipac-tools check [--live] [--proved] [--signals FILE] SCRIPT", output)

    def test_a_file_that_is_not_there(self) -> None:
        status, output, errors = run_word(check.main, str(self.directory / "none.json"))
        self.assertEqual((status, output), (3, ""))
        self.assertIn("none.json: No such file or directory", errors)

    def test_several_files_end_with_the_greatest_status(self) -> None:
        good, bad = self.directory / "good.json", self.directory / "bad.json"
        good.write_text(script(), encoding="utf-8")
        bad.write_text("[]", encoding="utf-8")
        status, output, _ = run_word(check.main, str(bad), str(good))
        self.assertEqual(status, 2)
        self.assertEqual(output.splitlines()[0].split(":")[0], str(bad))
        self.assertEqual(output.splitlines()[-1].split(":")[0], str(good))

    def test_a_fault_of_the_program(self) -> None:
        file = self.directory / "script.json"
        file.write_text(script(), encoding="utf-8")
        with mock.patch.object(program, "run", return_value=program.Ended(4, "", "fault F1\n")):
            status, output, errors = run_word(check.main, str(file))
        self.assertEqual((status, output), (4, ""))
        self.assertEqual(errors, f"{file}: the program ended with status 4\nfault F1\n")

    def test_a_program_that_can_not_be_run(self) -> None:
        file = self.directory / "script.json"
        file.write_text(script(), encoding="utf-8")
        with mock.patch.dict(os.environ, {"HIPAC": str(self.directory / "none")}):
            status, _, errors = run_word(check.main, str(file))
        self.assertEqual(status, 4)
        self.assertIn("the program can't be run", errors)
