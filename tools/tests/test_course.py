"""The course of a script is the program's own: the same report, and the program itself says which query is empty."""

import copy
import json
import unittest
from unittest import mock

from hipac_tools import course, program, report
from hipac_tools.account import NoAccount, TOO_LONG, account_of
from hipac_tools.command import DIFFERENT
from hipac_tools.report import Fire, walk

from .large_script import large_script
from .made_scripts import made_script
from .test_report import EXAMPLES
from .trials import followed

SEEDS = range(50)
PROBED_SEEDS = range(200, 260)
DETACHED = ("separate", "dependent", "exclusive")


def reported(script):
    return program.run(json.dumps(script).encode(), ["--tree", "--workers", "1"]).output


class SameReportTest(unittest.TestCase):
    maxDiff = 4000

    def test_examples(self):
        for path in EXAMPLES:
            with self.subTest(path.name):
                script = json.loads(path.read_text(encoding="utf-8"))
                self.assertEqual(report.write(followed(script)), reported(script))

    def test_made_scripts(self):
        for seed in SEEDS:
            with self.subTest(seed=seed):
                script = made_script(seed)
                self.assertEqual(report.write(followed(script)), reported(script))

    def test_the_beginning_of_the_large_script(self):
        script = large_script(45)
        self.assertEqual(report.write(followed(script)), reported(script))


class JudgedQueriesTest(unittest.TestCase):
    """For each rule whose condition has several queries there are probes: rules with the same event that ask its
    first queries only and do nothing. They fire just before the rule: their conditions show where its own ended."""

    def test_the_query_that_ends_a_condition_is_the_one_noted(self):
        judged = 0
        for seed in PROBED_SEEDS:
            script = made_script(seed)
            probe, beside = probed(script)
            if not beside:
                continue
            with self.subTest(seed=seed):
                expected = noted(followed(script), beside)
                self.assertEqual(found(report.read(reported(probe)), beside), expected)
                judged += len(expected)
        self.assertGreater(judged, 20)


def probed(script):
    """The script with its probes, and for each probed rule the names of its probes."""
    probe, beside = copy.deepcopy(script), {}
    rules = []
    for rule in probe["rules"]:
        name, event, ec, queries, _, _ = rule
        if ec not in DETACHED and len(queries) > 1:
            beside[name] = [f"{name}_first_{count}" for count in range(1, len(queries))]
            rules += [[other, event, ec, queries[:count], "immediate", []]
                      for count, other in enumerate(beside[name], 1)]
        rules.append(rule)
    probe["rules"] = rules
    for rule in rules:
        rule[5] = in_step(rule[5], beside)
    probe["items"] = [[word, in_step(what, beside)] if word == "tx" else [word, what] for word, what in probe["items"]]
    return probe, beside


def in_step(form, beside):
    """The same statements, with an operation on a probed rule done to its probes too; `fire` fires them before it."""
    if not isinstance(form, list):
        return form
    changed = []
    for part in form:
        if isinstance(part, list) and len(part) == 2 and part[0] in ("install", "enable", "disable", "remove", "fire"):
            others = [[part[0], other] for other in beside.get(part[1], [])]
            changed += others + [part] if part[0] == "fire" else [part] + others
        else:
            changed.append(in_step(part, beside))
    return changed


def firings(read):
    for unit in read.units:
        for transaction in unit.transactions:
            yield from (node for node in walk(transaction) if isinstance(node, Fire))


def noted(read, beside):
    """For each firing of a probed rule, how many of its first queries were satisfied, by the notes."""
    counts = []
    for node in firings(read):
        if node.rule in beside:
            counts.append((node.rule, sum(1 for query in node.note.queries if query.keys)))
    return counts


def found(read, beside):
    """The same, from the conditions of the probes in the program's report."""
    counts, satisfied = [], {name: 0 for name in beside}
    owners = {other: name for name, others in beside.items() for other in others}
    totals = {name: len(others) + 1 for name, others in beside.items()}
    for node in firings(read):
        if node.rule in owners:
            satisfied[owners[node.rule]] += node.condition == "satisfied"
        elif node.rule in beside:
            counts.append((node.rule, totals[node.rule] if node.condition == "satisfied" else satisfied[node.rule]))
            satisfied[node.rule] = 0
    return counts


class DoubtTest(unittest.TestCase):
    SCRIPT = {"version": 1, "classes": [["acct", [["bal", "int"]]]], "rules": [
        ["tell", ["update", "acct"], "immediate", [], "immediate", [["emit", 1]]],
        ["hear", ["or", ["signal", "go"], ["update", "acct"]], "immediate", [], "immediate", []]],
        "items": [["tx", [["install", "tell"], ["install", "hear"], ["create", "acct", 1, [["bal", 1]]],
                          ["update", "acct", 1, [["bal", 2]]], ["signal", "go", []]]]]}

    def fired(self, account):
        return [str(node.note.trigger) for node in firings(account.report)]

    def test_a_script_that_is_too_long_is_told_by_its_tree(self):
        account = account_of(json.dumps(self.SCRIPT).encode(), steps=3)
        self.assertEqual(account.doubt, TOO_LONG)
        self.assertEqual(self.fired(account), ["update acct 1", "update acct 1", "None"])

    def test_a_report_of_another_script_is_an_error(self):
        with self.assertRaises(NoAccount) as caught:
            account_of(json.dumps(self.SCRIPT).encode(), "unit 1 committed\nfinal\nend\n")
        self.assertEqual(caught.exception.status, DIFFERENT)
        self.assertEqual(str(caught.exception), "the report isn't this script's: line 2 is `final`, and by following "
                                                "the script `emit 1`")

    def test_a_course_that_differs_from_the_program_is_an_error(self):
        with mock.patch.dict(course._STATEMENTS, emit=lambda *_: None), self.assertRaises(NoAccount) as caught:
            account_of(json.dumps(self.SCRIPT).encode())
        self.assertEqual(caught.exception.status, DIFFERENT)
        self.assertIn("line 2 is `emit 1`, and by following the script `op install tell`", str(caught.exception))

    def test_a_course_that_fails_is_an_error(self):
        with mock.patch.dict(course._STATEMENTS, emit=lambda *_: {}["emit"]), self.assertRaises(NoAccount) as caught:
            account_of(json.dumps(self.SCRIPT).encode())
        self.assertEqual(caught.exception.status, DIFFERENT)

    def test_a_rule_that_a_statement_fires_has_no_trigger_by_the_tree_alone(self):
        script = copy.deepcopy(self.SCRIPT)
        script["items"].append(["tx", [["disable", "tell"], ["update", "acct", 1, []], ["fire", "tell"]]])
        account = account_of(json.dumps(script).encode(), steps=3)
        self.assertEqual(self.fired(account), ["None", "update acct 1", "None", "update acct 1", "None"])


if __name__ == "__main__":
    unittest.main()
