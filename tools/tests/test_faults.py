"""Conditions and actions that ended with a fault: `faults` lists them, `why` leads with them, `view` marks their
units."""

from __future__ import annotations

import contextlib
import io
import json
import os
import re
import tempfile
import unittest
from pathlib import Path
from typing import Any

from hipac_tools import faults, faulting, view, why
from hipac_tools.account import account_of
from hipac_tools.model import page_model

from .made_scripts import made_script
from .making import rule, script
from .test_report import EXAMPLES
from .test_view import account, data_of
from .trials import REPOSITORY, with_paths

ITEM = [["item", [["stock", "int"]]]]
TEST = [">", ["*", ["new", 0, "stock"], 4], 100]
GREATEST = 2 ** 63 - 1


def created(key: int, stock: int) -> list:
    return ["create", "item", key, [["stock", stock]]]


def guarded(body: list, **how: Any) -> dict:
    """A script of two guards, one that tests in its condition and one in its action, and a rule that can't act."""
    rules = [rule("asks", ["create", "item"], [["veto"]], queries=[["i", "item", ["and", ["=", ["key", "i"], ["id", 0]],
                                                                                  TEST]]], **how),
             rule("tests", ["create", "item"], [["if", TEST, [["veto"]], []]], **how),
             rule("counts", ["create", "item"], [["delete", "item", 99]], **how)]
    items = [["tx", [["install", "asks"], ["install", "tests"], ["install", "counts"]]], ["tx", body]]
    return json.loads(script(rules, items, ITEM))


def listed(one: dict) -> str:
    return with_paths(faults.list_of_faults(account(one)), one)


class Listed(unittest.TestCase):
    def test_all_are_listed_with_what_follows(self) -> None:
        self.assertEqual(listed(guarded([created(1, GREATEST)])), f"""\
unit 2 committed
  The condition of rule asks ended with a fault (A4): {GREATEST} * 4 is outside 64 bits, in query i
    at item 1.
    So asks didn't veto.
    It was triggered by create item 1 (stock {GREATEST}) at /items/1/1/0, in the unit's own body.
  The action of rule tests ended with a fault (A4): {GREATEST} * 4 is outside 64 bits (at /rules/1/5/0).
    So tests didn't veto.
    It was triggered by create item 1 (stock {GREATEST}) at /items/1/1/0, in the unit's own body.
  The action of rule counts ended with a fault (A2): `delete item 99`: there is no item 99 (at /rules/2/5/0).
    Only the action was undone.
    It was triggered by create item 1 (stock {GREATEST}) at /items/1/1/0, in the unit's own body.
3 faults in 1 of 2 units
Rules that were to veto and didn't: asks, tests; docs/SCRIPT.md, "Guards", says how they do.
""")

    def test_what_was_undone_is_told_so(self) -> None:
        text = listed(guarded([["sub", [created(1, GREATEST), ["abort"]], []]]))
        self.assertEqual(text.count("That was undone, as the `sub` at /items/1/1/0 aborted (A8)."), 3)
        self.assertIn("3 faults in 1 of 2 units\n", text)
        self.assertNotIn("didn't veto", text)

    def test_a_cascade_has_faults_of_its_own(self) -> None:
        text = listed(guarded([created(1, GREATEST)], ec="dependent"))
        heads = [line for line in text.split("\n") if line and not line.startswith(" ")]
        self.assertEqual(heads[:-2], ["dependent asks committed", "dependent tests committed",
                                      "dependent counts committed"])
        self.assertIn("3 faults in 1 of 2 units", text)

    def test_a_veto_and_an_abort_are_no_faults(self) -> None:
        rules = [rule("gives_up", ["create", "item"], [["abort"]])]
        one = json.loads(script(rules, [["tx", [["install", "gives_up"], created(1, 1)]]], ITEM))
        self.assertEqual(listed(one), "no condition and no action ended with a fault in 1 unit\n")
        vetoed = listed(guarded([created(1, 30)]))
        self.assertEqual(vetoed, "no condition and no action ended with a fault in 2 units\n")

    def test_a_course_that_is_not_followed_is_told_by_the_report_alone(self) -> None:
        one = guarded([created(1, GREATEST)])
        text = faults.list_of_faults(account_of(json.dumps(one).encode(), steps=1))
        self.assertTrue(text.startswith("The script does more than is followed here: "))
        self.assertIn("The condition of rule asks ended with a fault (A4): a result was outside 64 bits.", text)

    def test_the_examples_have_none(self) -> None:
        for path in EXAMPLES:
            self.assertIn("no condition and no action ended with a fault", listed(json.loads(path.read_text())))


class Told(unittest.TestCase):
    def test_why_leads_with_them(self) -> None:
        text = why.explanation(json.dumps(guarded([created(1, GREATEST)])).encode(), 2)
        self.assertTrue(text.startswith(f"""\
unit 2 committed
  Though it committed, the condition of rule asks ended with a fault (A4): {GREATEST} * 4 is outside
    64 bits. So asks didn't veto.
  Though it committed, the action of rule tests ended with a fault (A4). So tests didn't veto.
  Though it committed, the action of rule counts ended with a fault (A2). Only the action was undone.
  All of its own statements ran.
"""), text)

    def test_why_says_nothing_of_those_that_were_undone(self) -> None:
        for body in ([["sub", [created(1, GREATEST), ["abort"]], []]], [created(1, GREATEST), ["abort"]]):
            text = why.explanation(json.dumps(guarded(body)).encode(), 2)
            self.assertNotIn("Though it committed", text)

    def test_many_alike_are_told_once(self) -> None:
        body = [created(1, GREATEST), created(2, GREATEST)]
        text = why.explanation(json.dumps(guarded(body)).encode(), 2, width=1000)
        self.assertEqual(text.count("Though it committed"), 3)
        self.assertEqual(text.count("That happened twice."), 3)


class Viewed(unittest.TestCase):
    def test_units_have_the_number_of_their_faults(self) -> None:
        bodies = [([created(1, GREATEST)], 3), ([created(1, 1)], 1), ([created(1, 30)], 0),
                  ([["sub", [created(1, GREATEST), ["abort"]], []]], 0)]
        for body, number in bodies:
            page = page_model(account(guarded(body)))
            self.assertEqual([unit[3] for unit in page.units], [0, number])
            labels = [label for label, _ in page.nodes[page.units[1][2][0]][6]]
            self.assertEqual(labels.count("Fault"), number)

    def test_the_page_has_them(self) -> None:
        data = data_of(view.page_text(account(guarded([created(1, GREATEST)])), "x.json"))
        self.assertEqual(data["units"][1][3], 3)

    def test_the_number_is_that_of_the_report_s_lines(self) -> None:
        """A fault lasts if all lines around it say that they committed."""
        seen = 0
        for seed in range(25):
            one = account(made_script(seed))
            page = page_model(one)
            for unit, row in zip(one.report.units, page.units):
                number = sum(lasting(top, top.end.committed) for top in unit.transactions)
                self.assertEqual(row[3], number)
                seen += number
        self.assertGreater(seen, 0)


def lasting(node: object, is_lasting: bool) -> int:
    """The faults below a node, counted by the lines of the report alone."""
    number = 0
    for item in getattr(node, "items", []):
        line = str(item)
        ends = line.split(" aborted ")
        is_fault = line.startswith("fire") and " fault A" in line
        is_action = line.startswith(("fire", "act")) and len(ends) == 2
        number += is_lasting and (is_fault or is_action and ends[1][:2] in faulting.FAULTS)
        number += lasting(item, is_lasting and len(ends) == 1)
    return number


class Page(unittest.TestCase):
    def test_the_page_shows_real_output(self) -> None:
        page = (REPOSITORY / "docs" / "TOOLS.md").read_text(encoding="utf-8")
        ((script_name, told),) = re.findall(r"```\n\$ \./hipac-tools faults (\S+)\n(.*?)```", page, re.DOTALL)
        self.assertEqual(faults.list_of_faults(account_of((REPOSITORY / script_name).read_bytes())), told)


class Words(unittest.TestCase):
    def run_word(self, *words: str) -> tuple[int, str, str]:
        written, errors = io.BytesIO(), io.StringIO()
        out = io.TextIOWrapper(written, encoding="utf-8")
        with contextlib.redirect_stdout(out), contextlib.redirect_stderr(errors):
            status = faults.main(list(words))
        out.flush()
        return status, written.getvalue().decode(), errors.getvalue()

    def test_statuses(self) -> None:
        with tempfile.TemporaryDirectory() as folder:
            refused = os.path.join(folder, "refused.json")
            Path(refused).write_text("{}", encoding="utf-8")
            self.assertEqual(self.run_word(refused)[::2],
                             (2, f"faults: {refused}: the script is refused S2 /; `hipac-tools check` says more\n"))
        self.assertEqual(self.run_word(str(EXAMPLES[0])),
                         (0, "no condition and no action ended with a fault in 8 units\n", ""))
        self.assertEqual(self.run_word("/nosuch.json")[::2], (2, "faults: /nosuch.json: No such file or directory\n"))
        for words, status in (((), 3), (("a", "b"), 3), (("--foo",), 3), (("--help",), 0)):
            self.assertEqual(self.run_word(*words)[0], status)


if __name__ == "__main__":
    unittest.main()
