"""The scripts of docs/SCRIPT.md have the reports that stand below them."""

import re
import unittest

from hipac_tools import check, program, rulebase
from hipac_tools.notation.reader import read_text

from .trials import REPOSITORY

PAGE = REPOSITORY / "docs" / "SCRIPT.md"
SCRIPT_WITH_REPORT = re.compile(r"```rules\n(version.*?)```\n(.*?)\n```\n(.*?)```", re.DOTALL)
TEXT = re.compile(r"```rules\n(.*?)```", re.DOTALL)


class ScriptPageTest(unittest.TestCase):
    def test_each_script_has_its_report(self):
        found = SCRIPT_WITH_REPORT.findall(PAGE.read_text(encoding="utf-8"))
        self.assertGreater(len(found), 3)
        for script, between, report in found:
            with self.subTest(script):
                self.assertNotIn("```", between)
                self.assertEqual(program.run_script(script.encode(), []).output, report)

    def test_no_script_has_an_oversight(self):
        for script, _, _ in SCRIPT_WITH_REPORT.findall(PAGE.read_text(encoding="utf-8")):
            with self.subTest(script):
                told = check.accepted("script", check.read_text(script.encode()))
                self.assertEqual([line for line in told if ": warning: " in line], [])

    def test_each_part_of_a_script_is_in_the_notation(self):
        """The parts that are no whole scripts are rules, or statements of an action."""
        parts = [text for text in TEXT.findall(PAGE.read_text(encoding="utf-8")) if not text.startswith("version")]
        self.assertGreater(len(parts), 2)
        for part in parts:
            with self.subTest(part):
                is_rule = part.startswith("rule")
                read_text(f"version 4\n{part}" if is_rule else f"version 4\nrule r on commit do {{\n{part}}}")

    def test_the_first_example_stands_in_json_too(self):
        text, json_text = (re.search(rf"```{word}\n(.*?)```", PAGE.read_text(encoding="utf-8"), re.DOTALL)[1]
                           for word in ("rules", "json"))
        self.assertEqual(rulebase.read(text), rulebase.read(json_text))


if __name__ == "__main__":
    unittest.main()
