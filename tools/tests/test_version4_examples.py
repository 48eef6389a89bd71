"""The rule bases of examples/version4: their reports, and what their page says of them."""

import re
import unittest

from hipac_tools import check, program, rulebase

from .trials import REPOSITORY

FOLDER = REPOSITORY / "examples" / "version4"
SCRIPTS = sorted(FOLDER.glob("*.rules"))
ROW = r"\| {} \| (\d+) lines \| (\d+) lines \| (\d+) and (\d+) \| (\d+) and (\d+) \| (\d+) and (\d+) \|"


def measured(path):
    """The lines of a script, those before its items, its rules, and the units of its report."""
    text = path.read_text(encoding="utf-8")
    library = text[:text.index("\ntransaction")].count("\n")
    units = path.with_suffix(".report").read_text(encoding="utf-8").count("unit ")
    return text.count("\n"), library, len(rulebase.read(text).rules), units


class Version4ExamplesTest(unittest.TestCase):
    def test_each_has_its_report(self):
        self.assertEqual(len(SCRIPTS), 6)
        for path in SCRIPTS:
            with self.subTest(path.name):
                report = path.with_suffix(".report").read_text(encoding="utf-8")
                self.assertEqual(program.run_script(path.read_bytes(), []).output, report)

    def test_none_has_an_oversight(self):
        for path in SCRIPTS:
            with self.subTest(path.name):
                told = check.accepted(path.name, check.read_text(path.read_bytes()))
                self.assertEqual([line for line in told if ": warning: " in line], [])

    def test_the_table_is_right(self):
        page = (FOLDER / "README.md").read_text(encoding="utf-8")
        for name in ("alarm", "approval", "bank"):
            with self.subTest(name):
                before, after = (measured(FOLDER / f"{name}{version}.rules") for version in (2, 4))
                found = re.search(ROW.format(name), page)
                self.assertEqual([int(one) for one in found.groups()],
                                 [before[0], after[0], before[1], after[1], before[2], after[2], before[3], after[3]])


if __name__ == "__main__":
    unittest.main()
