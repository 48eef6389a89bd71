"""The pages on the tools show the actual output of `why`."""

import re
import unittest
from pathlib import Path

from hipac_tools import why

REPOSITORY = Path(__file__).resolve().parents[2]
SHOWN = re.compile(r"```\n\$ \./hipac-tools why (examples/\w+\.json) (\d+)(?: (\w+))?\n(.*?)```", re.DOTALL)


class PageTest(unittest.TestCase):
    def test_each_answer_is_told_as_on_the_page(self):
        shown = 0
        for page in sorted((REPOSITORY / "docs").glob("TOOLS*.md")):
            for script, unit, rule, answer in SHOWN.findall(page.read_text(encoding="utf-8")):
                with self.subTest(page=page.name, words=f"{script} {unit} {rule}"):
                    said = why.explanation((REPOSITORY / script).read_bytes(), int(unit), rule or None)
                    self.assertEqual(said, answer)
                shown += 1
        self.assertGreaterEqual(shown, 6)


if __name__ == "__main__":
    unittest.main()
