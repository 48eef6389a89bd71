"""docs/TOOLS.md shows the actual output of `check`."""

from __future__ import annotations

import re

from .trials import REPOSITORY
from .test_check import InDirectory

EXAMPLE = re.compile(r"```(?:json|rules)\n(.*?)```\n\n```text\n(.*?)```", re.DOTALL)


class Page(InDirectory):
    def test_each_script_is_told_as_on_the_page(self) -> None:
        page = (REPOSITORY / "docs" / "TOOLS.md").read_text(encoding="utf-8")
        examples = EXAMPLE.findall(page.split("\n## check\n")[1].split("\n## ")[0])
        self.assertGreaterEqual(len(examples), 7)
        for text, told in examples:
            with self.subTest(told.split("\n")[0]):
                _, lines = self.check(text, told.split(":", 1)[0])
                self.assertEqual(lines, told.splitlines())
