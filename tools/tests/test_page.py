"""The page on `print` and `graph` shows real output."""
from __future__ import annotations

import re
import unittest

from hipac_tools import graph, rulebase
from hipac_tools.notation.writer import script_text
from tests.making import REPOSITORY

WORDS = {"print": script_text, "graph": lambda base: graph.graph_text(graph.build(base))}

SHOWN = re.compile(r"```\n\$ \./hipac-tools (print|graph) (?:examples/)?(\w+\.(?:json|rules))\n(.*?)```", re.DOTALL)


class Page(unittest.TestCase):
    def test_shown_output_is_that_of_the_words(self) -> None:
        shown = 0
        for page in sorted((REPOSITORY / "docs").glob("TOOLS*.md")):
            text = page.read_text(encoding="utf-8")
            for word, name, output in SHOWN.findall(text):
                script = re.search(r"`" + re.escape(name) + r"`:\n\n```\w+\n(.*?)```", text, re.DOTALL)
                example = REPOSITORY / "examples" / name
                source = script.group(1) if script else example.read_text(encoding="utf-8")
                self.assertEqual(WORDS[word](rulebase.read(source)), output, f"{page.name}: {word} {name}")
                shown += 1
        self.assertGreaterEqual(shown, 2)
