"""docs/TUTORIAL.md: its scripts give their stored reports, and its commands print what the page shows."""

from __future__ import annotations

import unittest

from . import tutorial

LONGEST_LINE = 120


class Scripts(unittest.TestCase):
    def test_reports(self) -> None:
        self.assertTrue(tutorial.scripts())
        for script in tutorial.scripts():
            with self.subTest(script=script.name):
                stored = script.with_suffix(".report").read_text(encoding="utf-8")
                self.assertEqual(tutorial.report_of(script), stored)

    def test_each_report_has_a_script(self) -> None:
        for report in tutorial.SCRIPTS.glob("*.report"):
            self.assertTrue(report.with_suffix(".rules").exists(), report.name)

    def test_the_page_names_each_script(self) -> None:
        named = set(tutorial.NAMED.findall(tutorial.PAGE.read_text(encoding="utf-8")))
        self.assertEqual(named, {script.name for script in tutorial.scripts()})


class Page(unittest.TestCase):
    def setUp(self) -> None:
        self.page = tutorial.PAGE.read_text(encoding="utf-8")
        self.blocks = tutorial.blocks(self.page)

    def test_commands_print_what_is_shown(self) -> None:
        """Each output block stands after a command, and each command has an output block."""
        commands = [block for block in self.blocks if block.word == "sh"]
        outputs = [block for block in self.blocks if block.word == "text"]
        self.assertTrue(commands)
        self.assertEqual(len(commands), len(outputs))
        for command, output in zip(self.blocks, self.blocks[1:]):
            if command.word != "sh" and output.word != "text":
                continue
            with self.subTest(line=command.line, command=command.text):
                self.assertEqual((command.word, output.word), ("sh", "text"))
                self.assertEqual(command.text.count("\n"), 1)
                self.assertEqual(tutorial.printed(command.text), output.text)

    def test_parts_of_scripts_are_in_their_files(self) -> None:
        """A part of a script is shown as in its file, except for indentation. Other paragraphs may stand between."""
        for block in self.blocks:
            if block.word != "rules":
                continue
            with self.subTest(line=block.line, script=block.script):
                stored = (tutorial.SCRIPTS / block.script).read_text(encoding="utf-8")
                stripped = "".join(line.strip() + "\n" for line in stored.split("\n"))
                for paragraph in block.text.rstrip("\n").split("\n\n"):
                    shown = "".join(line.strip() + "\n" for line in paragraph.split("\n"))
                    self.assertIn(f"\n{shown}", f"\n{stripped}", f"not in {block.script}")

    def test_scripts_have_short_lines(self) -> None:
        for script in tutorial.scripts():
            text = script.read_text(encoding="utf-8")
            self.assertLessEqual(max(map(len, text.split("\n"))), LONGEST_LINE, script.name)

    def test_lines_are_short(self) -> None:
        self.assertEqual([line for line in self.page.split("\n") if len(line) > LONGEST_LINE], [])

    def test_links_lead_to_files_and_headings(self) -> None:
        headings = {heading_anchor(line) for line in self.page.split("\n") if line.startswith("#")}
        for target in tutorial.LINK.findall(self.page):
            file, _, anchor = target.partition("#")
            if file:
                self.assertTrue((tutorial.PAGE.parent / file).exists(), target)
            else:
                self.assertIn(anchor, headings)


def heading_anchor(line: str) -> str:
    """The anchor of a heading: lower-case letters, digits and hyphens."""
    kept = "".join(sign for sign in line.lstrip("#").strip().lower() if sign.isalnum() or sign in " -_")
    return kept.replace(" ", "-")


if __name__ == "__main__":
    unittest.main()
