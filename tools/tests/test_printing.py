"""The word `print`: the stored examples, and its command line."""

from __future__ import annotations

import io
import unittest
from contextlib import redirect_stderr, redirect_stdout
from unittest import mock

from hipac_tools import printing
from tests.making import EXAMPLES


class CommandLine(unittest.TestCase):
    def run_word(self, *words: str) -> tuple[int, str, str]:
        written, errors = io.BytesIO(), io.StringIO()
        output = io.TextIOWrapper(written, encoding="utf-8")
        with redirect_stdout(output), redirect_stderr(errors):
            status = printing.main(list(words))
        output.flush()
        return status, written.getvalue().decode("utf-8"), errors.getvalue()

    def given(self, content: bytes) -> tuple[int, str, str]:
        """What is printed of standard input."""
        with mock.patch("sys.stdin", io.TextIOWrapper(io.BytesIO(content))):
            return self.run_word("-")

    def test_stored_examples(self) -> None:
        for example in EXAMPLES:
            with self.subTest(example=example.name):
                text = example.with_suffix(".rules")
                stored = text.read_text(encoding="utf-8")
                self.assertEqual(self.run_word(str(example)), (0, stored, ""))
                self.assertEqual(self.run_word(str(text)), (0, stored, ""))

    def test_standard_input(self) -> None:
        text = EXAMPLES[0].with_suffix(".rules").read_bytes()
        self.assertEqual(self.given(EXAMPLES[0].read_bytes()), (0, text.decode("utf-8"), ""))
        self.assertEqual(self.given(b"# a comment\n" + text), (0, text.decode("utf-8"), ""))

    def test_what_is_no_script(self) -> None:
        told = "standard input: this is no script, at {}: run ./hipac-tools check on it\n"
        self.assertEqual(self.given(b"{}"), (2, "", told.format("/")))
        self.assertEqual(self.given(b"version 1\nclas item {}"), (2, "", told.format("line 2:1")))
        self.assertEqual(self.given(b"version 1\ntransaction {\n  emit now }"), (2, "", told.format("line 3:8")))

    def test_wrong_words(self) -> None:
        self.assertEqual(self.run_word()[0], 3)
        self.assertEqual(self.run_word("a", "b")[0], 3)
        self.assertEqual(self.run_word("--deep")[0], 3)
        self.assertEqual(self.run_word("/nowhere/at/all.json")[0], 3)
        self.assertEqual(self.run_word("--help")[0], 0)


if __name__ == "__main__":
    unittest.main()
