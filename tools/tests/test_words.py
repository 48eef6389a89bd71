"""The launcher and its words."""

from __future__ import annotations

import subprocess
import unittest

from hipac_tools import __main__ as words

from .trials import REPOSITORY, run_word


class Words(unittest.TestCase):
    def test_no_word_lists_the_words(self) -> None:
        rows: list[list[str]] = [[], ["--help"], ["-h"]]
        for arguments in rows:
            status, output, _ = run_word(words.main, *arguments)
            self.assertEqual(status, 0)
            for name in words.WORDS:
                self.assertIn(f"\n  {name} ", output)

    def test_an_unknown_word(self) -> None:
        status, output, errors = run_word(words.main, "chekc")
        self.assertEqual((status, output), (3, ""))
        self.assertIn("there is no word `chekc`: did you mean `check`?", errors)

    def test_a_word_that_is_near_none(self) -> None:
        self.assertNotIn("did you mean", run_word(words.main, "frobnicate")[2])


class Launcher(unittest.TestCase):
    def launch(self, *arguments: str, text: str = "") -> subprocess.CompletedProcess:
        command = [str(REPOSITORY / "hipac-tools"), *arguments]
        return subprocess.run(command, input=text, capture_output=True, text=True, cwd="/", check=False)

    def test_it_runs_from_any_directory(self) -> None:
        ended = self.launch("check", "-", text="[]")
        self.assertEqual((ended.returncode, ended.stderr), (2, ""))
        self.assertIn("standard input:1:1: refused S2 /: ", ended.stdout)

    def test_its_status_is_that_of_the_word(self) -> None:
        self.assertEqual(self.launch().returncode, 0)
        self.assertEqual(self.launch("chek").returncode, 3)
        self.assertEqual(self.launch("check", str(REPOSITORY / "examples" / "first.json")).returncode, 0)
