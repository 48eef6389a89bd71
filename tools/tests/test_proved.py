"""`check` and `graph` with what ./hipac-check proves: each finding stands at its place, and decides where it can."""

from __future__ import annotations

import json
import unittest
from unittest import mock

from hipac_tools import check, program, proved
from hipac_tools.command import DONE

SCRIPT = """{"version": 4, "classes": [["acct", [["bal", "int"]]]], "rules": [
  ["guard", ["update", "acct"], "immediate", [], "immediate",
    [["if", ["<", ["+", ["new", 0, "bal"], 1], 0], [["veto"]], []]]],
  ["ping", ["signal", "a"], "immediate", [], "immediate", [["signal", "b", [["arg", 0, 0]]]]],
  ["pong", ["or", ["signal", "c"], ["signal", "b"]], "immediate", [], "immediate", [["signal", "a", []]]]
], "items": [["clock", 3], ["tx", [["install", "guard"], ["install", "ping"], ["signal", "a", []]]]]}
"""

FINDINGS = """kinds unknown
depth unknown
guards unknown
kind /rules/1/5/0/2/0 no_such_argument
kind unit 1 /2 too_few_arguments
chain /rules/1 ping
by /rules/1/5/0 /rules/2/1/2
chain /rules/2 pong
by /rules/2/5/0 /rules/1/1
chain /rules/1 ping
open /rules/0/5 guard
uninstalled /rules/2 pong
"""


def said(findings: str, words: str = "") -> list[str]:
    """The lines of `check` on the script, with what the program is taken to have found."""
    ended = program.Ended(DONE, findings, "")
    with mock.patch.object(program, "run", return_value=ended):
        told = proved.proved_of(json.loads(SCRIPT))
    return [line for line in check.accepted("bank.json", check.read(SCRIPT.encode("utf-8")), told) if words in line]


class ProvedFindings(unittest.TestCase):
    def test_each_finding_stands_at_its_place(self) -> None:
        heads = [line.split(": ", 1) for line in said(FINDINGS) if line.startswith("bank.json:")]
        places = [place.removeprefix("bank.json:") for place, _ in heads if place != "bank.json"]
        self.assertEqual(places, ["3:19", "4:4", "4:77", "5:4", "5:30", "6:79"])

    def test_the_verdicts_come_last(self) -> None:
        self.assertEqual(said(FINDINGS)[-1], "bank.json: proved: kinds unknown, depth unknown, guards unknown")

    def test_a_chain_names_its_places(self) -> None:
        self.assertEqual(len(said(FINDINGS, "may begin too long a chain: ping -> pong -> ping")), 1)
        self.assertEqual(len(said(FINDINGS, "may trigger `pong` by this:")), 1)

    def test_a_guard_that_is_proved_has_no_hint(self) -> None:
        self.assertEqual(len(said(FINDINGS, "`guard` doesn't veto if")), 1)
        self.assertEqual(said("kinds ok\ndepth 1 of 8\nguards closed\n", "doesn't veto"), [])

    def test_a_program_that_fails_is_named(self) -> None:
        with mock.patch.object(program, "run", return_value=program.Ended(4, "", "")):
            told = proved.proved_of(json.loads(SCRIPT))
        self.assertEqual(told, "hipac-check ended with status 4")

    def test_a_file_of_signals_is_handed_on(self) -> None:
        ended = program.Ended(3, "", "signals refused S2 /0\n")
        with mock.patch.object(program, "run", return_value=ended) as run:
            told = proved.proved_of(json.loads(SCRIPT), "bank.signals")
        self.assertEqual(run.call_args.args[1], ["--signals", "bank.signals"])
        self.assertEqual(told, "hipac-check ended with status 3: signals refused S2 /0")

    def test_the_words_name_a_file_of_signals(self) -> None:
        self.assertEqual(check.without_signals(["--live", "--signals", "a", "b"]), (["--live", "b"], "a"))
        self.assertEqual(check.without_signals(["--proved", "b"]), (["--proved", "b"], None))


class Depths(unittest.TestCase):
    def test_each_verdict_is_told(self) -> None:
        for depth, words in {"1 of 8": "no run meets A7", "2 of 8 here": "this script's run", "unknown": "may"}.items():
            ended = program.Ended(DONE, f"kinds ok\ndepth {depth}\nguards closed\n", "")
            with self.subTest(depth), mock.patch.object(program, "run", return_value=ended):
                self.assertIn(words, proved.depth_text(json.loads(SCRIPT)))
