"""The words `journal` and `snapshot`: what is accepted of a journal's lines, and a rule base that stands as it."""

from __future__ import annotations

import json
import os
import subprocess
import sys
import tempfile
import unittest
from pathlib import Path

from hipac_tools import command, journal, program
from hipac_tools.command import Start

SCRIPT = {"version": 2, "classes": [["item", [["stock", "int"]]]], "rules": [
    ["tick", ["every", 5, 5], "immediate", [], "immediate", [["emit", ["time", 0]]]],
    ["pair", ["seq", ["update", "item"], ["update", "item"]], "immediate", [], "immediate", [["emit", "two"]]]],
    "items": [["tx", [["install", "tick"], ["create", "item", 7, [["stock", 3]]]]]]}
LINES = [SCRIPT, ["tx", [["update", "item", 7, [["stock", 2]]]]], ["show"],
         ["tx", [["update", "item", 7, []], ["veto"]]], ["clock", 16], ["clock", 3], ["tx", [["abort"]]],
         ["show", "item"], ["tx", [["emit", "a\u2028b"]]]]
ACCEPTED = [LINES[1], LINES[4], LINES[6], LINES[8]]


def content(lines=LINES) -> bytes:
    return b"".join(json.dumps(line).encode() + b"\n" for line in lines)


def items_of(ran: journal.Ran) -> list:
    """The items of a journal's script."""
    return json.loads(ran.script_text)["items"]


def hipac_tools(*words: str, given: bytes = b"") -> subprocess.CompletedProcess:
    environment = {**os.environ, "PYTHONPATH": str(program.REPOSITORY / "tools")}
    return subprocess.run([sys.executable, "-m", "hipac_tools", *words], input=given, env=environment,
                          cwd=program.REPOSITORY, capture_output=True, check=False)


class JournalTest(unittest.TestCase):
    def test_the_script_of_a_journal(self):
        ran = journal.run(content())
        self.assertEqual(items_of(ran), SCRIPT["items"] + ACCEPTED)
        reported = program.run(ran.script_text.encode(), ["--tree"])
        self.assertEqual(reported.output, ran.report_text)

    def test_up_to_a_unit(self):
        for last, items in ((1, []), (2, [LINES[1]]), (3, [LINES[1], ["clock", 5]]), (4, [LINES[1], ["clock", 10]]),
                            (5, [LINES[1], ["clock", 16]]), (7, ACCEPTED)):
            with self.subTest(last):
                ran = journal.run(content(), last)
                self.assertEqual(items_of(ran), SCRIPT["items"] + items)
                self.assertEqual(program.run(ran.script_text.encode(), ["--tree"]).output, ran.report_text)
        with self.assertRaisesRegex(journal.NoJournal, "there is no unit 8: the journal has 7"):
            journal.run(content(), 8)

    def test_a_last_line_that_was_cut_off(self):
        self.assertEqual(items_of(journal.run(content() + b'["tx",[')), SCRIPT["items"] + ACCEPTED)

    def test_what_is_no_journal(self):
        for given in (b"", b"\n", b"[]\n[]\n", json.dumps(SCRIPT, indent=1).encode(), b'{"version":1}\n["show"]\n'):
            ended = hipac_tools("journal", "-", given=given)
            self.assertEqual((ended.returncode, ended.stdout), (2, b""), given)
            self.assertRegex(ended.stderr, b"^journal: standard input: the first line is (refused|no script by itself)")

    def test_wrong_words(self):
        for words in (["journal"], ["journal", "a", "b"], ["journal", "a", "--lose-pasts"], ["snapshot", "--until"]):
            self.assertEqual(hipac_tools(*words).returncode, 3)
        self.assertEqual(hipac_tools("journal", "/nosuch").returncode, 3)

    def test_it_is_a_journal(self):
        self.assertTrue(command.is_journal(content()))
        self.assertFalse(command.is_journal(content([SCRIPT])))
        self.assertFalse(command.is_journal(json.dumps(SCRIPT, indent=1).encode()))

    def test_the_other_words_take_a_journal(self):
        """They say of it what they say of its script, and of one that no script could hold."""
        padded = [*LINES, *[["tx", [["emit", "x" * 1000]] * 100]] * 12]
        for lines in (LINES, padded):
            given = content(lines)
            script = hipac_tools("journal", "-", given=given).stdout
            for words in (["why", "-", "7"], ["graph", "-"], ["faults", "-"], ["view", "-"]):
                with self.subTest(words, size=len(given)):
                    ended = hipac_tools(*words, given=given)
                    self.assertEqual((ended.returncode, ended.stderr), (0, b""))
                    if lines is LINES:
                        self.assertEqual(ended.stdout, hipac_tools(*words, given=script).stdout)


RULES = """# The rules of an item.
version 2

class item { stock: int }

rule tick on every 5 from 5
  do { emit event.time }

rule pair on update item then update item # two in a row
  do { emit "two" }

transaction {
  install tick
  create item(7) set stock = 3
}
"""
RULES_LINE = "version 2 " + " ".join(line for line in RULES.replace(" # two in a row", "").splitlines()[2:] if line)
TEXTS = ["transaction { update item(7) set stock = 2 } # one is left", "show", "transaction { emit 1 veto }", "{", "",
         "clock 16", "clock 3", "transaction { abort }", 'transaction { emit "a\u2028b" }']
TAKEN = [TEXTS[0], TEXTS[5], TEXTS[7], TEXTS[8]]


def lines(*texts: str) -> bytes:
    return "".join(text + "\n" for text in texts).encode()


class TextJournalTest(unittest.TestCase):
    """Journals of texts, with their script on the first line and in a file."""

    def setUp(self):
        room = tempfile.TemporaryDirectory()
        self.addCleanup(room.cleanup)
        self.rules = Path(room.name, "stock.rules")
        self.rules.write_text(RULES, encoding="utf-8")
        self.json = Path(room.name, "stock.json")
        self.json.write_text(json.dumps(SCRIPT, indent=1), encoding="utf-8")

    def test_the_script_of_a_journal(self):
        for given, file, script in ((lines(RULES_LINE, *TEXTS), None, RULES_LINE + "\n"),
                                    (lines(RULES_LINE, *TEXTS), self.rules, RULES), (lines(*TEXTS), self.rules, RULES)):
            with self.subTest(file=file):
                ran = journal.run(given, start=Start(file and str(file)))
                self.assertEqual(ran.script_text, script + lines(*TAKEN).decode())
                reported = program.run_script(ran.script_text.encode(), ["--tree"])
                self.assertEqual(reported.output, ran.report_text)
                options = [] if file is None else ["--script", str(file)]
                ended = hipac_tools("journal", "-", "--until", "3", *options, given=given)
                self.assertEqual(ended.stdout.decode(), script + lines(TAKEN[0], "clock 5").decode())

    def test_a_script_of_json_in_a_file(self):
        given = content(LINES[1:])
        ran = journal.run(given, start=Start(str(self.json)))
        self.assertEqual(items_of(ran), SCRIPT["items"] + ACCEPTED)
        self.assertEqual(ran.report, journal.run(content()).report)
        self.assertEqual(journal.run(content(), start=Start(str(self.json))).report, ran.report)

    def test_the_other_words(self):
        """They say of it what they say of its script, at the places of the file."""
        given, option = lines(*TEXTS), ["--script", str(self.rules)]
        script = hipac_tools("journal", "-", *option, given=given).stdout
        for words in (["why", "-", "2"], ["why", "-", "7", "pair"], ["graph", "-"], ["faults", "-"], ["print", "-"],
                      ["view", "-"]):
            with self.subTest(words):
                ended = hipac_tools(*words, *option, given=given)
                self.assertEqual((ended.returncode, ended.stderr), (0, b""))
                self.assertEqual(ended.stdout, hipac_tools(*words, given=script).stdout)
                before = hipac_tools(words[0], *option, *words[1:], given=given)
                self.assertEqual(before.stdout, ended.stdout)
        self.assertIn(b"(at line 18:15)", hipac_tools("why", "-", "6", *option, given=lines(
            *TEXTS[:1], "clock 16", "transaction { abort }")).stdout)

    def test_a_checked_journal(self):
        """What the rule base has refused doesn't run again."""
        given = lines(RULES_LINE, 'transaction { emit 1 + "a" }', "transaction { signal go(1) }",
                      "transaction { emit 7 }")
        taken = lines(RULES_LINE, "transaction { signal go(1) }", "transaction { emit 7 }").decode()
        self.assertEqual(journal.run(given, start=Start(is_checked=True)).script_text, taken)
        self.assertEqual(journal.run(given).script_text, given.decode())
        signals = self.rules.with_name("go.json")
        signals.write_text('[["go", ["text"]]]', encoding="utf-8")
        options = ["--script", str(self.rules), "--signals", str(signals)]
        ended = hipac_tools("journal", "-", *options, given=given.partition(b"\n")[2])
        self.assertEqual(ended.stdout.decode(), RULES + "transaction { emit 7 }\n")
        for words in (["why", "-", "2"], ["graph", "-"], ["faults", "-"], ["print", "-"], ["view", "-"]):
            with self.subTest(words):
                ended = hipac_tools(*words, "--checked", given=given)
                self.assertEqual((ended.returncode, ended.stderr), (0, b""))
                self.assertEqual(ended.stdout, hipac_tools(*words, given=taken.encode()).stdout)
        self.assertEqual(hipac_tools("snapshot", "-", "--checked", given=given).returncode, 0)

    def test_a_snapshot(self):
        for given, option in ((lines(RULES_LINE, *TEXTS), []), (lines(*TEXTS), ["--script", str(self.rules)])):
            ended = hipac_tools("snapshot", "-", *option, given=given)
            self.assertEqual((ended.returncode, ended.stderr), (0, b""))
            self.assertRegex(ended.stdout.decode(), r"\Aversion 2 class item .* clock 16 .*\n\Z")
            wanted = journal.run(lines(RULES_LINE, *TEXTS)).report
            self.assertEqual(journal.run(ended.stdout).report[-5:], wanted[-5:])

    def test_a_journal_that_lacks_its_script(self):
        wanted = ("this begins with an item, as a journal whose script is in a file: --script FILE names that\n")
        for given in (lines(*TEXTS), lines("", *TEXTS), content(LINES[1:]), content([LINES[2]]), lines(*TEXTS) * 8000):
            for words in (["why", "-", "2"], ["graph", "-"], ["faults", "-"], ["print", "-"], ["view", "-"],
                          ["journal", "-"], ["snapshot", "-"]):
                with self.subTest(words, size=len(given)):
                    ended = hipac_tools(*words, given=given)
                    self.assertEqual((ended.returncode, ended.stdout), (2, b""))
                    self.assertTrue(ended.stderr.decode().endswith(wanted), ended.stderr)

    def test_another_script_than_the_journal_has(self):
        other = self.rules.with_name("other.rules")
        other.write_text(RULES.replace("every 5 from 5", "every 6 from 5"), encoding="utf-8")
        for given, file, said in (
                (lines(RULES_LINE, *TEXTS), other, "the journal begins with another script than "),
                (lines(*TEXTS), self.json, "its lines are text in the notation, and "),
                (content(), self.rules, "its lines are JSON, and "),
                (content(LINES[1:]), self.rules, "its lines are JSON, and "),
                (RULES.encode(), self.rules, "this is a script, and no journal for ")):
            with self.subTest(said):
                ended = hipac_tools("why", "-", "1", "--script", str(file), given=given)
                self.assertEqual((ended.returncode, ended.stdout), (2, b""))
                self.assertIn(said, ended.stderr.decode())
        other.write_text("version 3", encoding="utf-8")
        ended = hipac_tools("journal", "-", "--script", str(other), given=lines(*TEXTS))
        self.assertEqual((ended.returncode, ended.stdout), (2, b""))
        self.assertIn("other.rules is refused: refused S6", ended.stderr.decode())

    def test_a_file_that_cannot_be_read(self):
        for word in ("why", "graph", "faults", "print", "view", "journal", "snapshot"):
            words = [word, "-", *(["1"] if word == "why" else []), "--script"]
            ended = hipac_tools(*words, "/nosuch.rules", given=lines(*TEXTS))
            self.assertIn(ended.returncode, (2, 3))
            self.assertIn("/nosuch.rules", ended.stderr.decode())
            self.assertEqual(hipac_tools(*words, given=lines(*TEXTS)).returncode, 3)
        self.assertEqual(hipac_tools("view", "-", "report", "--script", str(self.rules)).returncode, 3)


class SnapshotTest(unittest.TestCase):
    def test_a_snapshot_stands_as_the_journal(self):
        ended = hipac_tools("snapshot", "-", given=content())
        self.assertEqual((ended.returncode, ended.stderr), (0, b""))
        self.assertEqual(journal.run(ended.stdout + b"\n").report[-5:], journal.run(content()).report[-5:])

    def test_a_past_that_would_be_lost(self):
        lines = content([*LINES, ["tx", [["install", "pair"]]]])
        ended = hipac_tools("snapshot", "-", given=lines)
        self.assertEqual((ended.returncode, ended.stdout), (2, b""))
        self.assertIn(b"pair loses its past", ended.stderr)
        self.assertEqual(hipac_tools("snapshot", "-", "--lose-pasts", given=lines).returncode, 0)
        self.assertEqual(hipac_tools("snapshot", "-", "--until", "7", given=lines).returncode, 0)

    def test_a_journal_longer_than_a_script(self):
        many = [["tx", [["create", "item", 1000 * part + key, [["stock", key]]] for key in range(1000)]]
                for part in range(1, 31)]
        with tempfile.TemporaryDirectory() as folder:
            path = Path(folder, "journal")
            path.write_bytes(content([SCRIPT, *many]))
            ended = hipac_tools("snapshot", str(path))
            self.assertGreater(ended.stdout.count(b"\n"), 2)
            found = journal.run(ended.stdout).report
            self.assertEqual([line for line in found if line.startswith("object")],
                             [line for line in journal.run(path.read_bytes()).report if line.startswith("object")])


if __name__ == "__main__":
    unittest.main()
