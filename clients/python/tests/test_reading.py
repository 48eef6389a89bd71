"""The reader of answers: it leaves nothing out, and takes nothing that the definition doesn't write."""

from __future__ import annotations

import json
import subprocess
import sys
import unittest

from hipac import AnswerFault, Ending, PROGRAM, Refused
from hipac.reading import Reader

from .making import REPOSITORY
from .reading_back import lines_of

sys.path.insert(0, str(REPOSITORY / "tools" / "tests"))
from made_scripts import made_script  # noqa: E402 - found by the path above

SEEDS = range(8)


def answers_to(script: dict, trees: bool) -> list:
    """The lines of all answers to a script, given as a rule base without items, its items, and a question."""
    lines = [{**script, "items": []}, *script["items"], ["show"]]
    given = "".join(json.dumps(line) + "\n" for line in lines).encode()
    ended = subprocess.run([*PROGRAM, *(["--tree"] if trees else [])], input=given, capture_output=True, check=True)
    return ended.stdout.decode().split("\n")[:-1]


class ReadingBackTest(unittest.TestCase):
    def read_back(self, script: dict, trees: bool) -> None:
        count, reader, again, told = 0, None, [], answers_to(script, trees)
        for line in told:
            reader = reader or Reader(count, trees)
            answer = reader.take(line)
            if answer is not None:
                again.extend(lines_of(answer))
                count, reader = answer.count, None
        self.assertEqual(again, told)
        self.assertIsNone(reader)

    def test_examples(self):
        examples = REPOSITORY / "examples"
        for path in sorted([*examples.glob("*.json"), *examples.glob("version4/*.json")]):
            for trees in (False, True):
                with self.subTest(path.name, trees=trees):
                    self.read_back(json.loads(path.read_text(encoding="utf-8")), trees)

    def test_made_scripts(self):
        for seed in SEEDS:
            with self.subTest(seed=seed):
                self.read_back(made_script(seed), True)


class RefusingTest(unittest.TestCase):
    def take(self, *lines: str, trees: bool = True, count: int = 0):
        reader = Reader(count, trees)
        for line in lines[:-1]:
            self.assertIsNone(reader.take(line))
        return reader.take(lines[-1])

    def test_invalid_lines(self):
        for line in ("", "ok", "ok 1", "ok 01", "ok 0 ", "refused", "refused S7", "refused S2", "refused S1 /",
                     "refused S4 1", "refused S5 big", "unit 2 committed", "unit 1 commited", "unit 1 aborted",
                     "unit 1 aborted A9",
                     "unit 1 aborted A8 guard", "unit 1 aborted A10", "unit 1 time committed", "unit 01 committed",
                     "unit 1 time -1 committed", "unit 1 committed ", " unit 1 committed", "unit 1  committed",
                     "separate r committed", "emit 1", "  emit 1", "rule r on", "object item a", "object item 1 a=",
                     "object item", "final", "end"):
            self.refuse(line)

    def test_invalid_lines_below_a_unit(self):
        for line in ("ok 2", "ok", "refused S1", "immediate r committed", "separate r", "separate 1 committed", "emit",
                     "emit 01", "emit -0", "emit 1.0", "emit True", 'emit "', 'emit "a', 'emit "a" ', 'emit "\\x"',
                     'emit "\\u0041"', 'emit "\\/"', 'emit "\t"', "emit null", "emit ١", "    emit 1", " emit 1",
                     "   emit 1", "  op make item 1", "  op create item", "  op create item 1 a",
                     "  op create item 1 a=b",
                     "  op create item 1  a=1", "  op delete item 1 a=1", "  op install", "  op install r 1", "  sub",
                     "  sub committed 1", "  fire r never satisfied committed", "  fire r immediate satisfied none",
                     "  fire r immediate unsatisfied later", "  fire r immediate fault none", "  act r deferred",
                     "  fire r immediate unsatisfied committed", "  act r deferred later", "object item 1",
                     "rule r enabled"):
            self.refuse("unit 1 committed", line)

    def test_invalid_lines_after_others(self):
        for lines in (("unit 1 aborted A8", "emit 1"), ("unit 1 committed", "  emit 1", "emit 1"),
                      ("unit 1 committed", "  emit 1", "    emit 1"), ("object item 1", "unit 1 committed"),
                      ("rule r enabled", "object item 1"), ("rule r enabled", "rule r enabled"),
                      ("object item 1", "refused S1")):
            self.refuse(*lines)

    def refuse(self, *lines: str) -> None:
        with self.subTest(lines):
            with self.assertRaises(AnswerFault) as caught:
                self.take(*lines)
            self.assertIn(repr(lines[-1]), str(caught.exception))

    def test_trees_that_nobody_asked_for(self):
        with self.assertRaises(AnswerFault):
            self.take("unit 1 committed", "  emit 1", trees=False)

    def test_messages_of_vetoes(self):
        for text, message in (('"full"', "full"), ('"a \\"b\\" none"', 'a "b" none'), ("-7", -7), ("true", True),
                              ('""', "")):
            with self.subTest(text):
                end = f"aborted A9 r {text}"
                lines = [f"unit 1 {end}", f"  fire r immediate satisfied {end}", f"    sub {end}",
                         f"  act r deferred {end}", f"separate r {end}", "ok 1"]
                answer = self.take(*lines)
                unit = answer.units[0]
                self.assertEqual((unit.cause, unit.ending.rule, unit.message), ("A9", "r", message))
                self.assertEqual(unit.tree[0].items[0].ending, Ending("A9", "r", message))
                self.assertEqual(list(lines_of(answer)), lines)
        self.assertIsNone(self.take("unit 1 aborted A9 r", "ok 1").units[0].message)

    def test_messages_that_are_none(self):
        for message in ("full", "01", "null", "1 2", '"a" ', '"a', "None", "x=1"):
            self.refuse(f"unit 1 aborted A9 r {message}")
        self.refuse('unit 1 aborted A8 "full"')

    def test_answers_as_they_are_written(self):
        self.assertEqual(self.take("ok 4", count=4).count, 4)
        self.assertEqual(self.take("unit 5 time 0 aborted A7", "ok 5", count=4).units[0].time, 0)
        told = self.take("unit 1 committed", "  fire r deferred fault A9 r none", "ok 1")
        self.assertEqual(told.units[0].tree[0].fault.rule, "r")
        for line in ("S1", "S2 /", "S3 /1/0/3", "S4 /rules/0/2", "S5 size", "S6"):
            refused = self.take("refused " + line)
            self.assertIsInstance(refused, Refused)
            self.assertEqual(" ".join(filter(None, (refused.code, refused.path, refused.limit))), line)


if __name__ == "__main__":
    unittest.main()
