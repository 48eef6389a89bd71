"""The reader of reports: it writes back byte for byte what it reads, and refuses what isn't a report."""

import json
import unittest
from pathlib import Path

from hipac_tools import program, report
from hipac_tools.report import Act, Emit, End, Fire, Operation, ReportFault, Sub

from .made_scripts import made_script

EXAMPLES = sorted((Path(__file__).parents[2] / "examples").glob("*.json"))
SEEDS = range(30)

SMALL = """unit 1 committed
emit "a b=1"
  op install guard
  op create acct 1 name="x y=2" bal=-5
  sub aborted A9 guard
    op delete acct -3
    fire guard immediate satisfied aborted A9 guard
      emit true
  emit "a b=1"
unit 2 time 10 aborted A7
  fire guard deferred fault A3 none
separate guard committed
  act guard separate committed
final
object acct 1 name="x y=2" bal=-5
object bare 2
rule guard enabled
end
"""


class ReadingTest(unittest.TestCase):
    def test_each_line_becomes_its_node(self):
        read = report.read(SMALL)
        first, second = read.units
        self.assertEqual(first.transactions[0].emits, ['"a b=1"'])
        self.assertEqual(first.transactions[0].items, [
            Operation("install", "guard"),
            Operation("create", "acct", 1, (("name", '"x y=2"'), ("bal", "-5"))),
            Sub(End("A9", "guard"), [
                Operation("delete", "acct", -3),
                Fire("guard", "immediate", "satisfied", End("A9", "guard"), [Emit("true")])]),
            Emit('"a b=1"')])
        self.assertEqual((second.moment, second.transactions[0].end), (10, End("A7")))
        self.assertEqual(second.transactions[0].items, [Fire("guard", "deferred", "fault A3", "none")])
        self.assertEqual((second.transactions[1].mode, second.transactions[1].rule), ("separate", "guard"))
        self.assertEqual(second.transactions[1].items, [Act("guard", "separate", End())])
        self.assertEqual([thing.fields for thing in read.objects], [(("name", '"x y=2"'), ("bal", "-5")), ()])
        self.assertEqual(read.rules, [("guard", "enabled")])
        self.assertEqual(report.write(read), SMALL)

    def test_examples_are_written_back(self):
        for path in EXAMPLES:
            with self.subTest(path.name):
                text = program.run(path.read_bytes(), ["--tree"]).output
                self.assertEqual(report.write(report.read(text)), text)

    def test_made_scripts_are_written_back(self):
        for seed in SEEDS:
            with self.subTest(seed=seed):
                text = program.run(json.dumps(made_script(seed)).encode(), ["--tree", "--workers", "1"]).output
                self.assertEqual(report.write(report.read(text)), text)


class RefusingTest(unittest.TestCase):
    def refuse(self, text, words):
        with self.assertRaises(ReportFault) as caught:
            report.read(text)
        self.assertIn(words, str(caught.exception))

    def test_what_is_no_report_is_refused_with_its_line(self):
        self.refuse("", "line 1")
        self.refuse("refused S1\n", "line 1")
        self.refuse(SMALL.replace("  sub aborted A9 guard", "  sub aborted A9"), "line 5")
        self.refuse(SMALL.replace("  op install guard", "      op install guard"), "line 3")
        self.refuse(SMALL.replace("fire guard deferred fault A3 none", "fire guard never fault A3 none"), "line 11")
        self.refuse(SMALL[:-len("end\n")], "line 17")
        self.refuse(SMALL + "end\n", "line 18")


if __name__ == "__main__":
    unittest.main()
