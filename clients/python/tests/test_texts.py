"""Rule bases that are given texts: their script, transactions, refusals with places, journals and snapshots."""

from __future__ import annotations

import subprocess
import unittest
from pathlib import Path

from hipac import AnswerFault, Base, HipacError, JournalFault, PROGRAM, Refused, SnapshotFault
from hipac.reading import Reader
from hipac.texts import OneLine

from .making import REPOSITORY, STOCK, RuleBaseTest, python
from .test_answers import TEXTS

STOCK_TEXT = """# A rule base with one item, whose stock # doesn't go below 0.
version 2

class item { stock: int }
class note { text: text, read: bool } # "a note"

rule no_oversell on update item deferred
  if some item i where i.stock < 0
  do { veto }

transaction {
  install no_oversell
  create item(7) set stock = 3
}
"""

ONE_LINE = ("version 2 class item { stock: int } class note { text: text, read: bool } rule no_oversell on update item "
            "deferred if some item i where i.stock < 0 do { veto } transaction { install no_oversell create item(7) "
            "set stock = 3 }")


def refusal(told: RuleBaseTest, call) -> Refused:
    with told.assertRaises(Refused) as caught:
        call()
    return caught.exception


class TextTest(RuleBaseTest):
    def texts(self, rules=STOCK_TEXT, **options) -> Base:
        return self.base(None, rules=rules, **options)

    def file(self, text=STOCK_TEXT, name="stock.rules") -> Path:
        path = self.folder() / name
        path.write_bytes(text if isinstance(text, bytes) else text.encode())
        return path


class TransactionTest(TextTest):
    def test_the_calls_of_a_rule_base(self):
        for rules in (STOCK_TEXT, STOCK_TEXT.encode(), self.file()):
            with self.subTest(rules):
                base = self.texts(rules)
                self.assertEqual([str(it) for it in base.opening], ["unit 1 committed"])
                unit = base.transaction("update item(7) set stock = 1 # one is left\n emit \"left\"")
                self.assertEqual((str(unit), unit.emits), ("unit 2 committed", ["left"]))
                unit = base.transaction("update item(7) set stock = -2")
                self.assertEqual(str(unit), "unit 3 aborted A9 no_oversell")
                self.assertEqual((base.clock(3), base.time, base.item("clock 5"), base.time), ([], 3, [], 5))
                self.assertEqual([str(it) for it in base.item("transaction {}")], ["unit 4 committed"])
                self.assertEqual([str(it) for it in base.rows("item")], ["item 7 stock=1"])
                self.assertEqual((base.get("item", 7)["stock"], base.get("item", 8), base.rows("note")), (1, None, []))
                self.assertEqual((base.show().rules, base.units), ({"no_oversell": "enabled"}, 4))

    def test_options(self):
        base = self.texts(self.file(), tree=True, workers=1)
        self.assertEqual([it.value for it in base.transaction("emit 1 emit true").tree], [1, True])

    def test_each_value_comes_back(self):
        base = self.texts()
        for value in (0, -1, 2 ** 63 - 1, -2 ** 63, True, False, *TEXTS):
            with self.subTest(value):
                self.assertEqual(base.transaction("emit $it", it=value).emits, [value])
        base.transaction("create note($key) set text = $words, read = $read", key=-4, words='a " # $key', read=True)
        self.assertEqual(base.get("note", -4).fields, {"text": 'a " # $key', "read": True})

    def test_values_within_expressions(self):
        base = self.texts()
        unit = base.transaction("emit 5-$a emit -$a emit $b-$a emit$b if$t{emit$t}", a=-2, b=7, t=True)
        self.assertEqual(unit.emits, [7, 2, 9, 7, True])

    def test_values_that_are_none(self):
        base = self.texts()
        for given, fault in (({}, "no value is given for \\$it"), ({"it": 1, "other": 2}, "the text has no \\$other")):
            with self.assertRaisesRegex(ValueError, fault):
                base.transaction("emit $it", **given)
        for value in (None, 1.5, [1]):
            with self.assertRaisesRegex(TypeError, "a value is an int, a bool or a str"):
                base.transaction("emit $it", it=value)
        with self.assertRaises(ValueError):
            base.transaction("emit $it", it="\ud800")
        self.assertEqual(base.transaction('emit "$it"').emits, ["$it"])
        self.assertEqual(base.units, 2)

    def test_the_other_notation(self):
        base = self.texts()
        for call in (lambda: base.tx([["emit", 1]]), lambda: base.item(["clock", 3])):
            with self.assertRaisesRegex(TypeError, "is given texts"):
                call()
        with self.assertRaisesRegex(TypeError, "is given JSON"):
            self.base(STOCK).transaction("emit 1")
        with self.assertRaisesRegex(TypeError, "is given a script, or rules"):
            Base()
        with self.assertRaisesRegex(TypeError, "not twice"):
            Base(STOCK, rules=STOCK_TEXT)
        with self.assertRaisesRegex(ValueError, "is given as rules="):
            self.base(STOCK_TEXT)
        with self.assertRaisesRegex(ValueError, "the path of a file is given as a Path"):
            self.texts("stock.rules")
        with self.assertRaises(FileNotFoundError):
            self.texts(Path("/nowhere/stock.rules"))

    def test_a_rule_base_by_a_script_of_json_takes_no_text(self):
        self.assertEqual(refusal(self, lambda: self.base(STOCK).item("clock 3")).code, "S2")


class PlaceTest(TextTest):
    """Places are those in the text that was given, whatever stands before it in the line."""

    def refused(self, call, code, place, part) -> Refused:
        error = refusal(self, call)
        self.assertEqual((error.code, error.path, error.place, error.part), (code, None, place, part))
        return error

    def test_in_a_transaction(self):
        base = self.texts()
        tx = base.transaction
        error = self.refused(lambda: tx("update item(7)\n  # both\n  set stok = 1 emit 2"), "S4", (3, 7),
                             "stok = 1 emit 2")
        self.assertEqual(str(error), "refused S4 3:7 (an unknown or doubled name): stok = 1 emit 2")
        error = self.refused(lambda: tx("emit 1 == 2\nemit 3"), "S1", (1, 9), "= 2")
        self.assertEqual(str(error), "refused S1 1:9 (not in the notation): = 2")
        error = self.refused(lambda: tx("if true # no body \n\n"), "S1", (1, 18), None)
        self.assertEqual(str(error), "refused S1 1:18 (not in the notation): the end")
        self.refused(lambda: tx(""" emit "a\nemit "b" """), "S1", (1, 9), None)
        self.refused(lambda: tx('emit "é 🦀" emit "\\x"'), "S1", (1, 18), '\\x"')
        self.refused(lambda: tx('emit "a'), "S1", (1, 8), None)
        self.refused(lambda: tx("emit 1 } clock 3"), "S1", (1, 10), "clock 3")
        self.refused(lambda: tx("emit 1 }"), "S1", (1, 9), None)
        self.refused(lambda: tx("emit\xa01"), "S1", (1, 5), "\xa01")
        self.refused(lambda: tx("$a", a=1), "S1", (1, 1), "$a")
        self.refused(lambda: tx("emit $a emit $b veto", a="a long text", b=-1), "S2", (1, 17), "veto")
        self.refused(lambda: tx("emit -$a set", a=2 ** 64), "S1", (1, 7), "$a set")
        self.refused(lambda: base.item("$"), "S1", (1, 1), "$")
        self.refused(lambda: base.clock(-1), "S1", (1, 7), "-1")
        base.clock(9)
        self.refused(lambda: base.clock(8), "S2", (1, 7), "8")
        for text, code, limit in (("emit $a", "S5", "text"), ("emit " + "-(" * 16 + "1" + ")" * 16, "S5", "expr")):
            error = refusal(self, lambda it=text: tx(it, **({"a": "x" * 1025} if "$" in it else {})))
            self.assertEqual((error.code, error.limit, error.place), (code, limit, None))
        self.assertEqual((base.units, base.time), (1, 9))

    def test_in_a_script(self):
        for text, code, place, part in (
                (STOCK_TEXT.replace("i.stock < 0", "i.stock << 0"), "S1", (8, 33), "< 0"),
                (STOCK_TEXT.replace("create item(7)", "create itm(7)"), "S4", (13, 10), "itm(7) set stock = 3"),
                (STOCK_TEXT.replace('"a note"', '"a note"\n"'), "S1", (6, 2), None),
                ("\ufeffversion 2", "S1", (1, 1), "\ufeffversion 2"),
                (STOCK_TEXT.replace("version 2", ""), "S1", (4, 1), "class item { stock: int }")):
            for rules in (text, self.file(text)):
                with self.subTest(place, form=type(rules)):
                    self.refused(lambda it=rules: self.texts(it), code, place, part)
        for rules in (STOCK_TEXT.replace("version 2", "version 3"), self.file("version 3")):
            error = refusal(self, lambda it=rules: self.texts(it))
            self.assertEqual((error.code, error.place, str(error)), ("S6", None, "refused S6 (an unknown version)"))
        error = refusal(self, lambda: self.texts(self.file("version 1 # " + "x" * 1_048_576)))
        self.assertEqual((error.code, error.limit), ("S5", "size"))

    def test_bytes_that_are_no_text(self):
        with self.assertRaises(ValueError):
            self.texts(b"version 1 class \xff {}")
        error = refusal(self, lambda: self.texts(self.file(b"version 1\nclass \xff {}")))
        self.assertEqual((error.code, error.place), ("S1", (2, 7)))

    def test_what_the_reader_takes(self):
        for line in ("S1 1:1", "S2 3:4", "S4 12:34", "S5 size", "S6"):
            found = Reader(0, False, is_text=True).take("refused " + line)
            self.assertIsInstance(found, Refused)
        for line in ("S1", "S2 /", "S4 /1/2", "S4 1", "S4 1:01", "S4 1:2:3", "S6 1:1", "S5 1:1", "S4 -1:1"):
            with self.subTest(line), self.assertRaises(AnswerFault):
                Reader(0, False, is_text=True).take("refused " + line)
        with self.assertRaises(AnswerFault):
            Reader(0, False).take("refused S4 1:2")


class OneLineTest(TextTest):
    def test_a_text_on_one_line(self):
        for text, line in (
                (STOCK_TEXT, ONE_LINE), (ONE_LINE, ONE_LINE), ("a#b\nc", "a c"), ("a\r\n\tb", "a b"),
                ('"a # b" c', '"a # b" c'), ('"a\\"#" #\n', '"a\\"#"'), ('"a\\\\"# "\nb', '"a\\\\" b'), ("#", ""),
                ("a\x0b\xa0b", "a\x0b\xa0b"), ("`on`:a", "`on`:a"), ("a!=b", "a!=b"), ('"a\nb"', '"a\x1fb"')):
            with self.subTest(text):
                self.assertEqual(OneLine(text).text, line)

    def test_examples(self):
        """A script on one line has the answers of the file."""
        examples = REPOSITORY / "examples"
        paths = [*examples.glob("*.rules"), *examples.glob("version4/*.rules"), *examples.glob("orders/*.rules")]
        for path in sorted(paths):
            with self.subTest(path.name):
                text = path.read_text(encoding="utf-8")
                bases = [self.texts(rules, tree=True) for rules in (path, text, OneLine(text).text)]
                self.assertEqual([it.opening for it in bases], [bases[0].opening] * 3)
                self.assertEqual([it.show() for it in bases], [bases[0].show()] * 3)
                self.assertEqual([it.time for it in bases], [bases[0].time] * 3)
                for base in bases:
                    base.close()


class ScriptTest(TextTest):
    def test_the_clock_after_the_opening(self):
        for text, time in (
                ("version 1", 0), ("version 1 clock 5", 5), ("version 1 clock 5 transaction {} clock 7 # clock 8", 7),
                ('version 1 transaction { emit "clock 9" }', 0), ("version 4 class clock { clock: int }", 0),
                ("version 4 transaction { let clock = 3 { emit clock } } clock 8", 8),
                ("version 4 class transaction {} rule clock on create transaction "
                 "if some transaction clock do { for clock {} } clock 6", 6)):
            with self.subTest(text):
                self.assertEqual(self.texts(text).time, time)

    def test_a_file_that_is_changed_meanwhile(self):
        path = self.file()
        program = self.folder() / "program"
        program.write_text(f"#!/bin/sh\necho '#' >> {path}\nexec {PROGRAM[0]} \"$@\"\n", encoding="utf-8")
        program.chmod(0o755)
        with self.assertRaisesRegex(HipacError, "was changed while the program read it"):
            self.texts(path, program=[str(program)])

    def test_the_words_of_the_command_line(self):
        text = "import sys\nprint('ok 0' if sys.argv[1:] == {} else sys.argv, flush=True)\nsys.stdin.read()"
        path = self.file(name="-a b.rules")
        self.texts(path, program=python(text.format(["--workers", "2", "--text", "--script", str(path)])), workers=2)
        self.texts("version 1", program=python(text.format(["--text"])))


class TextJournalTest(TextTest):
    def setUp(self):
        self.path = self.folder() / "journal"

    def recovered(self, journal=None, rules=None, **options):
        return super().recovered(journal or self.path, None, rules=rules, **options)

    def test_what_is_in_a_journal(self):
        base = self.recovered(rules=self.file())
        base.transaction("emit $it # two lines\nemit 2", it="é\n")
        base.show()
        base.clock(3)
        with self.assertRaises(ValueError):
            base.transaction("emit $it")
        lines = self.path.read_text(encoding="utf-8").split("\n")
        self.assertEqual(lines, [ONE_LINE, 'transaction { emit "é\\n" emit 2 }', "clock 3", ""])
        ended = subprocess.run([*PROGRAM, "--text"], input=self.path.read_bytes(), capture_output=True, check=True)
        self.assertEqual(ended.stdout.decode(),
                         'unit 1 committed\nok 1\nunit 2 committed\nemit "é\\n"\nemit 2\nok 2\nok 2\n')

    def test_a_journal_brings_all_back(self):
        base = self.recovered(rules=self.file())
        base.transaction("update item(7) set stock = 1")
        base.transaction("update item(7) set stock = -1")
        refusal(self, lambda: base.transaction("emit"))
        base.clock(4)
        wanted = base.show(), base.units, base.time
        base.close()
        for rules in (None, STOCK_TEXT, self.file(), self.file("# another comment\n" + ONE_LINE)):
            again = self.recovered(rules=rules)
            self.assertEqual((again.show(), again.units, again.time, again.replayed), (*wanted, 5))
            again.close()
        again = self.recovered()
        self.assertEqual(str(again.transaction("delete item(7)")), "unit 4 committed")

    def test_a_refused_last_line(self):
        base = self.recovered(rules=STOCK_TEXT)
        refusal(self, lambda: base.transaction("update item(7)\nset stok = 1"))
        base.close()
        last = self.recovered().last_replayed
        self.assertEqual((last.code, last.place, last.part), ("S4", (1, 34), "stok = 1 }"))

    def test_journals_of_others(self):
        self.path.write_bytes(ONE_LINE.encode() + b' # stock\r\nshow\r\n\n{\n  clock  4 # \xff\n clock 5#\r\n')
        base = self.recovered(rules=STOCK_TEXT)
        self.assertEqual((base.replayed, base.time, base.units), (6, 5, 1))

    def test_another_script(self):
        self.recovered(rules=STOCK_TEXT).close()
        before = self.path.read_bytes()
        for rules in (STOCK_TEXT.replace("< 0", "< 1"), self.file("version 2")):
            with self.assertRaisesRegex(JournalFault, "another script"):
                self.recovered(rules=rules)
        with self.assertRaisesRegex(JournalFault, "another script"):
            super().recovered(self.path, STOCK)
        self.assertEqual(self.path.read_bytes(), before)
        other = self.folder() / "journal"
        super().recovered(other, STOCK).close()
        with self.assertRaisesRegex(JournalFault, "another script"):
            self.recovered(other, rules=STOCK_TEXT)

    def test_a_refused_script_leaves_no_line(self):
        refusal(self, lambda: self.recovered(rules=self.file("version 9")))
        self.assertEqual(self.path.read_bytes(), b"")
        self.recovered(rules=STOCK_TEXT)

    def test_the_tools_take_it(self):
        base = self.recovered(rules=self.file())
        base.transaction("update item(7) set stock = -2")
        base.close()
        tools = [str(REPOSITORY / "hipac-tools")]
        ended = subprocess.run([*tools, "why", str(self.path), "2"], capture_output=True, text=True, check=False)
        self.assertEqual(ended.returncode, 0, ended.stderr)
        self.assertIn("Rule no_oversell vetoed", ended.stdout)


RULES = """
version 2
class item { stock: int }
class `on` { `if`: text, `then`: bool }
rule reports on update item or every 5 from 5 do { emit event.count }
rule alarm on moment 8 separate do { emit event.time }
rule late on (moment 12) do { emit event.time }
rule closure on delete item do separate { abort }
rule `rule` on signal closure or create `on` deferred do {}
"""

DIFFERENT = """
version 2
class closure { then_: int }
rule a on signal x then signal y do {}
rule b on (create closure or closure(signal x until signal y)) do {}
rule c on update closure or commit do {}
rule d on signal commit or signal closure do {}
transaction { install a install b install c install d }
"""


class TextSnapshotTest(TextTest):
    def copy_of(self, base, **options) -> Base:
        path = self.folder() / "journal"
        path.write_bytes(b"".join(line + b"\n" for line in base.snapshot(**options)))
        return super().recovered(path)

    def grown(self) -> Base:
        base = self.texts(RULES)
        base.transaction("install reports install alarm install late install closure install `rule`")
        base.transaction("create item(-7) set stock = -3 create `on`(1) set `if` = $it, `then` = true", it='a "b" # \n')
        base.clock(9)
        base.transaction("update item(-7) set stock = 2 disable late disable `rule`")
        return base

    def test_it_goes_on_as_before(self):
        base = self.grown()
        copy = self.copy_of(base)
        self.assertEqual((copy.show(), copy.time), (base.show(), 9))
        for item in ("transaction { update item(-7) set stock = -1 }", "clock 10", "transaction { enable late }",
                     "clock 16", "transaction { delete item(-7) }"):
            found = [[(it.time, str(it.ending), it.all_emits) for it in each.item(item)] for each in (base, copy)]
            self.assertEqual(found[0], found[1], item)
        self.assertEqual(copy.show(), base.show())

    def test_a_snapshot_of_a_snapshot(self):
        first = self.grown().snapshot()
        self.assertEqual(self.texts(first[0]).snapshot(), first)

    def test_what_would_differ(self):
        base = self.texts(DIFFERENT)
        with self.assertRaises(SnapshotFault) as fault:
            base.snapshot()
        self.assertEqual(fault.exception.differences, {
            "a": "loses its past", "b": "loses its past",
            "c": "fires once more, at the end of the snapshot's own transaction"})
        self.assertEqual(self.copy_of(base, lose_pasts=True).show(), base.show())
        base.transaction("disable a remove b disable c")
        self.assertEqual(self.copy_of(base).show(), base.show())

    def test_a_clock_that_has_passed_many_moments(self):
        base = self.texts("version 1 rule tick on every 1 from 1 or every 2 from 7 do {} transaction { install tick }")
        for time in (900, 1800, 2500):
            base.clock(time)
        self.assertIn(b" clock 1000 clock 2000 clock 2500 transaction { install tick }", base.snapshot()[0])
        self.assertEqual(self.copy_of(base).time, 2500)

    def test_more_objects_than_a_script_may_have(self):
        base = self.texts()
        for part in range(3):
            creates = " ".join(f"create note({1000 * part + key}) set text = $x, read = false" for key in range(500))
            base.transaction(creates, x="x" * 1000)
        self.assertGreater(len(base.snapshot()), 2)
        self.assertEqual(self.copy_of(base).show(), base.show())

    def test_new_rules_over_the_old_objects(self):
        new = """version 2 class note { text: text, read: bool } class item { stock: int }
            rule no_oversell on update item deferred if some item i where i.stock < 0 do { veto }
            rule low on update item do { emit "low" }
            transaction { install low } clock 4 transaction { emit 1 }"""
        base = self.texts()
        base.transaction("create note(2) set text = $it, read = true", it="two")
        base.clock(3)
        for old in (base, self.base(STOCK)):
            for rules in (new, self.file(new)):
                copy = self.copy_of(old, rules=rules)
                self.assertEqual([str(it) for it in copy.rows("item")], ["item 7 stock=3"])
                self.assertEqual(copy.show().rules, {"no_oversell": "enabled", "low": "enabled"})
                self.assertEqual((copy.transaction("update item(7) set stock = 1").emits, copy.time), (["low"], 4))
        self.assertEqual(self.copy_of(base, script=STOCK).show().rules, {"no_oversell": "enabled"})


if __name__ == "__main__":
    unittest.main()
