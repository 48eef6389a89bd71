"""The text notation: each form read and written, places, faults, and that what is written is read back."""

from __future__ import annotations

import copy
import json
import random
import re
import unittest
from typing import Any, Callable, Optional

from hipac_tools import positions, rulebase
from hipac_tools.notation.cursor import Cursor
from hipac_tools.notation.event_texts import event_text
from hipac_tools.notation.events import read_event
from hipac_tools.notation.expression_texts import expression_text
from hipac_tools.notation.expressions import read_expression
from hipac_tools.notation.reader import read_bytes, read_line, read_text
from hipac_tools.notation.statement_texts import aggregate_text, statement_text
from hipac_tools.notation.statements import read_aggregate, read_statement
from hipac_tools.notation.tokens import NotText
from hipac_tools.notation.words import MOST_NESTED, RESERVED
from hipac_tools.notation.writer import line_text, script_text
from hipac_tools.positions import Node, line_and_column
from tests.faulty_texts import FAULTY_LINES, FAULTY_SCRIPTS, FaultyText
from tests.making import EXAMPLES, REPOSITORY, RandomScripts
from tests.trials import accepted_scripts

TEXTS = sorted(path for path in (REPOSITORY / "examples").glob("**/*.rules"))
EVERY_LEVEL = "a.b or a.c and not a.d = 1 + 2 * -a.e"


def written(root: Any) -> str:
    return script_text(rulebase.read(json.dumps(root)))


def fault_of(text: str, read: Callable[[str], Node] = read_text) -> NotText:
    """The fault of a text that has one."""
    try:
        read(text)
    except NotText as fault:
        return fault
    raise AssertionError(f"this was read: {text}")


def place(text: str, fault: NotText) -> str:
    line, column = line_and_column(text, fault.start)
    return f"{line}:{column}"


class Words(unittest.TestCase):
    def test_forty_words_are_reserved(self) -> None:
        self.assertEqual(len(RESERVED), 40)
        for free in ("let", "count", "time", "text", "now", "closed", "some", "show", "version"):
            self.assertNotIn(free, RESERVED)


class Forms(unittest.TestCase):
    """Each canonical text with its form: the text is read as the form, and the form is written as the text."""

    def both_ways(self, read: Callable[[Cursor], Node], write: Callable[[Any], str],
                  pairs: list[tuple[str, Any]]) -> None:
        for text, form in pairs:
            with self.subTest(text):
                self.assertEqual(write(form), text)
                self.assertEqual(read(Cursor(text)).value, form)

    def test_events(self) -> None:
        a, b, c = ["signal", "a"], ["signal", "b"], ["commit"]
        self.both_ways(read_event, event_text, [
            ("create item", ["create", "item"]), ("update item", ["update", "item"]), ("delete `on`", ["delete", "on"]),
            ("signal a", a), ("commit", c), ("moment 25", ["at", 25]), ("every 5 from 10", ["every", 10, 5]),
            ("signal a or signal b or commit", ["or", ["or", a, b], c]),
            ("signal a or (signal b or commit)", ["or", a, ["or", b, c]]),
            ("signal a then signal b then commit", ["seq", ["seq", a, b], c]),
            ("(signal a or signal b) then commit", ["seq", ["or", a, b], c]),
            ("closure(signal a or signal b until signal a then commit)", ["closure", ["or", a, b], ["seq", a, c]])])

    def test_operands(self) -> None:
        self.both_ways(read_expression, expression_text, [
            ("7", 7), ("-7", -7), ("true", True), ("false", False), ('"open"', "open"),
            ("i.stock", ["of", "i", "stock"]), ("i.key", ["key", "i"]), ("i.`key`", ["of", "i", "key"]),
            ("new.stock", ["new", 0, "stock"]), ("old[2].stock", ["old", 2, "stock"]), ("event.key", ["id", 0]),
            ("event[1].key", ["id", 1]), ("event.time", ["time", 0]), ("event.arg(2)", ["arg", 0, 2]),
            ("event[1].arg(0)", ["arg", 1, 0]), ("event.count", ["count"]), ("n", ["value", "n"]), ("now", ["now"]),
            ("`now`", ["value", "now"]), ("now.f", ["of", "now", "f"]), ("count.sum", ["of", "count", "sum"])])

    def test_levels(self) -> None:
        a = ["value", "a"]
        self.both_ways(read_expression, expression_text, [
            ("a or a or a", ["or", a, ["or", a, a]]), ("(a or a) or a", ["or", ["or", a, a], a]),
            ("a and a or a", ["or", ["and", a, a], a]), ("a and (a or a)", ["and", a, ["or", a, a]]),
            ("not not a", ["not", ["not", a]]), ("not a = a", ["not", ["=", a, a]]),
            ("(not a) = a", ["=", ["not", a], a]),
            ("(a < a) = a", ["=", ["<", a, a], a]), ("a - a - a", ["-", ["-", a, a], a]),
            ("a - (a - a)", ["-", a, ["-", a, a]]), ("(a + a) * a", ["*", ["+", a, a], a]),
            ("a + a * a", ["+", a, ["*", a, a]]), ("a / -5", ["/", a, -5]), ("a - -5", ["-", a, -5]),
            ("-a * a", ["*", ["neg", a], a]), ("-(a * a)", ["neg", ["*", a, a]])])

    def test_a_negative_number_is_not_a_number_negated(self) -> None:
        self.both_ways(read_expression, expression_text, [
            ("-5", -5), ("-(5)", ["neg", 5]), ("-(-5)", ["neg", -5]), ("-(-(5))", ["neg", ["neg", 5]]),
            ("-9223372036854775808", -2 ** 63), ("-true", ["neg", True])])

    def test_texts(self) -> None:
        self.both_ways(read_expression, expression_text, [
            ('"a \\"b\\" \\\\ \\n \\t \\u0001 é \u2028"', 'a "b" \\ \n \t \x01 é \u2028'),
            ('"# no comment"', "# no comment")])
        self.assertEqual(read_expression(Cursor('"\\/\\u00e9\\ud83d\\ude00"')).value, "/é\U0001f600")

    def test_aggregates(self) -> None:
        rows = ["i", "item", ["<", ["of", "i", "stock"], 3]]
        self.both_ways(read_aggregate, aggregate_text, [
            ("count item i where i.stock < 3", ["count", *rows]), ("count item i", ["count", "i", "item", True]),
            ("sum i.stock + 1 over item i", ["sum", "i", "item", True, ["+", ["of", "i", "stock"], 1]]),
            ("least i.stock over item i where i.stock < 3", ["least", *rows, ["of", "i", "stock"]]),
            ("greatest 1 over item i", ["greatest", "i", "item", True, 1]), ("next item", ["next", "item"]),
            ("event.count", ["count"]), ("n + 1", ["+", ["value", "n"], 1]), ("now", ["now"]),
            ("(sum + 1)", ["+", ["value", "sum"], 1]), ("(count.f)", ["of", "count", "f"]),
            ("summed", ["value", "summed"])])

    def test_statements(self) -> None:
        emit = [["emit", 1]]
        self.both_ways(lambda cursor: read_statement(cursor, 1), statement_text, [
            ("create item(7) set stock = 3, open = (1 = 2)",
             ["create", "item", 7, [["stock", 3], ["open", ["=", 1, 2]]]]),
            ("create mark(i.key)", ["create", "mark", ["key", "i"], []]),
            ("update item(-5)", ["update", "item", -5, []]),
            ("delete item(1 = 2)", ["delete", "item", ["=", 1, 2]]), ("signal paid", ["signal", "paid", []]),
            ("signal paid(1, 1 + 2)", ["signal", "paid", [1, ["+", 1, 2]]]),
            ("emit not a.b", ["emit", ["not", ["of", "a", "b"]]]),
            ("abort", ["abort"]), ("veto", ["veto"]), ('veto "no"', ["veto", "no"]),
            ("veto (let)", ["veto", ["value", "let"]]),
            ("veto letter", ["veto", ["value", "letter"]]), ("install low", ["install", "low"]),
            ("fire `fire`", ["fire", "fire"]),
            ("if true {}", ["if", True, [], []]),
            ("if true {\n  emit 1\n} else {\n  abort\n}", ["if", True, emit, [["abort"]]]),
            ("each item i where i.a {}", ["each", "i", "item", ["of", "i", "a"], []]),
            ("for i {\n  emit 1\n}", ["for", "i", emit]),
            ("with item(5) as i {\n  emit 1\n}", ["with", "i", "item", 5, emit]),
            ("let `now` = next item {\n  emit 1\n}", ["let", "now", ["next", "item"], emit]),
            ("sub {} otherwise {\n  emit 1\n}", ["sub", [], emit]), ("sub {}", ["sub", [], []])])

    def test_what_is_only_read(self) -> None:
        for text, plain in (
                ("{ emit 1; emit 2; }", "{ emit 1 emit 2 }"), ("{ signal a() }", "{ signal a }"),
                ("{ if true {} else if false {} }", "{ if true {} else { if false {} } }"),
                ("{ each item `i` where true {} }", "{ each item i {} }"), ("{ emit ((1)) }", "{ emit 1 }"),
                ("{ # a comment }\n emit 1 }", "{ emit 1 }"), ("{ emit new[0].a }", "{ emit new.a }"),
                ("{ let n = `sum` {} }", "{ let n = (sum) {} }"), ("{ veto `let` }", "{ veto (let) }")):
            with self.subTest(text):
                both = (read_text(f"version 4 transaction {one}").value for one in (text, plain))
                self.assertEqual(*both)

    def test_lines(self) -> None:
        self.assertEqual(read_line("show").value, ["show"])
        for text, item in (
                ("clock 30", ["clock", 30]), ("transaction {}", ["tx", []]),
                ("transaction { emit 1 for i { abort } }", ["tx", [["emit", 1], ["for", "i", [["abort"]]]]])):
            with self.subTest(text):
                self.assertEqual(read_line(text).value, item)
                self.assertEqual(line_text(item), text)


class Scripts(unittest.TestCase):
    def test_head_and_classes(self) -> None:
        root = {"version": 1, "depth": 8, "classes": [["item", [["stock", "int"], ["name", "text"]]], ["mark", []]],
                "rules": [], "items": []}
        self.assertEqual(written(root), "version 1\ndepth 8\n\nclass item { stock: int, name: text }\nclass mark {}\n")
        self.assertEqual(written({"version": 2, "classes": [], "rules": [], "items": []}), "version 2\n")

    def test_rules(self) -> None:
        entries = [["i", "item", True], ["no", "k", "item", ["<", ["key", "k"], 3]], ["let", "n", 1]]
        rule = ["r", ["commit"], "deferred", entries, "separate", [["abort"]], "closed"]
        plain = ["p", ["commit"], "immediate", [], "immediate", []]
        self.assertEqual(written({"version": 4, "classes": [], "rules": [rule, plain], "items": [["clock", 3]]}), (
            "version 4\n\nrule r closed on commit deferred\n  if some item i\n  if no item k where k.key < 3\n"
            "  if let n = 1\n  do separate {\n    abort\n  }\n\nrule p on commit\n  do {}\n\nclock 3\n"))

    def test_examples(self) -> None:
        """Each script of the examples stands there as text, too."""
        scripts = [path for path in (REPOSITORY / "examples").glob("**/*.json")]
        texts = {path.with_suffix("") for path in TEXTS if path.parent.name != "orders"}
        self.assertEqual({path.with_suffix("") for path in scripts}, texts)
        for path in scripts:
            with self.subTest(path.name):
                root = json.loads(path.read_text(encoding="utf-8"))
                self.assertEqual(read_text(path.with_suffix(".rules").read_text(encoding="utf-8")).value, root)

    def test_what_is_written_is_read_back(self) -> None:
        scripts = list(accepted_scripts().values()) + [RandomScripts(seed).script() for seed in range(200)]
        for root in scripts:
            text = written(root)
            read = read_text(text).value
            self.assertEqual(json.dumps(read, sort_keys=True), json.dumps(root, sort_keys=True), text)
            self.assertEqual(written(read), text)

    def test_each_changed_leaf_changes_the_text(self) -> None:
        """Each leaf of each example is changed in some ways; each result that is still a script must be written
        differently."""
        changed = 0
        for example in EXAMPLES:
            root = json.loads(example.read_text(encoding="utf-8"))
            text = written(root)
            for other in changes(root, random.Random(7)):
                try:
                    told = written(other)
                except rulebase.Refused:
                    continue
                changed += 1
                self.assertNotEqual(told, text, json.dumps(other))
        self.assertGreater(changed, 400)

    def test_white_space_means_nothing(self) -> None:
        for path in TEXTS:
            text = path.read_text(encoding="utf-8")
            if '"' in text or "#" in text:
                continue
            for other in (text.replace("\n", "\r\n"), re.sub(r"\s+", " ", text), text.replace(" ", "\t \n# note\n")):
                self.assertEqual(read_text(other).value, read_text(text).value, path.name)


class Places(unittest.TestCase):
    TEXT = ("version 4\nclass a { f: int }\nrule r closed on create a or commit\n  if some a x where x.f < 2 + 3\n"
            "  do {\n    update a(1) set f = new.f, f = (x.f)\n    emit event.arg(0)\n  }\n")

    def written_at(self, path: str) -> str:
        """The text from the beginning of the value at a path to its end."""
        found = positions.find(read_text(self.TEXT), path)
        self.assertTrue(found.exact, path)
        return self.TEXT[found.node.start:found.node.end]

    def test_of_values(self) -> None:
        for path, text in (
                ("/version", "4"), ("/classes/0/0", "a"), ("/classes/0/1", "{ f: int }"), ("/classes/0/1/0", "f: int"),
                ("/rules/0/0", "r"), ("/rules/0/1", "create a or commit"), ("/rules/0/1/2", "commit"),
                ("/rules/0/3/0", "some a x where x.f < 2 + 3"), ("/rules/0/3/0/0", "x"),
                ("/rules/0/3/0/2", "x.f < 2 + 3"),
                ("/rules/0/3/0/2/2/1", "2"), ("/rules/0/5/0", "update a(1) set f = new.f, f = (x.f)"),
                ("/rules/0/5/0/3", "set f = new.f, f = (x.f)"), ("/rules/0/5/0/3/0/1", "new.f"),
                ("/rules/0/5/1/1/2", "0"), ("/rules/0/6", "closed")):
            with self.subTest(path):
                self.assertEqual(self.written_at(path), text)

    def test_a_part_that_is_not_written_has_the_place_of_what_stands_there(self) -> None:
        root = read_text(self.TEXT)
        for path, before in (("/rules/0/2", "if some"), ("/rules/0/4", "{\n    update"), ("/items", ""),
                             ("/rules/0/5/1/1/1", ".arg(0)"), ("/rules/0/5/0/3/0/1/1", ".f, f")):
            with self.subTest(path):
                node = positions.find(root, path).node
                self.assertEqual(node.start, node.end)
                self.assertTrue(self.TEXT[node.start:].startswith(before))

    def test_each_value_lies_in_the_one_round_it(self) -> None:
        for path in TEXTS:
            text = path.read_text(encoding="utf-8")
            waiting = [read_text(text)]
            while waiting:
                node = waiting.pop()
                self.assertLessEqual(node.start, node.end)
                for inner in node.items + [member for _, member in node.members.values()]:
                    waiting.append(inner)
                    if node.value is not inner.value and inner.start < inner.end:
                        self.assertLessEqual(inner.end, max(node.end, len(text)))


class Faults(unittest.TestCase):
    def assert_told(self, cases: list[FaultyText], read: Callable[[str], Node]) -> None:
        for case in cases:
            with self.subTest(case.text):
                fault = fault_of(case.text, read)
                self.assertEqual((place(case.text, fault), fault.message, fault.hint), case[1:])

    def test_scripts(self) -> None:
        self.assert_told(FAULTY_SCRIPTS, read_text)

    def test_lines(self) -> None:
        self.assert_told(FAULTY_LINES, read_line)

    def test_nesting(self) -> None:
        def body(levels: int) -> str:
            return "version 4 transaction " + "{ sub " * (levels - 1) + "{}" + " }" * (levels - 1)

        def chain(operators: int) -> str:
            return "version 4 transaction { emit 1" + " + 1" * operators + " }"

        def nested(levels: int, begin: str, end: str = "") -> str:
            return "version 4 transaction { emit " + begin * (levels - 1) + "a" + end * (levels - 1) + " }"

        for made in (body, lambda n: chain(n), lambda n: nested(n, "(", ")"), lambda n: nested(n, "not "),
                     lambda n: nested(n, "a and "), lambda n: nested(n, "a or ")):
            read_text(made(MOST_NESTED))
            fault = fault_of(made(MOST_NESTED + 1))
            self.assertIn("at most 64", fault.message)

    def test_a_text_without_an_end_names_what_is_open(self) -> None:
        text = "version 1\ntransaction {\n  if true {\n    emit 1\n"
        self.assertEqual(fault_of(text).opened, text.rindex("{"))
        self.assertIsNone(fault_of("version").opened)

    def test_bytes(self) -> None:
        for content, start in (
                (b"version 1 \xff", 10), (b"version 1 # \xff\n", 12), (b'version 1 transaction { emit "\xc3', 30),
                (b"versio\xff", 0), (b"\xef\xbb\xbfversion 1", 0), (b"version 1\0", 9),
                (b'version 1 transaction { emit "\\ud800" }', 30)):
            with self.subTest(content):
                with self.assertRaises(NotText) as caught:
                    read_bytes(content)
                self.assertEqual(caught.exception.start, start)
        with self.assertRaises(NotText) as caught:
            read_bytes(b"\xef\xbb\xbfversion 1")
        self.assertIn("byte order mark", caught.exception.hint)

    def test_each_cut_text_has_a_fault_or_is_a_script(self) -> None:
        """Whatever stands after a cut, the reader ends, at most at the cut."""
        for path in TEXTS[:8]:
            text = path.read_text(encoding="utf-8")
            for at in range(0, len(text), 29):
                try:
                    read_text(text[:at])
                except NotText as fault:
                    self.assertLessEqual(fault.start, at)

    def test_broken_texts(self) -> None:
        """One character of a text is changed. Before the fault there is none, but for the end of what is open."""
        chance = random.Random(3)
        for path in TEXTS:
            text = path.read_text(encoding="utf-8")
            for _ in range(5):
                at = chance.randrange(len(text))
                other = text[:at] + chance.choice("{}()=<;,.`\"#-x7 ") + text[at + 1:]
                start = start_of_fault(other)
                if start is not None:
                    self.assertIn(start_of_fault(other[:start]), (None, start, len(other[:start].rstrip())), other)


def start_of_fault(text: str) -> Optional[int]:
    """Where a text stops being a script; None if it is one."""
    try:
        read_text(text)
    except NotText as fault:
        return fault.start
    return None


def changes(root: dict, chance: random.Random) -> list[dict]:
    """The script with one leaf changed, for each of its leaves, and with one part of each list removed or
    duplicated."""
    found = []
    for path, value in leaves(root):
        others: list[Any]
        if isinstance(value, bool):
            others = [not value]
        elif isinstance(value, int):
            others = [value + 1, -value, chance.randrange(100), str(value)]
        elif isinstance(value, str):
            words = ("immediate", "separate", "or", "and", "create", "update", "+", "-", "text")
            others = [value + "x", chance.choice(words)]
        else:
            others = [value[1:], value[:-1], value + value[-1:], value[::-1]]
        for other in others:
            if other != value:
                changed = copy.deepcopy(root)
                inner = changed
                for step in path[:-1]:
                    inner = inner[step]
                inner[path[-1]] = other
                found.append(changed)
    return found


def leaves(value: object, path: tuple = ()) -> list[tuple]:
    """All leaves and all lists of a JSON value, with their paths."""
    if isinstance(value, dict):
        return [leaf for name, part in value.items() for leaf in leaves(part, path + (name,))]
    if isinstance(value, list):
        return [(path, value)] + [leaf for at, part in enumerate(value) for leaf in leaves(part, path + (at,))]
    return [(path, value)]


if __name__ == "__main__":
    unittest.main()
