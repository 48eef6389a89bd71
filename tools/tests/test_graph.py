"""The word `graph`: each kind of edge, cycles, chains, and what looks like an oversight. The program decides on A7."""
from __future__ import annotations

import io
import json
import re
import tempfile
import unittest
from contextlib import redirect_stderr, redirect_stdout
from pathlib import Path
from typing import Any
from xml.etree import ElementTree

from hipac_tools import command, graph, program, rulebase
from tests.making import COUPLINGS, EXAMPLES, REPOSITORY, RandomRuns, rule, script

SIGNAL_S, SIGNAL_T = ["signal", "s"], ["signal", "t"]


def built(rules: list, items: list, **members: Any) -> graph.Graph:
    return graph.build(rulebase.read(script(rules, items, [["c", [["f", "int"]]]], **members)))


def edges(rules: list, items: list, **members: Any) -> set[tuple[str, str, str, str]]:
    return {(edge.source, edge.kind, edge.target, edge.label) for edge in built(rules, items, **members).edges}


def installed(*names: str) -> list:
    return ["tx", [["install", name] for name in names]]


def report(text: str) -> str:
    """What the program writes for a script, with its trees."""
    ended = program.run(text.encode("utf-8"), ["--tree"])
    if ended.status == command.FAILED:
        raise unittest.SkipTest(ended.errors)
    assert ended.status == 0, ended
    return ended.output


class Edges(unittest.TestCase):
    def test_operations_and_signals(self) -> None:
        for statement, event, label in [
                (["create", "c", 1, [["f", 0]]], ["create", "c"], "create c"),
                (["update", "c", 1, []], ["update", "c"], "update c"),
                (["delete", "c", 1], ["delete", "c"], "delete c"),
                (["signal", "s", []], SIGNAL_S, "signal s")]:
            found = edges([rule("a", ["commit"], [statement]), rule("b", event, [])], [installed("a", "b")])
            self.assertIn(("a", "sets off", "b", label), found)
            self.assertNotIn(("a", "sets off", "a", label), found)

    def test_statements_within_statements(self) -> None:
        for wrap in (lambda body: ["if", True, [], body], lambda body: ["each", "x", "c", True, body],
                     lambda body: ["with", "x", "c", 1, body], lambda body: ["sub", [], body],
                     lambda body: ["for", "q", body]):
            action = [wrap([["signal", "s", []]])]
            found = edges([rule("a", ["commit"], action, queries=[["q", "c", True]]), rule("b", SIGNAL_S, [])], [])
            self.assertIn(("a", "sets off", "b", "signal s"), found)

    def test_composite_events(self) -> None:
        items = [["tx", [["signal", "s", []], ["signal", "t", []]]]]
        rows: list[tuple[list, str, str]] = [
            (["or", SIGNAL_S, SIGNAL_T], "sets off", "sets off"),
            (["seq", SIGNAL_S, SIGNAL_T], "prepares", "sets off"),
            (["closure", SIGNAL_S, SIGNAL_T], "prepares", "sets off"),
            (["seq", SIGNAL_S, ["or", SIGNAL_S, SIGNAL_T]], "sets off", "sets off"),
            (["closure", ["seq", SIGNAL_T, SIGNAL_S], SIGNAL_T], "prepares", "sets off")]
        for event, first, second in rows:
            with self.subTest(event=event):
                self.assertEqual(edges([rule("r", event, [])], items), {
                    ("the script", first, "r", "signal s"), ("the script", second, "r", "signal t")})

    def test_rule_operations(self) -> None:
        for word, kind in [("install", "installs"), ("enable", "enables"), ("disable", "disables"),
                           ("remove", "removes"), ("fire", "fires")]:
            items = [["tx", [["emit", 1], [word, "a"]]]]
            found = edges([rule("a", SIGNAL_S, [[word, "b"]]), rule("b", SIGNAL_T, [])], items)
            self.assertEqual(found, {("a", kind, "b", ""), ("the script", kind, "a", "")})

    def test_moments(self) -> None:
        rules = [rule("a", ["at", 5], []), rule("b", ["every", 5, 10], []), rule("c", ["at", 6], []),
                 rule("d", ["at", 0], [])]
        self.assertEqual(edges(rules, [installed("a"), ["clock", 5]]), {
            ("the script", "installs", "a", ""), ("the clock", "sets off", "a", "moment 5"),
            ("the clock", "sets off", "b", "every 10 from 5")})

    def test_commit_comes_from_each_top_level_transaction(self) -> None:
        rules = [rule(coupling, SIGNAL_S, [], coupling) for coupling in COUPLINGS]
        rules += [rule("late", SIGNAL_S, [], ca="separate"), rule("timed", ["at", 1], []),
                  rule("watch", ["commit"], [])]
        found = edges(rules, [["tx", []], ["clock", 1]], version=2)
        sources = {source for source, kind, target, _ in found if (kind, target) == ("sets off", "watch")}
        self.assertEqual(sources, {"the script", "the clock", "separate", "dependent", "exclusive", "late"})

    def test_a_script_without_transactions_is_taken_as_any(self) -> None:
        base = built([rule("a", SIGNAL_S, [["signal", "t", []]]), rule("b", ["at", 3], [])], [])
        self.assertEqual([node.name for node in base.nodes], ["any script", "a", "b"])
        self.assertTrue(all(node.may_fire for node in base.nodes))
        self.assertIn("the script has no transaction", graph.graph_text(base))


class Cycles(unittest.TestCase):
    def test_cycles_are_named_with_what_parts_them(self) -> None:
        rules = [rule("a", SIGNAL_S, [["signal", "t", []]]), rule("b", SIGNAL_T, [["fire", "c"]], "deferred"),
                 rule("c", ["signal", "u"], [["signal", "s", []]], "immediate", "dependent"), rule("d", SIGNAL_S, [])]
        (cycle,) = built(rules, [installed("a", "b", "c"), ["tx", [["signal", "s", []]]]]).cycles
        self.assertEqual((cycle.path, cycle.labels), ("a -> b -> c -> a", ("signal t", "fires", "signal s")))
        self.assertEqual(cycle.breaks, ("b is deferred: the next turn is in a round at the end of the transaction",
                                        "c is dependent: the next turn is in a transaction of its own"))
        self.assertTrue(cycle.may_turn)

    def test_a_cycle_of_one_and_cycles_that_share_rules(self) -> None:
        rules = [rule("a", SIGNAL_S, [["signal", "s", []], ["signal", "t", []]]),
                 rule("b", SIGNAL_T, [["signal", "s", []]]), rule("c", SIGNAL_T, [["signal", "s", []]])]
        cycles = built(rules, [installed("a", "b", "c"), ["tx", [["emit", 1]]]]).cycles
        self.assertEqual([cycle.path for cycle in cycles], ["a -> a", "a -> b -> a", "a -> c -> a"])
        self.assertEqual({cycle.breaks for cycle in cycles}, {()})
        self.assertFalse(any(cycle.may_turn for cycle in cycles))

    def test_what_only_prepares_closes_no_cycle(self) -> None:
        rules = [rule("a", ["seq", SIGNAL_S, SIGNAL_T], [["signal", "s", []]])]
        self.assertEqual(built(rules, [installed("a"), ["tx", [["signal", "t", []]]]]).cycles, [])

    def test_very_many_cycles_are_cut(self) -> None:
        rules = [rule(f"r{number}", SIGNAL_S, [["signal", "s", []]]) for number in range(60)]
        found = built(rules, [installed("r0")])
        self.assertEqual((len(found.cycles), found.has_more_cycles), (graph.MOST_CYCLES, True))
        self.assertIn("and more than these 20", graph.graph_text(found))


class Chains(unittest.TestCase):
    def chain(self, length: int, depth: int, coupling: str = "immediate") -> str:
        """A script of rules each of which sets off the next."""
        rules = [rule(f"r{number}", ["signal", f"s{number}"], [["signal", f"s{number + 1}", []]], coupling)
                 for number in range(1, length + 1)]
        items = [installed(*(one[0] for one in rules)), ["tx", [["signal", "s1", []]]]]
        return script(rules, items, version=2, depth=depth)

    def test_the_depth_is_met_exactly(self) -> None:
        for coupling in COUPLINGS[:4]:
            for length in (1, 3, 4):
                text = self.chain(length, 3, coupling)
                found = graph.build(rulebase.read(text))
                self.assertEqual((len(found.chain.steps), found.chain.endless), (length, False))
                self.assertEqual(found.may_meet_limit, length > 3)
                self.assertEqual("A7" in report(text), length > 3, (coupling, length))

    def test_an_action_of_its_own_is_no_deeper_than_its_condition(self) -> None:
        for coupling in COUPLINGS[:4]:
            rules = [rule("a", SIGNAL_S, [["signal", "t", []]], "immediate", coupling),
                     rule("b", SIGNAL_T, [["emit", 1]])]
            for depth in (1, 2):
                text = script(rules, [installed("a", "b"), ["tx", [["signal", "s", []]]]], depth=depth)
                self.assertEqual(graph.build(rulebase.read(text)).may_meet_limit, depth == 1)
                self.assertEqual("A7" in report(text), depth == 1, (coupling, depth))

    def test_cycles_of_all_couplings_meet_the_depth(self) -> None:
        for coupling in COUPLINGS:
            last = [["abort"]] if coupling == "exclusive" else []
            rules = [rule("a", SIGNAL_S, [["signal", "s", []]] + last, coupling)]
            text = script(rules, [installed("a"), ["tx", [["signal", "s", []]] + last]], version=2)
            found = graph.build(rulebase.read(text))
            self.assertTrue(found.chain.endless and found.may_meet_limit)
            self.assertIn("A7", report(text), coupling)

    def test_a_separate_rule_on_commit_meets_the_depth(self) -> None:
        text = script([rule("a", ["commit"], [], "separate")], [installed("a")])
        self.assertEqual([cycle.path for cycle in graph.build(rulebase.read(text)).cycles], ["a -> a"])
        self.assertIn("separate a aborted A7", report(text))

    def test_a_fired_rule_is_one_deeper(self) -> None:
        rules = [rule("a", SIGNAL_S, [["fire", "b"]]), rule("b", SIGNAL_T, [])]
        for depth in (1, 2):
            text = script(rules, [installed("a", "b"), ["tx", [["signal", "s", []]]]], depth=depth)
            found = graph.build(rulebase.read(text))
            self.assertEqual([step.kind for step in found.chain.steps], ["sets off", "fires"])
            self.assertEqual(found.may_meet_limit, depth == 1)
            self.assertEqual("A7" in report(text), depth == 1)

    def test_what_never_fires_makes_no_chain(self) -> None:
        rules = [rule("a", SIGNAL_S, [["signal", "t", []]]),
                 rule("b", ["seq", ["signal", "u"], SIGNAL_T], [["signal", "s", []]])]
        found = built(rules, [installed("a", "b"), ["tx", [["signal", "s", []]]]])
        self.assertEqual([step.target for step in found.chain.steps], ["a"])
        self.assertEqual([(cycle.path, cycle.may_turn) for cycle in found.cycles], [("a -> b -> a", False)])

    def test_the_longest_of_several(self) -> None:
        rules = [rule("a", SIGNAL_S, [["signal", "t", []], ["signal", "u", []]]),
                 rule("b", SIGNAL_T, [["signal", "u", []]]), rule("c", ["signal", "u"], [])]
        found = built(rules, [installed("a", "b", "c"), ["tx", [["signal", "s", []]]]])
        self.assertEqual([step.target for step in found.chain.steps], ["a", "b", "c"])

    def test_random_runs_keep_to_the_graph(self) -> None:
        """No run meets A7 if the graph says so, and no rule fires that never fires by the graph."""
        met = 0
        for seed in range(60):
            text = RandomRuns(seed).script()
            found, output = graph.build(rulebase.read(text)), report(text)
            met += "A7" in output
            self.assertTrue(found.may_meet_limit or "A7" not in output, f"seed {seed}: {text}")
            fired = set(re.findall(r"^ *(?:fire|act|separate|dependent|exclusive) (\w+)", output, re.MULTILINE))
            may_fire = {node.name for node in found.nodes if node.is_rule and node.may_fire}
            self.assertLessEqual(fired, may_fire, f"seed {seed}")
        self.assertGreater(met, 5)


class Beginnings(unittest.TestCase):
    """Scripts that transactions may follow, as in a rule base that stays up."""

    def test_of_the_order_desk_all_rules_may_fire(self) -> None:
        found = graph.build(rulebase.read_file(str(REPOSITORY / "examples" / "orders" / "rules.rules")))
        self.assertTrue(all(node.may_fire for node in found.nodes))
        self.assertEqual(found.warnings, [])
        self.assertFalse(found.chain.endless or found.may_meet_limit)
        told = {(edge.source, edge.target) for edge in found.edges if edge.kind == "sets off"}
        self.assertLessEqual({("any later transaction", "complaints"), ("take", "no_oversell")}, told)
        self.assertIn("  transactions may follow those of the script: all events of its rules are taken as possible\n",
                      graph.graph_text(found))

    def test_only_what_installs_and_creates_alone_is_a_beginning(self) -> None:
        rules, created = [rule("a", SIGNAL_S, [])], ["create", "c", 1, [["f", 0]]]
        for body, is_one in (([["install", "a"]], True), ([["install", "a"], created], True), ([created], False),
                             ([["install", "a"], ["signal", "t", []]], False), ([["install", "a"], ["abort"]], False),
                             ([["install", "a"], ["sub", [created], []]], False)):
            found = built(rules, [["tx", body]])
            self.assertEqual("any later transaction" in [node.name for node in found.nodes], is_one, body)
            self.assertEqual(found.nodes[-1].may_fire, is_one, body)
        self.assertFalse(built(rules, [installed("a"), ["clock", 1]]).nodes[-1].may_fire)

    def test_any_script_may_be_said_to_be_one(self) -> None:
        rules = [rule("a", SIGNAL_S, [["signal", "t", []]]), rule("b", SIGNAL_T, []), rule("c", ["at", 5], []),
                 rule("d", ["every", 2, 9], [])]
        text = script(rules, [installed("a", "b", "c"), ["clock", 5]])
        with tempfile.TemporaryDirectory() as folder:
            file = Path(folder, "x.json")
            file.write_text(text, encoding="utf-8")
            told = [graph.graph_text(graph.build(rulebase.read(text), is_live)) for is_live in (False, True)]
            for words, wanted in (([str(file)], told[0]), (["--live", str(file)], told[1]),
                                  ([str(file), "--live"], told[1])):
                written = io.BytesIO()
                output = io.TextIOWrapper(written, encoding="utf-8")
                with redirect_stdout(output):
                    self.assertEqual(graph.main(words), 0)
                output.flush()
                self.assertEqual(written.getvalue().decode("utf-8"), wanted)
        self.assertIn("a (immediate), on signal s, never fires", told[0])
        self.assertNotIn("never fires", told[1])
        self.assertIn("""
any later transaction
  signal s sets off a (immediate)
  signal t sets off b (immediate)
  every 9 from 2 sets off d (immediate)
  installs d
""", told[1])
        self.assertIn("rule d isn't installed by the script, so a later transaction has to install it", told[1])

    def test_random_runs_keep_to_the_graph_of_their_beginning(self) -> None:
        """What follows a beginning makes no rule fire that never fires by its graph, and meets no A7 that it rules
        out."""
        met = 0
        for seed in range(30):
            text = RandomRuns(seed).script()
            begun = json.loads(text)
            begun["items"] = begun["items"][:1]
            if not begun["items"][0][1]:
                continue
            found, output = graph.build(rulebase.read(json.dumps(begun))), report(text)
            met += "A7" in output
            self.assertTrue(found.may_meet_limit or "A7" not in output, f"seed {seed}: {text}")
            fired = set(re.findall(r"^ *(?:fire|act|separate|dependent|exclusive) (\w+)", output, re.MULTILINE))
            self.assertLessEqual(fired, {node.name for node in found.nodes if node.is_rule and node.may_fire})
        self.assertGreater(met, 2)


class Oversights(unittest.TestCase):
    def test_rules_that_never_fire(self) -> None:
        rules = [rule("a", SIGNAL_S, [["install", "c"]]), rule("b", SIGNAL_S, [["install", "c"]]),
                 rule("c", SIGNAL_S, []), rule("d", ["seq", SIGNAL_S, SIGNAL_T], [])]
        body = [["enable", "a"], ["fire", "b"], ["install", "d"], ["signal", "s", []]]
        warnings = built(rules, [["tx", body]]).warnings
        self.assertEqual(warnings, [
            "rule a is never installed, so it never fires",
            "rule a is enabled by the script, which ends with A2 as it is absent",
            "rule b is never installed, so it never fires",
            "rule b is fired by the script, which ends with A2 as it is absent",
            "rule c never fires: it is installed only by rules that never fire, a and b",
            "rule d never fires: it is installed, and its event never occurs",
            "signal t never happens, and d waits for it"])

    def test_signals_that_nobody_hears_or_raises(self) -> None:
        rules = [rule("a", SIGNAL_S, [["signal", "u", []]]), rule("b", ["or", SIGNAL_S, ["at", 9]], [])]
        items = [installed("a", "b"), ["tx", [["signal", "u", []], ["signal", "s", []]]], ["clock", 8]]
        self.assertEqual(built(rules, items).warnings, [
            "moment 9 never happens, and b waits for it",
            "signal u is heard by no rule, and raised by the script and a"])

    def test_a_rule_that_another_installs_may_fire(self) -> None:
        rules = [rule("a", SIGNAL_S, [["install", "b"]]), rule("b", SIGNAL_S, []), rule("c", SIGNAL_T, [])]
        found = built(rules, [["tx", [["install", "a"], ["signal", "s", []], ["install", "c"], ["fire", "c"]]]])
        self.assertEqual(found.warnings, ["signal t never happens, and c waits for it"])
        self.assertEqual([node.may_fire for node in found.nodes if node.is_rule], [True, True, True])

    def test_queries_that_look_at_a_whole_class(self) -> None:
        key, value = ["key", "q"], ["of", "q", "f"]
        field = ["=", value, 1]
        for predicate, scans in [
                (["=", key, 1], False), (["=", 1, key], False), (["and", ["=", key, ["id", 0]], field], False),
                (["and", ["and", ["=", key, 1], field], field], False),
                (field, False), (["and", field, ["=", key, 1]], False), (["<", key, 1], False),
                ([">=", 1, value], False),
                (["<=", ["of", "p", "f"], value], False), (["<", ["count"], value], False),
                (True, True), (["or", ["=", key, 1], field], True), (["=", key, key], True), (["<", value, key], True),
                (["=", key, ["+", value, 1]], True), (["!=", value, 1], True), (["=", ["+", value, 1], 2], True),
                (["not", ["=", key, 1]], True), (["=", ["key", "p"], 1], True)]:
            with self.subTest(predicate=predicate):
                rules = [rule("r", SIGNAL_S, [], queries=[["p", "c", ["=", ["key", "p"], 1]], ["q", "c", predicate]])]
                self.assertEqual(built(rules, []).scans, ["rule r, query q: all of c"] if scans else [])
                each = [["each", "q", "c", predicate, []]]
                if "p" in json.dumps(predicate):
                    continue
                self.assertEqual(built([rule("r", SIGNAL_S, each)], []).scans,
                                 ["rule r, for each q: all of c"] if scans else [])
                self.assertEqual(built([rule("r", ["at", 1], [])], [["clock", 2], ["tx", each]]).scans,
                                 ["unit 2, for each q: all of c"] if scans else [])

    def test_what_looks_at_no_row_of_its_class(self) -> None:
        key, value = ["key", "x"], ["of", "x", "f"]
        for aggregate, scans in [
                (["count", "x", "c", True], False), (["least", "x", "c", True, key], False),
                (["greatest", "x", "c", True, key], False), (["greatest", "x", "c", [">", key, 3], key], False),
                (["count", "x", "c", ["=", 1, 1]], True), (["sum", "x", "c", True, key], True),
                (["least", "x", "c", True, value], True), (["next", "c"], False)]:
            with self.subTest(aggregate=aggregate):
                rules = [rule("r", SIGNAL_S, [], queries=[["let", "n", aggregate]])]
                self.assertEqual(built(rules, [], version=4).scans, ["rule r, let n: all of c"] if scans else [])
        for predicate, found in (True, []), (["=", 1, 1], ["rule r, no x: all of c"]):
            rules = [rule("r", SIGNAL_S, [], queries=[["no", "x", "c", predicate]])]
            self.assertEqual(built(rules, [], version=4).scans, found)

    def test_a_boolean_has_no_part_of_its_own(self) -> None:
        for kind, scans in ("text", []), ("bool", ["rule r, query q: all of d"]):
            rules = [rule("r", SIGNAL_S, [], queries=[["q", "d", ["=", ["of", "q", "f"], ["new", 0, "f"]]]])]
            base = rulebase.read(script(rules, [], [["d", [["f", kind]]]]))
            self.assertEqual(graph.build(base).scans, scans)


class Text(unittest.TestCase):
    def test_whole_text(self) -> None:
        rules = [rule("a", SIGNAL_S, [["signal", "t", []], ["disable", "c"]], ca="deferred"),
                 rule("b", ["seq", SIGNAL_S, SIGNAL_T], [], "dependent"),
                 rule("c", ["at", 3], [], queries=[["q", "c", True]])]
        text = graph.graph_text(built(rules, [installed("a", "b", "c"), ["tx", [["signal", "s", []]]], ["clock", 3]]))
        self.assertEqual(text, """\
Who may set off whom

the script
  signal s sets off a (immediate, then deferred)
  signal s prepares b (dependent)
  installs a, b, c

the clock
  moment 3 sets off c (immediate)

a (immediate, then deferred), on signal s
  signal t sets off b (dependent)
  disables c

b (dependent), on signal s then signal t
  acts on no rule

c (immediate), on moment 3
  acts on no rule

Cycles
  none

Longest chain of firings: 2 deep, and at most 8 may nest
  1 a (immediate, then deferred), set off by signal s from the script
  2 b (dependent), set off by signal t from a
  no run meets A7

Warnings
  none

Queries that look at a whole class
  rule c, query q: all of c
  a predicate that begins with `x.key = ..` looks at one object, with `x.field < ..` at those that fit
""")

    def test_the_largest_dense_script_takes_no_long_time(self) -> None:
        rules = [rule(f"r{number}", ["signal", f"s{number}"],
                      [["signal", f"s{other}", []] for other in range(number + 1, 120)])
                 for number in range(120)]
        found = built(rules, [installed(*(one[0] for one in rules)), ["tx", [["signal", "s0", []]]]])
        self.assertEqual((len(found.chain.steps), found.cycles), (120, []))
        self.assertIn("a run may meet A7", graph.graph_text(found))
        ElementTree.fromstring(graph.svg(found))


class CommandLine(unittest.TestCase):
    def run_word(self, *words: str) -> tuple[int, str, str]:
        written, errors = io.BytesIO(), io.StringIO()
        output = io.TextIOWrapper(written, encoding="utf-8")
        with redirect_stdout(output), redirect_stderr(errors):
            status = graph.main(list(words))
        output.flush()
        return status, written.getvalue().decode("utf-8"), errors.getvalue()

    def test_text_and_picture(self) -> None:
        for example in EXAMPLES:
            with tempfile.TemporaryDirectory() as folder:
                target = Path(folder) / "graph.svg"
                status, output, errors = self.run_word(str(example), "--svg", str(target))
                self.assertEqual((status, errors), (0, ""))
                self.assertEqual(output, graph.graph_text(graph.build(rulebase.read_file(str(example)))))
                names = {one[0] for one in json.loads(example.read_text(encoding="utf-8"))["rules"]}
                drawn = "".join(ElementTree.parse(target).getroot().itertext()).split()
                self.assertLessEqual(names, set(drawn) | names)

    def test_wrong_words(self) -> None:
        for words in ((), ("--svg",), (str(EXAMPLES[0]), "--svg"), ("a", "b"), ("--deep",), ("/nowhere/at/all.json",),
                      (str(EXAMPLES[0]), "--svg", "/nowhere/at/all.svg")):
            self.assertEqual(self.run_word(*words)[0], 3, words)
        self.assertEqual(self.run_word("--help")[0], 0)

    def test_what_is_no_script(self) -> None:
        status, output, errors = self.run_word(__file__)
        self.assertEqual((status, output), (2, ""))
        self.assertIn("./hipac-tools check", errors)
