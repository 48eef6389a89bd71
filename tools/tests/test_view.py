"""The page of `view`: its data agree with the report, and each text of a script stays text in it."""

import contextlib
import io
import json
import os
import re
import tempfile
import unittest

from hipac_tools import program, report, view
from hipac_tools.account import account_of
from hipac_tools.model import ACT, EMIT, END_PLACES, FIRE, NOWHERE, OPERATION, TRANSACTION, page_model
from hipac_tools.report import walk

from .made_scripts import TEXTS, made_script
from .test_report import EXAMPLES
from .trials import followed, with_paths

SEEDS = range(25)
FACTS = {FIRE: 6, ACT: 5}
"""Where a task's facts stand in its row."""


def account(script):
    """An account whose report the course itself gives; test_course compares that with the program's."""
    return account_of(json.dumps(script).encode(), report.write(followed(script)))


def data_of(page):
    return json.loads(re.search(r'<script type="application/json" id="data">(.*?)</script>', page, re.DOTALL).group(1))


class ModelTest(unittest.TestCase):
    def each_model(self):
        for path in EXAMPLES:
            yield path.name, account(json.loads(path.read_text(encoding="utf-8")))
        for seed in SEEDS:
            yield seed, account(made_script(seed))

    def test_histories_end_in_the_final_state(self):
        for name, one in self.each_model():
            page = page_model(one)
            for class_name, key, row, history in page.objects:
                with self.subTest(script=name, thing=f"{class_name} {key}"):
                    last = None
                    for place, undone in history:
                        _, _, verb, subject, after, _ = page.nodes[place]
                        self.assertEqual(subject, f"{class_name} {key}")
                        if undone == NOWHERE:
                            last = None if verb == "delete" else after
                    self.assertEqual(last, row)

    def test_what_is_undone_stands_in_a_node_that_aborted_and_nothing_else_does(self):
        for name, one in self.each_model():
            page = page_model(one)
            for thing in page.objects:
                for place, undone in thing[3]:
                    rounds, here = [], page.nodes[place][1]
                    while here != NOWHERE:
                        rounds.append(here)
                        here = page.nodes[here][1]
                    ends = {one: page.nodes[one][END_PLACES[page.nodes[one][0]]] for one in rounds}
                    aborted = [one for one in rounds if ends[one].startswith("aborted")]
                    with self.subTest(script=name, place=place):
                        self.assertEqual(undone, aborted[0] if aborted else NOWHERE)

    def test_each_line_of_the_tree_is_a_node_in_order(self):
        for name, one in self.each_model():
            page = page_model(one)
            lines = [str(node) for unit in one.report.units for top in unit.transactions for node in walk(top)]
            said = [self.line(node) for node in page.nodes if node[0] != TRANSACTION]
            with self.subTest(script=name):
                self.assertEqual(said, lines)

    @staticmethod
    def line(node):
        word = {OPERATION: "op", EMIT: "emit", FIRE: "fire", ACT: "act"}.get(node[0], "sub")
        texts = [part for part in node[2:] if isinstance(part, str) and part]
        return " ".join([word] + texts)

    def test_firings_of_rules_are_all_there(self):
        for name, one in self.each_model():
            page = page_model(one)
            places = sorted(place for rule in page.rules for place in rule[2])
            with self.subTest(script=name):
                self.assertEqual(places, [place for place, node in enumerate(page.nodes) if node[0] in (FIRE, ACT)])

    def test_triggers_lead_to_the_operation(self):
        path = next(path for path in EXAMPLES if path.name == "constraint.json")
        page = page_model(account(json.loads(path.read_text(encoding="utf-8"))))
        fired = next(node for node in page.nodes if node[0] == FIRE and node[2] == "ceiling")
        self.assertEqual(page.nodes[fired[-1]][2:5], ["update", "acct 1", "bal=-30 limit=0"])

    def test_a_firing_is_told_in_the_words_of_why(self):
        low = [["i", "item", ["and", ["=", ["key", "i"], ["id", 0]], ["<", ["of", "i", "stock"], 3]]]]
        script = {"version": 1, "classes": [["item", [["stock", "int"]]]], "rules": [
            ["low", ["create", "item"], "deferred", low, "dependent", [["delete", "item", 9]]]],
            "items": [["tx", [["install", "low"], ["create", "item", 1, [["stock", 4]]],
                              ["create", "item", 2, [["stock", 2]]]]]]}
        page = page_model(account(script))
        facts = [{label: with_paths(page.sentences[place], script) for label, place in node[FACTS[node[0]]]}
                 for node in page.nodes if node[0] in (FIRE, ACT)]
        later = " It is deferred, so it ran at the end of the transaction."
        self.assertEqual(facts, [
            {"Trigger": "Triggered by create item 1 (stock 4) at /items/0/1/1, in the unit's own body." + later,
             "Condition": "Its condition wasn't satisfied. Query i found nothing, as i.stock < 3 isn't true of item 1 "
                          "(i.stock is 4). So it did nothing."},
            {"Trigger": "Triggered by create item 2 (stock 2) at /items/0/1/2, in the unit's own body." + later,
             "Condition": "Its condition was satisfied. Query i found item 2.",
             "Action": "Its action is dependent, so it was put off."},
            {"Trigger": "Triggered by create item 2 (stock 2) at /items/0/1/2, in the unit's own body. Its action is "
                        "dependent, so it ran in a transaction of its own.",
             "Aborted": "`delete item 9`: there is no item 9 (at /rules/0/5/0)."}])


class EscapingTest(unittest.TestCase):
    def page(self, text):
        script = {"version": 1, "classes": [["note", [["text", "text"]]]], "rules": [
            ["tell", ["signal", "go"], "immediate", [["n", "note", ["=", ["of", "n", "text"], text]]], "immediate",
             [["emit", text]]]],
            "items": [["tx", [["install", "tell"], ["create", "note", 1, [["text", text]]], ["signal", "go", [text]]]]]}
        return view.page_text(account(script), "<b>&amp;.json")

    def test_a_text_is_nothing_but_text(self):
        plain = self.page("x")
        for text in TEXTS + ("<!--<script>", "]]>", "&lt;", "{{data}}", "{{code}}"):
            with self.subTest(text=text):
                page = self.page(text)
                for mark in ("<script", "</script", "<img", "<!--"):
                    self.assertEqual(page.count(mark), plain.count(mark))
                said = [node[2] for node in data_of(page)["nodes"] if node[0] == EMIT]
                self.assertEqual(said, [json.dumps(text, ensure_ascii=False)])

    def test_the_name_of_the_file_is_escaped(self):
        self.assertIn("<h1>&lt;b&gt;&amp;amp;.json</h1>", self.page("x"))

    def test_the_page_loads_nothing_and_runs_its_own_code_alone(self):
        page = self.page("x")
        policy = re.search(r'http-equiv="Content-Security-Policy" content="([^"]*)"', page).group(1)
        self.assertTrue(policy.startswith("default-src 'none'; "))
        self.assertRegex(policy, r"script-src 'sha256-[A-Za-z0-9+/]{43}='$")
        self.assertIsNone(re.search(r'(src|href)="(?!data:|#)', page))


class CommandTest(unittest.TestCase):
    def setUp(self):
        self.folder = tempfile.TemporaryDirectory()
        self.addCleanup(self.folder.cleanup)

    def path(self, name, content=None):
        path = os.path.join(self.folder.name, name)
        if content is not None:
            with open(path, "wb") as file:
                file.write(content)
        return path

    def run_words(self, *words):
        out, err = io.TextIOWrapper(io.BytesIO(), encoding="utf-8"), io.StringIO()
        with contextlib.redirect_stdout(out), contextlib.redirect_stderr(err):
            status = view.main(list(words))
        out.flush()
        return status, out.buffer.getvalue().decode(), err.getvalue()

    def test_the_page_is_the_same_with_a_report_and_without(self):
        script = EXAMPLES[0].read_bytes()
        given = self.path("given.report", program.run(script, ["--tree"]).output.encode())
        status, page, errors = self.run_words(str(EXAMPLES[0]))
        self.assertEqual((status, errors), (0, ""))
        self.assertEqual(self.run_words(str(EXAMPLES[0]), given), (0, page, ""))
        self.assertEqual(self.run_words("--out", self.path("page.html"), str(EXAMPLES[0])), (0, "", ""))
        with open(self.path("page.html"), encoding="utf-8") as file:
            self.assertEqual(file.read(), page)

    def test_a_report_of_another_script_is_an_error(self):
        given = self.path("given.report", program.run(EXAMPLES[0].read_bytes(), ["--tree"]).output.encode())
        status, page, errors = self.run_words(str(EXAMPLES[1]), given)
        self.assertEqual((status, page), (5, ""))
        self.assertIn("the report isn't this script's: line 2 is", errors)

    def test_a_report_without_trees_is_refused(self):
        given = self.path("given.report", program.run(EXAMPLES[0].read_bytes(), []).output.encode())
        status, _, errors = self.run_words(str(EXAMPLES[0]), given)
        self.assertEqual(status, 2)
        self.assertIn("the report has no trees: make it with ./hipac --tree", errors)

    def test_statuses(self):
        self.assertEqual(self.run_words("--help")[0], 0)
        self.assertEqual(self.run_words()[0], 3)
        self.assertEqual(self.run_words("a", "b", "c")[0], 3)
        self.assertEqual(self.run_words("a", "--out")[0], 3)
        self.assertEqual(self.run_words("a", "--colour")[0], 3)
        self.assertEqual(self.run_words(self.path("none.json"))[0], 2)
        refused = self.path("refused.json", b"{}")
        self.assertEqual(self.run_words(refused)[0], 2)
        self.assertIn("refused S2 /", self.run_words(refused)[2])
        self.assertEqual(self.run_words(refused, self.path("r.report", b"final\nend\n"))[0], 2)
        self.assertEqual(self.run_words(str(EXAMPLES[0]), self.path("x.report", b"no report\n"))[0], 2)


if __name__ == "__main__":
    unittest.main()
