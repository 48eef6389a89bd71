"""The page of `view` in a browser: opened, read, clicked and driven by keys in a headless Chromium.

It isn't among the tests that `unittest discover` finds, since it needs a browser. Run it from `tools` with

    python3 -m unittest tests.browser_test

Without a Chromium it fails and says so. $VIEW_PICTURES names a folder for pictures of the page, for the documentation.
"""

import json
import os
import re
import tempfile
import unittest
from pathlib import Path

from hipac_tools import report, view
from hipac_tools.account import account_of

from .browser import Browser
from .large_script import UNITS, large_script
from .made_scripts import TEXTS
from .test_report import EXAMPLES
from .trials import REPOSITORY, followed

MOST_MILLISECONDS = 2_000
MOST_ELEMENTS = 2_500
EVERYTHING_FOCUSABLE = "button, input, [tabindex='0'], a[href]"


def page_of(script, folder, name, text=None):
    """Writes the page of a script into a folder, with the report that the course gives (test_course compares it). The
    script's text is on one line if none is given."""
    one = account_of((text or json.dumps(script)).encode(), report.write(followed(script)))
    path = Path(folder, name + ".html")
    path.write_text(view.page_text(one, name + ".json"), encoding="utf-8")
    return path, one


class BrowserCase(unittest.TestCase):
    @classmethod
    def setUpClass(cls):
        cls.folder = tempfile.TemporaryDirectory()
        cls.addClassCleanup(cls.folder.cleanup)
        cls.browser = Browser()
        cls.addClassCleanup(cls.browser.close)

    def setUp(self):
        self.browser.size(1280, 800)
        self.browser.dark(False)

    def tearDown(self):
        self.browser.evaluate("1")
        self.assertEqual(self.browser.faults, [])
        self.assertEqual([url for url in self.browser.requests if not url.startswith(("file:", "data:"))], [])

    def selected(self):
        """The line that the tree's keyboard is on, as a person reads it."""
        return re.sub(r"\s+", " ", self.browser.text("#tree .row.selected") or "")

    def panel(self, name):
        self.assertFalse(self.browser.evaluate(f"document.getElementById('panel-{name}').hidden"), name)
        return self.browser.text("#panel-" + name)

    def focus(self):
        return self.browser.evaluate("document.activeElement.id")


class ExamplesTest(BrowserCase):
    def page(self, name):
        path = next(path for path in EXAMPLES if path.name == name + ".json")
        self.browser.open(page_of(json.loads(path.read_text(encoding="utf-8")), self.folder.name, name)[0])

    def test_each_example_opens_and_shows_all_its_lines(self):
        for path in EXAMPLES:
            with self.subTest(path.name):
                page, one = page_of(json.loads(path.read_text(encoding="utf-8")), self.folder.name, path.stem)
                self.browser.open(page)
                self.assertIn(f"{len(one.report.units)} units", self.browser.text("#summary"))
                self.browser.click("#open-all")
                nodes = sum(len(unit.transactions) + sum(1 for top in unit.transactions for _ in report.walk(top))
                            for unit in one.report.units)
                self.assertEqual(self.browser.evaluate("document.getElementById('rows').offsetHeight / 28"), nodes)

    def test_a_veto_is_told_in_words_and_what_it_undid_is_marked(self):
        self.page("constraint")
        self.browser.click(".row.top .kind", "unit 3")
        self.assertIn("aborted A9 solvent", self.selected())
        self.assertIn("Rule solvent vetoed", self.selected())
        self.assertIn("It was triggered by update acct 1 (bal 70 -> -1) at line ", self.panel("details"))
        self.assertEqual(self.browser.text("#note"), "The script is on one line: lines and columns are those that "
                                                     "python3 -m json.tool gives it.")
        self.browser.key("ArrowRight")
        self.assertIn("bal=-1 limit=0 undone", self.selected())
        self.assertIn("undone", self.browser.evaluate("document.querySelector('.row.selected').className"))

    def test_the_mouse_opens_closes_and_leads_on(self):
        self.page("constraint")
        self.browser.click("#close-all")
        count = "document.querySelectorAll('.row').length"
        self.assertEqual(self.browser.evaluate(count), 5)
        self.browser.click(".row .twist")
        self.assertEqual(self.browser.evaluate(count), 12)
        self.browser.click(".row .twist")
        self.assertEqual(self.browser.evaluate(count), 5)
        self.browser.click("#open-all")
        self.browser.click(".row .name.rule", "ceiling")
        self.assertIn("rule ceiling", self.panel("rules"))
        self.assertIn("FIRINGS", self.panel("rules").upper())
        self.browser.click(".row .name.object", "acct 1")
        self.assertIn("At the end: bal=70 limit=0", self.panel("objects"))
        self.assertIn("undone by unit 3", self.panel("objects"))
        self.browser.click("#panel-objects td button", "undone by unit 3")
        self.assertIn("unit 3", self.selected())
        self.browser.click("#next-abort")
        self.assertIn("fire solvent deferred satisfied aborted A9 solvent", self.selected())
        self.browser.click("#former-abort")
        self.assertIn("unit 3", self.selected())

    def test_the_way_back_leads_to_what_was_shown_before(self):
        self.page("constraint")
        self.browser.click(".row .name.object", "acct 1")
        self.browser.click(".row .name.rule", "solvent")
        self.browser.evaluate("new Promise((done) => "
                              "{ addEventListener('popstate', () => setTimeout(done)); history.back(); })")
        self.assertIn("History", self.panel("objects").replace("HISTORY", "History"))
        self.assertIn("acct 1", self.panel("objects"))

    def test_the_keyboard_alone_reaches_everything(self):
        self.page("constraint")
        self.browser.evaluate("document.getElementById('tree').focus()")
        self.assertIn("unit 1", self.selected())
        self.browser.key("ArrowLeft", "ArrowDown", "ArrowLeft")
        self.assertIn("unit 2", self.selected())
        self.browser.key("ArrowRight", "ArrowRight", "ArrowDown")
        self.assertIn("fire repair", self.selected())
        self.browser.key("Enter")
        self.assertEqual(self.focus(), "panel-details")
        self.reach("Rule repair")
        self.assertIn("rule repair", self.panel("rules"))
        self.browser.key("Escape", "End")
        self.assertEqual(self.focus(), "tree")
        self.browser.key("Home", "*", "n")
        self.assertIn("unit 3 aborted A9 solvent", self.selected())
        self.browser.key("3")
        self.assertEqual(self.focus(), "tab-objects")
        self.reach("acct 2")
        self.assertIn("undone by sub", self.panel("objects"))
        self.browser.key("4", "ArrowRight")
        self.assertEqual(self.focus(), "tab-details")
        self.browser.key("?")
        self.assertTrue(self.browser.evaluate("document.getElementById('help').open"))
        self.browser.key("Escape")
        self.assertFalse(self.browser.evaluate("document.getElementById('help').open"))

    def reach(self, text):
        """Moves the focus until a button with this text has it, and presses that."""
        for _ in range(60):
            self.browser.key("Tab")
            if self.browser.evaluate("document.activeElement.textContent.trim()") == text:
                return self.browser.key("Enter")
        self.fail(f"no way by Tab to {text}")

    def test_a_unit_that_committed_with_a_fault_says_so(self):
        script = json.loads((REPOSITORY / "examples" / "tutorial" / "04-fault-wrong.json").read_text(encoding="utf-8"))
        script["items"].append(["tx", [["create", "order", 2, [["customer", 1], ["product", 1], ["count", 1]]]]])
        self.browser.open(page_of(script, self.folder.name, "fault")[0])
        self.assertIn("3 committed \u00b7 0 aborted \u00b7 1 with faults", self.browser.text("#summary"))
        self.browser.click("#show-faults")
        self.assertEqual(self.browser.evaluate("document.querySelectorAll('.row.top').length"), 1)
        self.browser.click(".row.top .kind", "unit 2")
        self.assertIn("committed faults Though it committed, the condition of rule credit", self.selected())
        self.assertIn("30 * 400000000000000000 is outside 64 bits. So credit didn't veto.", self.panel("details"))
        self.browser.key("n")
        self.assertIn("fire credit immediate fault A4 none", self.selected())
        self.browser.click("#show-all")
        self.assertEqual(self.browser.evaluate("document.querySelectorAll('.row.top').length"), 3)
        self.page("constraint")
        self.assertTrue(self.browser.evaluate("document.getElementById('show-faults').hidden"))

    def test_the_graph_opens_rules(self):
        self.page("workflow")
        self.browser.key("4")
        self.assertTrue(self.browser.evaluate("document.querySelector('#graph svg') !== null"))
        self.browser.click("#graph text[role=button]", "bill")
        self.assertIn("Rule bill", self.panel("rules"))

    def test_a_cascade_stands_below_its_unit(self):
        self.page("alarm")
        self.browser.key("/")
        self.browser.type("unit 8")
        self.browser.key("Enter", "ArrowRight", "ArrowRight")
        rows = self.browser.evaluate("[...document.querySelectorAll('.row')].map((row) => row.innerText)")
        lines = [re.sub(r"\s+", " ", row) for row in rows]
        place = next(at for at, line in enumerate(lines) if line.startswith("dependent operator committed"))
        self.assertRegex(lines[place], r"Triggered by signal burst \[2\] at line \d+:\d+, in the action of rule burst")

    def test_every_control_has_a_name_and_the_tree_says_what_it_is(self):
        self.page("workflow")
        for tab in "1234":
            self.browser.key(tab)
            unnamed = self.browser.evaluate(f"""[...document.querySelectorAll("{EVERYTHING_FOCUSABLE}")].filter((one) =>
                one.getClientRects().length && !one.textContent.trim() && !one.getAttribute('aria-label') &&
                !one.getAttribute('aria-labelledby'))
                .map((one) => one.outerHTML)""")
            self.assertEqual(unnamed, [])
        rows = self.browser.evaluate("""[...document.querySelectorAll('#tree [role=treeitem]')].map((row) =>
            [row.getAttribute('aria-level'), row.getAttribute('aria-posinset'), row.getAttribute('aria-setsize')])""")
        self.assertEqual(rows[0], ["1", "1", "7"])
        self.browser.evaluate("document.getElementById('tree').focus()")
        active = self.browser.evaluate("document.getElementById('tree').getAttribute('aria-activedescendant')")
        self.assertIn("unit 1", self.browser.text("#" + active))

    def test_texts_are_readable_in_light_and_dark(self):
        self.page("constraint")
        self.browser.click("#open-all")
        for is_dark in (False, True):
            self.browser.dark(is_dark)
            with self.subTest(dark=is_dark):
                for style in READ:
                    self.assertGreaterEqual(self.browser.evaluate(CONTRAST % json.dumps(style)), 4.5, style)

    def test_a_narrow_window_shows_both_parts_without_sideways_scrolling(self):
        for width, height in ((400, 800), (390, 844), (500, 800), (390, 500)):
            self.browser.size(width, height)
            self.page("constraint")
            self.assertEqual(self.browser.evaluate("document.documentElement.scrollWidth"), width)
            self.browser.click(".row.top .kind", "unit 1")
            self.assertIn("Within it", self.panel("details"))

    def test_at_390_pixels_the_tree_and_the_details_are_in_view(self):
        self.browser.size(390, 844)
        self.page("constraint")
        self.browser.click(".row.top .kind", "unit 3")
        for selector, least in (("#tree", 200), ("#panel-details", 300)):
            top, bottom = self.browser.evaluate(f"""(() => {{
                const box = document.querySelector("{selector}").getBoundingClientRect();
                return [box.top, box.bottom]; }})()""")
            self.assertGreaterEqual(bottom - top, least, selector)
            self.assertLessEqual(bottom, 844, selector)
        self.assertEqual(self.browser.evaluate("document.documentElement.scrollHeight"), 844)

    def test_at_500_pixels_the_graph_has_the_room_and_is_fitted(self):
        self.browser.size(500, 800)
        self.page("workflow")
        self.browser.key("4")
        width, height, wide = self.browser.evaluate("[graph.clientWidth, graph.clientHeight, graph.scrollWidth]")
        self.assertEqual((width, wide), (500, 500))
        self.assertGreater(height, 500)
        self.browser.key("Escape")
        self.assertEqual(self.focus(), "tree")
        self.assertGreater(self.browser.evaluate("treeBox.clientHeight"), 150)
        self.browser.key("4")
        self.browser.evaluate("choose(nodes.length - 1, true)")
        top, bottom = self.browser.evaluate("""(() => {
            const [row, box] = [".row.selected", "#tree"].map((one) => document.querySelector(one));
            return [row, box].map((one) => one.getBoundingClientRect().bottom); })()""")
        self.assertLessEqual(top, bottom + 1)

    def test_the_graph_stays_fitted_until_it_is_made_larger(self):
        self.page("workflow")
        self.browser.key("4")
        picture = "document.querySelector('#graph svg').getBoundingClientRect().width"
        for width in (1280, 1000, 1280):
            self.browser.size(width, 800)
            self.browser.evaluate("new Promise((done) => requestAnimationFrame(() => setTimeout(done)))")
            self.assertLessEqual(self.browser.evaluate("graph.scrollWidth - graph.clientWidth"), 0)
        fitted = self.browser.evaluate(picture)
        for _ in range(6):
            self.browser.click("#larger")
        larger = self.browser.evaluate(picture)
        self.assertGreater(larger, 3 * fitted)
        self.assertGreater(self.browser.evaluate("graph.scrollWidth - graph.clientWidth"), 0)
        self.browser.key("1", "4")
        self.assertAlmostEqual(self.browser.evaluate(picture), larger, delta=1)
        self.browser.click("#fit")
        self.assertAlmostEqual(self.browser.evaluate(picture), fitted, delta=1)

    def test_the_graph_follows_the_dark_mode(self):
        for name in ("workflow", "alarm", "constraint"):
            self.page(name)
            self.browser.key("4")
            for is_dark in (False, True):
                self.browser.dark(is_dark)
                with self.subTest(page=name, dark=is_dark):
                    for selector, colour, least in (("text", "fill", 4.5), ("path[stroke]", "stroke", 3)):
                        count = self.browser.evaluate(f"document.querySelectorAll('#graph svg {selector}').length")
                        self.assertGreater(count, 1)
                        for at in range(count):
                            contrast = self.browser.evaluate(DRAWN_CONTRAST % (selector, at, colour))
                            self.assertGreaterEqual(contrast, least, (selector, at))

    def test_a_transaction_that_only_signals_shows_its_signals(self):
        script = {"version": 1, "classes": [], "rules": [], "items": [
            ["tx", [["signal", "paid", [1, "x"]], ["sub", [["signal", "packed", []]], []]]],
            ["tx", [["signal", "paid", [2]]]]]}
        self.browser.open(page_of(script, self.folder.name, "signals", json.dumps(script, indent=1))[0])
        self.browser.click(".row.top .kind", "unit 2")
        self.assertRegex(self.selected(), r"^unit 2 committed Signal paid \[2\]\.$")
        self.assertRegex(self.panel("details"), r"Signals\s+Signal paid \[2\] \(at line \d+:\d+\)\.")
        self.browser.click(".row .kind", "sub")
        self.assertRegex(self.selected(), r"^sub committed Signal packed \[\]\.$")


READ = (".chip.bad", ".chip.good", ".chip.warn", ".chip", ".kind", ".name", ".reason", "#summary")
CONTRAST = """(() => {
  const one = document.querySelector(%s);
  const parse = (text) => text.match(/[\\d.]+/g).map(Number);
  let ground = one;
  while (ground && (parse(getComputedStyle(ground).backgroundColor)[3] ?? 1) === 0) ground = ground.parentElement;
  const light = ([red, green, blue]) => [red, green, blue].map((part) => part / 255)
    .map((part) => (part <= 0.03928 ? part / 12.92 : ((part + 0.055) / 1.055) ** 2.4))
    .reduce((sum, part, at) => sum + part * [0.2126, 0.7152, 0.0722][at], 0);
  const behind = getComputedStyle(ground ?? document.body).backgroundColor;
  const both = [light(parse(getComputedStyle(one).color)), light(parse(behind))];
  return (Math.max(...both) + 0.05) / (Math.min(...both) + 0.05);
})()"""


DRAWN_CONTRAST = """(() => {
  const one = document.querySelectorAll("#graph svg %s")[%d];
  const parse = (text) => text.match(/[\\d.]+/g).map(Number);
  const light = ([red, green, blue]) => [red, green, blue].map((part) => part / 255)
    .map((part) => (part <= 0.03928 ? part / 12.92 : ((part + 0.055) / 1.055) ** 2.4))
    .reduce((sum, part, at) => sum + part * [0.2126, 0.7152, 0.0722][at], 0);
  const both = [light(parse(getComputedStyle(one).%s)), light(parse(getComputedStyle(byId("graph")).backgroundColor))];
  return (Math.max(...both) + 0.05) / (Math.min(...both) + 0.05);
})()"""


class HarmlessTest(BrowserCase):
    def test_no_text_of_a_script_becomes_a_part_of_the_page(self):
        notes = [["create", "note", at, [["text", text]]] for at, text in enumerate(TEXTS)]
        emits = [["emit", text] for text in TEXTS]
        script = {"version": 1, "classes": [["note", [["text", "text"]]]], "rules": [
            ["tell", ["create", "note"], "immediate", [], "immediate", [["emit", ["new", 0, "text"]]]]],
            "items": [["tx", [["install", "tell"]] + notes + emits]]}
        self.browser.open(page_of(script, self.folder.name, "harmless")[0])
        self.browser.key("/")
        self.browser.type("onerror")
        self.assertIn("found", self.browser.text("#found"))
        self.browser.key("Enter")
        self.browser.click("#open-all")
        for tab in "234":
            self.browser.key(tab)
        for at in range(len(TEXTS)):
            self.browser.evaluate(f"showObject('note {at}')")
        self.browser.evaluate("choose(0, true)")
        self.assertIn("onerror=alert(1)", self.panel("details"))
        self.assertEqual(self.browser.evaluate("document.querySelectorAll('img, script').length"), 2)


class LargeTest(BrowserCase):
    @classmethod
    def setUpClass(cls):
        super().setUpClass()
        script = large_script()
        assert len(json.dumps(script)) < 1_048_576
        cls.path, cls.account = page_of(script, cls.folder.name, "large")
        cls.nodes = sum(1 for unit in cls.account.report.units for top in unit.transactions for _ in report.walk(top))

    def test_it_opens_within_two_seconds_and_makes_few_elements(self):
        self.assertEqual(len(self.account.report.units), UNITS)
        self.assertGreater(self.nodes, 25_000)
        self.assertLess(min(self.browser.open(self.path) for _ in range(3)), MOST_MILLISECONDS)
        self.assertLess(self.browser.evaluate("document.querySelectorAll('*').length"), MOST_ELEMENTS)
        self.browser.click("#open-all")
        self.assertGreater(self.browser.evaluate("document.getElementById('rows').offsetHeight / 28"), self.nodes)
        self.assertLess(self.browser.evaluate("document.querySelectorAll('*').length"), MOST_ELEMENTS)
        self.browser.key("End")

    def test_search_finds_units_objects_rules_and_values(self):
        self.browser.open(self.path)
        for wanted, end in (("unit 1500", lambda: self.assertRegex(self.selected(), "^unit 1500 ")),
                            ("refused", lambda: self.assertIn('emit "refused"', self.selected())),
                            ("bill 7", lambda: self.assertIn("bill 7", self.panel("objects"))),
                            ("oversell", lambda: self.assertIn("Rule oversell", self.panel("rules")))):
            with self.subTest(wanted):
                self.browser.evaluate("document.getElementById('search').value = ''")
                self.browser.key("/")
                self.browser.type(wanted)
                self.assertRegex(self.browser.text("#found"), "^[1-9][0-9]* found")
                self.browser.key("Enter")
                end()
        self.browser.key("/")
        self.browser.type("no such thing")
        self.assertEqual(self.browser.text("#found"), "0 found")
        self.browser.key("Escape")
        self.assertTrue(self.browser.evaluate("document.getElementById('results').hidden"))
        self.browser.key("Escape")
        self.assertEqual(self.focus(), "tree")

    def test_far_moves_and_deep_nodes(self):
        self.browser.open(self.path)
        self.browser.evaluate("document.getElementById('tree').focus()")
        self.browser.key("End")
        self.assertIn(f"unit {UNITS}", self.selected())
        self.browser.key("*", "ArrowDown", "ArrowDown")
        self.assertIn("fire", self.selected() + "fire")
        self.browser.click("#show-top")
        self.assertLess(self.browser.evaluate("document.querySelectorAll('.row.top').length"), 60)
        self.browser.key("Escape", "Home", "n")
        self.assertIn("aborted", self.selected())
        self.browser.click("#show-all")

    def test_a_history_of_many_operations_is_made_in_pieces(self):
        self.browser.open(self.path, "#object%20tally%201")
        self.assertIn("At the end", self.panel("objects"))
        rows = "document.querySelectorAll('#panel-objects tbody tr').length"
        self.assertEqual(self.browser.evaluate(rows), 200)
        self.browser.evaluate("[...document.querySelectorAll('#panel-objects button')].find((one) => "
                              "one.textContent.startsWith('Show more')).click()")
        self.assertEqual(self.browser.evaluate(rows), 400)


class PicturesTest(BrowserCase):
    """Makes the pictures of the documentation if $VIEW_PICTURES is set."""

    def test_pictures(self):
        folder = os.environ.get("VIEW_PICTURES")
        if not folder:
            self.skipTest("$VIEW_PICTURES isn't set")
        path = next(path for path in EXAMPLES if path.name == "constraint.json")
        text = path.read_text(encoding="utf-8")
        self.browser.open(page_of(json.loads(text), self.folder.name, "constraint", text)[0])
        self.browser.size(1200, 760)
        self.browser.click(".row.top .kind", "unit 3")
        self.browser.key("*", "n")
        self.take(folder, "view-tree.png", "treeBox.scrollTop = 15 * 28; document.activeElement.blur()")
        self.browser.dark(True)
        self.take(folder, "view-object.png", "showObject('acct 1'); treeBox.scrollTop = 0")
        self.browser.size(390, 760)
        self.take(folder, "view-narrow-graph.png", "showTab('graph')")
        self.browser.dark(False)
        self.take(folder, "view-narrow.png", "choose(nodes.findIndex((node, at) => isAborted(at)) + 4, false)")

    def take(self, folder, name, first):
        """A picture after these steps, with the mouse out of the way."""
        self.browser.evaluate(first)
        self.browser.call("Input.dispatchMouseEvent", type="mouseMoved", x=380, y=755)
        self.browser.evaluate("new Promise((done) => requestAnimationFrame(() => setTimeout(done)))")
        self.browser.picture(Path(folder, name))


if __name__ == "__main__":
    unittest.main()
