"""The desk's page in a headless Chromium: what it shows, and what its forms do.

It isn't among the tests that need no browser. Run it with `python3 examples/orders/page_test.py`.
"""

from __future__ import annotations

import sys
import unittest
import urllib.error
import urllib.request
from pathlib import Path

HERE = Path(__file__).resolve().parent
sys.path[:0] = [str(HERE), str(HERE.parents[1] / "tools" / "tests")]

from browser import Browser  # noqa: E402 - found by the path above
from test_desk import DeskTest  # noqa: E402 - found by the path above


class PageTest(DeskTest):
    @classmethod
    def setUpClass(cls) -> None:
        super().setUpClass()
        cls.browser = Browser()
        cls.addClassCleanup(cls.browser.close)

    def setUp(self) -> None:
        super().setUp()
        self.browser.size(1200, 900)
        self.serve()
        self.url = f"http://127.0.0.1:{self.port + 1}/"

    def tearDown(self) -> None:
        self.assertEqual(self.browser.faults, [])

    def send(self, action: str, **fields: str) -> str:
        """Fills in the form of a request, and gives what the page then says."""
        self.browser.open(self.url)
        for name, value in fields.items():
            self.browser.evaluate(f"document.querySelector('section form[action=\"/{action}\"]')"
                                  f".elements['{name}'].value = '{value}'")
        self.browser.follow(f"section form[action='/{action}'] button")
        return self.browser.text("#banner")

    def test_a_day_at_the_desk(self) -> None:
        self.assertEqual(self.send("product", number="7", stock="5", low="2", name="desk <b>lamp"),
                         "product 7 5 2 desk <b>lamp: done")
        self.assertIn("desk <b>lamp", self.browser.text("#stock"))
        self.assertEqual(self.send("order", count="4"), "order 1 7 4: done")
        self.assertEqual(self.send("order", count="4"), "order 2 7 4: no: there are not so many in stock")
        self.assertIn("reordered", self.browser.text("#stock"))
        self.assertEqual(self.send("pay", number="2"), "pay 2: no: there is nothing of that number")
        self.browser.follow("#open button")
        self.assertEqual(self.browser.text("#banner"), "pay 1: done")
        self.assertIn("desk <b>lamp", self.browser.text("#paid"))
        self.assertEqual(self.send("complain"), "complain 7: done")
        self.assertEqual(self.send("complain"), "complain 7: done")
        self.assertIn("two complaints in a row 7", self.browser.text("#reports"))
        self.assertEqual(self.send("clock", minute="1440"), "clock 1440: done")
        self.assertEqual(self.send("clock", minute="3"), "clock 3: no: the clock doesn't go back: it is minute 1440")
        self.assertEqual(self.ask("show")[0][2], 'product 7 name="desk <b>lamp" stock=1 low=2 awaited=true')

    def test_it_fits_a_phone(self) -> None:
        self.ask("product 7 5 2 a lamp with a rather long name for a phone", "order 1 7 1")
        self.browser.size(390, 800)
        self.browser.open(self.url)
        self.assertLessEqual(self.browser.evaluate("document.documentElement.scrollWidth"), 390)

    def test_a_form_of_another_site(self) -> None:
        request = urllib.request.Request(self.url + "pay", b"number=1", {"Origin": "http://elsewhere"})
        with self.assertRaises(urllib.error.HTTPError) as refused:
            urllib.request.urlopen(request, timeout=10)
        self.assertEqual(refused.exception.code, 403)
        refused.exception.close()


if __name__ == "__main__":
    unittest.main()
