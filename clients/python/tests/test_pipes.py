"""Lines and answers that are larger than any pipe, in both directions at once."""

from __future__ import annotations

import unittest

from hipac import Refused

from .making import STOCK, RuleBaseTest, installed, python, rule, script
from .test_endings import OPENS

SIZE = 1_048_576


def body_of(size: int) -> list:
    """A body whose line `["tx",body]` has so many bytes."""
    each, frame = len('["emit",""],') + 1000, len('["tx",["emit",""]]') + 2
    times, rest = divmod(size - frame, each)
    return [["emit", "x" * 1000]] * times + [["emit", "y" * rest]]


class LargeTest(RuleBaseTest):
    def test_the_longest_line(self):
        base, body = self.base(STOCK), body_of(SIZE)
        self.assertEqual(base.tx(body).emits, [text for _, text in body])
        with self.assertRaises(Refused) as caught:
            base.tx(body_of(SIZE + 1))
        self.assertEqual(caught.exception.limit, "size")
        self.assertEqual(base.tx([]).number, 3)

    def test_a_line_of_other_letters(self):
        """Letters outside ASCII are sent as they are, and take no more bytes than they must."""
        unit = self.base(STOCK).tx([["emit", "漢" * 341]] * 100)
        self.assertEqual(unit.emits, ["漢" * 341] * 100)

    def test_an_answer_that_is_far_longer_than_its_line(self):
        each = [["for", "i", [["for", "i", [["emit", ["arg", 0, 0]]]]]]]
        echo = rule("echo", ["signal", "go"], each, queries=[["i", "item", True]])
        base = self.base(installed(echo))
        base.tx([["create", "item", key, [["stock", key]]] for key in range(40)])
        unit = base.tx([["signal", "go", ["long " * 200]]])
        self.assertEqual(unit.emits, ["long " * 200] * 1600)
        self.assertEqual(base.tx([["emit", 1]]).emits, [1])

    def test_a_large_state(self):
        base = self.base(script())
        base.tx([["create", "note", key, [["text", "x" * 1000], ["read", True]]] for key in range(200)])
        self.assertEqual([(it.key, len(it["text"])) for it in base.show().objects], [(key, 1000) for key in range(200)])

    def test_much_on_standard_error(self):
        text = "for line in sys.stdin:\n  sys.stderr.write('a warning\\n' * 100_000)\n  print('ok 0', flush=True)\n"
        base = self.base(script(), program=python(OPENS + text))
        for _ in range(3):
            self.assertEqual(base.show().objects, [])


if __name__ == "__main__":
    unittest.main()
