"""The reader of JSON that keeps positions."""

from __future__ import annotations

import json
import random
import unittest

from hipac_tools.near import nearest
from hipac_tools.positions import NotJson, find, line_and_column, parse

from .trials import accepted_scripts
from .writing import written


class Values(unittest.TestCase):
    def test_the_values_are_those_of_the_standard_reader(self) -> None:
        texts = [
            '{"a": [1, -2.5, 1e3, true, false, null, "\\u00e9\\ud83d\\ude00\\n"], "b": {}}', "12345678901234567890123",
            '"\\/"', " [ ] ",
        ]
        for text in texts:
            self.assertEqual(parse(text).value, json.loads(text))

    def test_whole_numbers_alone_are_whole(self) -> None:
        for text, kind in {"1": int, "-1": int, "1.0": float, "1e0": float, "-0": float, "0": int}.items():
            self.assertIs(type(parse(text).value), kind, text)

    def test_the_last_of_doubled_members_counts(self) -> None:
        node = parse('{"a": 1, "b": 2, "a": 3}')
        self.assertEqual(node.value, {"a": 3, "b": 2})
        self.assertEqual(node.members["a"][1].start, 22)
        self.assertEqual([key.start for key in node.doubled], [17])


class Places(unittest.TestCase):
    def test_each_value_stands_where_it_was_written(self) -> None:
        chance = random.Random(7)
        for script in accepted_scripts().values():
            text, places = written(script, chance)
            root = parse(text)
            for path, place in places.items():
                found = find(root, path)
                self.assertTrue(found.exact)
                self.assertEqual(line_and_column(text, found.node.start), place)
                self.assertEqual(json.loads(text[found.node.start:found.node.end]), found.node.value)

    def test_what_is_nowhere_is_found_in_the_nearest_value(self) -> None:
        root = parse('{"rules": [[1, 2]]}')
        starts = {"/depth": 0, "/rules/1": 10, "/rules/0/7/2": 11, "/rules/0/1/0": 15, "/rules/x": 10}
        for path, start in starts.items():
            found = find(root, path)
            self.assertEqual((found.exact, found.node.start), (False, start), path)

    def test_columns_count_characters(self) -> None:
        self.assertEqual(line_and_column("é\n\U0001f600x", 3), (2, 2))


class Refusals(unittest.TestCase):
    def test_levels(self) -> None:
        self.assertEqual(parse("[" * 127 + "]" * 127).start, 0)
        with self.assertRaises(NotJson) as caught:
            parse("[" * 128 + "]" * 128)
        self.assertEqual(caught.exception.start, 127)

    def test_a_bracket_that_is_never_closed_is_named(self) -> None:
        with self.assertRaises(NotJson) as caught:
            parse('{"a": [1, 2')
        self.assertEqual((caught.exception.start, caught.exception.opened), (11, 6))


class NearWords(unittest.TestCase):
    def test_the_nearest_word(self) -> None:
        known, habits = ["create", "update", "delete", "x"], {"insert": "create"}
        for word, meant in {"updte": "update", "UPDATE": "update", "crate": "create", "insert": "create"}.items():
            self.assertEqual(nearest(word, known, habits), meant)
        for word in ("remove", "y", ""):
            self.assertIsNone(nearest(word, known, habits))
