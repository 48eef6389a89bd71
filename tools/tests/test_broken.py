"""`check` on accepted scripts that were broken at random places, always the same ones.

The place of each value comes from the writer of the text, the refusal from the program; neither comes from the reader
that is tested.
"""

from __future__ import annotations

import json
import random
import unittest
from typing import ClassVar

from hipac_tools import check
from hipac_tools.positions import NotJson, line_and_column, parse

from .breaking import broken
from .trials import accepted_scripts, refusals
from .writing import written

SEED = 20
SCRIPTS = 400
TEXTS = 150


class BrokenScripts(unittest.TestCase):
    texts: ClassVar[list[tuple]]
    refusals: ClassVar[list[str]]

    @classmethod
    def setUpClass(cls) -> None:
        chance = random.Random(SEED)
        scripts = list(accepted_scripts().values())
        cls.texts = [written(broken(chance.choice(scripts), chance), chance) for _ in range(SCRIPTS)]
        cls.refusals = refusals([text for text, _ in cls.texts])

    def test_most_are_refused_and_in_many_ways(self) -> None:
        refused = [refusal for refusal in self.refusals if refusal]
        self.assertGreater(len(refused), SCRIPTS // 2)
        self.assertGreater(len(set(refused)), 100)
        self.assertLessEqual({"S2", "S3", "S4", "S5", "S6"}, {refusal[:2] for refusal in refused})

    def test_the_own_reading_is_the_program_s(self) -> None:
        for (text, _), refusal in zip(self.texts, self.refusals):
            fault = check.read(text.encode("utf-8")).fault
            self.assertEqual(fault.refusal if fault else "", refusal, text)

    def test_the_place_is_that_of_the_value_that_the_program_names(self) -> None:
        for (text, places), refusal in zip(self.texts, self.refusals):
            path = refusal.partition(" ")[2]
            if not path.startswith("/"):
                continue
            line, column = places[path]
            own = check.read(text.encode("utf-8"))
            first = check.refused("script.json", refusal, own)[0]
            if path == "/" and "has no member" in first:
                line, column = line_and_column(text, member_named_in(text, first))
            start = f"script.json:{line}:{column}: refused {refusal}: "
            self.assertEqual(first[:len(start)], start, text)


def member_named_in(text: str, first: str) -> int:
    """The place of a member that a script doesn't have: it is shown itself, though the path is that of the script."""
    return text.index(json.dumps(first.rsplit("`", 2)[1]))


class BrokenTexts(unittest.TestCase):
    """Texts in which letters were deleted or replaced."""

    def test_no_json_is_what_the_program_calls_so(self) -> None:
        chance = random.Random(SEED)
        scripts = list(accepted_scripts().values())
        texts = [spoilt(written(chance.choice(scripts), chance)[0], chance) for _ in range(TEXTS)]
        for text, refusal in zip(texts, refusals(texts)):
            self.assertEqual(is_json(text), refusal != "S1", text)


LETTERS = ["", "", "[", "]", "{", "}", ",", ":", '"', "\\", "0", "-", "e", ".", "\n", "\t", "\u00a0"]


def spoilt(text: str, chance: random.Random) -> str:
    """The text with another letter, or none, in the place of one."""
    place = chance.randrange(len(text))
    return text[:place] + chance.choice(LETTERS) + text[place + 1:]


def is_json(text: str) -> bool:
    try:
        parse(text)
        return True
    except NotJson:
        return False
