"""`check` tells all faults of a refused script in one run: the program's refusal first, and then what it would refuse
next."""

from __future__ import annotations

import json
import random
import unittest

from hipac_tools import check

from .breaking import VALUES, WORDS, paths_of, put
from .refused import script
from .test_check import InDirectory
from .trials import accepted_scripts, refusals

SEED = 49
SCRIPTS = 40
BREAKS = 12
TOGETHER = 4


def told(text: str) -> list[str]:
    return [fault.refusal for fault in check.read(text.encode("utf-8")).faults]


class Lines(InDirectory):
    def heads(self, text: str) -> list[str]:
        status, lines = self.check(text)
        self.assertEqual(status, 2)
        return [line.split(": ", 1)[1] for line in lines if line.startswith("script.json:")]

    def test_each_rule_and_each_statement_has_its_own(self) -> None:
        rules = """
    ["a", ["updte", "acct"], "now", [], "immediate", [["emit", ["new", "bal"]], ["print", 1], ["emit", 1.5]]],
    ["b", ["update", "act"], "immediate", [["x", "acct", ["<", ["of", "y", "bal"], 0]]], "immediate", [["veto"]]]"""
        items = '["tx", [["install", "c"], ["if", ["=", 1], [["veto"]], [["emit"]]]]], ["clock", 3], ["clock", 2]'
        self.assertEqual(self.heads(script(rules=rules, items=items)), [
            'refused S2 /rules/0/1: "updte" begins no event',
            'refused S2 /rules/0/2: "now" is no mode',
            'refused S2 /rules/0/5/0/1: ["new", i, field] has 2 parts after its word, and this has 1',
            'refused S2 /rules/0/5/1: "print" begins no statement',
            "refused S3 /rules/0/5/2/1: a number must be whole, and this has a fraction",
            "refused S4 /rules/1/1/1: there is no class `act`",
            "refused S4 /rules/1/3/0/2/1/1: no row is called `y` here",
            "refused S4 /items/0/1/0/1: there is no rule `c`",
            'refused S2 /items/0/1/1/1: ["=", a, b] has 2 parts after its word, and this has 1',
            'refused S2 /items/0/1/1/2/0: ["veto"] stands only in a rule\'s action',
            'refused S2 /items/0/1/1/3/0: ["emit", expression] has 1 part after its word, and this has none',
            "refused S2 /items/2/1: the clock stands at 3 and doesn't go back to 2"])

    def test_the_first_is_the_program_s(self) -> None:
        text = script(items='["tx", [["emit"], ["fire", "r"]]], 7')
        self.assertEqual(refusals([text]), [told(text)[0]])
        self.assertEqual(told(text), ["S2 /items/0/1/0", "S4 /items/0/1/1/1", "S2 /items/1"])

    def test_at_most_twenty(self) -> None:
        cases: tuple[tuple[int, list[str]], ...] = (
            (19, []), (20, ["these are the first 20 faults; there may be more"]), (30, [""]))
        for number, more in cases:
            text = script(items=f'["tx", [{", ".join(["[]"] * number)}]]')
            heads = self.heads(text)
            self.assertEqual(len([head for head in heads if head.startswith("refused S2 ")]), min(number, 20))
            self.assertEqual(len(heads), min(number, 20) + len(more))

    def test_what_only_follows_from_another_is_left_out(self) -> None:
        """A class, a field, a rule or a query that can't be read may be what a later name means."""
        made = '["tx", [["create", "note", 1, [["text", "a"]]]]]'
        for text, known in (
                (script(classes='["note ", [["text", "text"]]]', items=made), ["S2 /classes/0/0"]),
                (script(classes='["note", [["text ", "text"]]]', items=made), ["S2 /classes/0/1/0/0"]),
                (script(classes='["note", ["text", "text"]]', items=made), ["S2 /classes/0/1/0"]),
                (script(rules='["a b", ["commit"], "immediate", [], "immediate", []]',
                        items='["tx", [["fire", "ab"]]]'), ["S2 /rules/0/0"]),
                (script(rules='["r", ["commit"], "immediate", [["a", "act", true]], "immediate", [["for", "a", []]]]'),
                 ["S4 /rules/0/3/0/1"]),
                (script(items='["tx", [["create", "acct", 1, [["bal", 1], ["ownr", "a"]]]]]'),
                 ["S4 /items/0/1/0/3/1/0"]),
                (script(classes='["note", [["text", "string"]]]', items=made), ["S2 /classes/0/1/0/1"]),
                (script(rules='["r", ["commit"], "immediate", [], []]', items='["tx", [["install", "r"]]]'),
                 ["S2 /rules/0"]),
                (script(rules='"r", ["commit"], "immediate", [], "immediate", []'), ["S2 /rules/0"]),
                (script(items='["tx", ["emitt", 1]], "tx", []'), ["S2 /items/0/1/0", "S2 /items/1"]),
                (script(items='["tx", [["update", "acct", 1, ["bal", 1]]]]'), ["S2 /items/0/1/0/3/0"])):
            with self.subTest(known=known):
                self.assertEqual(told(text), known)

    def test_other_names_are_unknown_all_the_same(self) -> None:
        rules = '["r", ["commit"], "immediate", [], []], ["s", ["create", "act"], "immediate", [], "immediate", []]'
        self.assertEqual(told(script(rules=rules)), ["S2 /rules/0", "S4 /rules/1/1/1"])
        doubled = '["mark", []], ["mark", []]'
        self.assertEqual(told(script(classes=doubled, items='["tx", [["delete", "marc", 1]]]')),
                         ["S4 /classes/1/0", "S4 /items/0/1/0/1"])

    def test_the_rest_of_a_doubled_rule_is_read(self) -> None:
        one = '["r", ["commit"], "immediate", [], "immediate", []]'
        other = '["r", ["commit"], "immediate", [], "immediate", [["emit"]]]'
        self.assertEqual(told(script(rules=f"{one}, {other}")), ["S4 /rules/1/0", "S2 /rules/1/5/0"])

    def test_a_faulty_version_or_depth_is_no_end(self) -> None:
        more = '["r", ["commit"], "exclusive", [], "immediate", [["emit"]]]'
        self.assertEqual(told(script(version="3", rules=more)), ["S6", "S2 /rules/0/5/0"])
        self.assertEqual(told(script(more=' "depth": 17,', rules=more)),
                         ["S5 depth", "S2 /rules/0/2", "S2 /rules/0/5/0"])


def broken_alone(script_read: object, chance: random.Random) -> list[tuple[tuple, object]]:
    """Replacements of one value in an accepted script, none of which is inside another's place."""
    found: list[tuple[tuple, object]] = []
    for path in chance.sample(paths := paths_of(script_read)[1:], min(BREAKS, len(paths))):
        if all(path[:len(other)] != other and other[:len(path)] != path for other, _ in found):
            found.append((path, chance.choice(VALUES + WORDS)))
    return found


def with_breaks(script_read: object, breaks: list[tuple[tuple, object]]) -> str:
    copy = json.loads(json.dumps(script_read))
    for path, value in breaks:
        put(copy, path, value)
    return json.dumps(copy)


class Independent(unittest.TestCase):
    def test_several_breaks_are_told_as_each_alone(self) -> None:
        """Each break by itself is one fault, and the program names it. Together nothing else is told, and most are."""
        chance = random.Random(SEED)
        scripts = list(accepted_scripts().values())
        texts: list[str] = []
        wanted: list[list[str]] = []
        single: list[tuple[str, str]] = []
        while len(texts) < SCRIPTS:
            one = chance.choice(scripts)
            each = [(broken, told(with_breaks(one, [broken]))) for broken in broken_alone(one, chance)]
            alone = [(broken, faults[0]) for broken, faults in each if len(faults) == 1][:TOGETHER]
            if len(alone) > 1:
                texts.append(with_breaks(one, [broken for broken, _ in alone]))
                wanted.append([refusal for _, refusal in alone])
                single += [(with_breaks(one, [broken]), refusal) for broken, refusal in alone]
        self.assertEqual(refusals([text for text, _ in single]), [refusal for _, refusal in single])
        for text, refusal in zip(texts, refusals(texts)):
            self.assertEqual(told(text)[0], refusal, text)
        for text, faults in zip(texts, wanted):
            self.assertLessEqual(set(told(text)), set(faults), text)
        found = sum(len(set(told(text))) for text in texts)
        self.assertGreater(found, 0.7 * sum(len(set(faults)) for faults in wanted))


if __name__ == "__main__":
    unittest.main()
