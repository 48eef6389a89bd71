"""The schema of scripts: it accepts what the program accepts, and marks what that refuses as far as a schema can."""

from __future__ import annotations

import json
import random
import unittest
from typing import Any

from .breaking import broken
from .trials import REPOSITORY, accepted_scripts, refusals
from .refused import CASES
from .test_broken import SEED

try:
    import jsonschema
except ImportError:
    jsonschema = None  # type: ignore[assignment]

SCHEMA = REPOSITORY / "docs" / "script.schema.json"
SCRIPTS = 250

UNSAID_LIMITS = ("size", "expr", "event", "nesting", "moments")
"""Limits that no schema can say: bytes, levels, due moments."""

UNSAID_CASES = {
    "a clock that goes back": "what stands before in the list",
    "a version with a point": "JSON Schema takes 1.0 for a whole number",
    "a depth with a point": "JSON Schema takes 8.0 for a whole number",
    "a whole number with a point": "JSON Schema takes 1.0 for a whole number",
    "a whole number with an exponent": "JSON Schema takes 1e3 for a whole number",
    "-0": "JSON Schema takes -0 for a whole number",
    "a part with a point": "JSON Schema takes 0.0 for a whole number",
    "a time with a point": "JSON Schema takes 5.0 for a whole number",
    "a text of 513 letters of two bytes": "JSON Schema counts letters, not bytes",
    "the time, as other languages call it": "in expressions and statements the forms of all versions are accepted",
    "a name with a line feed": "in Python's patterns $ stands before a last line feed too",
}


def said(name: str, refusal: str) -> bool:
    """Whether a schema can say why the case of this name is refused. If not, it may still mark another fault of it."""
    code, _, rest = refusal.partition(" ")
    return name not in UNSAID_CASES and (code in ("S2", "S3", "S6") or code == "S5" and rest not in UNSAID_LIMITS)


FOURTH = {
    "no": '[["no", "a", "acct", true]]', "let": '[["let", "n", ["count", "a", "acct", true]]]',
    "sum": '[["let", "n", ["sum", "a", "acct", true, ["of", "a", "bal"]]]]', "next": '[["let", "n", ["next", "acct"]]]',
    "a plain let": '[["let", "n", ["count"]]]', "a query": '[["a", "acct", ["=", ["now"], 1]]]',
}
"""Conditions of version 4."""

NOT_FOURTH = {
    "a sum without its term": '[["let", "n", ["sum", "a", "acct", true]]]', "no without a class": '[["no", "a", true]]',
    "an aggregate in a predicate": '[["a", "acct", ["sum", "s", "acct", true, 1]]]', "three parts of next":
    '[["let", "n", ["next", "acct", 1]]]', "value of two": '[["let", "n", ["value", "a", "b"]]]', "no list": '["no"]',
}


class Schema(unittest.TestCase):
    schema: Any
    valid: Any

    @classmethod
    def setUpClass(cls) -> None:
        if jsonschema is None:
            raise AssertionError("these tests need the Python package jsonschema (Debian: python3-jsonschema)")
        cls.schema = json.loads(SCHEMA.read_text(encoding="utf-8"))
        cls.valid = staticmethod(jsonschema.Draft202012Validator(cls.schema).is_valid)

    def test_it_is_a_schema(self) -> None:
        jsonschema.Draft202012Validator.check_schema(self.schema)

    def test_each_form_has_a_title_and_a_sentence(self) -> None:
        for name, form in self.schema["$defs"].items():
            with self.subTest(name):
                self.assertTrue(form.get("title"))
                self.assertRegex(form.get("description", ""), r"^[^\n]+\.$")

    def test_its_examples_are_valid(self) -> None:
        """Editors offer them where the form is expected."""
        self.assertTrue(all(map(self.valid, self.schema["examples"])))
        forms = self.schema["$defs"]
        for name, form in forms.items():
            of_this_form = jsonschema.Draft202012Validator({**form, "$defs": forms})
            for example in form.get("examples", []):
                with self.subTest(name, example=example):
                    self.assertTrue(of_this_form.is_valid(example))

    def test_each_form_is_used(self) -> None:
        text = json.dumps(self.schema)
        for name in self.schema["$defs"]:
            self.assertIn(f'"#/$defs/{name}"', text)

    def test_accepted_scripts_are_valid(self) -> None:
        for name, script in accepted_scripts().items():
            with self.subTest(name):
                self.assertTrue(self.valid(script))

    def test_conditions_of_version_4(self) -> None:
        for accepted, conditions in ((True, FOURTH), (False, NOT_FOURTH)):
            for name, condition in conditions.items():
                with self.subTest(name):
                    self.assertEqual(self.valid(json.loads(with_condition(4, condition))), accepted)

    def test_closed_rules_and_entries_are_of_version_4(self) -> None:
        for version in (1, 2, 4):
            with self.subTest(version):
                self.assertTrue(self.valid(json.loads(with_condition(version, "[]"))))
                closed = json.loads(with_condition(version, "[]"))
                closed["rules"][0].append("closed")
                self.assertEqual(self.valid(closed), version == 4)
                self.assertEqual(self.valid(json.loads(with_condition(version, FOURTH["no"]))), version == 4)

    def test_refused_scripts_are_marked_as_far_as_a_schema_can_say(self) -> None:
        marked = 0
        for case in CASES:
            if case.refusal == "S1":
                continue
            with self.subTest(case.name):
                seen = not self.valid(json.loads(case.script))
                if said(case.name, case.refusal):
                    self.assertTrue(seen)
                if case.name in UNSAID_CASES:
                    self.assertFalse(seen)
                marked += seen
        self.assertGreater(marked, 120)

    def test_broken_scripts_are_marked_where_they_have_a_wrong_shape(self) -> None:
        chance = random.Random(SEED + 1)
        scripts = list(accepted_scripts().values())
        changed = [broken(chance.choice(scripts), chance) for _ in range(SCRIPTS)]
        for script, refusal in zip(changed, refusals([json.dumps(script) for script in changed])):
            valid = self.valid(script)
            if refusal == "":
                self.assertTrue(valid, script)
            if valid and refusal:
                self.assertTrue(unsaid(script, refusal), (refusal, script))


def with_condition(version: int, condition: str) -> str:
    """A script with one rule that has this condition."""
    rule = f'["r", ["signal", "go"], "immediate", {condition}, "immediate", []]'
    return f'{{"version": {version}, "classes": [["acct", [["bal", "int"]]]], "rules": [{rule}], "items": []}}'


def unsaid(script: object, refusal: str) -> bool:
    """Whether a schema can't say why the script is refused."""
    code, _, rest = refusal.partition(" ")
    if code == "S2":
        return goes_back(script, rest) or is_of_a_later_version(script, rest)
    if code == "S3":
        return at(script, rest) == int(at(script, rest))
    return code == "S4" or rest in UNSAID_LIMITS or rest == "text"


def at(script: Any, path: str) -> Any:
    for step in path.strip("/").split("/"):
        script = script[int(step)] if isinstance(script, list) else script[step]
    return script


def is_of_a_later_version(script: Any, path: str) -> bool:
    """Whether the value at the path is an expression or a statement that only version 4 has: the schema has it in
    each."""
    value = at(script, path) if path != "/" else None
    return script["version"] != 4 and isinstance(value, list) and value[:1] in (["veto"], ["value"], ["now"], ["let"])


def goes_back(script: Any, path: str) -> bool:
    """Whether the path is that of a clock's time, and an earlier item has a later time."""
    steps = path.strip("/").split("/")
    if steps[0] != "items" or len(steps) != 3 or script["items"][int(steps[1])][0] != "clock":
        return False
    before = [item[1] for item in script["items"][:int(steps[1])] if item[0] == "clock"]
    return bool(before) and at(script, path) < max(before)
