"""The TextMate grammar by a small engine: at the places of the samples, and on all scripts."""

from __future__ import annotations

import json
import re
import unittest

from .places import RESERVED, TOKEN, TOP, places, scripts
from .textmate import Grammar

VSCODE = TOP / "editors" / "vscode"

# How the scopes begin that a kind of place may have.
SCOPES = {
    "comment": "comment.", "text": "string.", "escape": "constant.character.escape", "number": "constant.numeric",
    "declaration": "keyword.other.declaration", "kind": "storage.type", "mode": "storage.modifier",
    "control": "keyword.control.hipac", "query": ("keyword.control.query", "keyword.control.let"),
    "aggregate": "support.function.aggregate", "event": "support.type.event", "property": "support.variable.property",
    "statement": "keyword.other.statement", "logical": "keyword.operator.logical", "boolean": "constant.language",
    "subject": "variable.language", "operator": "keyword.operator", "quoted": "variable.other.quoted",
    "member": "variable.other.member", "name": ("variable.other.", "entity.name."),
}
MEANT = ("keyword.", "constant.language", "variable.language", "storage.modifier", "support.variable.property")


class TextMate(unittest.TestCase):
    @classmethod
    def setUpClass(cls) -> None:
        cls.grammar = Grammar(VSCODE / "syntaxes" / "hipac.tmLanguage.json")

    def test_regular_expressions_mean_the_same_to_both_engines(self) -> None:
        for expression in self.grammar.expressions():
            with self.subTest(expression=expression):
                re.compile(expression)
                self.assertIsNone(re.search(r"\\[hHRXKGpPA-Z]|\(\?[>~P]|\[\[:|[*+?}]\+", expression))

    def test_places_of_the_samples(self) -> None:
        for path, number, column, word, kind in places():
            line = path.read_text(encoding="utf-8").split("\n")[number - 1]
            with self.subTest(file=path.name, line=number, word=word, column=column):
                scope = self.grammar.scope(line, column)
                self.assertTrue(scope.startswith(SCOPES[kind]), f"{word} is {scope}, and not {kind}")

    def test_all_scripts(self) -> None:
        for path in scripts():
            for number, line in enumerate(path.read_text(encoding="utf-8").split("\n"), 1):
                with self.subTest(file=str(path.relative_to(TOP)), line=number):
                    self.check_line(line)

    def check_line(self, line: str) -> None:
        """Each comment, text, name in backquotes and reserved word is seen as one, and nothing is wrong."""
        pieces = self.grammar.pieces(line)
        self.assertFalse([piece for piece in pieces if piece.scope.startswith("invalid")])
        for token in TOKEN.finditer(line):
            scope, kind = self.grammar.scope(line, token.start()), token.lastgroup
            if kind in ("comment", "text", "quoted", "number"):
                self.assertTrue(scope.startswith(SCOPES[kind] if kind != "quoted" else ("variable.", "entity.")), token)
            elif kind == "word" and token.group() in RESERVED:
                self.assertTrue(scope.startswith(MEANT), f"{token.group()} is {scope}")
            else:
                self.assertTrue(scope, token)

    def test_wrong_tokens(self) -> None:
        for line, column in (('emit 007', 5), ('emit "\\q"', 6), ("emit 'a'", 5), ("emit a & b", 7), ("emit `a b`", 5)):
            with self.subTest(line=line):
                self.assertTrue(self.grammar.scope(line, column).startswith("invalid"))

    def test_the_extension_names_its_files(self) -> None:
        package = json.loads((VSCODE / "package.json").read_text(encoding="utf-8"))["contributes"]
        files = [package["grammars"][0]["path"], package["languages"][0]["configuration"]]
        for name in files:
            json.loads((VSCODE / name).read_text(encoding="utf-8"))
        self.assertEqual(package["grammars"][0]["scopeName"], self.grammar.source["scopeName"])

    def test_the_matcher_of_problems(self) -> None:
        package = json.loads((VSCODE / "package.json").read_text(encoding="utf-8"))["contributes"]
        expression = re.compile(package["problemMatchers"][0]["pattern"]["regexp"])
        found = expression.match("a b.rules:12:34: refused S4 12:34: there is no class `prodct` (near: `product`)")
        self.assertEqual(found.groups()[:3], ("a b.rules", "12", "34"))
        self.assertEqual(expression.match("x.rules:1:2: warning: unused").groups()[3:], ("warning", "unused"))


if __name__ == "__main__":
    unittest.main()
