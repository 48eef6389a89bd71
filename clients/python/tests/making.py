"""What the tests share: the program, small scripts, and programs of our own that go wrong."""

from __future__ import annotations

import logging
import os
import sys
import tempfile
import unittest
from pathlib import Path
from typing import Any, Sequence

from hipac import Base, Script

BY = os.environ.get("HIPAC_BY", "program")
"""What the rule bases of the tests are asked by."""

# What is asked by nothing in particular is, too: the pages and the doctests show it so.
ASKED_BY = "Base.__init__.__kwdefaults__['by'] = {!r}"
exec(ASKED_BY.format(BY))

REPOSITORY = Path(__file__).resolve().parents[3]

# The launcher's notice is for people.
logging.getLogger("hipac").setLevel(logging.CRITICAL)

Parts = Sequence[Any]

ITEM = ["item", [["stock", "int"]]]
NOTE = ["note", [["text", "text"], ["read", "bool"]]]


def script(rules: Parts = (), items: Parts = (), classes: Parts = (ITEM, NOTE), **members: Any) -> dict:
    return {"version": 2, "classes": list(classes), "rules": list(rules), "items": list(items), **members}


def rule(name: str, event: list, action: list, ec: str = "immediate", ca: str = "immediate",
         queries: Parts = ()) -> list:
    return [name, event, ec, list(queries), ca, action]


def installed(*rules: list) -> dict:
    """A script whose rules are installed by its only item."""
    return script(rules, [["tx", [["install", it[0]] for it in rules]]])


NO_OVERSELL = rule("no_oversell", ["update", "item"], [["veto"]], "deferred",
                   queries=[["i", "item", ["<", ["of", "i", "stock"], 0]]])
"""Vetoes what leaves an item's stock below 0."""

STOCK = script([NO_OVERSELL], [["tx", [["install", "no_oversell"], ["create", "item", 7, [["stock", 3]]]]]])
"""A rule base with one item."""


def python(text: str) -> list:
    """The words of a program of our own."""
    return [sys.executable, "-c", text]


class RuleBaseTest(unittest.TestCase):
    """A test with rule bases that are closed at its end, and a folder of its own."""

    def base(self, given: Script, **options: Any) -> Base:
        if BY != "program" and {"program", "timeout"} & options.keys():
            self.skipTest("it is of the program alone")
        base = Base(given, **options)
        self.addCleanup(base.close)
        return base

    def recovered(self, journal: Any, given: Any = None, **options: Any) -> Base:
        if BY != "program" and "program" in options:
            self.skipTest("it is of the program alone")
        base = Base.recover(journal, given, **options)
        self.addCleanup(base.close)
        return base

    def folder(self) -> Path:
        room = tempfile.TemporaryDirectory(prefix="hipac-live-")
        self.addCleanup(room.cleanup)
        return Path(room.name)
