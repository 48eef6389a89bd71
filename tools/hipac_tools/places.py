"""The places of a script that sentences name: a path, such as `/rules/0/5/0`, or its line and column."""

from __future__ import annotations

import json
import re
from bisect import bisect_right
from itertools import accumulate
from typing import Any, Dict, List, Match, Optional, Tuple

from . import command, positions
from .notation import reader

MARK = "\0"
"""Stands before and after a path in a sentence. No value has it: in a text it is escaped."""
MARKED = re.compile(f"{MARK}(.*?){MARK}")
INDENT = 4
"""By so many columns does `json.tool` indent the parts of a list or an object."""
PRINTED = "the script is on one line: lines and columns are those that `python3 -m json.tool` gives it"


def marked(path: str) -> str:
    """A path as sentences name it, until `Places.told` says where that is."""
    return f"{MARK}{path}{MARK}"


class Places:
    """Tells where paths lead: to a line and a column. If a script is JSON on one line, they are those of the form in
    which `python3 -m json.tool` prints it."""

    def __init__(self, text: str) -> None:
        is_text = command.is_text(text.encode("utf-8", "replace"))
        self.is_printed = not is_text and "\n" not in text.strip()
        self.has_told = False
        self.script: Any = Printed(json.loads(text)) if self.is_printed else Written(text, is_text)

    @property
    def note(self) -> Optional[str]:
        """What is to be said of the places that were told; None if nothing is."""
        return PRINTED if self.is_printed and self.has_told else None

    def told(self, words: str) -> str:
        """The words with each marked path told."""
        return MARKED.sub(self._told, words)

    def _told(self, found: Match[str]) -> str:
        place = self.script.place(found[1])
        if place is None:
            return found[1]
        self.has_told = True
        return f"line {place[0]}:{place[1]}"


class Written:
    """A script as it is written."""

    def __init__(self, text: str, is_text: bool) -> None:
        self.root = reader.read_text(text) if is_text else positions.parse(text)
        self.line_starts = [0] + [end.end() for end in re.finditer("\n", text)]

    def place(self, path: str) -> Optional[Tuple[int, int]]:
        """The line and the column at which the value at a path begins; None if there is none."""
        found = positions.find(self.root, path)
        if not found.exact:
            return None
        line = bisect_right(self.line_starts, found.node.start)
        return line, found.node.start - self.line_starts[line - 1] + 1


class Printed:
    """A script as `json.tool` prints it: each part of a list or an object is on a line of its own, further in."""

    def __init__(self, root: Any) -> None:
        self.root = root
        self.heights: Dict[int, List[int]] = {}

    def place(self, path: str) -> Optional[Tuple[int, int]]:
        """The line and the column at which the value at a path begins; None if there is none."""
        value, line, column, level = self.root, 1, 1, 0
        for step in path.split("/")[1:]:
            names = list(value) if isinstance(value, dict) else None
            number = names.index(step) if names is not None and step in names else _number(step)
            parts = _parts(value)
            if number is None or number >= len(parts) or names is not None and step not in names:
                return None
            level += 1
            line += 1 + (self._heights(value)[number - 1] if number else 0)
            column = level * INDENT + 1 + (len(f"{json.dumps(step)}: ") if names is not None else 0)
            value = parts[number]
        return line, column

    def _heights(self, value: Any) -> List[int]:
        """For each part of a value how many lines it and those before it take."""
        if id(value) not in self.heights:
            self.heights[id(value)] = list(accumulate(self._height(part) for part in _parts(value)))
        return self.heights[id(value)]

    def _height(self, value: Any) -> int:
        return 2 + self._heights(value)[-1] if _parts(value) else 1


def _parts(value: Any) -> List[Any]:
    if isinstance(value, dict):
        return list(value.values())
    return value if isinstance(value, list) else []


def _number(step: str) -> Optional[int]:
    return int(step) if step.isdigit() else None
