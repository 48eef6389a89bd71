"""A small engine for TextMate grammars: `match`, `begin` and `end`, `include`, and captures by name.

It is for grammars whose regular expressions mean the same to Python's `re` and to the engine of editors, Oniguruma.
"""

from __future__ import annotations

import json
import re
from pathlib import Path
from typing import Iterator, NamedTuple


class Piece(NamedTuple):
    """A part of a line, and its innermost scope."""

    begin: int
    end: int
    scope: str


class Grammar:
    def __init__(self, path: Path):
        self.source = json.loads(path.read_text(encoding="utf-8"))

    def expressions(self) -> Iterator[str]:
        """All regular expressions."""
        parts = [self.source]
        while parts:
            part = parts.pop()
            if isinstance(part, dict):
                yield from (part[key] for key in ("match", "begin", "end") if key in part)
                parts += part.values()
            elif isinstance(part, list):
                parts += part

    def flat(self, patterns: list) -> Iterator[dict]:
        """The patterns, with what they include, in order."""
        for pattern in patterns:
            if "include" in pattern:
                yield from self.flat([self.source["repository"][pattern["include"][1:]]])
            elif "patterns" in pattern and "begin" not in pattern:
                yield from self.flat(pattern["patterns"])
            else:
                yield pattern

    def first(self, patterns: list, line: str, at: int):
        """The first match from here on, by its place and then by the order of the patterns."""
        found = None
        for pattern in self.flat(patterns):
            match = re.compile(pattern.get("match", pattern.get("begin"))).search(line, at)
            if match and match.end() > match.start() and (found is None or match.start() < found[1].start()):
                found = pattern, match
        return found

    def pieces(self, line: str) -> list[Piece]:
        """The scopes within a line. No rule of these grammars goes on to the next line."""
        pieces, at = [], 0
        while found := self.first(self.source["patterns"], line, at):
            pattern, match = found
            at = match.end()
            if "begin" in pattern:
                at = self.region(pattern, line, match, pieces)
                continue
            name = pattern.get("name")
            if name:
                pieces.append(Piece(match.start(), match.end(), name))
            for number, capture in pattern.get("captures", {}).items():
                if match.group(int(number)) is not None:
                    pieces.append(Piece(*match.span(int(number)), capture["name"]))
        return pieces

    def region(self, pattern: dict, line: str, begin: re.Match, pieces: list[Piece]) -> int:
        """Adds what is within a region, and the region; gives where it ends."""
        at = begin.end()
        while True:
            end = re.compile(pattern["end"]).search(line, at)
            inner = self.first(pattern.get("patterns", []), line, at)
            if inner and inner[1].start() < end.start():
                pieces.append(Piece(*inner[1].span(), inner[0]["name"]))
                at = inner[1].end()
                continue
            pieces.append(Piece(begin.start(), end.end(), pattern["name"]))
            return end.end()

    def scope(self, line: str, at: int) -> str:
        """The innermost scope of a character, or nothing."""
        around = [piece for piece in self.pieces(line) if piece.begin <= at < piece.end]
        return min(around, key=lambda piece: piece.end - piece.begin).scope if around else ""
