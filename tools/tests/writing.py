"""Writes a value as JSON in a random layout, and keeps where each part was written.

So the tests know the place of each value without the reader that they test.
"""

from __future__ import annotations

import json
import random


class Writer:
    """The text written so far, with the line and the column at which it ends."""

    def __init__(self, chance: random.Random):
        self.chance = chance
        self.pieces: list[str] = []
        self.line, self.column = 1, 1
        self.places: dict[str, tuple[int, int]] = {}
        """The line and the column of each value by its path, as refusals write paths."""

    def put(self, piece: str) -> None:
        self.pieces.append(piece)
        for letter in piece:
            self.line, self.column = (self.line + 1, 1) if letter == "\n" else (self.line, self.column + 1)

    def space(self) -> None:
        self.put(self.chance.choice(["", "", " ", "\n", "\n  ", "\t"]))

    def value(self, value: object, path: str = "") -> None:
        self.places[path or "/"] = (self.line, self.column)
        if isinstance(value, list):
            self.parts("[", "]", [(None, str(position), part) for position, part in enumerate(value)], path)
        elif isinstance(value, dict):
            self.parts("{", "}", [(name, name, part) for name, part in value.items()], path)
        else:
            self.put(json.dumps(value, ensure_ascii=self.chance.random() < 0.5))

    def parts(self, opening: str, closing: str, parts: list, path: str) -> None:
        self.put(opening)
        for number, (name, step, part) in enumerate(parts):
            self.put("," if number else "")
            self.space()
            if name is not None:
                self.put(json.dumps(name))
                self.space()
                self.put(":")
                self.space()
            self.value(part, f"{path}/{step}")
        self.space()
        self.put(closing)

    def text(self) -> str:
        return "".join(self.pieces)


def written(value: object, chance: random.Random) -> tuple[str, dict[str, tuple[int, int]]]:
    """A JSON text of a value, and the line and the column of each value in it."""
    writer = Writer(chance)
    writer.value(value)
    return writer.text(), writer.places
