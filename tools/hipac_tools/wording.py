"""Helpers for sentences that several tools need: lists, numbers of things, a sentence's first letter and full stop."""

from __future__ import annotations

import math
from dataclasses import dataclass
from typing import Iterable, List


def listed(words: Iterable[str], last: str = "and") -> str:
    """`a, b and c`."""
    words = list(words)
    return words[0] if len(words) == 1 else f"{', '.join(words[:-1])} {last} {words[-1]}"


@dataclass(frozen=True)
class Most:
    """How much of something long is told. The rest is counted."""

    lines: float = 12
    candidates: float = 4
    keys: float = 8
    parts: float = 6
    fields: float = 6
    letters: float = 40


SOME, ALL = Most(), Most(*[math.inf] * 6)


def some_of(things: List[str], most: float) -> str:
    """The first of many things in one line, with the number of those left out."""
    if len(things) <= most:
        return ", ".join(things)
    return f"{', '.join(things[:int(most)])} and {len(things) - most} more"


def counted(number: int, one: str, more: str = "") -> str:
    """`1 object`, `2 objects`."""
    return f"{number} {one if number == 1 else more or one + 's'}"


def times(number: int) -> str:
    return {1: "once", 2: "twice"}.get(number, f"{number} times")


def sentence(words: str) -> str:
    return words[:1].upper() + words[1:] + "."
