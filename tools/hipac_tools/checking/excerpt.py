"""Lines of a source text with a mark beneath a value, as compilers show them."""

from __future__ import annotations

import unicodedata

from ..positions import line_and_column

WIDEST = 100
"""Longer lines are cut: scripts are often written in one line."""
BEFORE, AFTER = 30, 30
"""So many characters of a cut line stand before the value, and at least so many from its beginning on."""
CUT = ".."


def excerpt(text: str, start: int, end: int, gutter: int) -> list[str]:
    """The line in which a value begins, and a mark beneath the value, or beneath its part in that line."""
    number, column = line_and_column(text, start)
    line = text[start - column + 1:].split("\n", 1)[0].rstrip("\r") if column else ""
    first, length = column - 1, max(1, min(end, start - column + 1 + len(line)) - start)
    line, first, length = cut(line, first, length)
    shown = "".join(letter if letter.isprintable() or letter == "\t" else "\ufffd" for letter in line)
    under = "".join("\t" if letter == "\t" else " " * width(letter) for letter in shown[:first])
    mark = "^" + "~" * (sum(map(width, shown[first:first + length])) - 1)
    return [f"{number:>{gutter}} | {shown}", f"{'':>{gutter}} | {under}{mark}"]


def cut(line: str, first: int, length: int) -> tuple[str, int, int]:
    """A long line cut to the part round the value."""
    if len(line) <= WIDEST:
        return line, first, length
    begin = 0 if first <= WIDEST - AFTER else min(first - BEFORE, len(line) - WIDEST)
    stop = begin + WIDEST
    left, right = CUT if begin else "", CUT if stop < len(line) else ""
    length = min(length, stop - first)
    return left + line[begin:stop] + right, first - begin + len(left), max(1, length)


def width(letter: str) -> int:
    """How many columns of a terminal a character takes."""
    if unicodedata.combining(letter):
        return 0
    return 2 if unicodedata.east_asian_width(letter) in "WF" else 1
