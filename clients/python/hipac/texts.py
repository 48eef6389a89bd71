"""Texts in the notation. White space and comments mean nothing but that a token ends."""

from __future__ import annotations

import bisect
import functools
import json
import re
from typing import Any, List, Mapping, Optional, Tuple

from .answers import Value
from .errors import Refused

BEGINS_TEXT = re.compile(rb"[ \t\r\n]*[A-Za-z#]")

PIECE = re.compile(
    r"""(?P<space>(?:[ \t\r\n]|\#[^\n]*)+)"""
    r"""|(?P<text>"(?:[^"\\]|\\.)*"?)"""
    r"""|\$(?P<value>[A-Za-z_][A-Za-z0-9_]*)"""
    r"""|`?[A-Za-z][A-Za-z0-9_]*`?|[0-9]+|.""", re.DOTALL)

RESERVED = frozenset("""
    on if do where as set else otherwise then until and or not true false new old event key immediate deferred separate
    dependent exclusive create update delete signal emit each for with sub abort veto install enable disable remove fire
""".split())


def text_value(value: Value) -> str:
    """A value as an operand of the notation."""
    if type(value) is int:
        return str(value) if value >= 0 else f"({value})"
    if isinstance(value, bool):
        return "true" if value else "false"
    if isinstance(value, int):
        return text_value(int(value))
    if isinstance(value, str):
        return json.dumps(value, ensure_ascii=False)
    raise TypeError(f"a value is an int, a bool or a str, and not {value!r}")


def text_name(name: str) -> str:
    return f"`{name}`" if name in RESERVED else name


class OneLine:
    """A text on one line, with values in the place of `$name`. It knows where its tokens stood in the text as it was
    given: places are shown there."""

    def __init__(self, source: str, values: Optional[Mapping[str, Value]] = None, before: str = "", after: str = ""):
        self.source = source
        self.tokens: List[str] = []
        self.starts: List[int] = []
        self._origins: List[Tuple[int, int]] = []
        """Where each token began in the text as it was given, and how many of its characters stood there."""
        self._line = before
        left, is_apart = set(values or ()), False
        for piece in PIECE.finditer(source):
            if piece["space"]:
                is_apart = True
                continue
            written, is_value = piece[0], piece["value"] is not None and values is not None
            if piece["text"]:
                # A text that isn't closed in its line is a fault there, and mustn't be closed in the next one.
                written = written.replace("\n", "\x1f")
            elif is_value:
                written = text_value(given_value(values or {}, piece["value"]))
                left.discard(piece["value"])
            # A name before a value ends there.
            if (is_apart or is_value) and self._line[-1:] not in ("", " ", "("):
                self._line += " "
            self.tokens.append(written)
            self.starts.append(len(self._line))
            self._origins.append((piece.start(), 0 if is_value else len(written)))
            self._line += written
            is_apart = False
        if left:
            raise ValueError(f"the text has no ${min(left)}, for which a value is given")
        self.text = self._line + after

    def value_starts(self) -> List[int]:
        """Where in the line the values stand."""
        return [start for start, (_, length) in zip(self.starts, self._origins) if length == 0]

    def origin(self, column: int) -> int:
        """Where in the text as it was given that stands which has this column of the line."""
        at = bisect.bisect_right(self.starts, column - 1) - 1
        if at < 0 or column - 1 >= len(self._line):
            return len(self.source.rstrip(" \t\r\n"))
        begin, length = self._origins[at]
        return begin + min(column - 1 - self.starts[at], length)


class Form:
    """The text of a transaction, with `$name` where its values go, made ready to be sent with many values."""

    def __init__(self, source: str):
        names = [piece["value"] for piece in PIECE.finditer(source) if piece["value"] is not None]
        self.source, self.names = source, tuple(names)
        self._known = frozenset(names)
        self._count = len(self._known)
        line = OneLine(source, dict.fromkeys(names, 0), *_AROUND)
        parts, end = [], 0
        for start in line.value_starts():
            parts.append(line.text[end:start].replace("%", "%%"))
            end = start + 1
        self._form = "%s".join([*parts, line.text[end:].replace("%", "%%")])

    def with_values(self, values: Mapping[str, Value]) -> str:
        """The line with these values; ValueError if one is missing or isn't used."""
        if len(values) != self._count or not self._known.issuperset(values):
            self.one_line(values)
        found: Tuple[Any, ...] = tuple(map(values.__getitem__, self.names))
        for value in found:
            # (otherwise %s writes it as text_value does)
            if type(value) is not int or value < 0:
                found = tuple(map(text_value, found))
                break
        return self._form % found

    def one_line(self, values: Mapping[str, Value]) -> OneLine:
        """The same line, which knows where its tokens stood."""
        return OneLine(self.source, values, *_AROUND)


_AROUND = ("transaction { ", " }")


@functools.lru_cache(maxsize=1000)
def form_of(source: str) -> Form:
    """The form of a transaction's text. Most programs use few texts, again and again."""
    return Form(source)


def given_value(values: Mapping[str, Value], name: str) -> Value:
    try:
        return values[name]
    except KeyError:
        raise ValueError(f"no value is given for ${name}") from None


def explained(refused: Refused, source: str, offset: int) -> Refused:
    """A refusal with its place in a text."""
    line_start = source.rfind("\n", 0, offset) + 1
    place = source.count("\n", 0, offset) + 1, offset - line_start + 1
    part = source[offset:].partition("\n")[0].rstrip()
    return Refused(refused.code, None, refused.limit, part or None, place)
