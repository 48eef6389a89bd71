"""What is sent, and what it asks for."""

from __future__ import annotations

import json
import re
from typing import Any, Mapping, Optional

from .answers import Value
from .errors import Refused
from .texts import Form, OneLine, explained
from .ways import Way

MOST_BYTES = 1_048_576

_ENCODER = json.JSONEncoder(ensure_ascii=False, allow_nan=False, separators=(",", ":"))

# The keys that an object can have.
_KEYS = range(-2 ** 63, 2 ** 63)

# The names that a class can have.
_CLASS = re.compile("[A-Za-z][A-Za-z0-9_]*")


def json_text(value: Any) -> str:
    """A JSON value on one line; ValueError or TypeError where it is none."""
    try:
        return _ENCODER.encode(value)
    except RecursionError:
        raise ValueError("the value is nested too deeply") from None


def at_path(value: Any, path: str) -> Any:
    """What stands at a refusal's path, or None where the path leads nowhere."""
    for step in path.split("/")[1:]:
        if step == "":
            continue
        try:
            value = value[int(step)] if isinstance(value, (list, tuple)) else value[step]
        except (LookupError, TypeError, ValueError):
            return None
    return value


class Line:
    """A line: `raw` is what is sent, and `word` is `tx`, `clock` or `show`, if it is one of these. Its refusals are
    those of a text or of JSON."""

    raw: bytes
    word: Optional[str] = None
    is_text = False

    def ask(self, way: Way) -> Optional[bytes]:
        """Sends it. If the answer is there at once, it is what this returns."""
        return way.send(self.raw)

    def time(self) -> Optional[int]:
        """Where it leaves the clock, if it is accepted and moves it."""
        raise NotImplementedError

    def explain(self, refused: Refused) -> Refused:
        """The refusal of this line, with the part that is refused."""
        raise NotImplementedError


class JsonLine(Line):
    def __init__(self, value: Any, raw: Optional[bytes] = None):
        self.value = value
        self.raw = json_text(value).encode("utf-8") if raw is None else raw
        self.word = value[0] if isinstance(value, (list, tuple)) and value and isinstance(value[0], str) else None

    def time(self) -> Optional[int]:
        items = self.value.get("items", ()) if isinstance(self.value, dict) else [self.value]
        moves = [it[1] for it in items if isinstance(it, (list, tuple)) and len(it) == 2 and it[0] == "clock"]
        return moves[-1] if moves else None

    def explain(self, refused: Refused) -> Refused:
        path = refused.path
        part = at_path(self.value, path) if path is not None and refused.limit in (None, "kinds") else None
        return Refused(refused.code, path, refused.limit, part)


class OpeningJson(JsonLine):
    """The line of a script in JSON."""

    def ask(self, way: Way) -> Optional[bytes]:
        return way.open(self.raw)


class TextLine(Line):
    """A line of text; `text` is it in short, if something else is sent, such as a line of a journal with comments."""

    is_text = True

    def __init__(self, text: OneLine, raw: Optional[bytes] = None):
        self._text, self._is_short = text, raw is None
        self.raw = text.text.encode("utf-8") if raw is None else raw
        first, *rest = re.findall(r"[^ {]+", text.text[:40]) or [""]
        self.word = {"transaction": "tx"}.get(first, first)

    def time(self) -> Optional[int]:
        moved = re.fullmatch(r"clock ([0-9]+)", self._text.text)
        return int(moved[1]) if moved else None

    def explain(self, refused: Refused) -> Refused:
        if refused.place is None:
            return refused
        column = refused.place[1]
        return explained(refused, self._text.source, self._text.origin(column) if self._is_short else column - 1)


class TransactionText(Line):
    """A transaction as text, whose values have been put in. Its parts are looked for only if it is refused."""

    word = "tx"
    is_text = True

    def __init__(self, form: Form, values: Mapping[str, Value]):
        self.raw = form.with_values(values).encode("utf-8")
        self._form, self._values = form, values

    def time(self) -> Optional[int]:
        return None

    def explain(self, refused: Refused) -> Refused:
        return TextLine(self._form.one_line(self._values)).explain(refused)


class ObjectLine(TextLine):
    """The question for one object, in a rule base of texts. No line of text asks for it: the library has a call of its
    own, and the program shows the whole state."""

    def __init__(self, class_name: str, key: int):
        super().__init__(OneLine("show"))
        self._class_name, self._key = class_name, key

    def ask(self, way: Way) -> Optional[bytes]:
        if not way.has_get or self._key not in _KEYS or not _CLASS.fullmatch(self._class_name):
            return super().ask(way)
        self.is_text = False
        return way.get(self._class_name, self._key)

    def explain(self, refused: Refused) -> Refused:
        return refused
