"""Scripts, and the lines of their rule bases. A rule base has all its lines in one notation: in JSON, or as texts."""

from __future__ import annotations

import json
import os
import re
from dataclasses import dataclass
from pathlib import Path
from typing import Any, Dict, Iterator, List, Mapping, Optional, Sequence, Tuple, Union

from .answers import Object
from .errors import Refused
from .lines import MOST_BYTES, JsonLine, Line, ObjectLine, OpeningJson, TextLine, json_text
from .texts import BEGINS_TEXT, OneLine, explained, text_name, text_value
from .ways import Way

Script = Union[Mapping[str, Any], str, bytes, "os.PathLike[str]"]
"""A script: its JSON as a dict, its JSON text, or the path of its file (a `Path`; a str is always JSON text)."""

Rules = Union[str, bytes, "os.PathLike[str]"]
"""A script as text in the notation, or the path of its file (a `Path`; a str is always the text itself)."""

PATH_HINT = " (the path of a file is given as a Path)"


def no_doubles(pairs: List[Tuple[str, Any]]) -> Dict[str, Any]:
    members = dict(pairs)
    if len(members) != len(pairs):
        raise ValueError("a member of the script stands there twice")
    return members


def script_value(script: Script) -> Any:
    """The JSON value of a script."""
    if isinstance(script, Mapping):
        return dict(script)
    text = Path(script).read_bytes() if isinstance(script, os.PathLike) else script
    try:
        return json.loads(text, object_pairs_hook=no_doubles)
    except json.JSONDecodeError as fault:
        hint = "" if isinstance(script, os.PathLike) else PATH_HINT
        if BEGINS_TEXT.match(text if isinstance(text, bytes) else text.encode("utf-8", "replace")):
            hint += " (a text in the notation is given as rules=)"
        raise ValueError(f"the script is no JSON text: {fault}{hint}") from None


@dataclass(frozen=True)
class Event:
    """The event of a rule: its patterns in JSON, and whether what it remembers of the past decides when it occurs."""

    patterns: List[List[Any]]
    is_composite: bool

    def difference(self) -> Optional[str]:
        """Why an enabled rule with this event doesn't go on in a snapshot as before."""
        if self.is_composite:
            return "loses its past"
        if any(pattern[0] == "commit" for pattern in self.patterns):
            return "fires once more, at the end of the snapshot's own transaction"
        return None


class Lines:
    """The script of a rule base, and how the lines of that rule base are written."""

    is_text: bool
    words: List[str]
    """The words of the command line that go with the script."""
    is_sent = True
    """Whether the script is sent as the first line, and not read by the program from its file."""

    def opening(self) -> Line:
        """The line of the script."""
        raise NotImplementedError

    def kept(self, raw: bytes) -> Line:
        """A later line as it stands in a journal."""
        raise NotImplementedError

    def item(self, item: Any) -> Line:
        raise NotImplementedError

    def show(self, *part: Any) -> Line:
        """The question for the state, or for a part of it."""
        raise NotImplementedError

    def is_same(self, other: "Lines") -> bool:
        """Whether the other one is the same script."""
        raise NotImplementedError

    def has_changed(self) -> bool:
        """Whether the file of the script has changed since it was read."""
        return False

    def events(self) -> Dict[str, Event]:
        """The events of the rules by their names, in the script's order."""
        raise NotImplementedError

    def create(self, thing: Object) -> Any:
        """The statement that creates an object."""
        raise NotImplementedError

    def on_rule(self, word: str, name: str) -> Any:
        """The statement that installs a rule, say."""
        raise NotImplementedError

    def transaction(self, statements: List[Any]) -> Any:
        """The item that is a transaction."""
        raise NotImplementedError

    def clock(self, time: int) -> Any:
        """The item that moves the clock."""
        raise NotImplementedError

    def without_items(self) -> "Lines":
        """The script without its own items."""
        raise NotImplementedError

    def lines_with(self, items: List[Any]) -> List[bytes]:
        """The lines of the script with these items before its own: one, or several if that is too long."""
        raise NotImplementedError

    def size(self, part: Any) -> int:
        """How many bytes a statement has."""
        raise NotImplementedError


class JsonScript(Lines):
    """A script in JSON; its items and statements are lists."""

    is_text = False

    def __init__(self, script: Script):
        self.value = script_value(script)
        self.words = []

    def opening(self) -> Line:
        return OpeningJson(self.value)

    def kept(self, raw: bytes) -> Line:
        try:
            value = json.loads(raw)
        except (ValueError, RecursionError):
            value = None
        return JsonLine(value, raw)

    def item(self, item: Any) -> Line:
        return JsonLine(item)

    def show(self, *part: Any) -> Line:
        return JsonLine(["show", *part])

    def is_same(self, other: Lines) -> bool:
        return isinstance(other, JsonScript) and self.value == other.value

    def events(self) -> Dict[str, Event]:
        return {rule[0]: Event(list(_patterns(rule[1])), _is_composite(rule[1])) for rule in self.value["rules"]}

    def create(self, thing: Object) -> Any:
        return ["create", thing.class_name, thing.key, [list(pair) for pair in thing.fields.items()]]

    def on_rule(self, word: str, name: str) -> Any:
        return [word, name]

    def transaction(self, statements: List[Any]) -> Any:
        return ["tx", statements]

    def clock(self, time: int) -> Any:
        return ["clock", time]

    def without_items(self) -> Lines:
        return JsonScript({**self.value, "items": []})

    def lines_with(self, items: List[Any]) -> List[bytes]:
        all_items = [*items, *self.value["items"]]
        whole = JsonLine({**self.value, "items": all_items}).raw
        if len(whole) <= MOST_BYTES:
            return [whole]
        return [JsonLine(it).raw for it in ({**self.value, "items": []}, *all_items)]

    def size(self, part: Any) -> int:
        return len(json_text(part).encode("utf-8"))


def _patterns(event: Sequence[Any]) -> Iterator[List[Any]]:
    """The patterns of an event."""
    if event[0] in ("or", "seq", "closure"):
        for part in event[1:]:
            yield from _patterns(part)
    else:
        yield list(event)


def _is_composite(event: Sequence[Any]) -> bool:
    return event[0] in ("seq", "closure") or event[0] == "or" and any(map(_is_composite, event[1:]))


class OpeningText(Line):
    """The line of a script as text. If the script is a file's, the program reads it there, the library is given what
    the file has, and places are in the file."""

    is_text = True

    def __init__(self, script: "TextScript"):
        self._script = script
        self.raw = script.text.text.encode("utf-8")

    def ask(self, way: Way) -> Optional[bytes]:
        return way.open(self.raw if self._script.file is None else self._script.file)

    def time(self) -> Optional[int]:
        return self._script.time()

    def explain(self, refused: Refused) -> Refused:
        if refused.place is None:
            return refused
        source, (line, column) = self._script.text.source, refused.place
        if self._script.path is None:
            return explained(refused, source, self._script.text.origin(column))
        before = source.split("\n")[:line - 1]
        return explained(refused, source, sum(len(it) + 1 for it in before) + column - 1)


class TextScript(Lines):
    """A script as text, perhaps in a file; its items and statements are texts."""

    is_text = True

    def __init__(self, rules: Rules):
        self.path = Path(rules) if isinstance(rules, os.PathLike) else None
        self.file = None if self.path is None else self.path.read_bytes()
        """What the file has."""
        content = rules if self.file is None else self.file
        # Where the bytes of a file are no UTF-8 the program refuses it.
        how = "strict" if self.path is None else "replace"
        text = content.decode("utf-8", how) if isinstance(content, bytes) else str(content)
        if self.path is None and re.fullmatch(r"\S*", text):
            raise ValueError(f"the rules are no text in the notation{PATH_HINT}")
        self.text = OneLine(text)
        self.words = ["--text"] + ([] if self.path is None else ["--script", os.path.abspath(self.path)])
        self.is_sent = self.path is None
        self._parts = _begins_of_parts(self.text.tokens)

    def has_changed(self) -> bool:
        return self.path is not None and self.path.read_bytes() != self.file

    def time(self) -> Optional[int]:
        """Where the script's own items leave the clock."""
        tokens = self.text.tokens
        moves = [tokens[at + 1] for at in self._parts if tokens[at] == "clock" and at + 1 < len(tokens)]
        return int(moves[-1]) if moves and moves[-1].isdigit() else None

    def opening(self) -> Line:
        return OpeningText(self)

    def kept(self, raw: bytes) -> Line:
        return TextLine(OneLine(raw.decode("utf-8", "replace")), raw)

    def item(self, item: Any) -> Line:
        if not isinstance(item, str):
            raise TypeError("this rule base is given texts (rules=): its items are texts, and its transactions those "
                            "of `transaction`")
        return TextLine(OneLine(item))

    def show(self, *part: Any) -> Line:
        return ObjectLine(*part) if len(part) == 2 else TextLine(OneLine("show"))

    def is_same(self, other: Lines) -> bool:
        return isinstance(other, TextScript) and self.text.tokens == other.text.tokens

    def events(self) -> Dict[str, Event]:
        tokens = self.text.tokens
        rules = [at for at in self._parts if tokens[at] == "rule"]
        return {tokens[at + 1].strip("`"): _text_event(tokens[tokens.index("on", at + 2) + 1:]) for at in rules}

    def create(self, thing: Object) -> Any:
        pairs = [f"{text_name(name)} = {text_value(value)}" for name, value in thing.fields.items()]
        row = " set " + ", ".join(pairs) if pairs else ""
        return f"create {text_name(thing.class_name)}({thing.key}){row}"

    def on_rule(self, word: str, name: str) -> Any:
        return f"{word} {text_name(name)}"

    def transaction(self, statements: List[Any]) -> Any:
        return "transaction { " + " ".join(statements) + " }" if statements else "transaction {}"

    def clock(self, time: int) -> Any:
        return f"clock {time}"

    def _divided(self) -> List[str]:
        """The script without its items, and its items."""
        tokens, line = self.text.tokens, self.text.text
        begins = [self.text.starts[at] for at in self._parts if tokens[at] in ("transaction", "clock")]
        return [line[begin:end].strip() for begin, end in zip([0, *begins], [*begins, len(line)])]

    def without_items(self) -> Lines:
        return TextScript(self._divided()[0])

    def lines_with(self, items: List[Any]) -> List[bytes]:
        head, *own = self._divided()
        parts = [head, *items, *own]
        whole = " ".join(parts).encode("utf-8")
        return [whole] if len(whole) <= MOST_BYTES else [part.encode("utf-8") for part in parts]

    def size(self, part: Any) -> int:
        return len(part.encode("utf-8"))


def _begins_of_parts(tokens: List[str]) -> List[int]:
    """Where the classes, rules and items begin. Before each, at no depth, stands a number or a closing brace."""
    begins, depth = [], 0
    for at, token in enumerate(tokens):
        follows = depth == 0 and at > 0 and (tokens[at - 1] == "}" or tokens[at - 1].isdigit())
        if follows and token in ("class", "rule", "transaction", "clock"):
            begins.append(at)
        depth += (token == "{") - (token == "}")
    return begins


def _text_event(tokens: List[str]) -> Event:
    """The event with which these tokens begin."""
    patterns: List[List[Any]] = []
    is_composite, left = False, iter(tokens)
    for word in left:
        if word in ("create", "update", "delete", "signal"):
            patterns.append([word, next(left)])
        elif word == "moment":
            patterns.append(["at", int(next(left))])
        elif word == "every":
            period, _, first = int(next(left)), next(left), int(next(left))
            patterns.append(["every", first, period])
        elif word == "commit":
            patterns.append([word])
        elif word in ("then", "closure"):
            is_composite = True
        elif word in ("if", "do", "immediate", "deferred", "separate", "dependent", "exclusive"):
            break
    return Event(patterns, is_composite)


def lines_of(script: Optional[Script], rules: Optional[Rules]) -> Optional[Lines]:
    """The script that is given, if any."""
    if script is not None and rules is not None:
        raise TypeError("a script is given in JSON, or as a text by rules=, and not twice")
    if isinstance(script, Lines):
        return script
    if rules is not None:
        return TextScript(rules)
    return None if script is None else JsonScript(script)
