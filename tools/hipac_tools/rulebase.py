"""A script as Python values: its classes, its rules, and its items.

Events, expressions and statements stay in their JSON form, as lists; `language` says what each form is made of. `read`
checks only the shape, so that the tools never fail on a malformed script. `./hipac-tools check` says what is wrong with
a script.
"""
from __future__ import annotations

import json
from dataclasses import dataclass
from typing import Any, Iterator, NoReturn, Union

from . import command, journal, language
from .language import Form
from .notation import reader
from .notation.tokens import NotText
from .positions import Node, find, line_and_column


class Refused(Exception):
    """The text isn't a script. The message says where, and which word says more."""

    status = command.REFUSED


class WrongShape(Refused):
    """A value of the script hasn't the shape of its place. `path` leads to it."""

    def __init__(self, path: str, at: str = ""):
        super().__init__(f"this is no script, at {at or path or '/'}: run ./hipac-tools check on it")
        self.path = path


class Unreadable(Refused):
    """A file that can't be read."""

    status = command.WRONG_WORDS


@dataclass(frozen=True)
class Class:
    """A class of objects: its fields with their kinds, in the script's order."""
    name: str
    fields: list[tuple[str, str]]


@dataclass(frozen=True)
class Query:
    """One query of a condition: the rows of a class for which the predicate is true. Of a `no` there are to be none."""
    name: str
    class_name: str
    predicate: Form
    is_no: bool = False


@dataclass(frozen=True)
class Let:
    """One `let` of a condition: a name for the value of an aggregate."""
    name: str
    aggregate: Form


Entry = Union[Query, Let]


@dataclass(frozen=True)
class Rule:
    """A rule: its event, its condition and its action, with the two couplings between them. If it is closed, a firing
    that fails vetoes."""
    name: str
    event: Form
    ec: str
    entries: list[Entry]
    ca: str
    action: list[Form]
    is_closed: bool = False

    @property
    def asked(self) -> list[tuple[str, Form]]:
        """The names of the condition's entries, each with what it asks: a predicate or an aggregate."""
        return [(entry.name, entry.aggregate if isinstance(entry, Let) else entry.predicate) for entry in self.entries]

    @property
    def detaches(self) -> bool:
        """Whether some task of the rule runs in a top-level transaction of its own."""
        return self.ec in language.DETACHED or self.ca in language.DETACHED


@dataclass(frozen=True)
class RuleBase:
    """A whole script. `depth` is None where the script gives none."""
    version: int
    depth: int | None
    classes: list[Class]
    rules: list[Rule]
    items: list[Form]

    @property
    def depth_limit(self) -> int:
        """How deep firings may nest."""
        return language.DEFAULT_DEPTH if self.depth is None else self.depth


def read(text: str) -> RuleBase:
    """The script that a text holds, in the notation or as JSON, or `Refused`."""
    if command.is_text(text.encode("utf-8", "replace")):
        return _read_notation(text)
    try:
        root = json.loads(text, parse_constant=_no_number)
        return _Reader().root(root)
    except (ValueError, RecursionError) as fault:
        raise Refused("this is no JSON text: run ./hipac-tools check on it") from fault


def value_of(text: str) -> Any:
    """The JSON value of a script that can be read, in the notation or as JSON."""
    return reader.read_text(text).value if command.is_text(text.encode("utf-8", "replace")) else json.loads(text)


def _read_notation(text: str) -> RuleBase:
    """A script in the notation. A value of a wrong shape is named by its line and column."""
    try:
        root = reader.read_text(text)
    except NotText as fault:
        raise WrongShape("", _told_at(text, fault.start)) from None
    try:
        return read_node(root)
    except WrongShape as fault:
        raise WrongShape(fault.path, _told_at(text, find(root, fault.path).node.start)) from None


def read_node(root: Node) -> RuleBase:
    """The script that a tree is; raises WrongShape."""
    return _Reader().root(root.value)


def _told_at(text: str, offset: int) -> str:
    line, column = line_and_column(text, offset)
    return f"line {line}:{column}"


def read_file(name: str, start: command.Start = command.PLAIN_START) -> RuleBase:
    """The script in a file, or `Refused`; of a journal the script of its accepted lines, which may have its own script
    in another file. `-` is standard input."""
    return read_text(name, text_of(name, start))


def read_text(name: str, text: str) -> RuleBase:
    """The script that the text of a file holds, or `Refused`."""
    try:
        return read(text)
    except Refused as fault:
        raise Refused(f"{command.shown(name)}: {fault}") from fault


def text_of(name: str, start: command.Start = command.PLAIN_START) -> str:
    """The text of the script in a file, or `Refused`."""
    shown = command.shown(name)
    try:
        content = command.bytes_of(name)
        ran = journal.run_if_one(content, start)
        if ran is not None:
            return ran.script_text
        if len(content) > command.MOST_BYTES:
            raise Refused(f"a script has at most {command.MOST_BYTES:,} bytes, and this has more")
        return content.decode("utf-8")
    except OSError as fault:
        raise Unreadable(command.unread(fault, name)) from fault
    except UnicodeDecodeError as fault:
        raise Refused(f"{shown}: this is no text in UTF-8: run ./hipac-tools check on it") from fault
    except (Refused, journal.NoJournal) as fault:
        raise Refused(f"{shown}: {fault}") from fault


def _no_number(word: str) -> NoReturn:
    """`NaN` and the like, which Python's reader accepts and JSON doesn't have."""
    raise ValueError(word)


class _Reader:
    """Turns JSON values into the parts of a script, and refuses each value of a wrong shape by its path."""

    def __init__(self) -> None:
        self.version = language.VERSIONS[0]
        self.tables = {"event": language.EVENTS}

    def root(self, value: Any) -> RuleBase:
        members = {"version", "classes", "rules", "items"}
        if not isinstance(value, dict) or set(value) - {"depth"} != members:
            self._refuse("")
        if type(value["version"]) is not int or value["version"] not in language.VERSIONS:
            self._refuse("/version")
        self.version = value["version"]
        self.tables["expression"] = language.expressions_of(self.version)
        self.tables["statement"] = language.statements_of(self.version)
        depth = value.get("depth")
        if "depth" in value:
            self._whole(depth, "/depth", 1, language.MOST_DEPTH)
        return RuleBase(
            version=self.version,
            depth=depth,
            classes=[self._class(one, path) for one, path in self._list(value["classes"], "/classes")],
            rules=[self._rule(one, path) for one, path in self._list(value["rules"], "/rules")],
            items=[self._item(one, path) for one, path in self._list(value["items"], "/items")])

    def _class(self, value: Any, path: str) -> Class:
        self._parts(value, path, 2)
        name = self._name(value[0], path + "/0")
        fields = []
        for field, place in self._list(value[1], path + "/1"):
            self._parts(field, place, 2)
            fields.append((self._name(field[0], place + "/0"), self._one_of(field[1], place + "/1", language.KINDS)))
        return Class(name, fields)

    def _rule(self, value: Any, path: str) -> Rule:
        is_closed = language.is_fourth(self.version) and isinstance(value, list) and len(value) == 7
        self._parts(value, path, 7 if is_closed else 6)
        modes = language.modes_of(self.version)
        name = self._name(value[0], path + "/0")
        self._form(value[1], path + "/1", "event", 1)
        ec = self._one_of(value[2], path + "/2", modes)
        entries = [self._entry(one, place) for one, place in self._list(value[3], path + "/3")]
        ca = self._one_of(value[4], path + "/4", modes)
        self._body(value[5], path + "/5", 1)
        if is_closed:
            self._one_of(value[6], path + "/6", (language.CLOSED,))
        return Rule(name, value[1], ec, entries, ca, value[5], is_closed)

    def _entry(self, value: Any, path: str) -> Entry:
        word = value[0] if language.is_fourth(self.version) and isinstance(value, list) and value else ""
        if word == "let":
            self._parts(value, path, 3)
            self._aggregate(value[2], path + "/2")
            return Let(self._name(value[1], path + "/1"), value[2])
        if word == "no":
            self._parts(value, path, 4)
            return Query(*self._over(value[1:], path, 1), True)
        self._parts(value, path, 3)
        return Query(*self._over(value, path, 0))

    def _over(self, parts: list[Any], path: str, first: int) -> tuple[str, str, Form]:
        """A name, a class and a predicate, of which the first has this number."""
        name, class_name = self._name(parts[0], f"{path}/{first}"), self._name(parts[1], f"{path}/{first + 1}")
        self._form(parts[2], f"{path}/{first + 2}", "expression", 1)
        return name, class_name, parts[2]

    def _aggregate(self, value: Any, path: str) -> None:
        """An aggregate, or an expression."""
        word = value[0] if isinstance(value, list) and value and isinstance(value[0], str) else ""
        if word not in language.AGGREGATES or value == ["count"]:
            self._form(value, path, "expression", 1)
            return
        self._parts(value, path, len(language.AGGREGATES[word]) + 1)
        if word == "next":
            self._name(value[1], path + "/1")
            return
        self._over(value[1:4], path, 1)
        for term in value[4:]:
            self._form(term, path + "/4", "expression", 1)

    def _item(self, value: Any, path: str) -> Form:
        self._parts(value, path, 2)
        if self._one_of(value[0], path, ("tx", "clock")) == "tx":
            self._body(value[1], path + "/1", 1)
        else:
            self._whole(value[1], path + "/1", 0, language.GREATEST)
        return value

    def _body(self, value: Any, path: str, level: int) -> None:
        for statement, place in self._list(value, path):
            self._form(statement, place, "statement", level)

    def _form(self, value: Any, path: str, sort: str, level: int) -> None:
        """An event, an expression or a statement, and all its parts."""
        if level > language.MOST_LEVELS:
            self._refuse(path)
        if sort == "expression" and not isinstance(value, list):
            self._literal(value, path)
            return
        table = self.tables[sort]
        if not isinstance(value, list) or not value or not isinstance(value[0], str) or value[0] not in table:
            self._refuse(path)
        sorts = language.sorts(table[value[0]])
        if len(value) - 1 not in language.counts(table[value[0]]):
            self._refuse(path)
        for position, (part, part_sort) in enumerate(zip(value[1:], sorts), 1):
            inner = level + 1 if part_sort in (sort, "body") else 1
            self._part(part, f"{path}/{position}", part_sort, inner)

    def _part(self, value: Any, path: str, sort: str, level: int) -> None:
        """One part of a form, by its sort in the tables."""
        if sort in ("event", "expression"):
            self._form(value, path, sort, level)
        elif sort == "aggregate":
            self._aggregate(value, path)
        elif sort == "body":
            self._body(value, path, level)
        elif sort == "name":
            self._name(value, path)
        elif sort == "pairs":
            for pair, place in self._list(value, path):
                self._parts(pair, place, 2)
                self._name(pair[0], place + "/0")
                self._form(pair[1], place + "/1", "expression", 1)
        elif sort == "arguments":
            for argument, place in self._list(value, path):
                self._form(argument, place, "expression", 1)
        else:
            self._whole(value, path, 1 if sort == language.PERIOD else 0,
                        language.MOST_PLACE if sort == language.PLACE else language.GREATEST)

    def _literal(self, value: Any, path: str) -> None:
        if isinstance(value, str):
            self._text(value, path)
        elif not isinstance(value, bool):
            self._whole(value, path, language.LEAST, language.GREATEST)

    def _text(self, value: str, path: str) -> None:
        """A text that can be written: half of a pair of surrogates can't."""
        if any("\ud800" <= character <= "\udfff" for character in value):
            self._refuse(path)

    def _whole(self, value: Any, path: str, least: int, largest: int) -> int:
        if isinstance(value, bool) or not isinstance(value, int) or not least <= value <= largest:
            self._refuse(path)
        return value

    def _name(self, value: Any, path: str) -> str:
        if not isinstance(value, str) or not language.is_name(value):
            self._refuse(path)
        return value

    def _one_of(self, value: Any, path: str, words: tuple[str, ...]) -> str:
        if not isinstance(value, str) or value not in words:
            self._refuse(path)
        return value

    def _parts(self, value: Any, path: str, count: int) -> None:
        if not isinstance(value, list) or len(value) != count:
            self._refuse(path)

    def _list(self, value: Any, path: str) -> Iterator[tuple[Any, str]]:
        if not isinstance(value, list):
            self._refuse(path)
        return ((part, f"{path}/{position}") for position, part in enumerate(value))

    def _refuse(self, path: str) -> NoReturn:
        raise WrongShape(path)


def numbered_items(rulebase: RuleBase) -> Iterator[tuple[Form, int, list[int]]]:
    """Each item with the number of its first unit in the report, and with its due moments, each of which is a unit."""
    events = [rule.event for rule in rulebase.rules]
    unit, clock = 1, 0
    for item in rulebase.items:
        moments = language.due_moments(events, clock, item[1]) if item[0] == "clock" else []
        yield item, unit, moments
        if item[0] == "clock":
            unit, clock = unit + len(moments), item[1]
        else:
            unit += 1
