"""The lines of an answer. Each pattern takes a whole line as the definition writes it, and nothing else."""

from __future__ import annotations

import json
import re
from typing import Callable, Dict, List, Optional, Tuple, Union

from .answers import (
    Act, Answer, Detached, Emit, Ending, Fire, Node, Object, ObjectOperation, RuleOperation, Sub, Unit, Value,
)
from .errors import AnswerFault, Refused

_NAME = r"[A-Za-z][A-Za-z0-9_]*"
_COUNT = r"(?:0|[1-9][0-9]*)"
_NUMBER = r"(?:0|-?[1-9][0-9]*)"
_TEXT = r'"(?:[^"\\\x00-\x1f]|\\["\\bfnrt]|\\u00[01][0-9a-f])*"'
_VALUE = rf"(?:{_NUMBER}|true|false|{_TEXT})"
_ROW = rf"(?: {_NAME}={_VALUE})*"
_CAUSE = rf"(?:A[1-8]|A9 {_NAME}(?: {_VALUE})?)"
_END = rf"(?:committed|aborted {_CAUSE})"
_MODE = "(?:immediate|deferred|separate|dependent|exclusive)"
_LIMIT = "(?:size|classes|fields|rules|expr|event|nesting|text|depth|args|moments)"

_OK = re.compile(rf"ok ({_COUNT})")
_OVER = rf"(?P<over>S5) (?P<limit>{_LIMIT})"
_REFUSED = re.compile(rf"refused (?:(?P<bare>S1|S6)|(?P<pathed>S[234]) (?P<path>/\S*)|{_OVER})")
_REFUSED_TEXT = re.compile(
    rf"refused (?:(?P<bare>S6)|(?P<placed>S[1-4]) (?P<line>{_COUNT}):(?P<column>{_COUNT})|{_OVER})")

_CHECKED = re.compile(rf"refused (S8) (?:(kinds(?: unit {_COUNT})?) (/\S*)|(depth))")

_UNIT = re.compile(rf"unit ({_COUNT})(?: time ({_COUNT}))? ({_END})")
_DETACHED = re.compile(rf"(separate|dependent|exclusive) ({_NAME}) ({_END})")
_EMIT = re.compile(rf"emit ({_VALUE})")
_OBJECT = re.compile(rf"object ({_NAME}) ({_NUMBER})({_ROW})")
_RULE = re.compile(rf"rule ({_NAME}) (absent|enabled|disabled)")
_FIELD = re.compile(rf" ({_NAME})=({_VALUE})")

_WRITE = re.compile(rf"op (create|update) ({_NAME}) ({_NUMBER})({_ROW})")
_DELETE = re.compile(rf"op (delete) ({_NAME}) ({_NUMBER})")
_ON_RULE = re.compile(rf"op (install|enable|disable|remove) ({_NAME})")
_SUB = re.compile(rf"sub ({_END})")
_FIRE = re.compile(
    rf"fire ({_NAME}) ({_MODE}) (?:(unsatisfied) none|(fault) ({_CAUSE}) none|(satisfied) (?:(later)|({_END})))")
_ACT = re.compile(rf"act ({_NAME}) ({_MODE}) ({_END})")


def value_of(text: str) -> Value:
    if text in ("true", "false"):
        return text == "true"
    return json.loads(text) if text.startswith('"') else int(text)


def fields_of(text: str) -> Dict[str, Value]:
    return {name: value_of(value) for name, value in _FIELD.findall(text)}


def ending_of(text: str) -> Ending:
    """`committed`, or the cause with or without `aborted` before it."""
    if text == "committed":
        return Ending()
    cause, *rule = text.removeprefix("aborted ").split(" ", 2)
    return Ending(cause, *rule[:1], *map(value_of, rule[1:]))


def fire_of(rule: str, mode: str, *parts: Optional[str]) -> Fire:
    unsatisfied, fault, cause, satisfied, later, end = parts
    node = Fire(rule, mode, unsatisfied or fault or satisfied or "", later=later is not None)
    node.fault = ending_of(cause) if cause else None
    node.action = ending_of(end) if end else None
    return node


# What each line of a tree becomes.
_NODES: Tuple[Tuple["re.Pattern[str]", Callable[..., Node]], ...] = (
    (_WRITE, lambda verb, name, key, fields: ObjectOperation(verb, name, int(key), fields_of(fields))),
    (_DELETE, lambda verb, name, key: ObjectOperation(verb, name, int(key))),
    (_ON_RULE, RuleOperation),
    (_EMIT, lambda value: Emit(value_of(value))),
    (_SUB, lambda end: Sub(ending_of(end))),
    (_FIRE, fire_of),
    (_ACT, lambda rule, mode, end: Act(rule, mode, ending_of(end))),
)


def node_of(text: str) -> Optional[Node]:
    for pattern, make in _NODES:
        found = pattern.fullmatch(text)
        if found:
            return make(*found.groups())
    return None


# What an answer is to a transaction that committed and emitted nothing: most are.
_PLAIN = b"unit %d committed\nok %d\n"
_COMMITTED = Ending()


def plain_unit(told: bytes, number: int) -> Optional[Unit]:
    """The unit of this number, if what is told is that it committed, and nothing else."""
    return Unit(number, None, _COMMITTED, [], None, []) if told == _PLAIN % (number, number) else None


class Reader:
    """Takes the lines of one answer in, and refuses what can't be the next one."""

    def __init__(self, count: int, trees: bool, is_text: bool = False):
        self._answer = Answer(count=count)
        self._trees = trees
        self._is_text = is_text
        # The transaction of the last heading, and the nodes of its tree that are open.
        self._transaction: Union[Unit, Detached, None] = None
        self._open: List[List[Node]] = []

    def take(self, line: str) -> Union[Answer, Refused, None]:
        """The whole answer where this is its last line."""
        word = line[:line.find(" ")]
        if word in ("ok", "refused"):
            last = self._last(line)
            if last is not None:
                return last
        elif self._TAKERS.get(word, Reader._node)(self, line):
            return None
        raise AnswerFault(f"{line[:200]!r} is no line of an answer here")

    def _last(self, line: str) -> Union[Answer, Refused, None]:
        ok = _OK.fullmatch(line)
        if ok and int(ok[1]) == self._answer.count:
            return self._answer
        if self._transaction is None and not self._has_state():
            return self._refused(line)
        return None

    def _refused(self, line: str) -> Optional[Refused]:
        """A refusal as it is written: its place is that in the line that was sent."""
        checked = _CHECKED.fullmatch(line)
        if checked:
            return Refused(checked[1], checked[3], checked[2] or checked[4])
        found = (_REFUSED_TEXT if self._is_text else _REFUSED).fullmatch(line)
        if found is None:
            return None
        if not self._is_text:
            return Refused(found["bare"] or found["pathed"] or found["over"], found["path"], found["limit"])
        place = (int(found["line"]), int(found["column"])) if found["placed"] else None
        return Refused(found["bare"] or found["placed"] or found["over"], None, found["limit"], None, place)

    def _has_state(self) -> bool:
        return bool(self._answer.state.objects or self._answer.state.rules)

    def _unit(self, line: str) -> bool:
        found = _UNIT.fullmatch(line)
        if found is None or int(found[1]) != self._answer.count + 1 or self._has_state():
            return False
        moment = None if found[2] is None else int(found[2])
        unit = Unit(int(found[1]), moment, ending_of(found[3]))
        self._answer.units.append(unit)
        self._answer.count += 1
        self._begin(unit)
        return True

    def _detached(self, line: str) -> bool:
        found = _DETACHED.fullmatch(line)
        if found is None or self._transaction is None:
            return False
        task = Detached(found[1], found[2], ending_of(found[3]))
        self._answer.units[-1].cascade.append(task)
        self._begin(task)
        return True

    def _begin(self, transaction: Union[Unit, Detached]) -> None:
        """What follows is of this transaction."""
        tree: List[Node] = []
        if self._trees:
            transaction.tree = tree
        self._transaction, self._open = transaction, [tree] if self._trees else []

    def _emit(self, line: str) -> bool:
        """An emit stands below the heading of what committed, before its tree."""
        found = _EMIT.fullmatch(line)
        if not found or self._transaction is None or not self._transaction.committed or self._transaction.tree:
            return False
        self._transaction.emits.append(value_of(found[1]))
        return True

    def _node(self, line: str) -> bool:
        """A node stands two columns right of the one that it is inside."""
        text = line.lstrip(" ")
        level, odd = divmod(len(line) - len(text), 2)
        node = node_of(text) if not odd and 1 <= level <= len(self._open) else None
        if node is None:
            return False
        del self._open[level:]
        self._open[-1].append(node)
        if isinstance(node, (Sub, Fire, Act)):
            self._open.append(node.items)
        return True

    def _object(self, line: str) -> bool:
        """The objects come before the rules, where no unit is told of."""
        found, state = _OBJECT.fullmatch(line), self._answer.state
        if found is None or self._transaction is not None or state.rules:
            return False
        state.objects.append(Object(found[1], int(found[2]), fields_of(found[3])))
        return True

    def _rule(self, line: str) -> bool:
        found, state = _RULE.fullmatch(line), self._answer.state
        if found is None or self._transaction is not None or found[1] in state.rules:
            return False
        state.rules[found[1]] = found[2]
        return True

    # What takes the lines that begin with these words. All others are of a tree, or wrong.
    _TAKERS: Dict[str, Callable[["Reader", str], bool]] = {
        "unit": _unit, "separate": _detached, "dependent": _detached, "exclusive": _detached, "emit": _emit,
        "object": _object, "rule": _rule,
    }


def read_answer(told: bytes, reader: Reader) -> Union[Answer, Refused]:
    """A whole answer."""
    try:
        lines = told.decode("utf-8").split("\n")
    except UnicodeDecodeError:
        raise AnswerFault(f"{told[:200]!r} is no UTF-8") from None
    for line in lines[:-1]:
        answer = reader.take(line)
        if answer is not None:
            return answer
    raise AnswerFault(f"{lines[-1][:200]!r} is no end of an answer")
