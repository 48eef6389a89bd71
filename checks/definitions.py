"""The definitions of hp_model in Python, plain and slow: events, states, expressions, aggregates and conditions.

A state is never changed but made anew, a rule's past is the whole list of what was signalled, and whether an event
occurs is read from that list each time (specs/Events.antt, State.antt, Expressions.antt, Conditions.antt). Nothing here
is taken from the tools, so that what they say can be compared with it. definitions_run.py runs whole scripts.
"""

import functools
from dataclasses import dataclass, replace
from typing import Any, Optional

MOST_COUNT = 2 ** 64 - 1
LEAST, GREATEST = -(2 ** 63), 2 ** 63 - 1


class Cause(Exception):
    """Why a statement aborts the innermost transaction around it (specs/Values.antt)."""


# ---- what is signalled

@dataclass(eq=False)
class Signal:
    """A primitive occurrence, or a firing by a statement (kind `fire`), with the state of each rule at it."""

    kind: str
    name: str = ""
    key: Optional[int] = None
    old: Optional[dict] = None
    new: Optional[dict] = None
    arguments: tuple = ()
    time: Optional[int] = None
    number: int = 0
    tick: int = 0
    within: Any = None
    path: str = ""
    depth: int = 0
    operation: Any = None
    rules: tuple = ()
    triggered: tuple = ()


# ---- events (specs/Events.antt)

@dataclass(frozen=True)
class Occurrence:
    parts: tuple
    count: int


def matches(pattern, signal):
    word = pattern[0]
    if word == "at":
        return signal.kind == "time" and signal.time == pattern[1]
    if word == "every":
        first, period = pattern[1:]
        return signal.kind == "time" and signal.time >= first and (signal.time - first) % period == 0
    return signal.kind == word and (word == "commit" or signal.name == pattern[1])


def mentions(event, signal):
    if event[0] in ("or", "seq", "closure"):
        return mentions(event[1], signal) or mentions(event[2], signal)
    return matches(event, signal)


def is_pure(event):
    return is_pure(event[1]) and is_pure(event[2]) if event[0] == "or" else event[0] not in ("seq", "closure")


def frozen(form):
    """A form of JSON as nested tuples."""
    return tuple(map(frozen, form)) if isinstance(form, list) else form


def occurrence_of(event, history):
    """The event's occurrence at the newest place of a history, if it occurs there."""
    if not history:
        return None
    word, *rest = event
    if word not in ("or", "seq", "closure"):
        return Occurrence(history[-1:], 1) if matches(event, history[-1]) else None
    first, second = rest
    if word == "or":
        return occurrence_of(first, history) or occurrence_of(second, history)
    return (_sequence_at if word == "seq" else _closure_at)(event, history)


@functools.lru_cache(maxsize=None)
def at_places(event, history):
    """At each place of a history, oldest first, the event's occurrence there, or None."""
    return at_places(event, history[:-1]) + (occurrence_of(event, history),) if history else ()


def _sequence_at(event, history):
    """The oldest earlier occurrence of the first event that no earlier occurrence of the sequence has taken."""
    _, first, second = event
    earlier = [one for one in at_places(first, history[:-1]) if one]
    taken = sum(1 for one in at_places(event, history[:-1]) if one)
    end = occurrence_of(second, history)
    if end is None or taken >= len(earlier):
        return None
    oldest = earlier[taken]
    return Occurrence(oldest.parts + end.parts, min(oldest.count + end.count, MOST_COUNT))


def _closure_at(event, history):
    """All occurrences of the first event since the last end, with the parts of the last of them."""
    _, first, second = event
    ends = [place for place, one in enumerate(at_places(second, history[:-1])) if one]
    gathered = [one for one in at_places(first, history[:-1])[ends[-1] + 1 if ends else 0:] if one]
    end = occurrence_of(second, history)
    if end is None or not gathered:
        return None
    return Occurrence(gathered[-1].parts + end.parts, min(sum(one.count for one in gathered), MOST_COUNT))


# ---- states (specs/State.antt)

@dataclass(frozen=True)
class RuleState:
    status: str = "absent"
    past: tuple = ()


@dataclass(frozen=True)
class State:
    objects: dict
    rules: tuple


def with_row(state, name, key, row):
    objects = dict(state.objects)
    if row is None:
        del objects[name, key]
    else:
        objects[name, key] = row
    return replace(state, objects=objects)


def with_rule(state, number, rule):
    return replace(state, rules=state.rules[:number] + (rule,) + state.rules[number + 1:])


def extended(signal, state):
    return replace(state, rules=tuple(replace(rule, past=rule.past + (signal,)) if rule.status == "enabled" else rule
                                      for rule in state.rules))


def operated_rule(verb, rule):
    """A rule's state after an operation (Firing.antt)."""
    if rule.status == "absent" and verb in ("enable", "disable"):
        raise Cause("A2")
    after = {"install": "enabled" if rule.status == "absent" else rule.status, "enable": "enabled",
             "disable": "disabled", "remove": "absent"}[verb]
    return rule if after == rule.status else RuleState(after)


# ---- expressions (specs/Expressions.antt)

def kind_of(value):
    return "bool" if isinstance(value, bool) else "int" if isinstance(value, int) else "text"


def of_kind(kind, value):
    if kind_of(value) != kind:
        raise Cause("A3")
    return value


def in_range(number):
    if not LEAST <= number <= GREATEST:
        raise Cause("A4")
    return number


def calculate(word, x, y):
    if word in ("/", "%"):
        if y == 0:
            raise Cause("A5")
        quotient = in_range(abs(x) // abs(y) * (-1 if (x < 0) != (y < 0) else 1))
        return quotient if word == "/" else x - quotient * y
    return in_range(x + y if word == "+" else x - y if word == "-" else x * y)


def compare(word, v, w):
    if kind_of(v) != kind_of(w) or (word not in ("=", "!=") and kind_of(v) == "bool"):
        raise Cause("A3")
    if kind_of(v) == "text":
        v, w = v.encode(), w.encode()
    return {"=": v == w, "!=": v != w, "<": v < w, "<=": v <= w, ">": v > w, ">=": v >= w}[word]


@dataclass(frozen=True)
class Environment:
    """`occurrence` is None in a transaction's own body. Rows are triples of class, key and fields. `values` are those
    of `let`s, and `now` is the clock's moment."""

    occurrence: Optional[Occurrence] = None
    rows: tuple = ()
    values: tuple = ()
    now: int = 0

    def bound(self, name, row):
        return replace(self, rows=((name, row),) + self.rows)

    def row(self, name):
        return next(row for bound, row in self.rows if bound == name)

    def let(self, name, value):
        return replace(self, values=((name, value),) + self.values)

    def value(self, name):
        return next(value for bound, value in self.values if bound == name)

    def part(self, number):
        if self.occurrence is None or number >= len(self.occurrence.parts):
            raise Cause("A6")
        return self.occurrence.parts[number]


def value_of(form, env):
    if not isinstance(form, list):
        return form
    word = form[0]
    if word in ("+", "-", "*", "/", "%"):
        v, w = value_of(form[1], env), value_of(form[2], env)
        return calculate(word, of_kind("int", v), of_kind("int", w))
    if word in ("=", "!=", "<", "<=", ">", ">="):
        v, w = value_of(form[1], env), value_of(form[2], env)
        return compare(word, v, w)
    if word in ("and", "or"):
        left = of_kind("bool", value_of(form[1], env))
        return left if left == (word == "or") else of_kind("bool", value_of(form[2], env))
    if word == "not":
        return not of_kind("bool", value_of(form[1], env))
    if word == "neg":
        return in_range(-of_kind("int", value_of(form[1], env)))
    if word == "value":
        return env.value(form[1])
    if word == "now":
        return in_range(env.now)
    return of_row(form, env) if word in ("of", "key") else of_occurrence(form, env)


def of_row(form, env):
    _, key, fields = env.row(form[1])
    return key if form[0] == "key" else field_in(fields, form[2])


def field_in(fields, name):
    if name not in fields:
        raise Cause("A3")
    return fields[name]


def of_occurrence(form, env):
    word = form[0]
    if word == "count":
        if env.occurrence is None:
            raise Cause("A6")
        return in_range(env.occurrence.count)
    part = env.part(form[1])
    if word in ("new", "old"):
        row = part.new if word == "new" else part.old
        if row is None:
            raise Cause("A6")
        return field_in(row, form[2])
    found = {"id": part.key, "time": part.time}.get(word)
    if word == "arg" and part.kind == "signal" and form[2] < len(part.arguments):
        found = part.arguments[form[2]]
    if found is None:
        raise Cause("A6")
    return found if word == "arg" else in_range(found)


# ---- aggregates (specs/Conditions.antt)

OVER_ROWS = ("count", "sum", "least", "greatest")


def rows_of(name, state):
    return [(name, key, row) for (on, key), row in sorted(state.objects.items(), key=lambda one: one[0]) if on == name]


def is_over_rows(aggregate):
    """Whether an aggregate is one over the rows of a class; `["count"]` alone is an expression."""
    return isinstance(aggregate, list) and aggregate[0] in OVER_ROWS and len(aggregate) > 1


def is_next(aggregate):
    return isinstance(aggregate, list) and aggregate[0] == "next"


def next_key(name, state):
    return in_range(max((key + 1 for _, key, _ in rows_of(name, state)), default=1))


def put_together(word, total, term):
    """The value of an aggregate over some rows and one more, of which it takes a term."""
    if word == "count":
        return total + 1
    if word == "sum":
        return in_range(total + of_kind("int", term))
    if kind_of(term) == "bool":
        raise Cause("A3")
    before = compare("<", term, term if total is None else total)
    after = compare(">", term, term if total is None else total)
    return term if total is None or (before if word == "least" else after) else total


# ---- conditions (specs/Conditions.antt)

@dataclass
class Asked:
    """An entry of a condition, or what a statement asks of a class, as it was asked: its name, the class and the
    predicate; the aggregate of a `let`; its environment, the rows of its class, and the answers of earlier entries.
    Then what was found: an answer, the value of a `let` (None for the least of no row), or a fault, with the row that
    met it."""

    word: str
    query: list
    aggregate: Any
    env: Environment
    rows: list
    answers: tuple
    answer: Optional[list] = None
    value: Any = None
    fault: str = ""
    fault_row: Any = None


def asked(name, on, predicate, env, state, answers=(), word="query"):
    """The answer of a query."""
    one = Asked(word, [name, on, predicate], None, env, rows_of(on, state), answers, [])
    for row in one.rows:
        try:
            if of_kind("bool", value_of(predicate, env.bound(name, row))):
                one.answer.append(row)
        except Cause as cause:
            one.fault, one.fault_row, one.answer = str(cause), row, None
            break
    return one


def asked_value(name, aggregate, env, state, answers=()):
    """The value of an aggregate."""
    if is_over_rows(aggregate):
        return _over_rows(name, aggregate, env, state, answers)
    rows = rows_of(aggregate[1], state) if is_next(aggregate) else []
    one = Asked("let", [name, None, None], aggregate, env, rows, answers)
    try:
        one.value = next_key(aggregate[1], state) if is_next(aggregate) else value_of(aggregate, env)
    except Cause as cause:
        one.fault = str(cause)
    return one


def _over_rows(name, aggregate, env, state, answers):
    word, row_name, on, predicate, *terms = aggregate
    one = Asked("let", [name, on, predicate], aggregate, env, rows_of(on, state), answers, [])
    one.value = 0 if word in ("count", "sum") else None
    for row in one.rows:
        here = env.bound(row_name, row)
        try:
            if of_kind("bool", value_of(predicate, here)):
                one.value = put_together(word, one.value, value_of(terms[0], here) if terms else 1)
                one.answer.append(row)
        except Cause as cause:
            one.fault, one.fault_row, one.answer = str(cause), row, None
            break
    return one


# ---- texts of values, as the report has them

def text_of(value):
    if isinstance(value, bool):
        return "true" if value else "false"
    return str(value) if isinstance(value, int) else '"' + "".join(map(_escaped, value)) + '"'


def _escaped(sign):
    short = {'"': '\\"', "\\": "\\\\", "\b": "\\b", "\f": "\\f", "\n": "\\n", "\r": "\\r", "\t": "\\t"}
    return short.get(sign) or (f"\\u{ord(sign):04x}" if sign < " " else sign)
