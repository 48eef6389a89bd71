"""What is known of an expression's value without running anything: its kinds, and the range of an integer.

`Reader.value` evaluates an expression over what is known, in the program's order, and collects each place at which the
evaluation may end with one of A3 to A6. `assume` adds what a test says of the values that it compares.
"""

from __future__ import annotations

from dataclasses import dataclass, field, replace
from functools import reduce
from typing import Callable, Mapping, Optional

from ..language import GREATEST, HAVING, KINDS, LEAST, LEAVES, Form
from ..positions import Node
from .faults import Place

INT, BOOL, TEXT = (frozenset((kind,)) for kind in KINDS)
MOST_COUNT = 2 ** 62
"""No run is so long that an occurrence counts more."""


@dataclass(frozen=True)
class Value:
    """All values that an expression may have: of these kinds, and if integers, in this range. Without a kind there is
    no value, as the evaluation always ends with a cause."""

    kinds: frozenset[str]
    least: int = LEAST
    most: int = GREATEST

    def joined(self, other: Value) -> Value:
        return Value(self.kinds | other.kinds, min(self.least, other.least), max(self.most, other.most))

    def met(self, other: Value) -> Value:
        return Value(self.kinds & other.kinds, max(self.least, other.least), min(self.most, other.most))


ANY, NONE, TRUTH, WHOLE = Value(frozenset(KINDS)), Value(frozenset()), Value(BOOL), Value(INT)
OF_KIND = dict(zip(KINDS, (WHOLE, TRUTH, Value(TEXT))))


@dataclass(frozen=True)
class Risk:
    """An expression at which the evaluation may end with a cause; `words` say of it what leads there."""

    place: Place
    cause: str
    words: str


@dataclass(frozen=True)
class Known:
    """What may be named at a place of a rule or a transaction, and what is known of it."""

    shapes: Optional[tuple[tuple[Form, ...], ...]] = ()
    """The simple events that the parts of the occurrence may be: none for a transaction's own body, None if they are
    very many."""
    rows: Mapping[str, str] = field(default_factory=dict)
    """The class of each row."""
    values: Mapping[str, Value] = field(default_factory=dict)
    """The values of each `let`."""
    bounds: Mapping[str, Value] = field(default_factory=dict)
    """What tests said of such values, by their forms."""

    def with_row(self, name: str, of: str) -> Known:
        return replace(self.without(name), rows={**self.rows, name: of})

    def with_value(self, name: str, value: Value) -> Known:
        return replace(self.without(name), values={**self.values, name: value})

    def without(self, name: str) -> Known:
        """The same without what tests said of a row or a `let`, as another one gets its name."""
        kept = {text: value for text, value in self.bounds.items() if f"'{name}'" not in text}
        return replace(self, bounds=kept)


NOT = {"=": "!=", "!=": "=", "<": ">=", ">=": "<", ">": "<=", "<=": ">"}
TURNED = {"=": "=", "!=": "!=", "<": ">", ">": "<", "<=": ">=", ">=": "<="}


class Reader:
    """Evaluates expressions of a script with these classes. `arguments` gives what is known of a signal's argument, or
    None if it may be missing."""

    def __init__(self, classes: Mapping[str, Mapping[str, str]],
                 arguments: Callable[[str, int], Optional[Value]]) -> None:
        self.classes = classes
        self.arguments = arguments
        self.risks: list[Risk] = []
        self.is_quiet = False
        """Whether risks don't matter at present."""

    # Expressions

    def value(self, place: Place, known: Known) -> Value:
        """The values of an expression; the risks in it are added to `risks`."""
        form = place.node.value
        if not isinstance(form, list):
            return literal(form)
        word = form[0]
        if word in ("and", "or"):
            return self._decided(place, known)
        if word in LEAVES:
            found = self._leaf(place, known)
            return found.met(known.bounds[repr(form)]) if repr(form) in known.bounds else found
        operands = [self.value(place.item(number), known) for number in range(1, len(form))]
        if not all(operand.kinds for operand in operands):
            return NONE
        if word == "not":
            return self.of_kind(place.item(1), operands[0], BOOL, TRUTH)
        if word in NOT:
            return self._compared(place, operands)
        return self._computed(place, operands)

    def truth(self, place: Place, known: Known) -> None:
        """A predicate or a test, which must be a boolean."""
        self.of_kind(place, self.value(place, known), BOOL, TRUTH)

    def of_kind(self, place: Place, value: Value, wanted: frozenset[str], result: Value) -> Value:
        """The result of a form that asks for a value of this kind."""
        if value.kinds - wanted:
            (kind,) = wanted
            self.risk(place, "A3", f"isn't of kind {kind}")
        return result if value.kinds & wanted else NONE

    def risk(self, place: Place, cause: str, words: str) -> None:
        if not self.is_quiet:
            self.risks.append(Risk(place, cause, words))

    def _decided(self, place: Place, known: Known) -> Value:
        """`and` and `or`: the right side is evaluated only if the left doesn't decide."""
        self.truth(place.item(1), known)
        is_left = place.node.value[0] == "and"
        self.truth(place.item(2), self.assume(place.item(1).node.value, is_left, known))
        return TRUTH

    def _compared(self, place: Place, operands: list[Value]) -> Value:
        left, right = (operand.kinds for operand in operands)
        fits = {INT, TEXT} if place.node.value[0] not in ("=", "!=") else {INT, BOOL, TEXT}
        if left in fits and left == right:
            return TRUTH
        unsure = 1 if left not in fits or right in fits else 2
        self.risk(place.item(unsure), "A3", "isn't of the kind that it is compared with")
        return TRUTH if left & right else NONE

    def _computed(self, place: Place, operands: list[Value]) -> Value:
        for number, operand in enumerate(operands, 1):
            if self.of_kind(place.item(number), operand, INT, WHOLE) is NONE:
                return NONE
        if place.node.value[0] in ("/", "%"):
            return self._divided(place, *operands)
        least, most = RANGES[place.node.value[0]](*operands)
        if least < LEAST or most > GREATEST:
            self.risk(place, "A4", "leaves 64 bits")
        return Value(INT, max(least, LEAST), min(most, GREATEST))

    def _divided(self, place: Place, left: Value, right: Value) -> Value:
        if right.least <= 0 <= right.most:
            self.risk(place.item(2), "A5", "is 0")
        if left.least == LEAST and right.least <= -1 <= right.most:
            self.risk(place, "A4", "leaves 64 bits")
        divisors = [one for one in (right.least, right.most, -1, 1) if one and right.least <= one <= right.most]
        if not divisors:
            return NONE
        if place.node.value[0] == "/":
            quotients = [quotient(one, other) for one in (left.least, left.most) for other in divisors] + [0]
            return Value(INT, max(min(quotients), LEAST), min(max(quotients), GREATEST))
        most = max(abs(one) for one in divisors) - 1
        return Value(INT, max(-most, min(left.least, 0)), min(most, max(left.most, 0)))

    # Rows and occurrences

    def _leaf(self, place: Place, known: Known) -> Value:
        """A value of a row, a `let`, the clock or the occurrence. What always ends with a cause has a warning of its
        own."""
        word, *parts = place.node.value
        if word == "now":
            return Value(INT, 0)
        if word == "value":
            return known.values[parts[0]]
        if word == "key":
            return WHOLE
        if word == "count":
            return NONE if known.shapes == () else Value(INT, 0, MOST_COUNT)
        if word == "of":
            kind = self.classes[known.rows[parts[0]]].get(parts[1])
            return OF_KIND[kind] if kind else NONE
        return self._of_part(place, word, parts, known)

    def _of_part(self, place: Place, word: str, parts: list[Form], known: Known) -> Value:
        if known.shapes is None:
            return ANY
        there = [shape[parts[0]] for shape in known.shapes if parts[0] < len(shape)]
        having = [pattern for pattern in there if pattern[0] in HAVING[word]]
        found = [self._in_pattern(word, parts, pattern) for pattern in having]
        values = [ANY if one is None else one for one in found if one is not NONE]
        if not values:
            return NONE
        if len(having) < len(known.shapes) or None in found:
            self.risk(place, "A6", "is missing")
        if NONE in found:
            self.risk(place, "A3", "is a field that the class lacks")
        return reduce(Value.joined, values)

    def _in_pattern(self, word: str, parts: list[Form], pattern: Form) -> Optional[Value]:
        """The value in a part that is such a simple event; None if it may be missing."""
        if word in ("new", "old"):
            kind = self.classes[pattern[1]].get(parts[1])
            return OF_KIND[kind] if kind else NONE
        if word == "arg":
            return self.arguments(pattern[1], parts[1])
        if word == "id":
            return WHOLE
        return Value(INT, pattern[1], pattern[1] if pattern[0] == "at" else GREATEST)

    # Tests

    def assume(self, test: Form, holds: bool, known: Known) -> Known:
        """What is known where a test was evaluated and is true, or false."""
        if not isinstance(test, list):
            return known
        word = test[0]
        if word == "not":
            return self.assume(test[1], not holds, known)
        if word in ("and", "or"):
            both = holds == (word == "and")
            return self.assume(test[2], holds, self.assume(test[1], holds, known)) if both else known
        if word not in NOT or not any(map(is_leaf, test[1:])):
            return known
        word = word if holds else NOT[word]
        left, right = (self._quiet(side, known) for side in test[1:])
        known = bounded(known, test[1], narrowed(word, left, right))
        return bounded(known, test[2], narrowed(TURNED[word], right, left))

    def _quiet(self, form: Form, known: Known) -> Value:
        """The values of an expression whose risks were collected already."""
        return Reader(self.classes, self.arguments).value(at_form(form), known)


def literal(value: Form) -> Value:
    if isinstance(value, bool):
        return TRUTH
    return Value(TEXT) if isinstance(value, str) else Value(INT, value, value)


def quotient(left: int, right: int) -> int:
    """The quotient, rounded towards zero."""
    return abs(left) // abs(right) * (1 if (left < 0) == (right < 0) else -1)


def _product(left: Value, right: Value) -> tuple[int, int]:
    ends = [one * other for one in (left.least, left.most) for other in (right.least, right.most)]
    return min(ends), max(ends)


RANGES: dict[str, Callable[..., tuple[int, int]]] = {
    "+": lambda left, right: (left.least + right.least, left.most + right.most),
    "-": lambda left, right: (left.least - right.most, left.most - right.least),
    "*": _product,
    "neg": lambda value: (-value.most, -value.least),
}
"""The range of an operator's results, before they are taken into 64 bits."""


def narrowed(word: str, left: Value, right: Value) -> Value:
    """The values on the left of a comparison that holds. Both sides are of one kind, or it would have ended."""
    if left.kinds & right.kinds != INT:
        return Value(left.kinds & right.kinds, left.least, left.most)
    if word == "!=":
        is_one = right.least == right.most
        least = left.least + 1 if is_one and left.least == right.least else left.least
        return Value(INT, least, left.most - 1 if is_one and left.most == right.most else left.most)
    least = {"=": right.least, ">=": right.least, ">": right.least + 1}.get(word, LEAST)
    most = {"=": right.most, "<=": right.most, "<": right.most - 1}.get(word, GREATEST)
    return left.met(Value(INT, least, most))


def bounded(known: Known, form: Form, value: Value) -> Known:
    """What is known with a bound on a value."""
    if not is_leaf(form) or not value.kinds or value.least > value.most:
        return known
    return replace(known, bounds={**known.bounds, repr(form): value})


def is_leaf(form: Form) -> bool:
    """Whether a form takes a value from something else than expressions."""
    return isinstance(form, list) and form[0] in LEAVES


def at_form(form: Form) -> Place:
    """A form as a place, where no place in the text is asked for."""
    items = [at_form(part).node for part in form] if isinstance(form, list) else []
    return Place(Node(form, 0, 0, items))
