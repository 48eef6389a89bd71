"""Guards, which are the rules that veto: where an expression may end with a fault before the veto is reached.

A fault in a condition means no action, and one in an action undoes the action alone. So the transaction commits that
the rule was to refuse. Inside a `sub` whose second body vetoes, a fault leads to that veto, and so it does in a closed
rule.
"""

from __future__ import annotations

from dataclasses import dataclass, field, replace
from typing import Iterable, Mapping, Optional

from ..language import (
    GREATEST, LEAST, RULE_OPERATIONS, Form, is_next, is_single, over, shapes, statements,
)
from ..notation.statement_texts import aggregate_text
from ..wording import counted
from .faults import Place
from .forms import Forms, RULE
from .intervals import ANY, BOOL, INT, OF_KIND, TEXT, WHOLE, Known, Reader, Value
from .parts import first_word
from .scope import Scope

Kinds = Mapping[str, Mapping[str, str]]
"""Of each class the kinds of its fields."""

OF_FIELD = {"int": INT, "bool": BOOL, "text": TEXT}


def hint_of_faults(rules: Iterable[list[Place]], items: Place, kinds: Kinds, is_live: bool, scope: Scope) -> None:
    """A hint for each guard at the first expression that may end with a fault where a veto may follow. A closed one
    vetoes then."""
    rules, forms = list(rules), scope.forms
    guards = [parts for parts in rules if has_veto(parts[5].node.value) and len(parts) == len(RULE.parts)]
    if not guards:
        return
    signals = Signals(is_open=is_live)
    if not is_live:
        signals.hear(rules, items, kinds, forms)
    for parts in guards:
        walk = Walk(Reader(kinds, signals.argument), forms)
        walk.rule(parts)
        if walk.reader.risks:
            scope.gathered.hint(walk.reader.risks[0].place, *told(parts, walk.reader, forms))


def told(parts: list[Place], reader: Reader, forms: Forms) -> tuple[str, str]:
    """The hint for a guard, and what helps."""
    first, others = reader.risks[0], len({risk.place.path for risk in reader.risks}) - 1
    text = aggregate_text(first.place.node.value)
    message = f"`{parts[0].node.value}` doesn't veto if `{text}` {first.words} ({first.cause})"
    more = [f"{counted(others, 'more expression')} of it may end with a fault"] if others else []
    dialect = first.place.dialect
    return message, "\n".join(more + [dialect.if_closed if forms.is_fourth else dialect.in_a_sub])


def has_veto(body: list[Form]) -> bool:
    return any(statement[0] == "veto" for statement in statements(body))


@dataclass
class Signals:
    """What is known of the arguments of signals. If it is open, any transaction may signal with any arguments."""

    is_open: bool
    values: dict[str, list[Value]] = field(default_factory=dict)
    fewest: dict[str, int] = field(default_factory=dict)

    def hear(self, rules: list[list[Place]], items: Place, kinds: Kinds, forms: Forms) -> None:
        """Gathers the signals of a whole script. Of an argument that is taken from another signal nothing is known."""
        for parts in rules:
            Walk(Reader(kinds, lambda name, number: ANY), forms, self).rule(parts)
        walk = Walk(Reader(kinds, lambda name, number: ANY), forms, self)
        for item in items.items():
            if item.node.value[0] == "tx":
                walk.body(item.item(1), Known(), Stakes())

    def add(self, name: str, arguments: list[Value]) -> None:
        former = self.values.get(name, [])
        joined = [one.joined(other) for one, other in zip(former, arguments)]
        self.values[name] = joined + former[len(joined):] + arguments[len(joined):]
        self.fewest[name] = min(self.fewest.get(name, len(arguments)), len(arguments))

    def argument(self, name: str, number: int) -> Optional[Value]:
        """The values of a signal's argument; None if it may be missing."""
        if self.is_open or number >= self.fewest.get(name, number + 1):
            return None
        return self.values[name][number] if name in self.values else ANY


@dataclass(frozen=True)
class Stakes:
    """What a fault at a place means: whether a veto may follow in the same transaction, and whether a fault leads to a
    veto anyway."""

    is_veto_later: bool = False
    is_closed: bool = False


class Walk:
    """Goes over a rule or a body, and evaluates all expressions. Only risks that may prevent a veto are kept."""

    def __init__(self, reader: Reader, forms: Forms, signals: Optional[Signals] = None) -> None:
        self.reader = reader
        self.forms = forms
        self.signals = signals
        self.predicates: dict[str, Form] = {}

    def rule(self, parts: list[Place]) -> None:
        """The condition of a rule, and then its action."""
        possible = shapes(parts[1].node.value)
        known = Known(None if possible is None else tuple(possible))
        self.reader.is_quiet = False
        for entry in parts[3].items():
            known = self._entry(entry, known)
        self.body(parts[5], known, Stakes())

    def _entry(self, entry: Place, known: Known) -> Known:
        """One entry of a condition; what is known after it."""
        word = first_word(entry.node)
        if word == "no" and word in self.forms.entries.words:
            self._rows(entry, known)
            return known
        if word == "let" and word in self.forms.entries.words:
            return known.with_value(entry.node.value[1], self._aggregate(entry.item(2), known, True))
        name, of, predicate = entry.node.value
        known = known.with_row(name, of)
        self.reader.truth(entry.item(2), known)
        self.predicates[name] = predicate
        return self.reader.assume(predicate, True, known)

    def _rows(self, place: Place, known: Known) -> Known:
        """The variable, the class and the predicate of `no` or of an aggregate; what is known of a row that meets
        it."""
        _, name, of, predicate, *_ = place.node.value
        inner = known.with_row(name, of)
        self.reader.truth(place.item(3), inner)
        return self.reader.assume(predicate, True, inner)

    def _aggregate(self, place: Place, known: Known, is_entry: bool) -> Value:
        """The values of an aggregate. In an entry the least of no row is no fault."""
        aggregate = place.node.value
        if is_single(aggregate):
            return self.reader.value(place, known)
        if is_next(aggregate):
            self.reader.risk(place, "A4", "leaves 64 bits")
            return WHOLE
        rows, inner = over(aggregate), self._rows(place, known)
        if rows is None or rows.term is None:
            return Value(INT, 0)
        term, values = place.item(4), self.reader.value(place.item(4), inner)
        if aggregate[0] == "sum":
            self.reader.of_kind(term, values, INT, WHOLE)
            self.reader.risk(place, "A4", "leaves 64 bits")
            return Value(INT, LEAST if values.least < 0 else 0, GREATEST if values.most > 0 else 0)
        if values.kinds & BOOL:
            self.reader.risk(term, "A3", "isn't of kind int or text")
        if not is_entry:
            self.reader.risk(place, "A2", "is of no object")
        return Value(values.kinds - BOOL, values.least, values.most)

    def body(self, place: Place, known: Known, stakes: Stakes) -> Optional[Known]:
        """What is known after a body, or None if nothing comes after it."""
        vetoes = [has_veto([statement]) for statement in place.node.value]
        last = max((number for number, is_one in enumerate(vetoes) if is_one), default=-1)
        for number, statement in enumerate(place.items()):
            self.reader.is_quiet = stakes.is_closed or not (stakes.is_veto_later or number <= last)
            is_veto_later = stakes.is_veto_later or number < last
            after = self._statement(statement, known, replace(stakes, is_veto_later=is_veto_later))
            if after is None:
                return None
            known = after
        return known

    def _statement(self, place: Place, known: Known, stakes: Stakes) -> Optional[Known]:
        word = place.node.value[0]
        if word in ("abort", "veto"):
            for message in place.items()[1:]:
                self.reader.value(message, known)
            return None
        if word in RULE_OPERATIONS:
            return known
        return getattr(self, f"_{word}")(place, known, stakes)

    # Simple statements

    def _of_kind(self, place: Place, known: Known, kind: str) -> None:
        self.reader.of_kind(place, self.reader.value(place, known), OF_FIELD[kind], OF_KIND[kind])

    def _create(self, place: Place, known: Known, stakes: Stakes) -> Known:
        self._of_kind(place.item(2), known, "int")
        for pair in place.item(3).items():
            kinds = self.reader.classes[place.node.value[1]]
            self._of_kind(pair.item(1), known, kinds[pair.node.value[0]])
        return known

    _update = _create

    def _delete(self, place: Place, known: Known, stakes: Stakes) -> Known:
        self._of_kind(place.item(2), known, "int")
        return known

    def _signal(self, place: Place, known: Known, stakes: Stakes) -> Known:
        values = [self.reader.value(argument, known) for argument in place.item(2).items()]
        if self.signals is not None and all(value.kinds for value in values):
            self.signals.add(place.node.value[1], values)
        return known

    def _emit(self, place: Place, known: Known, stakes: Stakes) -> Known:
        self.reader.value(place.item(1), known)
        return known

    # Statements with bodies

    def _if(self, place: Place, known: Known, stakes: Stakes) -> Optional[Known]:
        self.reader.truth(place.item(1), known)
        ends = [self.body(place.item(2 if holds else 3), self.reader.assume(place.node.value[1], holds, known), stakes)
                for holds in (True, False)]
        left = [end for end in ends if end is not None]
        return known if len(left) == 2 else left[0] if left else None

    def _each(self, place: Place, known: Known, stakes: Stakes) -> Known:
        _, name, of, predicate, _ = place.node.value
        inner = known.with_row(name, of)
        self.reader.truth(place.item(3), inner)
        self._rounds(place.item(4), self.reader.assume(predicate, True, inner), stakes)
        return known

    def _for(self, place: Place, known: Known, stakes: Stakes) -> Known:
        name = place.node.value[1]
        self._rounds(place.item(2), self.reader.assume(self.predicates[name], True, known.without(name)), stakes)
        return known

    def _rounds(self, body: Place, known: Known, stakes: Stakes) -> None:
        """A body that runs for each of several rows: a veto in it may follow in a later round."""
        is_veto_later = stakes.is_veto_later or has_veto(body.node.value)
        self.body(body, known, replace(stakes, is_veto_later=is_veto_later))

    def _with(self, place: Place, known: Known, stakes: Stakes) -> Optional[Known]:
        _, name, of, _, _ = place.node.value
        self._of_kind(place.item(3), known, "int")
        after = self.body(place.item(4), known.with_row(name, of), stakes)
        return None if after is None else known

    def _let(self, place: Place, known: Known, stakes: Stakes) -> Optional[Known]:
        value = self._aggregate(place.item(2), known, False)
        after = self.body(place.item(3), known.with_value(place.node.value[1], value), stakes)
        return None if after is None else known

    def _sub(self, place: Place, known: Known, stakes: Stakes) -> Known:
        """A fault in the first body ends that alone, and then the second one runs."""
        is_closed = any(statement[0] == "veto" for statement in place.node.value[2])
        self.body(place.item(1), known, Stakes(False, is_closed))
        self.body(place.item(2), known, stakes)
        return known
