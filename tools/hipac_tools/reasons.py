"""Sentences: what a node is, what triggered it, how its condition went, why it aborted, what undid it, and why an event
didn't occur."""

from __future__ import annotations

from typing import Any, Dict, List, Optional

from .answers import Shortfall, Silence, unit_of
from .language import Form, has_one_part
from .notes import (
    ABORT, Dropped, EXPRESSION, Given, NO, NO_ABORT, QUERY, Query, Signal, Stop, ancestry, is_idle, undone_by,
)
from .notation.event_texts import event_text, operand_text
from .notation.expression_texts import expression_text
from .pasts import ABSENT, Candidate, DISABLED, ENABLED, Fate
from .places import marked
from .report import Act, End, Fire, Operation, Sub, Transaction
from .values import Occurrence, Primitive, value_text
from .wording import Most, SOME, counted, listed, sentence, some_of

CAUSES = {
    "A1": "a `create` of an object that is there already",
    "A2": "a statement named an object that isn't there, or a rule that isn't installed",
    "A3": "a value was of the wrong kind, or a row lacked the field read",
    "A4": "a result was outside 64 bits",
    "A5": "a division had the divisor 0",
    "A6": "an expression asked for a part of the occurrence that isn't there",
    "A7": "rules would have fired deeper than the script's `depth`",
    "A8": "the statement `abort`",
    "A9": "a rule vetoed",
}
UNTOLD = "can't be told from the report"
STATUS_WORDS = {ABSENT: "wasn't installed", ENABLED: "was enabled", DISABLED: "was disabled"}


# ---- things by their names

def at(path: str) -> str:
    """A place in the script, after a sentence."""
    return f" (at {marked(path)})" if path else ""


def name_of(node: Any) -> str:
    """A node that contains others, in a few words."""
    if isinstance(node, Sub):
        return "the `sub`" + (f" at {marked(node.note.path)}" if node.note.path else "")
    if isinstance(node, Transaction):
        return f"unit {node.note.unit}" if node.rule is None else f"{node.mode} {node.rule}"
    return f"the action of rule {node.rule}"


def aborted_words(node: Any) -> str:
    """`unit 3 aborted (A9 credit)`."""
    return f"{name_of(node)} aborted ({str(node.end).split(' ', 1)[1]})"


def operation_words(operation: Operation) -> str:
    """`disable watch in unit 6 (at /items/5/1/0)`."""
    return f"{operation.verb} {operation.name} in unit {unit_of(operation)}{at(operation.note.path)}"


def since_words(operation: Optional[Operation]) -> str:
    """Since when a rule has had its status; empty for one that never had an operation."""
    return "" if operation is None else f", since {operation_words(operation)}"


# ---- triggers

def place_of(signal: Signal) -> str:
    """Where something was signalled: the innermost transaction around it, and what contains that."""
    node = signal.within
    if isinstance(node, Transaction) and node.rule is None:
        if signal.primitive is not None and signal.primitive.kind in ("commit", "time"):
            return ""
        return ", in the unit's own body"
    if isinstance(node, Sub):
        action = next((holder for holder in ancestry(node) if isinstance(holder, (Fire, Act))), None)
        return ", in a `sub`" + (f" of the action of rule {action.rule}" if action else "")
    return ", in " + name_of(node)


def later_sentences(firing: Any) -> List[str]:
    """When a firing ran, if that was later than its trigger."""
    if firing.mode == "immediate":
        return []
    who = "Its action" if isinstance(firing, Act) else "It"
    where = "at the end of the transaction" if firing.mode == "deferred" else "in a transaction of its own"
    return [f"{who} is {firing.mode}, so it ran {where}."]


def _action_round(node: Any) -> Any:
    """The firing whose action contains a node, or whose task is its cascade's transaction; None in a unit's own
    body."""
    while isinstance(node, Sub):
        node = node.note.parent
    if isinstance(node, Transaction):
        return node.items[0] if node.rule is not None and node.items else None
    return node


# ---- actions and aborts

def action_sentence(node: Any, mode: str) -> str:
    """The fate of a firing's action, which has that mode."""
    if isinstance(node, Fire) and not isinstance(node.action, End):
        if node.note.vetoed_by_failing:
            return "It is closed, so it vetoed."
        return "So it did nothing." if node.action == "none" else f"Its action is {mode}, so it was put off."
    if node.end.committed:
        return "Its action ran and changed nothing." if is_idle(node) else "Its action committed."
    if node.end.is_veto_of(node.rule):
        return sentence(f"it vetoed{message_words(node.end)}{at(node.note.stop.path if node.note.stop else '')}")
    closing = " It is closed, so it vetoed." if node.note.vetoed_by_failing else ""
    return f"Its action {node.end}. {sentence(stop_words(node.end, node.note.stop))}{closing}"


def message_words(end: End) -> str:
    """The message of a veto, after a word."""
    return "" if end.message is None else f" with {end.message}"


def stop_words(end: End, stop: Optional[Stop]) -> str:
    """Why a transaction aborted, in a few words, without the chain that leads there."""
    if end.cause == "A9":
        if stop is None:
            return f"rule {end.rule} vetoed{message_words(end)}; what triggered it {UNTOLD}"
        if stop.firing is None:
            return f"the statement `veto`{at(stop.path)}"
        if stop.firing.note.vetoed_by_failing:
            return closing_words(stop.firing)
        return f"rule {end.rule} vetoed{message_words(end)}{at(stop.path)}"
    if stop is None:
        return f"{CAUSES[str(end.cause)]}; which statement {UNTOLD}"
    return stop.words + at(stop.path)


def closing_words(firing: Any) -> str:
    """Why a closed rule vetoed that has no veto of its own there."""
    if isinstance(firing, Fire) and firing.condition.startswith("fault "):
        faults = [f": {query.fault}" for query in firing.note.queries if query.fault is not None]
        cause = firing.condition.split(" ")[1]
        return f"the closed rule {firing.rule} vetoed, as its condition ended with a fault ({cause}){''.join(faults)}"
    end, stop = firing.end, firing.note.stop
    return f"the closed rule {firing.rule} vetoed, as its action aborted ({end.cause}): {stop_words(end, stop)}"


def entry_name(query: Query) -> str:
    """`query q`, `no k`, `let n`."""
    return f"{query.word if query.word in (QUERY, NO) else 'let'} {query.name}"


def at_object(query: Query) -> str:
    """The object at which an entry met a fault, if it looks at objects."""
    return "" if query.fault_key is None else f" at {query.on} {query.fault_key}"


def undone_words(node: Any) -> str:
    """What undid an item; empty if nothing did."""
    holder = undone_by(node)
    return "" if holder is None else aborted_words(holder)


class Teller:
    """Sentences that may be long, with how much of them is told."""

    def __init__(self, most: Most = SOME):
        self.most = most

    # What was signalled

    def deed(self, primitive: Primitive) -> str:
        """What was signalled, with its values: those that an update changed, or those of the object."""
        old, new = primitive.old, primitive.new
        if primitive.kind == "update" and old is not None and new is not None:
            changes = [f"{name} {self._short(old[name])} -> {self._short(new[name])}" for name in new
                       if old[name] != new[name]]
            return f"{primitive} ({some_of(changes, self.most.fields) if changes else 'nothing changed'})"
        row: Dict[str, Any] = new or old or {}
        values = some_of([f"{name} {self._short(value)}" for name, value in row.items()], self.most.fields)
        return f"{primitive} ({values})" if values else str(primitive)

    def _short(self, value: Any) -> str:
        text = value_text(value)
        return text if len(text) <= self.most.letters else text[:int(self.most.letters)] + ".."

    def placed_deed(self, signal: Signal, unit: Optional[int]) -> str:
        """What was signalled, and where; with its unit, if that isn't the one that is spoken of."""
        number = unit_of(signal.within)
        return self.deed(signal.heard) + ("" if number == unit else f" in unit {number}") + at(signal.path)

    def trigger(self, signal: Optional[Signal], occurrence: Optional[Occurrence] = None) -> str:
        """What triggered a rule, as the end of a sentence:
        `triggered by update item 7 (stock 5 -> 3) at /rules/0/5/0, in the action of rule reserve`."""
        if signal is None:
            return f"triggered by a signal (which one {UNTOLD})"
        is_moment = signal.primitive is not None and signal.primitive.kind == "time"
        path = f" at {marked(signal.path)}" if signal.path and not is_moment else ""
        if signal.primitive is None:
            return f"fired by the statement `fire`{path}{place_of(signal)}"
        words = f"triggered by {self.deed(signal.primitive)}{path}{place_of(signal)}"
        if occurrence is not None and len(occurrence.signals) > 1:
            unit = unit_of(signal.within)
            before = [self.placed_deed(part, unit) for part in occurrence.signals[:-1]]
            words += f", after {some_of(before, self.most.parts)}"
            words += f"; the count is {occurrence.count}" if occurrence.is_counted else ""
        return words

    def trigger_sentences(self, firing: Any, who: str) -> List[str]:
        """What triggered a firing, and when it ran."""
        note = firing.note
        if note.trigger is None:
            return [f"What triggered rule {firing.rule} {UNTOLD}."]
        return [f"{who} was {self.trigger(note.trigger, note.occurrence)}."] + later_sentences(firing)

    def origins(self, firing: Any, who: str = "It") -> List[str]:
        """The triggers of a firing, of the firing in whose action it was triggered, and so on."""
        sentences: List[str] = []
        while firing is not None:
            sentences += self.trigger_sentences(firing, who)
            trigger = firing.note.trigger
            firing = None if trigger is None else _action_round(trigger.within)
            who = "" if firing is None else f"Rule {firing.rule}"
        return sentences

    def dropped(self, dropped: Dropped, who: str = "It") -> List[str]:
        """What triggered a task that never ran, and why it never did."""
        before = "its action ran" if dropped.is_tested else "its condition was tested"
        if dropped.why == NO_ABORT:
            fate = f"It is {dropped.mode} and was dropped, as no transaction round its trigger aborted."
        elif dropped.why == ABORT:
            fate = f"It was dropped before {before}, as {aborted_words(dropped.by)}."
        else:
            fate = f"It was dropped before {before}, as rule {dropped.by.rule} vetoed first."
        return [f"{who} was {self.trigger(dropped.trigger, dropped.occurrence)}.", fate]

    def chain(self, node: Any) -> List[str]:
        """Sentences from an aborted node back to the statement of the unit's own body where it all began."""
        stop = node.note.stop
        sentences = [sentence(stop_words(node.end, stop))]
        if node.end.cause == "A9" and stop is not None and stop.firing is not None:
            return sentences + self.origins(stop.firing)
        firing = node if isinstance(node, (Fire, Act)) else _action_round(node.note.parent)
        return sentences + ([] if firing is None else self.origins(firing, f"Rule {firing.rule}"))

    # Conditions

    def query(self, query: Query) -> str:
        """What an entry found, or why it found nothing."""
        given = [_given_words(one) for one in query.given] + [f"{name} = {value}" for name, value in query.known]
        around = f", with {listed(given)}" if given else ""
        is_let = query.word not in (QUERY, NO)
        what = f"the value {query.name}" if is_let else entry_name(query)
        if query.fault is not None:
            return f"{what} met a fault{at_object(query)}{around}: {query.fault}"
        if not is_let:
            return f"{what} found {self._found(query, 'nothing')}{around}"
        value = "isn't there" if query.value is None else f"is {query.value}"
        if query.word == EXPRESSION:
            return f"{what} {value}{around}"
        if query.word == "next":
            return f"{what} {value}, the next key of {query.on}"
        return f"{what} {value}, the {query.word} over {self._found(query, 'no object')}{around}"

    def _found(self, query: Query, nothing: str) -> str:
        """The rows that fit, or why there are none."""
        if query.objects == 0:
            return f"{nothing}, as there is no object of {query.on}"
        if query.key is None:
            keys = [str(key) for key in query.keys]
            found = f"{query.on} {some_of(keys, self.most.keys)}" if keys else "none that fits"
            return f"{found} among {counted(query.objects, 'object')} of {query.on}"
        if query.keys:
            return f"{query.on} {query.key}"
        if query.failed is None:
            return f"{nothing}, as there is no {query.on} {query.key}"
        test = expression_text(query.failed)
        values = [f"{expression_text(form)} is {value}" for form, value in query.values]
        where = f" ({some_of(list(dict.fromkeys(values)), self.most.fields)})" if values else ""
        return f"{nothing}, as {test} isn't true of {query.on} {query.key}{where}"

    def queries(self, firing: Fire) -> List[str]:
        """How a condition went, entry by entry."""
        occurrence = firing.note.occurrence
        queries = [sentence(self.query(query)) for query in firing.note.queries]
        if queries:
            return queries
        if firing.condition == "satisfied":
            return [] if occurrence is not None else ["Each entry was met."]
        if firing.condition == "unsatisfied":
            return [f"An entry wasn't met; which one {UNTOLD}."]
        return [f"An entry met a fault: {CAUSES[firing.condition.split(' ')[1]]}."]

    def condition(self, firing: Fire) -> List[str]:
        """Whether a condition was satisfied, and why."""
        queries = self.queries(firing)
        if firing.condition == "satisfied":
            return ["Its condition was satisfied."] + queries if queries else ["It has no condition."]
        verdict = "Its condition wasn't satisfied."
        if firing.condition != "unsatisfied":
            verdict = f"Its condition ended with a fault ({firing.condition.split(' ')[1]})."
        return [verdict] + queries

    # Events that didn't occur

    def silence(self, silence: Silence, rule: str) -> List[str]:
        """Why a rule fired nothing at a signal that its event mentions, and below that what became of the occurrences
        that could have been of use."""
        signal, past = silence.signal, silence.past
        where = f"At {signal}{at(signal.path)}"
        if past.status != ENABLED:
            return [f"{where} it {STATUS_WORDS[past.status]}{since_words(past.since)}."]
        if silence.is_too_deep:
            return [f"{where} it was triggered, but {listed(signal.triggered)} would have been too deep (A7)."]
        reasons = dict.fromkeys(_shortfall_words(one, past.since) for one in silence.shortfalls)
        sentences = [f"{where} its event didn't occur, as {listed(reasons)}."]
        for shortfall in silence.shortfalls:
            sentences += [f"{self._candidate(one, rule, unit_of(signal.within))}." for one in shortfall.candidates]
            sentences += [f"and {shortfall.more} more before"] if shortfall.more else []
        return sentences

    def _candidate(self, candidate: Candidate, rule: str, unit: int) -> str:
        """What became of an occurrence, said in a sentence on something in that unit."""
        signals, by = candidate.occurrence.signals, candidate.by
        what = sentence(" then ".join([self.deed(one.primitive) for one in signals[:-1]]
                                      + [self.placed_deed(signals[-1], unit)]))[:-1]
        if candidate.fate is Fate.TAKEN:
            return f"{what} was taken by {self.placed_deed(by, unit)}"
        if candidate.fate is Fate.ENDING:
            return f"{what} ended the closure itself, so it doesn't count"
        if candidate.fate is Fate.UNDONE:
            return f"{what} was undone, as {aborted_words(by)}"
        if candidate.fate is Fate.FORGOTTEN:
            return f"{what} was forgotten at {operation_words(by)}"
        status = DISABLED if by is not None and by.verb == "disable" else ABSENT
        return f"{what} wasn't heard, as rule {rule} {STATUS_WORDS[status]}{since_words(by)}"


def _given_words(given: Given) -> str:
    """`x = p 1 (the first of 2 rows)`."""
    return f"{given.name} = {given.row.name} {given.row.key}" + (
        "" if given.rows == 1 else f" (the first of {given.rows} rows)")


def noun_text(event: Form) -> str:
    """An event as a thing that there may be one of, or none: `create order`, `(signal a then signal b)`."""
    return f"moment of `{event_text(event)}`" if event[0] == "every" else operand_text(event)


def _shortfall_words(shortfall: Shortfall, since: Optional[Operation]) -> str:
    """What is missing, as the end of a sentence that begins with `as`."""
    word, first, last = shortfall.lack.event
    if not shortfall.lack.is_vain:
        return f"{'the next ' if last[0] == 'every' else ''}{noun_text(last)} has yet to follow"
    if not shortfall.candidates:
        return f"there was no {noun_text(first)} before it" + ("" if has_one_part(first) else since_words(since)[1:])
    if word == "closure" and has_one_part(first) and shortfall.candidates[0].fate is Fate.TAKEN:
        return f"there was no {noun_text(first)} since the last {noun_text(last)}"
    return f"no earlier {noun_text(first)} {'is left' if word == 'seq' else 'counts'}"
