"""What there is to say of a script's run, from the definitions alone: of each node of its trees, each dropped task, and
each rule in each unit. Everything is plain tuples of texts and numbers; a node is named by its place in the trees.

An occurrence's fate is looked up in whole histories: those that a rule had at each signal, and before each change of
its status.
"""

from collections import Counter

import definitions
from definitions import Cause, at_places, is_pure, mentions, occurrence_of

ENDLESS = 10 ** 9


# ---- what was undone, and when

def ancestry(node):
    """The node and those around it, the innermost first."""
    while node is not None:
        yield node
        node = node.parent


def undoing(node, tick=ENDLESS):
    """The innermost node, from this one outwards, that had aborted by a tick."""
    return next((one for one in ancestry(node) if one.cause and one.ended < tick), None)


def place(node):
    return None if node is None else node.number


def unit_of(node):
    return list(ancestry(node))[-1].number[0]


# ---- nodes and dropped tasks

def node_facts(run):
    """The facts on each node, by its place."""
    facts = {}
    pending = [node for _, transactions in run.units for node in transactions]
    while pending:
        node = pending.pop()
        pending += node.items
        outer = undoing(node.parent)
        facts[node.number] = {
            "undone by": place(outer),
            "statement": node.path,
            "trigger": _trigger(node) if node.trigger else None,
            "stop": (node.cause, node.stop_path, place(node.stop_firing)) if node.cause else None,
            "queries": [query_facts(one) for one in node.queries],
            "fate": _fate(run, node, outer) if node.word in ("fire", "act") else None,
        }
    return facts


def _trigger(node):
    return node.trigger.number, tuple(part.number for part in node.parts), node.count


def _fate(run, node, outer):
    if node.is_vetoing:
        return "vetoed"
    if node.action in ("none", "later"):
        return "did nothing" if node.action == "none" else "put its action off"
    if node.cause:
        return "vetoed" if node.cause.split(" ")[:2] == ["A9", node.rule] else "failed"
    if _is_idle(run, node):
        return "did nothing"
    return "acted in vain" if outer else "acted"


def _is_idle(run, node):
    """Whether nothing was done or signalled in a node, but for subtransactions that are idle too."""
    if any(signal.within is node for signal in run.signals):
        return False
    return all(item.word == "sub" and not item.cause and _is_idle(run, item) for item in node.items)


def fault_facts(run):
    """The conditions and actions that ended with a fault and weren't undone, in order of time."""
    found = []
    for _, transactions in run.units:
        for node in (node for top in transactions for node in _walk(top) if not undoing(node.parent)):
            if node.condition.startswith("fault "):
                found.append((node.number, True, node.condition[len("fault "):]))
            elif node.word in ("fire", "act") and node.cause in ("A1", "A2", "A3", "A4", "A5", "A6", "A7"):
                found.append((node.number, False, node.cause))
    return found


def dropped_facts(run):
    """The dropped tasks, each with the transaction in which it was made."""
    return sorted((one.top.number, run.rules[one.task.rule][0], one.task.place, one.task.found is not None,
                   one.task.trigger.number, tuple(part.number for part in one.task.occurrence.parts), one.why,
                   place(one.by) or ()) for one in run.dropped)


# ---- queries

def query_facts(asked):
    """The facts on an entry; a `let` has the word of its aggregate."""
    name, on, predicate = asked.query
    word, row_name, forms = asked.word, name, [predicate]
    if asked.word == "let":
        over, next_key = definitions.is_over_rows(asked.aggregate), definitions.is_next(asked.aggregate)
        word = asked.aggregate[0] if over or next_key else "expression"
        row_name, forms = (asked.aggregate[1], asked.aggregate[3:]) if over else (None, [asked.aggregate])
        on = asked.aggregate[1] if next_key else on or ""
    named = {name for form in forms for name in _named(form, ("of", "key"))} - {row_name}
    given = [(other, rows[0][0], rows[0][1], len(rows)) for other, rows in asked.answers if other in named]
    values = {name for form in forms for name in _named(form, ("value",))}
    known = [(let, definitions.text_of(value)) for let, value in reversed(asked.env.values) if let in values]
    value = None if asked.value is None or asked.fault else definitions.text_of(asked.value)
    looked = (None, [], None, None, []) if predicate is None else _looked(asked, row_name, predicate)
    return (word, name, on, len(asked.rows), given, known, value, *looked)


def _looked(asked, name, predicate):
    """The key that was asked for, the keys found, the one that met a fault, and why the one asked for doesn't fit."""
    key = _asked_key(asked, name, _conjuncts(predicate)[0])
    failed, values = None, []
    row = next((row for row in asked.rows if row[1] == key), None)
    if row and not asked.fault and not asked.answer:
        env = asked.env.bound(name, row)
        failed = next(test for test in _conjuncts(predicate) if definitions.value_of(test, env) is not True)
        values = [one for leaf in _leaves(failed) for one in _value(leaf, env)]
    keys = [row[1] for row in asked.answer or []]
    fault_key = asked.fault_row[1] if asked.fault else None
    return None if asked.fault else key, keys, fault_key, failed, values


def _conjuncts(test):
    return _conjuncts(test[1]) + _conjuncts(test[2]) if isinstance(test, list) and test[0] == "and" else [test]


def _leaves(form):
    """The forms that take a value from something else than expressions."""
    if not isinstance(form, list):
        return []
    leaf = form[0] in ("of", "key", "new", "old", "id", "arg", "time", "count", "value", "now")
    return [form] if leaf else [leaf for part in form[1:] for leaf in _leaves(part)]


def _named(form, words):
    return {leaf[1] for leaf in _leaves(form) if leaf[0] in words}


def _value(leaf, env):
    try:
        return [(leaf, definitions.text_of(definitions.value_of(leaf, env)))]
    except Cause:
        return []


def _asked_key(asked, name, test):
    """The key that a first test `key = e` asks for, if `e` is a number in the same way for each row."""
    if not asked.rows or not isinstance(test, list) or test[0] != "=" or ["key", name] not in test[1:]:
        return None
    other = test[2] if test[1] == ["key", name] else test[1]
    if name in _named(other, ("of", "key")):
        return None
    try:
        value = definitions.value_of(other, asked.env)
    except Cause:
        return None
    return value if definitions.kind_of(value) == "int" else None


# ---- rules in units

def rule_facts(run, unit, rule):
    """A rule in a unit: how often it was triggered or fired, what its tasks came to, and each signal at which it fired
    nothing."""
    signals = [signal for signal in run.signals if unit_of(signal.within) == unit]
    name, event = run.rules[rule][:2]
    fired = [signal for signal in signals if signal.depth < run.limit and name in signal.triggered]
    silences = [_silence(run, rule, event, one) for one in signals if one.kind != "fire" and one not in fired]
    pasts = {(status, since) for _, status, since, *_ in silences}
    throughout = pasts.pop() if len(pasts) == 1 and silences[0][1] != "enabled" else None
    nodes = [node for top in run.units[unit - 1][1] for node in _walk(top)
             if node.word in ("fire", "act") and node.rule == name]
    dropped = [one for one in run.dropped if one.task.rule == rule and one.top.number[0] == unit]
    return {"silences": silences, "throughout": throughout,
            "undone operation": throughout and _undone_operation(run, unit, rule, throughout[1]),
            "status by the trees": run.starts[unit - 1].rules[rule].status,
            "triggers": len(fired) + _fired_by_statements(nodes, dropped), "fates": _fates(run, nodes, dropped),
            "is by event": bool(fired)}


def _fates(run, nodes, dropped):
    """How often a rule's tasks came to each fate. An action that is put off is a task of its own."""
    found = Counter(_fate(run, node, undoing(node.parent)) for node in nodes)
    found["was dropped"] += len(dropped)
    del found["put its action off"]
    return +found


def _fired_by_statements(nodes, dropped):
    """How many tasks of a rule the statement `fire` made, by those that ran and those that were dropped."""
    triggers = [node.trigger for node in nodes if node.word == "fire"]
    triggers += [one.task.trigger for one in dropped if one.task.found is None]
    return sum(1 for trigger in triggers if trigger.kind == "fire")


def _walk(node):
    for item in node.items:
        yield item
        yield from _walk(item)


def _silence(run, rule, event, signal):
    state = signal.rules[rule]
    too_deep = run.rules[rule][0] in signal.triggered
    shortfalls = []
    if state.status == "enabled" and not too_deep:
        shortfalls = [_shortfall(run, rule, signal, one) for one in _lacks(event, state.past, ())]
    since = _last_change(run, rule, signal.tick)
    return signal.number, state.status, place(since), mentions(event, signal), too_deep, shortfalls


def _last_change(run, rule, tick):
    """The operation that set a rule's status, as it was at a tick."""
    changes = [one.node for one in run.changes if one.rule == rule and one.tick < tick and not undoing(one.node, tick)]
    return changes[-1] if changes else None


def _lacks(event, past, at):
    """The sequences and closures of which a part occurs at the newest place of a past, and neither they nor anything
    around them."""
    if is_pure(event) or occurrence_of(event, past):
        return
    word, first, last = event
    begins, ends = occurrence_of(first, past), occurrence_of(last, past)
    if word != "or" and ends:
        yield at, event, True
    if begins and (word == "seq" or word == "closure" and not ends):
        yield at, event, False
    yield from _lacks(first, past, at + (1,))
    yield from _lacks(last, past, at + (2,))


def _shortfall(run, rule, signal, lack):
    at, event, is_vain = lack
    if not is_vain:
        return at, is_vain, []
    found = []
    for earlier in run.signals[:signal.number]:
        occurrence = _first_at(event[1], earlier, rule)
        if occurrence:
            parts = tuple(part.number for part in occurrence.parts)
            found.append((parts, *_became(run, rule, event, earlier, signal)))
    return at, is_vain, found[::-1]


def _first_at(first, signal, rule):
    """The occurrence of a first event at a signal. If the rule wasn't enabled, only what needs no past can be told."""
    if signal.kind == "fire":
        return None
    if signal.rules[rule].status != "enabled":
        return occurrence_of(first, (signal,)) if is_pure(first) else None
    return occurrence_of(first, signal.rules[rule].past)


def _became(run, rule, event, earlier, signal):
    """What became of the first event's occurrence at an earlier signal, as seen at a signal, and by what."""
    node = undoing(earlier.within, signal.tick)
    if node:
        return "UNDONE", place(node)
    if earlier.rules[rule].status != "enabled":
        return "UNHEARD", place(_last_change(run, rule, earlier.tick))
    past = signal.rules[rule].past[:-1]
    if earlier in past:
        return _taken(event, past, earlier)
    change = next(one for one in run.changes if one.rule == rule and earlier.tick < one.tick < signal.tick
                  and not undoing(one.node, signal.tick))
    return _taken(event, change.before.past, earlier) or ("FORGOTTEN", place(change.node))


def _taken(event, past, earlier):
    """By which signal of a past an occurrence of the first event was taken."""
    word, first, last = event
    where = past.index(earlier)
    if word == "seq":
        number = sum(1 for one in at_places(first, past)[:where] if one)
        takers = [signal for signal, one in zip(past, at_places(event, past)) if one]
        return ("TAKEN", takers[number].number) if number < len(takers) else None
    ends = [signal for signal, one in zip(past[where:], at_places(last, past)[where:]) if one]
    if not ends:
        return None
    return ("ENDING" if ends[0] is earlier else "TAKEN"), ends[0].number


def _undone_operation(run, unit, rule, since):
    """The last operation up to this unit, after the one that set the status, that would have enabled the rule."""
    found = None
    for number, node, _ in run.operations:
        if number == rule and unit_of(node) <= unit:
            if node.number == since:
                found = None
            elif node.verb in ("install", "enable") and undoing(node.parent):
                found = node
    return place(found)
