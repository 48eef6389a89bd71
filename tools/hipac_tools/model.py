"""The contents of the page of `view`, as plain lists for JSON.

All nodes are in one list, in order of time, each with the index of its parent. So a page can hold tens of thousands of
nodes, and make elements only for those on the screen. Sentences are in a list of their own, without duplicates.
"""

from __future__ import annotations

from dataclasses import dataclass, field
from typing import Any, Dict, List, Optional, Tuple

from . import faulting, reasons
from .account import Account
from .notes import undone_by
from .places import marked
from .report import Act, Emit, Fire, Operation, Sub, Transaction, children
from .wording import sentence, some_of

TRANSACTION, OPERATION, EMIT, SUB, FIRE, ACT = range(6)
NOWHERE = -1
MOST_SIGNALS = 8
END_PLACES = {TRANSACTION: 4, SUB: 2, FIRE: 5, ACT: 4}
"""Where a node's end stands in its row, for those that have one."""


@dataclass
class PageModel:
    """Units are rows of [number, moment, transactions, number of faults that last]. Nodes are rows of [kind, parent,
    texts .., facts]; facts are pairs of a label and a sentence's index."""

    units: List[List[Any]] = field(default_factory=list)
    nodes: List[List[Any]] = field(default_factory=list)
    sentences: List[str] = field(default_factory=list)
    objects: List[List[Any]] = field(default_factory=list)
    rules: List[List[Any]] = field(default_factory=list)
    classes: List[str] = field(default_factory=list)
    doubt: Optional[str] = None


def page_model(account: Account) -> PageModel:
    return _Maker(account).model()


class _Maker:
    """Reads a report once, in order of time."""

    def __init__(self, account: Account):
        self.account = account
        self.page = PageModel(doubt=account.doubt)
        self.tell = reasons.Teller()
        self.sentence_places: Dict[str, int] = {}
        self.node_places: Dict[int, int] = {}
        self.histories: Dict[Tuple[str, int], List[List[int]]] = {}
        self.signals: Dict[int, List[Any]] = {}
        self.firings: Dict[str, List[int]] = {name: [] for name, _ in account.report.rules}
        self.operations: Dict[str, List[int]] = {name: [] for name, _ in account.report.rules}

    def model(self) -> PageModel:
        for unit in self.account.report.units:
            places = [self._transaction(unit.number, transaction) for transaction in unit.transactions]
            faults = sum(len(faulting.lasting_faults(transaction)) for transaction in unit.transactions)
            self.page.units.append([unit.number, unit.moment, places, faults])
        self.page.classes = [one.name for one in self.account.base.classes]
        self._objects()
        for name, status in self.account.report.rules:
            self.page.rules.append([name, status, self.firings[name], self.operations[name]])
        return self.page

    def _transaction(self, unit: int, transaction: Transaction) -> int:
        head = "" if transaction.rule is None else f"{transaction.mode} {transaction.rule}"
        facts = [("Fault", words) for words in faulting.leading_sentences(self.account, transaction)]
        if transaction.rule is not None:
            facts.append(("Detached", self._trigger(transaction)))
        if not transaction.end.committed:
            facts.append(("Aborted", " ".join(self.tell.chain(transaction))))
        self.signals = {}
        for signal in transaction.note.signals:
            if signal.primitive is not None and signal.primitive.kind == "signal":
                self.signals.setdefault(id(signal.within), []).append(signal)
        facts += self._signals_of(transaction)
        for dropped in transaction.note.dropped:
            facts.append(("Dropped", " ".join(self.tell.dropped(dropped, f"Rule {dropped.rule}"))))
        row = [TRANSACTION, NOWHERE, unit, head, str(transaction.end), transaction.emits]
        place = self._add(transaction, row, facts)
        self.page.nodes[place].append(self._trigger_place(transaction))
        self._items(transaction, place)
        return place

    def _items(self, holder: Any, parent: int) -> None:
        for node in children(holder):
            if isinstance(node, Operation):
                self._operation(node, parent)
            elif isinstance(node, Emit):
                self._add(node, [EMIT, parent, node.value], self._common(node))
            else:
                self._items(node, self._holder(node, parent))

    def _operation(self, node: Operation, parent: int) -> None:
        place = self._add(node, [OPERATION, parent, node.verb, node.subject, node.row], self._common(node))
        undone = undone_by(node)
        if node.on_object:
            history = self.histories.setdefault((node.name, node.key or 0), [])
            history.append([place, NOWHERE if undone is None else self.node_places[id(undone)]])
        elif node.name in self.operations:
            self.operations[node.name].append(place)

    def _holder(self, node: Any, parent: int) -> int:
        if isinstance(node, Sub):
            row = [SUB, parent, str(node.end)]
        elif isinstance(node, Act):
            row = [ACT, parent, node.rule, node.mode, str(node.end)]
        else:
            row = [FIRE, parent, node.rule, node.mode, node.condition, str(node.action)]
        facts = [] if isinstance(node, Sub) else self._task(node)
        if not node.end.committed:
            facts.append(("Aborted", self._aborted(node)))
        facts += self._signals_of(node)
        place = self._add(node, row, facts + self._common(node))
        if not isinstance(node, Sub):
            self.page.nodes[place].append(self._trigger_place(node))
            self.firings.setdefault(node.rule, []).append(place)
        return place

    def _signals_of(self, node: Any) -> List[Tuple[str, str]]:
        """What was signalled by statements in a node itself; the report has no lines for it."""
        told = [f"{signal}{reasons.at(signal.path)}" for signal in self.signals.get(id(node), [])]
        return [("Signals", sentence(some_of(told, MOST_SIGNALS)))] if told else []

    def _aborted(self, node: Any) -> str:
        """Why a node aborted; what triggered it is a fact of its own."""
        told = [] if isinstance(node, Sub) else self.tell.trigger_sentences(node, f"Rule {node.rule}")
        return " ".join(one for one in self.tell.chain(node) if one not in told)

    def _task(self, node: Any) -> List[Tuple[str, str]]:
        """What triggered a firing, and how its condition and its action went."""
        facts = [("Trigger", self._trigger(node))]
        action = reasons.action_sentence(node, self.account.mode_of_action(node.rule))
        if isinstance(node, Fire):
            end = [action] if node.action == "none" else []
            facts.append(("Condition", " ".join(self.tell.condition(node) + end)))
        if node.end.committed and not (isinstance(node, Fire) and node.action == "none"):
            facts.append(("Action", action))
        return facts

    def _trigger(self, node: Any) -> str:
        trigger = sentence(self.tell.trigger(node.note.trigger, node.note.occurrence))
        return " ".join([trigger] + reasons.later_sentences(node))

    def _trigger_place(self, node: Any) -> int:
        """The node of a trigger: the operation, else the transaction in which something was signalled."""
        trigger = node.note.trigger
        if trigger is None:
            return NOWHERE
        return self.node_places.get(id(trigger.operation or trigger.within), NOWHERE)

    def _common(self, node: Any) -> List[Tuple[str, str]]:
        facts = []
        if node.note.path:
            facts.append(("Statement", marked(node.note.path)))
        undone = reasons.undone_words(node)
        if undone:
            facts.append(("Undone", sentence(undone)))
        return facts

    def _add(self, node: Any, row: List[Any], facts: List[Tuple[str, str]]) -> int:
        place = len(self.page.nodes)
        self.node_places[id(node)] = place
        row.append([[label, self._place_of(words)] for label, words in facts])
        self.page.nodes.append(row)
        return place

    def _place_of(self, words: str) -> int:
        told = self.account.places.told(words)
        place = self.sentence_places.setdefault(told, len(self.page.sentences))
        if place == len(self.page.sentences):
            self.page.sentences.append(told)
        return place

    def _objects(self) -> None:
        """Every object that ever existed, in the order of the final state; one that doesn't exist at the end has no
        row."""
        final = {(thing.name, thing.key): thing.row for thing in self.account.report.objects}
        order = {name: place for place, name in enumerate(self.page.classes)}
        names = sorted(set(final) | set(self.histories), key=lambda name: (order.get(name[0], len(order)), name))
        for name, key in names:
            self.page.objects.append([name, str(key), final.get((name, key)), self.histories.get((name, key), [])])
