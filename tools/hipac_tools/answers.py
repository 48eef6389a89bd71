"""What `why` says of a rule in a unit, as facts: what it did, and why nothing more."""

from __future__ import annotations

import math
from dataclasses import dataclass
from itertools import islice
from typing import Any, Iterator, List, Optional, Tuple

from . import pasts
from .account import Account
from .notes import Dropped, Signal, ancestry, undone_by
from .pasts import Candidate, Lack, Past
from .report import Act, Fire, Operation, Transaction, Unit, walk


@dataclass
class Shortfall:
    """A sequence or a closure of which only a part occurs. If its last event occurs in vain: what became of the
    occurrences of its first event before, the last ones first, and how many more there are."""

    lack: Lack
    candidates: List[Candidate]
    more: int = 0


@dataclass
class Silence:
    """A signal of the unit at which the rule fired nothing: the rule's past then, and what its event lacks. A rule that
    is too deep was triggered, and the transaction aborted."""

    signal: Signal
    past: Past
    is_mentioned: bool
    is_too_deep: bool
    shortfalls: List[Shortfall]


@dataclass
class RuleAnswer:
    """Tasks that ran, each with its transaction, tasks that were dropped, and signals at which there was none. If the
    rule had one status other than enabled at all of these: that, and the last operation since then that would have
    enabled it, had it not been undone."""

    rule: str
    unit: Unit
    tasks: List[Tuple[Transaction, Any]]
    dropped: List[Dropped]
    silences: List[Silence]
    throughout: Optional[Past] = None
    undone_operation: Optional[Operation] = None

    @property
    def mentioned(self) -> List[Silence]:
        return [silence for silence in self.silences if silence.is_mentioned]

    @property
    def missed(self) -> List[Silence]:
        """Those of the signals at which one might have expected more of a rule that was triggered at others."""
        return [one for one in self.mentioned if one.is_too_deep or one.past.status != pasts.ENABLED
                or any(shortfall.lack.is_vain for shortfall in one.shortfalls)]


def rule_answer(account: Account, unit: Unit, rule: str, most: float) -> RuleAnswer:
    """The answer for a rule that was watched; `most` candidates of each shortfall are told."""
    tasks = [(transaction, node) for transaction in unit.transactions for node in walk(transaction)
             if isinstance(node, (Fire, Act)) and node.rule == rule]
    dropped = [one for transaction in unit.transactions for one in transaction.note.dropped if one.rule == rule]
    answer = RuleAnswer(rule, unit, tasks, dropped, list(_silences(account, unit, rule, most)))
    found = [silence.past for silence in answer.silences]
    if found and found[0].status != pasts.ENABLED and all(past.since is found[0].since for past in found):
        answer.throughout = found[0]
        answer.undone_operation = _undone_operation(account, unit, rule, found[0].since)
    return answer


def _silences(account: Account, unit: Unit, rule: str, most: float) -> Iterator[Silence]:
    event, heard = account.rules[rule].event, account.heard.get(rule, [])
    for number, hearing in enumerate(heard):
        signal, past = hearing.signal, hearing.past
        if signal is None or unit_of(signal.within) != unit.number:
            continue
        is_triggered = rule in signal.triggered
        too_deep = is_triggered and signal.depth + 1 > account.base.depth_limit
        if is_triggered and not too_deep:
            continue
        shortfalls = []
        if past.status == pasts.ENABLED and not too_deep:
            shortfalls = [_shortfall(heard, number, lack, most) for lack in pasts.lacks(event, past.kept, signal)]
        yield Silence(signal, past, pasts.mentions(event, signal.heard), too_deep, shortfalls)


def _shortfall(heard: List[pasts.Hearing], number: int, lack: Lack, most: float) -> Shortfall:
    if not lack.is_vain:
        return Shortfall(lack, [])
    found = pasts.candidates(heard, number, lack)
    first = list(found if most == math.inf else islice(found, int(most)))
    return Shortfall(lack, first, sum(1 for _ in found))


def unit_of(node: Any) -> int:
    """The number of the unit that a node is in."""
    return [node, *ancestry(node)][-1].note.unit


def operations_on(account: Account, rule: str, until: int) -> Iterator[Operation]:
    """The operations on a rule in the units up to a number, also those that were undone."""
    for unit in account.report.units[:until]:
        for transaction in unit.transactions:
            for node in walk(transaction):
                if isinstance(node, Operation) and not node.on_object and node.name == rule:
                    yield node


def _undone_operation(account: Account, unit: Unit, rule: str, since: Optional[Operation]) -> Optional[Operation]:
    """The last operation up to this unit, after the one that set the rule's status, that would have enabled the rule
    had it not been undone."""
    found = None
    for node in operations_on(account, rule, unit.number):
        if node is since:
            found = None
        elif node.verb in ("install", "enable") and undone_by(node) is not None:
            found = node
    return found


def status_by_report(account: Account, unit: Unit, rule: str) -> str:
    """A rule's status when a unit began, as the tree alone shows it."""
    past = Past()
    for node in operations_on(account, rule, unit.number - 1):
        if undone_by(node) is None:
            past = past.after(node, account.rules[rule].event)
    return past.status
