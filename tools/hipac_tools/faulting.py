"""Faults: conditions and actions that ended with a cause that nobody asked for, while the transaction around them
continued.

A fault in a condition means that the action doesn't run, and a fault in an action undoes the action alone. The line of
the unit shows neither. If the rule vetoes, the transaction commits that it was to refuse.
"""

from __future__ import annotations

from collections import Counter
from dataclasses import dataclass
from typing import Any, Iterator, List

from . import language, reasons
from .account import Account
from .notes import undone_by
from .report import Act, End, Fire, Transaction, walk
from .wording import Most, SOME, times

FAULTS = ("A1", "A2", "A3", "A4", "A5", "A6", "A7")
"""The causes that nobody asks for: `abort` (A8) and `veto` (A9) are statements."""


@dataclass(frozen=True)
class Fault:
    """A condition or an action that ended with a fault: its task, the cause, and what led there, in words."""

    node: Any
    is_condition: bool
    cause: str
    words: str

    @property
    def place(self) -> str:
        """Which entry met the fault of a condition, and at which object, as the end of a sentence."""
        met = [query for query in self.node.note.queries if self.is_condition and query.fault is not None]
        return f", in {reasons.entry_name(met[0])}{reasons.at_object(met[0])}" if met else ""

    @property
    def what(self) -> str:
        return f"the {'condition' if self.is_condition else 'action'} of rule {self.node.rule}"


def faults_in(transaction: Transaction) -> Iterator[Fault]:
    """All faults in a top-level transaction, in order of time."""
    for node in walk(transaction):
        if not isinstance(node, (Fire, Act)):
            continue
        if isinstance(node, Fire) and node.condition.startswith("fault "):
            yield Fault(node, True, node.condition.split(" ")[1], condition_words(node))
        elif isinstance(node.end, End) and node.end.cause in FAULTS:
            yield Fault(node, False, node.end.cause, reasons.stop_words(node.end, node.note.stop))


def condition_words(node: Fire) -> str:
    """Why a condition ended with a fault."""
    told = [query.fault for query in node.note.queries if query.fault is not None]
    return told[0] if told else reasons.CAUSES[node.condition.split(" ")[1]]


def lasting_faults(transaction: Transaction) -> List[Fault]:
    """The faults of a transaction that committed, without those in parts of it that aborted: what follows from them
    lasts."""
    if not transaction.end.committed:
        return []
    return [fault for fault in faults_in(transaction) if undone_by(fault.node) is None]


def vetoes(account: Account, rule: str) -> bool:
    return rule in account.rules and any(statement[0] == "veto"
                                         for statement in language.statements(account.rules[rule].action))


def consequence(account: Account, fault: Fault) -> str:
    """What follows from a fault."""
    if fault.node.note.vetoed_by_failing:
        return f"So {fault.node.rule} vetoed, as it is closed."
    if vetoes(account, fault.node.rule):
        return f"So {fault.node.rule} didn't veto."
    return "So its action didn't run." if fault.is_condition else "Only the action was undone."


def leading_sentences(account: Account, transaction: Transaction, most: Most = SOME) -> List[str]:
    """What is said first of a transaction that committed with faults."""
    told = Counter(leading_sentence(account, fault) for fault in lasting_faults(transaction))
    sentences = [words + (f" That happened {times(number)}." if number > 1 else "") for words, number in told.items()]
    if len(sentences) <= most.lines:
        return sentences
    return sentences[:int(most.lines)] + [f"And {len(sentences) - most.lines} more ended with a fault."]


def leading_sentence(account: Account, fault: Fault) -> str:
    """Why an action aborted is said later, where it is explained; of a condition nothing more is said."""
    why = f": {fault.words}" if fault.is_condition else ""
    return f"Though it committed, {fault.what} ended with a fault ({fault.cause}){why}. {consequence(account, fault)}"
