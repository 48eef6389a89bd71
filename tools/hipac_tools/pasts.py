"""What rules have heard: the one model of the past.

A rule's past is what was signalled while it was enabled, since its status last changed. Of it a rule keeps what its
event still needs, as an immutable value: a transaction that aborts restores the earlier one. For this the pending
occurrences of a sequence share one growing list, and each value has bounds of its own.

What a rule heard, undone or not, is a list of hearings. From it `candidates` says what became of each occurrence that
an event could have been completed with.
"""

from __future__ import annotations

from dataclasses import dataclass, replace
from enum import Enum
from typing import Any, Iterator, List, Optional, Tuple

from .language import COMPOSITE, Form, has_one_part, moments_of, patterns
from .notes import Signal, aborted_before, ancestry
from .report import Operation
from .values import Occurrence, Primitive

# ---- statuses

ABSENT, ENABLED, DISABLED = "absent", "enabled", "disabled"
STATUS_AFTER = {"install": ENABLED, "enable": ENABLED, "disable": DISABLED, "remove": ABSENT}


@dataclass(frozen=True)
class Past:
    """A rule's status, the operation that set it, and what its event keeps of what was signalled since then."""

    status: str = ABSENT
    since: Optional[Operation] = None
    kept: Any = None

    def after(self, operation: Operation, event: Form) -> "Past":
        """The past after an operation on the rule that succeeded. Only a change of the status empties it."""
        status = STATUS_AFTER[operation.verb]
        if status == self.status or (operation.verb == "install" and self.status == DISABLED):
            return self
        return Past(status, operation, fresh(event))

    def after_signal(self, event: Form, signal: Signal) -> Tuple["Past", Optional[Occurrence]]:
        """The past after one more signal, and the event's occurrence at it, if the rule is enabled and there is one."""
        if self.status != ENABLED:
            return self, None
        kept, occurrence = step(event, self.kept, signal)
        return (self if has_one_part(event) else replace(self, kept=kept)), occurrence


# ---- events

Step = Tuple[Any, Optional[Occurrence]]

NOTHING = Occurrence((), 0, is_counted=True)
"""What a closure has gathered where its last event has occurred before, and its first one not since then."""


@dataclass(frozen=True)
class Pending:
    """The occurrences of a sequence's first event that no sequence has taken yet, oldest first."""

    listed: List[Occurrence]
    start: int = 0
    end: int = 0

    @property
    def oldest(self) -> Optional[Occurrence]:
        return self.listed[self.start] if self.start < self.end else None

    def taking(self) -> "Pending":
        return Pending(self.listed, self.start + 1, self.end)

    def adding(self, occurrence: Occurrence) -> "Pending":
        listed = self.listed
        if len(listed) != self.end:
            listed = listed[:self.end]
        listed.append(occurrence)
        return Pending(listed, self.start, self.end + 1)


def matches(pattern: Form, primitive: Primitive) -> bool:
    """Whether a simple event matches what was signalled."""
    if primitive.moment is not None:
        return primitive.moment in moments_of(pattern, primitive.moment - 1, primitive.moment)
    return primitive.kind == pattern[0] and (primitive.kind == "commit" or primitive.name == pattern[1])


def mentions(event: Form, primitive: Primitive) -> bool:
    """Whether one of an event's simple events matches what was signalled."""
    return any(matches(pattern, primitive) for pattern in patterns(event))


def fresh(event: Form) -> Any:
    """What an event keeps of an empty past."""
    word = event[0]
    if word == "or":
        return (fresh(event[1]), fresh(event[2]))
    if word == "seq":
        return (fresh(event[1]), fresh(event[2]), Pending([]))
    if word == "closure":
        return (fresh(event[1]), fresh(event[2]), None)
    return None


def step(event: Form, kept: Any, signal: Signal) -> Step:
    """What is kept after one more signal, and the event's occurrence at it, if there is one."""
    word = event[0]
    if word not in COMPOSITE:
        return None, Occurrence((signal,), 1) if matches(event, signal.heard) else None
    left_kept, left = step(event[1], kept[0], signal)
    right_kept, right = step(event[2], kept[1], signal)
    if word == "or":
        return (left_kept, right_kept), left if left is not None else right
    own, occurrence = _sequence(kept[2], left, right) if word == "seq" else _closure(kept[2], left, right)
    return (left_kept, right_kept, own), occurrence


def _joined(first: Occurrence, last: Occurrence, count: int) -> Occurrence:
    return Occurrence(first.signals + last.signals, count, first.is_counted or last.is_counted)


def _sequence(pending: Pending, left: Optional[Occurrence], right: Optional[Occurrence]) -> Step:
    occurrence, oldest = None, pending.oldest
    if right is not None and oldest is not None:
        occurrence = _joined(oldest, right, oldest.count + right.count)
        pending = pending.taking()
    if left is not None:
        pending = pending.adding(left)
    return pending, occurrence


def _closure(run: Optional[Occurrence], left: Optional[Occurrence], right: Optional[Occurrence]) -> Step:
    """The run is the last occurrence of the first event since the last stop, with the counts of all of them. It is
    None if there was neither, and NOTHING right after a stop."""
    if right is not None:
        return NOTHING, _joined(run, right, run.count) if run is not None and run.count > 0 else None
    if left is not None:
        return Occurrence(left.signals, left.count + (run.count if run else 0), is_counted=True), None
    return run, None


# ---- what was heard, and what became of it

@dataclass(frozen=True)
class Hearing:
    """A rule at one signal, or at one change of its status, with its past before that."""

    past: Past
    signal: Optional[Signal] = None
    change: Optional[Operation] = None

    @property
    def within(self) -> Any:
        if self.signal is not None:
            return self.signal.within
        return self.change.note.parent if self.change is not None else None


@dataclass(frozen=True)
class Lack:
    """A sequence or a closure of which a part occurs at a signal, and the whole doesn't: its first event occurs and
    its last has yet to follow, or (in vain) its last occurs and finds no first. `at` are the arms that lead to it."""

    event: Form
    at: Tuple[int, ...]
    is_vain: bool


class Fate(Enum):
    """What became of an occurrence of the first event of a sequence or a closure."""

    TAKEN = "taken by an occurrence of the last event"
    ENDING = "at its signal the last event of the closure occurred too, so that it doesn't count"
    UNDONE = "undone by an abort"
    FORGOTTEN = "forgotten at a change of the rule's status"
    UNHEARD = "not heard, since the rule wasn't enabled"


@dataclass(frozen=True)
class Candidate:
    """An occurrence with its fate, and by what: the signal that took it, the node that aborted, or the operation that
    changed the status (None for a rule that was never installed)."""

    occurrence: Occurrence
    fate: Fate
    by: Any = None


def lacks(event: Form, kept: Any, signal: Signal, at: Tuple[int, ...] = ()) -> Iterator[Lack]:
    """The sequences and closures in an event of which only a part occurs at a signal, the outer ones first."""
    if has_one_part(event) or step(event, kept, signal)[1] is not None:
        return
    left, right = (step(arm, before, signal)[1] is not None for arm, before in zip(event[1:], kept))
    if event[0] != "or" and right:
        yield Lack(event, at, is_vain=True)
    if event[0] == "seq" and left or event[0] == "closure" and left and not right:
        yield Lack(event, at, is_vain=False)
    for number in (1, 2):
        yield from lacks(event[number], kept[number - 1], signal, at + (number,))


def candidates(heard: List[Hearing], number: int, lack: Lack) -> Iterator[Candidate]:
    """What became of each occurrence of the first event that was before the hearing of this number, the last first. An
    abort counts if it was before that hearing too."""
    here = heard[number].within
    around = {id(here), *map(id, ancestry(here))}
    follower: Any = None
    takers: dict[int, Signal] = {}
    for hearing in reversed(heard[:number]):
        undoing, signal = aborted_before(hearing.within, around), hearing.signal
        if signal is None:
            if undoing is None:
                follower = hearing.change
            continue
        first, ended, taken = _at(hearing.past, signal, lack)
        if ended and undoing is None and lack.event[0] == "closure":
            follower = signal
        if first is not None:
            yield _fate(hearing, first, undoing, follower, takers.get(first.signals[-1].number))
        if taken is not None and undoing is None:
            takers[taken.signals[-1].number] = signal


def _at(past: Past, signal: Signal, lack: Lack) -> Tuple[Optional[Occurrence], bool, Optional[Occurrence]]:
    """The first event's occurrence at a signal, whether the last one occurs, and which occurrence a sequence takes."""
    first, last = lack.event[1:]
    if past.status != ENABLED:
        is_told = has_one_part(first) and mentions(first, signal.heard)
        return Occurrence((signal,), 1) if is_told else None, False, None
    kept = past.kept
    for arm in lack.at:
        kept = kept[arm - 1]
    ended = step(last, kept[1], signal)[1] is not None
    taken = kept[2].oldest if ended and lack.event[0] == "seq" else None
    return step(first, kept[0], signal)[1], ended, taken


def _fate(hearing: Hearing, first: Occurrence, undoing: Any, follower: Any, taker: Optional[Signal]) -> Candidate:
    """The fate of an occurrence at a hearing, by what followed first: an end of the closure, or a change of status."""
    if undoing is not None:
        return Candidate(first, Fate.UNDONE, undoing)
    if hearing.past.status != ENABLED:
        return Candidate(first, Fate.UNHEARD, hearing.past.since)
    if taker is not None:
        return Candidate(first, Fate.TAKEN, taker)
    if isinstance(follower, Operation):
        return Candidate(first, Fate.FORGOTTEN, follower)
    return Candidate(first, Fate.ENDING if follower is hearing.signal else Fate.TAKEN, follower)
