"""Snapshots: the lines of a new rule base that stands as another does."""

from __future__ import annotations

import heapq
from typing import Any, Dict, Iterable, Iterator, List

from .answers import State
from .errors import SnapshotFault
from .lines import MOST_BYTES
from .scripts import Event, Lines

# The most moments of a move of the clock.
_MOST_MOMENTS = 1_000

# The most moments of all moves of a snapshot: each is a unit, in which no rule fires.
_MOST_MOVED = 1_000_000


def _moments_up_to(events: Iterable[Event], time: int) -> Iterator[int]:
    """The moments up to a time that events name, in ascending order, each once."""
    named = [it[1:] for event in events for it in event.patterns if it[0] in ("at", "every")]
    streams = [range(first, time + 1, *period) if period else [first] for first, *period in named]
    previous = 0
    for moment in heapq.merge(*streams):
        if previous < moment <= time:
            yield moment
            previous = moment


def _moves(events: Iterable[Event], time: int) -> Iterator[int]:
    """Moves of the clock from 0 to a time, each with as many moments as it may have."""
    count, last = 0, 0
    for moment in _moments_up_to(events, time):
        if count == _MOST_MOVED:
            raise SnapshotFault({"the clock": f"has passed more than {_MOST_MOVED:,} moments"})
        if count and count % _MOST_MOMENTS == 0:
            yield last
        count, last = count + 1, moment
    if time:
        yield time


def _transactions(lines: Lines, statements: Iterable[Any]) -> Iterator[Any]:
    """Transactions of these statements, none of which is too long for a line."""
    body: List[Any] = []
    size = 0
    for statement in statements:
        length = lines.size(statement) + 1
        if body and size + length > MOST_BYTES // 2:
            yield lines.transaction(body)
            body, size = [], 0
        body.append(statement)
        size += length
    if body:
        yield lines.transaction(body)


def snapshot_lines(lines: Lines, state: State, time: int) -> List[bytes]:
    """The lines of a rule base of this script that has the objects, the rules' statuses and the time of another one.

    The objects come before the rules, and the clock before both: so no rule fires but those on `commit`.
    """
    events = lines.events()
    # In this order, and in one transaction, the definitions of a snapshot restore the rules.
    operations: Dict[str, List[str]] = {"absent": [], "enabled": ["install"], "disabled": ["install", "disable"]}
    rules = [lines.on_rule(word, name) for name in events for word in operations[state.rules.get(name, "absent")]]
    return lines.lines_with([
        *map(lines.clock, _moves(events.values(), time)),
        *_transactions(lines, map(lines.create, state.objects)), lines.transaction(rules)])
