"""The fate of a rule in a unit, in one line: how often it was triggered, and what it did."""

from __future__ import annotations

from collections import Counter
from dataclasses import dataclass
from typing import Any, Dict, List

from .notes import Dropped, is_idle, undone_by
from .report import Act, End, Fire
from .wording import listed, times

ACTED, UNDONE, VETOED, FAILED, NOTHING, DROPPED, PUT_OFF = range(7)
WORDS = {
    ACTED: "acted", UNDONE: "acted in vain", VETOED: "vetoed", FAILED: "failed", NOTHING: "did nothing",
    DROPPED: "was dropped", PUT_OFF: "put its action off",
}
"""What a task comes to: its action committed, committed and was undone later, vetoed, or aborted; the condition or the
action did nothing; it never ran. A closed rule vetoes by failing, too. An action that is put off counts by what the
task that it becomes comes to."""


@dataclass
class Tally:
    """How often a rule was triggered in a unit, or fired by a statement, and how often it came to each fate."""

    triggers: int
    is_by_event: bool
    fates: Dict[int, int]


def tally(tasks: List[Any], dropped: List[Dropped]) -> Tally:
    """The tally of a rule, from its tasks that ran and those that were dropped."""
    fates = Counter(fate_of(node) for node in tasks)
    acts = sum(1 for node in tasks if isinstance(node, Act))
    untested = sum(1 for one in dropped if not one.is_tested)
    fates[DROPPED] += untested + fates.pop(PUT_OFF, 0) - acts
    is_by_event = any(_is_by_event(one) for one in [node.note for node in tasks] + dropped)
    return Tally(len(tasks) - acts + untested, is_by_event, +fates)


def verdict(tasks: List[Any], dropped: List[Dropped], where: str) -> str:
    """`was triggered twice in unit 5: it vetoed once and did nothing once`."""
    found = tally(tasks, dropped)
    if found.triggers == 0:
        return f"wasn't triggered {where}"
    head = f"was {'triggered' if found.is_by_event else 'fired'} {times(found.triggers)} {where}"
    told = [(WORDS[fate], number) for fate, number in found.fates.items()]
    if len(told) == 1:
        return f"{head}, and {told[0][0]}" + (" each time" if found.triggers > 1 else "")
    return f"{head}: it " + listed([f"{words} {times(number)}" for words, number in told])


def line_of(node: Any) -> str:
    """`reserve failed (A2)`, `no_oversell (deferred) vetoed`."""
    what = [] if node.mode == "immediate" else [node.mode]
    mode = " ".join(what + ["action"] if isinstance(node, Act) else what)
    fate = fate_of(node)
    cause = str(node.end).split(" ", 1)[1] if fate == FAILED else ""
    if node.note.vetoed_by_failing and not node.end.committed:
        cause = str(node.end.cause)
    if isinstance(node, Fire) and node.condition.startswith("fault"):
        cause = node.condition
    return node.rule + (f" ({mode})" if mode else "") + f" {WORDS[fate]}" + (f" ({cause})" if cause else "")


def dropped_line(dropped: Dropped) -> str:
    """`ready (deferred) was dropped`."""
    mode = "" if dropped.mode == "immediate" else f" ({dropped.mode})"
    return f"{dropped.rule}{mode} {WORDS[DROPPED]}"


def _is_by_event(one: Any) -> bool:
    """Whether an event made a task, and not a statement `fire`."""
    return one.trigger is None or one.trigger.primitive is not None


def fate_of(node: Any) -> int:
    """The fate of one task."""
    if node.note.vetoed_by_failing:
        return VETOED
    if isinstance(node, Fire) and not isinstance(node.action, End):
        return NOTHING if node.action == "none" else PUT_OFF
    if node.end.committed and is_idle(node):
        return NOTHING
    if node.end.committed:
        return UNDONE if undone_by(node) is not None else ACTED
    return VETOED if node.end.is_veto_of(node.rule) else FAILED
