"""The canonical text of events."""

from __future__ import annotations

from ..language import Form
from .expression_texts import name_text

JOINTS = {"or": "or", "seq": "then"}


def event_text(event: Form) -> str:
    word, *parts = event
    if word in JOINTS:
        left, right = parts
        left_text = f"({event_text(left)})" if left[0] in JOINTS and left[0] != word else event_text(left)
        return f"{left_text} {JOINTS[word]} {operand_text(right)}"
    if word == "closure":
        return f"closure({event_text(parts[0])} until {event_text(parts[1])})"
    if word == "at":
        return f"moment {parts[0]}"
    if word == "every":
        return f"every {parts[1]} from {parts[0]}"
    return f"{word} {name_text(parts[0])}" if parts else word


def operand_text(event: Form) -> str:
    """An event as the right operand of `or` or `then`, or as one thing in a sentence: in parentheses if it is one of
    these."""
    return f"({event_text(event)})" if event[0] in JOINTS else event_text(event)


def on_text(event: Form) -> str:
    """An event as a rule has it, with the word before it."""
    return f"on {event_text(event)}"
