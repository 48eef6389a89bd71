"""The one canonical text of a script: no comments, no `;`, and each line however long it is."""

from __future__ import annotations

import re

from ..language import Form
from ..rulebase import Class, Entry, Let, Rule, RuleBase
from .event_texts import on_text
from .expression_texts import name_text
from .statement_texts import body_text, let_text, new_line, rows_text


def script_text(base: RuleBase) -> str:
    """A whole script: its head, its classes, its rules, its items."""
    head = f"version {base.version}\n" + ("" if base.depth is None else f"depth {base.depth}\n")
    classes = "".join(f"{class_text(one)}\n" for one in base.classes)
    rules = "".join(f"\n{rule_text(rule)}\n" for rule in base.rules)
    items = "".join(f"\n{item_text(item)}\n" for item in base.items)
    return head + (f"\n{classes}" if classes else "") + rules + items


def class_text(one: Class) -> str:
    fields = ", ".join(f"{name_text(name)}: {kind}" for name, kind in one.fields)
    return f"class {name_text(one.name)} " + (f"{{ {fields} }}" if fields else "{}")


def rule_text(rule: Rule) -> str:
    closed = " closed" if rule.is_closed else ""
    head = f"rule {name_text(rule.name)}{closed} {on_text(rule.event)}{mode_text(rule.ec)}"
    entries = "".join(f"{new_line(1)}if {entry_text(entry)}" for entry in rule.entries)
    return f"{head}{entries}{new_line(1)}do{mode_text(rule.ca)} {body_text(rule.action, 1)}"


def mode_text(mode: str) -> str:
    """A mode; nothing if it is immediate."""
    return "" if mode == "immediate" else f" {mode}"


def entry_text(entry: Entry) -> str:
    """An entry of a condition."""
    if isinstance(entry, Let):
        return let_text(entry.name, entry.aggregate)
    return f"{'no' if entry.is_no else 'some'} {rows_text(entry.name, entry.class_name, entry.predicate)}"


def item_text(item: Form) -> str:
    """A transaction, or a move of the clock."""
    word, content = item
    return f"clock {content}" if word == "clock" else f"transaction {body_text(content, 0)}"


def line_text(item: Form) -> str:
    """An item as one line. Its line feeds stand only between tokens."""
    return re.sub(r"\n *", " ", item_text(item))
