"""The lines of an answer from its objects: the inverse of the client's reader."""

from __future__ import annotations

import json
from typing import Iterator, List

from hipac import Act, Answer, Emit, Fire, Node, ObjectOperation, RuleOperation, Sub, Value


def lines_of(answer: Answer) -> Iterator[str]:
    for unit in answer.units:
        yield str(unit)
        yield from below(unit)
        for task in unit.cascade:
            yield str(task)
            yield from below(task)
    for thing in answer.state.objects:
        yield f"object {thing}"
    for name, status in answer.state.rules.items():
        yield f"rule {name} {status}"
    yield f"ok {answer.count}"


def below(transaction) -> Iterator[str]:
    yield from ("emit " + text(value) for value in transaction.emits)
    yield from tree(transaction.tree or [], 2)


def tree(nodes: List[Node], indent: int) -> Iterator[str]:
    for node in nodes:
        yield " " * indent + node_text(node)
        yield from tree(getattr(node, "items", []), indent + 2)


def node_text(node: Node) -> str:
    if isinstance(node, ObjectOperation):
        return f"op {node.verb} {node.class_name} {node.key}" + row(node.fields)
    if isinstance(node, RuleOperation):
        return f"op {node.verb} {node.rule}"
    if isinstance(node, Emit):
        return "emit " + text(node.value)
    if isinstance(node, Sub):
        return f"sub {node.ending}"
    if isinstance(node, Act):
        return f"act {node.rule} {node.mode} {node.ending}"
    return f"fire {node.rule} {node.mode} {condition(node)}"


def condition(node: Fire) -> str:
    if node.condition == "satisfied":
        return f"satisfied {'later' if node.later else node.action}"
    cause = "" if node.fault is None else " " + str(node.fault)[len("aborted "):]
    return f"{node.condition}{cause} none"


def row(fields: dict) -> str:
    return "".join(f" {name}={text(value)}" for name, value in fields.items())


def text(value: Value) -> str:
    return json.dumps(value, ensure_ascii=False)
