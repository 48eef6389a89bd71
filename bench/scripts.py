"""Helpers for making scripts, shared by the workloads."""

import json
from dataclasses import dataclass

ACCOUNT = ["acct", [["bal", "int"]]]
GO = ["signal", "go", []]


def script(classes, rules, items, depth=None):
    """The text of a script. It must be within the program's limit of 1 MiB."""
    whole = {"version": 1, "classes": classes, "rules": rules, "items": items}
    if depth:
        whole["depth"] = depth
    text = json.dumps(whole, separators=(",", ":"))
    if len(text) > 1 << 20:
        raise ValueError(f"a script of {len(text)} bytes")
    return text


def immediate(name, event, condition, action):
    return [name, event, "immediate", condition, "immediate", action]


def deferred(name, event, condition, action):
    return [name, event, "deferred", condition, "immediate", action]


def on_go(name, condition, action):
    return immediate(name, ["signal", "go"], condition, action)


def installs(rules):
    return [["install", rule[0]] for rule in rules]


def create(key, balance):
    return ["create", "acct", key, [["bal", balance]]]


def add(class_name, field, key, amount):
    """Adds an amount to a field of one object that nothing else reads."""
    total = ["+", ["of", "x", field], amount]
    return ["with", "x", class_name, key, [["update", class_name, key, [[field, total]]]]]


def has_key(row, expression):
    return ["=", ["key", row], expression]


@dataclass
class Sql:
    """The same in SQL: statements to begin with, one that runs for each of many rows, and queries for the end."""

    begin: list
    # A `?` stands for a value of the row.
    statement: str
    rows: list
    end: list
    # Whether all rows are one transaction. Otherwise each is one.
    is_one: bool
    # One that is as long and finds no row to update, or the row that it is to insert.
    idle: str = ""

    def whole(self):
        """What the shell runs."""
        return self.text(self.statement)

    def text(self, statement=None):
        """What the shell runs with this statement, or with no row at all."""
        given = [statement.replace("?", "{}").format(*row) for row in self.rows] if statement else []
        given = ["begin;", *given, "commit;"] if self.is_one and given else given
        return "\n".join([*self.begin, *given, *self.end]) + "\n"
