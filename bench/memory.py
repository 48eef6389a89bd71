#!/usr/bin/env python3
"""Measures the memory of 15,000 objects with two indexed fields, and without.

    bench/memory.py HIPAC

Two rules look for objects by a field each: with a comparison, which an index serves, or with an operator around the
field, for which the class is scanned. It prints the most memory that each run has resident.
"""

import json
import os
import sys

OBJECTS = 15_000
CLASSES = [["acct", [["bal", "int"], ["due", "int"]]]]


def script(is_indexed):
    """Two rules that look for objects, the objects, and a signal that triggers the rules."""
    rules = []
    for number, field in enumerate(("bal", "due")):
        value = ["of", "x", field]
        predicate = ["=", value if is_indexed else ["*", value, 1], 5]
        queries, action = [["x", "acct", predicate]], [["emit", number]]
        rules.append([f"r{number}", ["signal", "go"], "immediate", queries, "immediate", action])
    creations = [["create", "acct", key, [["bal", key], ["due", key]]] for key in range(OBJECTS)]
    items = [["tx", [["install", rule[0]] for rule in rules]], ["tx", creations], ["tx", [["signal", "go", []]]]]
    whole = {"version": 1, "classes": CLASSES, "rules": rules, "items": items}
    return json.dumps(whole, separators=(",", ":")).encode()


def most_resident(program, given):
    """The most memory that the program has resident over this script, in MiB."""
    reading, writing = os.pipe()
    child = os.fork()
    if child == 0:
        os.close(writing)
        os.dup2(reading, 0)
        os.dup2(os.open(os.devnull, os.O_WRONLY), 1)
        os.execv(program, [program, "--workers", "1"])
    os.close(reading)
    with open(writing, "wb") as file:
        file.write(given)
    _, status, usage = os.wait4(child, 0)
    if status:
        sys.exit(f"{program} ended with {status}")
    return usage.ru_maxrss / 1024


def main():
    if len(sys.argv) != 2:
        sys.exit(__doc__)
    for name, is_indexed in (("two indexed fields", True), ("no index", False)):
        print(f"{OBJECTS:,} objects, {name}: {most_resident(sys.argv[1], script(is_indexed)):.1f} MiB")


if __name__ == "__main__":
    main()
