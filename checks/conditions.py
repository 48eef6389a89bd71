#!/usr/bin/env python3
"""Compares reports of random scripts with those of the same scripts whose conditions look at whole classes.

    checks/conditions.py [--scripts N] [--jobs N]

Each predicate of a script, also those of `no` and of aggregates, begins by comparing its row's key or a field, so that
the program looks at a part of the class alone. In the other script each predicate stands in two `not`s, so that the
program looks at each object of the class. The reports must be the same byte for byte, with trees, for 1 and 4 workers.
So faults of predicates must be the same too. There are N scripts of version 2, and N of version 4.

HIPAC names the program; the default is the one that ./hipac starts. The seeds are fixed: script n is the same on each
machine. The last line is 'N passed, M failed'.
"""

import argparse
import json
import os
import sys

from harness import Failed, by_pipe, command_of, run_checks
from tests.made_scripts import ScriptMaker
from tests.made_version4 import Version4Maker

COMPARISONS = ("=", "<", "<=", ">", ">=")
# An index holds the first 32 bytes of a text.
LONG = "a text of more than thirty-two bytes, "
TEXTS = ("", "a", "b", LONG + "a", LONG + "b", LONG)
FIELDS = {"acct": ["bal"], "item": ["name", "count"], "bare": []}


class Comparing:
    """Makes scripts whose predicates begin with a comparison of their row's key or field."""

    def script(self):
        whole = super().script()
        accounts = [["create", "acct", key, [["bal", key % 5], ["open", True]]] for key in range(10, 24)]
        items = [["create", "item", key, [["name", self.text()], ["count", key % 4]]] for key in range(10, 24)]
        whole["items"].insert(1, ["tx", accounts + items])
        return whole

    def predicate(self, known):
        name = list(known)[-1]
        around = {other: known[other] for other in known if other != name}
        begins = self.comparison(name, known[name], around)
        for _ in range(self.random.randint(0, 2)):
            begins = ["and", begins, self.test(known)]
        return begins

    def comparison(self, name, of, around):
        field = self.random.choice([None, *FIELDS[of]])
        one = ["of", name, field] if field else ["key", name]
        is_text = self.chance(0.9) if field == "name" else self.chance(0.05)
        sides = [one, self.text() if is_text else self.number(around, 1)]
        if self.chance(0.4):
            sides.reverse()
        return [self.random.choice(COMPARISONS), *sides]

    def text(self):
        return self.random.choice(TEXTS)


class ConditionMaker(Comparing, ScriptMaker):
    """Makes such a script of version 2."""


class AggregateMaker(Comparing, Version4Maker):
    """Makes such a script of version 4, whose aggregates have such predicates too."""

    def looking(self, known):
        return self.predicate(known)


def scanned(part):
    """The same statements, or rules, with each predicate in two `not`s."""
    if not isinstance(part, list):
        return part
    if len(part) == 5 and part[0] == "each":
        return part[:3] + [twice_not(part[3]), scanned(part[4])]
    if len(part) == 4 and part[0] == "let":
        return part[:2] + [scanned_aggregate(part[2]), scanned(part[3])]
    return [scanned(each) for each in part]


def twice_not(predicate):
    return ["not", ["not", predicate]]


def scanned_aggregate(aggregate):
    if isinstance(aggregate, list) and aggregate[0] in ("count", "sum", "least", "greatest") and len(aggregate) > 1:
        return aggregate[:3] + [twice_not(aggregate[3])] + aggregate[4:]
    return aggregate


def scanned_entry(entry):
    if entry[0] == "let":
        return entry[:2] + [scanned_aggregate(entry[2])]
    return entry[:-1] + [twice_not(entry[-1])]


def scanned_rule(rule):
    name, event, mode, entries, then, action, *closing = rule
    return [name, event, mode, [scanned_entry(entry) for entry in entries], then, scanned(action), *closing]


def alike(command, maker, seed):
    """The reports of a script are those of the other one."""
    script = maker(seed).script()
    other = {**script, "rules": [scanned_rule(rule) for rule in script["rules"]], "items": scanned(script["items"])}
    runs = [(script, "1"), (script, "4"), (other, "1")]
    answers = [by_pipe([*command, "--tree", "--workers", workers], json.dumps(given).encode())
               for given, workers in runs]
    if any(answer[:2] != answers[-1][:2] for answer in answers) or answers[-1][0] != 0:
        raise Failed("the reports differ, or there is none")


def main():
    parser = argparse.ArgumentParser(description=__doc__, formatter_class=argparse.RawDescriptionHelpFormatter)
    parser.add_argument("--scripts", type=int, default=2000)
    parser.add_argument("--jobs", type=int, default=os.cpu_count())
    options = parser.parse_args()
    command = command_of("hipac")
    checks = [(f"{maker.__name__} {seed}", lambda maker=maker, seed=seed: alike(command, maker, seed))
              for seed in range(options.scripts) for maker in (ConditionMaker, AggregateMaker)]
    return run_checks(checks, options.jobs)


if __name__ == "__main__":
    sys.exit(main())
