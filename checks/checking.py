#!/usr/bin/env python3
"""Compares what hipac_check says of random scripts with the definitions, written once more in Python, and with runs.

    checks/checking.py [--scripts N] [--jobs N] [--show N]

Of each script, of version 2 or 4, and every third one made so that each value is used as what it is:

- The verdicts on depth and guards and all findings but those of kinds are those that this script finds by itself.
  Those name something in the script, each something else, and a script that is made so has none.
- With --text the script's canonical text has the same findings, at the places in the text that the tools' reader finds.
- By a file of random signatures (--signals) the findings are right in the same way, and all that follows holds too. A
  unit that gives a signal of the file other kinds, or too few arguments, has a line. If the file names all signals, the
  lines of rules are the same without the units. By the signatures that a script keeps to it has no line.
- What hipac_check promises holds in the run, by its report with trees: after `kinds ok` nothing ends with A3 or A6, not
  even a condition; after a known depth nothing with A7; a guard that isn't closed and has no line `open` has no faulty
  condition, and no arithmetic ends its action; no rule fires that is never installed or never reached.

The lines before the last say how many of the scripts that met no such cause have the verdict, of each sort of scripts.
No document promises that a verdict is given, so a script fails only by a wrong finding or a broken promise. But of the
scripts as people write them so many must have the verdict as LEAST_GIVEN says.

Before all that, files that are refused, and words, get exactly the line on standard error that they are to get.

With --show a script is written out, and not run. HIPAC and HIPAC_CHECK name the programs; the defaults are those that
./hipac and ./hipac-check start. The seeds are fixed: script n is the same on each machine. The last line is 'N passed,
M failed'.
"""

import argparse
import concurrent.futures
import json
import os
import random
import re
import sys
import tempfile

from harness import TOP, by_pipe, command_of

sys.path.insert(0, os.path.join(TOP, "tools"))

from hipac_tools import rulebase  # noqa: E402 (they lie in tools/)
from hipac_tools.notation.reader import decoded, read_bytes  # noqa: E402
from hipac_tools.notation.writer import script_text  # noqa: E402
from hipac_tools.positions import find, line_and_column  # noqa: E402
from hipac_tools.proved import unit_paths  # noqa: E402
from tests.made_scripts import ScriptMaker  # noqa: E402
from tests.made_version4 import Version4Maker  # noqa: E402

from kinded_scripts import SIGNATURES, KindedMaker  # noqa: E402

DETACHED = ("separate", "dependent", "exclusive")
COMMIT = ("commit",)

# What is read of an object or of an occurrence has 64 bits.
FARTHEST = 2 ** 63

# The statements inside a statement, by their places in it.
INSIDE = {"if": (2, 3), "sub": (1, 2), "each": (4,), "with": (4,), "for": (2,), "let": (3,)}

# The verdicts, each with the causes that it excludes.
VERDICTS = {"kinds": ("A3", "A6"), "depth": ("A7",), "guards": ()}

# In how many of 100 scripts that use each value as what it is, and that met no such cause, a verdict is given at least;
# and the number of such scripts from which on that counts.
LEAST_GIVEN = {"kinds": 100, "depth": 75, "guards": 25}
ENOUGH = 20


# ---- arithmetic that never faults

def bound(e):
    """How far from 0 an expression's integer is at most, if that is known."""
    if isinstance(e, int) and not isinstance(e, bool):
        return abs(e)
    if not isinstance(e, list):
        return None
    word, *operands = e
    if word in ("+", "-", "*"):
        a, b = map(bound, operands)
        return None if a is None or b is None else a * b if word == "*" else a + b
    if word == "/":
        return quotient(*operands)
    if word in ("%", "neg"):
        return bound(operands[-1])
    return FARTHEST if word in ("of", "key", "new", "old", "id", "arg", "time", "count", "now") else None


def quotient(a, b):
    """The bound of a quotient, or of the dividend if the divisor isn't a constant."""
    divisor = abs(b) if isinstance(b, int) and not isinstance(b, bool) else 0
    return bound(a) // divisor if divisor and bound(a) is not None else bound(a)


def is_small(most):
    return most is not None and most < FARTHEST


def is_calm(e):
    """Whether no arithmetic of an expression overflows or divides by zero, by its constants alone."""
    if not isinstance(e, list):
        return True
    word, *operands = e
    if word in ("+", "-", "*", "neg"):
        return all(map(is_calm, operands)) and is_small(bound(e))
    if word in ("/", "%"):
        a, b = operands
        is_nonzero = isinstance(b, int) and not isinstance(b, bool) and b != 0
        return is_calm(a) and is_calm(b) and is_nonzero and is_small(quotient(a, b))
    if word in ("not", "and", "or", "=", "!=", "<", "<=", ">", ">="):
        return all(map(is_calm, operands))
    return word != "count"


def is_aggregate_calm(aggregate):
    if isinstance(aggregate, list) and aggregate[0] in ("count", "least", "greatest") and len(aggregate) > 3:
        return all(map(is_calm, aggregate[3:]))
    return not (isinstance(aggregate, list) and aggregate[0] in ("sum", "next")) and is_calm(aggregate)


def is_entry_calm(entry):
    return is_aggregate_calm(entry[2]) if entry[0] == "let" else is_calm(entry[-1])


def expressions(statement):
    """The expressions of a statement itself."""
    word = statement[0]
    if word in ("create", "update"):
        return [statement[2], *(value for _, value in statement[3])]
    if word == "signal":
        return statement[2]
    return {"delete": statement[2:3], "emit": statement[1:2], "veto": statement[1:2], "if": statement[1:2],
            "each": statement[3:4], "with": statement[3:4]}.get(word, [])


def is_body_calm(body):
    return all(map(is_statement_calm, body))


def is_statement_calm(statement):
    """Whether no arithmetic ends a statement; of a `sub` the body counts that follows its abort."""
    if statement[0] == "let" and not is_aggregate_calm(statement[2]):
        return False
    places = (2,) if statement[0] == "sub" else INSIDE.get(statement[0], ())
    return all(map(is_calm, expressions(statement))) and all(is_body_calm(statement[place]) for place in places)


def may_veto(body):
    return any(each[0] == "veto" or any(may_veto(each[place]) for place in INSIDE.get(each[0], ())) for each in body)


def opening(rule):
    """The place in a rule of the part that arithmetic may end, so that it doesn't veto."""
    if rule[6:] or not may_veto(rule[5]):
        return None
    if not all(map(is_entry_calm, rule[3])):
        return 3
    return None if is_body_calm(rule[5]) else 5


# ---- what triggers what

def ends(event, occurrence):
    """Whether an occurrence of the event may end with this primitive one."""
    form = event[0]
    if form == "or":
        return ends(event[1], occurrence) or ends(event[2], occurrence)
    if form in ("seq", "closure"):
        return ends(event[2], occurrence)
    if occurrence[0] == "moment" and form == "at":
        return occurrence[1] == event[1]
    if occurrence[0] == "moment" and form == "every":
        return occurrence[1] >= event[1] and (occurrence[1] - event[1]) % event[2] == 0
    return tuple(event) == occurrence


def patterns(event, occurrence, path):
    """The paths of the patterns of an event at a path that an occurrence may end."""
    form = event[0]
    places = (1, 2) if form == "or" else (2,) if form in ("seq", "closure") else ()
    if not places and ends(event, occurrence):
        yield path
    for place in places:
        yield from patterns(event[place], occurrence, f"{path}/{place}")


def moments_named(event, clock, until):
    """The moments after the clock up to `until` that the event names."""
    form = event[0]
    if form in ("or", "seq", "closure"):
        return moments_named(event[1], clock, until) | moments_named(event[2], clock, until)
    if form == "at":
        return {event[1]} if clock < event[1] <= until else set()
    if form == "every":
        passed = 0 if event[1] > clock else (clock - event[1]) // event[2] + 1
        return set(range(event[1] + passed * event[2], until + 1, event[2]))
    return set()


class Base:
    """A script's rules, with the rules that each may trigger, where those outside a set do nothing."""

    def __init__(self, script, present=None):
        self.rules, self.items, self.limit = script["rules"], script["items"], script.get("depth", 8)
        self.number = {rule[0]: n for n, rule in enumerate(self.rules)}
        self.every = set(range(len(self.rules)))
        self.present = self.every if present is None else present
        self.after = [self.rule(n, rule) for n, rule in enumerate(self.rules)]

    def signal(self, occurrence):
        return {n for n in self.present if ends(self.rules[n][1], occurrence)}

    def statement(self, given):
        form = given[0]
        if form in ("create", "update", "delete", "signal"):
            return self.signal((form, given[1]))
        if form == "fire":
            return {self.number[given[1]]}
        return set().union(*(self.body(given[place]) for place in INSIDE.get(form, ())))

    def body(self, statements):
        return set().union(*(self.statement(each) for each in statements))

    def rule(self, n, rule):
        may_detach = rule[2] in DETACHED or rule[4] in DETACHED
        return (self.body(rule[5]) if n in self.present else set()) | (self.signal(COMMIT) if may_detach else set())

    def begun(self):
        found = set()
        clock = 0
        for item in self.items:
            if item[0] == "tx":
                found |= self.body(item[1]) | self.signal(COMMIT)
                continue
            for moment in set().union(*(moments_named(rule[1], clock, item[1]) for rule in self.rules)):
                found |= self.signal(("moment", moment)) | self.signal(COMMIT)
            clock = item[1]
        return found

    def raised(self, signals):
        """The rules that a transaction may trigger which gives these signals, if there are any."""
        occurrences = [COMMIT, *(("signal", name) for name in signals)] if signals else []
        return set().union(*map(self.signal, occurrences))

    def within(self, most):
        """The rules that begin no chain of more than `most` firings."""
        table = set()
        for _ in range(most):
            table = {n for n, after in enumerate(self.after) if after <= table}
        return table

    def depth(self, rules):
        return next((most for most in range(1, self.limit + 1) if rules <= self.within(most)), None)

    def chain(self, rules):
        """The rules of the first chain of more firings than may nest."""
        found = []
        for most in range(self.limit, -1, -1):
            rules = rules - self.within(most)
            if not rules:
                return found
            found.append(min(rules))
            rules = self.after[found[-1]]
        return found

    def ended(self, m, occurrence):
        """The paths of the patterns of a rule's event that an occurrence may end."""
        return patterns(self.rules[m][1], occurrence, f"/rules/{m}/1") if m in self.present else ()

    def links(self, body, path, m):
        """The paths of the statements in a body that may trigger a rule, each with the path of what it ends."""
        for number, (form, *given) in enumerate(body):
            here = f"{path}/{number}"
            if form in ("create", "update", "delete", "signal"):
                yield from ((here, end) for end in self.ended(m, (form, given[0])))
            if form == "fire" and self.number[given[0]] == m:
                yield here, f"/rules/{m}"
            for place in INSIDE.get(form, ()):
                yield from self.links(given[place - 1], f"{here}/{place}", m)

    def link(self, n, m):
        """The line of what links two rules of a chain."""
        rule = self.rules[n]
        modes = [f"/rules/{n}/{place}" for place in (2, 4) if rule[place] in DETACHED]
        found = [*self.links(rule[5] if n in self.present else [], f"/rules/{n}/5", m),
                 *((mode, end) for mode in modes for end in self.ended(m, COMMIT))]
        return f"by {found[0][0]} {found[0][1]}"

    def chain_lines(self, rules):
        """The lines of the first chain of more firings than may nest."""
        chain = self.chain(rules)
        for n, m in zip(chain, [*chain[1:], None]):
            yield f"chain /rules/{n} {self.rules[n][0]}"
            if m is not None:
                yield self.link(n, m)

    def installed_in(self, body):
        """The rules that a body may install."""
        own = {self.number[each[1]] for each in body if each[0] == "install"}
        return own.union(*(self.installed_in(each[place]) for each in body for place in INSIDE.get(each[0], ())))

    def installed(self):
        units = [self.installed_in(item[1]) for item in self.items if item[0] == "tx"]
        return closed(set().union(*units), [self.installed_in(rule[5]) for rule in self.rules])


def closed(rules, after):
    """The rules with those that they lead to, those that these lead to, and so on."""
    more = rules.union(*(after[n] for n in rules))
    return rules if more == rules else closed(more, after)


# ---- findings

def findings(script, is_kinded, signals=()):
    """What hipac_check has to write of an accepted script, without the lines on kinds, where a file names signals."""
    base = Base(script)
    among = Base(script, base.installed())
    begun = among.begun()
    known, own = base.depth(base.every), among.depth(begun)
    here = f"depth {own} of {base.limit} here" if own else "depth unknown"
    openings = [opening(rule) for rule in base.rules]
    names = [rule[0] for rule in base.rules]
    reached = closed(begun | among.raised(signals), among.after)
    return [
        f"depth {known} of {base.limit}" if known else here,
        "guards closed" if is_kinded and not any(openings) else "guards unknown",
        *(base.chain_lines(base.every) if own else among.chain_lines(begun)),
        *(f"open /rules/{n}/{part} {names[n]}" for n, part in enumerate(openings) if part),
        *(f"{'never' if n in among.present else 'uninstalled'} /rules/{n} {name}" for n, name in enumerate(names)
          if n not in among.present or n not in reached),
    ]


def in_text(script, text, found):
    """The lines of findings on a script as those on its text, with lines and columns in place of paths."""
    root, characters, units = read_bytes(text), decoded(text), list(unit_paths(script))

    def place(path):
        line, column = line_and_column(characters, find(root, path).node.start)
        return f"{line}:{column}"

    for line in found:
        word, *others = line.split(" ")
        if word == "kind" and others[0] == "unit":
            others[1:3] = [others[1], place(units[int(others[1]) - 1] + others[2])]
        elif word == "by":
            others = list(map(place, others))
        elif others[0].startswith("/"):
            others[0] = place(others[0])
        yield " ".join((word, *others))


# ---- runs

def ended(report):
    """The causes in a report with trees, each with the rule whose condition or action it ended, if it ended one."""
    for line in report:
        found = re.match(r" +(fire|act) (\S+) \S+ (?:satisfied )?(fault|aborted) (A\d)", line)
        if found:
            word, rule, how, cause = found.groups()
            yield cause, (rule, "condition" if how == "fault" else "action")
        else:
            found = re.match(r"(?:unit \d+(?: time \d+)?|\w+ \S+| +sub) aborted (A\d)", line)
            if found:
                yield found.group(1), None


def fired(report):
    """The names of the rules that fired, by a report with trees."""
    return {found.group(1) for found in (re.match(r" +(?:fire|act) (\S+) ", line) for line in report) if found}


def failures(script, report):
    """The causes that the run met, and the guards that let something pass since arithmetic or a kind ended them."""
    guards = {rule[0] for rule in script["rules"] if may_veto(rule[5]) and not rule[6:]}
    met, failed = set(), set()
    for cause, where in ended(report):
        met.add(cause)
        if where and where[0] in guards and (where[1] == "condition" or cause in ("A3", "A4", "A5", "A6")):
            failed.add(where[0])
    return met, failed


def broken(script, found, report):
    """What hipac_check has promised and the run doesn't keep."""
    met, failed = failures(script, report)
    verdicts = dict(line.split(" ", 1) for line in found[:3])
    for name, causes in VERDICTS.items():
        if verdicts[name] != "unknown" and met.intersection(causes):
            yield f"{name} {verdicts[name]}, and the run met {sorted(met.intersection(causes))}"
    open_guards = {line.split()[2] for line in found if line.startswith("open ")}
    if verdicts["kinds"] == "ok" and failed - open_guards:
        yield f"the guards {sorted(failed - open_guards)} failed, and have no line"
    idle = {line.split()[2] for line in found if line.startswith(("never ", "uninstalled "))}
    if idle & fired(report):
        yield f"the rules {sorted(idle & fired(report))} fired"


def check(commands, seed):
    """What is wrong with the findings on a script, if anything is; and for each verdict whether the run met none of
    the causes that it excludes, and whether it was given."""
    script = made(seed)
    given = json.dumps(script).encode()
    status, wrote, _ = by_pipe(commands["hipac_check"], given)
    text = script_text(rulebase.read(json.dumps(script))).encode()
    found_in_text = by_pipe([*commands["hipac_check"], "--text"], text)[1].decode().splitlines()
    if found_in_text != list(in_text(script, text, wrote.decode().splitlines())):
        return f"the script's text has the findings {found_in_text}", {}
    _, report, _ = by_pipe([*commands["hipac"], "--tree"], given)
    found, lines = wrote.decode().splitlines(), report.decode().splitlines()
    if status != 0 or len(found) < 3 or found[0] not in ("kinds ok", "kinds unknown"):
        return f"status {status}, and it wrote {found[:3]}", {}
    kinds = [line for line in found if line.startswith("kind ")]
    if bool(kinds) != (found[0] == "kinds unknown") or not all(is_there(script, line) for line in kinds):
        return f"{found[0]}, and the findings of kinds {kinds}", {}
    wanted = findings(script, found[0] == "kinds ok")
    if [line for line in found[1:] if line not in kinds] != wanted:
        return f"it wrote {found}, and by the definitions {wanted}", {}
    wrong = [*broken(script, found, lines), *wrong_by_signals(commands, seed, script, lines)]
    met, failed = failures(script, lines)
    given = {name: found[place].split()[1] != "unknown" for place, name in enumerate(VERDICTS)}
    none = {name: not met.intersection(causes) for name, causes in VERDICTS.items()}
    none["guards"] = not failed and any(may_veto(rule[5]) for rule in script["rules"])
    return "; ".join(wrong), {name: given[name] for name in VERDICTS if none[name]}


# ---- signals of a file

# The words for an argument. A file has at most this many arguments of a signal, most of the time.
SORTS = ("int", "bool", "text", "any")
FEW = 3


def signals_in(value):
    """The names of the signals in a script's JSON."""
    if not isinstance(value, list):
        return set()
    own = {value[1]} if len(value) > 1 and value[0] == "signal" and isinstance(value[1], str) else set()
    return own.union(*map(signals_in, value))


def by_file(commands, script, signatures):
    """The lines that are written of a script by these signatures."""
    with tempfile.NamedTemporaryFile("w", suffix=".json") as file:
        json.dump(signatures, file)
        file.flush()
        status, wrote, said = by_pipe([*commands["hipac_check"], "--signals", file.name], json.dumps(script).encode())
    return wrote.decode().splitlines() if status == 0 else [f"status {status}", said.decode()]


def kind_lines(found):
    return [line for line in found if line.startswith("kind ")]


def breaks(body, signatures):
    """Whether a body gives a signal other kinds than a file says, by its constants, or too few arguments."""
    for given in body:
        if given[0] == "signal" and given[1] in signatures:
            wanted = signatures[given[1]]
            if len(given[2]) < len(wanted) or any(not fits(e, sort) for sort, e in zip(wanted, given[2])):
                return True
        if any(breaks(given[place], signatures) for place in INSIDE.get(given[0], ())):
            return True
    return False


def fits(e, sort):
    """Whether an argument may be of this sort: a constant by its kind, and any other expression."""
    kind = {bool: "bool", int: "int", str: "text"}.get(type(e))
    return sort == "any" or kind in (None, sort)


def wrong_by_signals(commands, seed, script, report):
    """What is wrong with the findings on a script by the signatures of a file."""
    chance = random.Random(seed)
    names = sorted(signals_in([script["rules"], script["items"]]))
    signatures = {name: [chance.choice(SORTS) for _ in range(chance.randint(0, FEW))] for name in names}
    found = by_file(commands, script, list(signatures.items()))
    kinds = kind_lines(found)
    if bool(kinds) != (found[0] == "kinds unknown") or not all(is_there(script, line) for line in kinds):
        yield f"by {signatures} {found[:3]}, and the findings of kinds {kinds}"
        return
    if [line for line in found[1:] if line not in kinds] != findings(script, found[0] == "kinds ok", names):
        yield f"by {signatures} it wrote {found}"
        return
    yield from (f"by {signatures} {fault}" for fault in broken(script, found, report))
    for n, body in enumerate(bodies(script), 1):
        if body and breaks(body, signatures) and not any(line.startswith(f"kind unit {n} ") for line in kinds):
            yield f"by {signatures} unit {n} has no line"
    alone = kind_lines(by_file(commands, {**script, "items": []}, list(signatures.items())))
    if alone != [line for line in kinds if not line.startswith("kind unit ")]:
        yield f"by {signatures} the rules have other lines without the units: {alone}"
    if maker_of(seed) is KindedMaker:
        found = by_file(commands, script, list(SIGNATURES.items()))
        if found[0] != "kinds ok":
            yield f"by {SIGNATURES} {found}"


# Files of signals that are refused, each with what is said of it.
REFUSED_FILES = {
    b"": "signals refused S1",
    b"[[\"go\", [\"int\"]]": "signals refused S1",
    b"[[\"g\xff\", []]]": "signals refused S1",
    b"{\"go\": [\"int\"]}": "signals refused S2 /",
    b"[\"go\"]": "signals refused S2 /0",
    b"[[\"go\"]]": "signals refused S2 /0",
    b"[[\"go\", [], 1]]": "signals refused S2 /0",
    b"[[7, []]]": "signals refused S2 /0/0",
    b"[[\"go now\", []]]": "signals refused S2 /0/0",
    b"[[\"go\", \"int\"]]": "signals refused S2 /0/1",
    b"[[\"stop\", []], [\"go\", [\"int\", \"number\"]]]": "signals refused S2 /1/1/1",
    b"[[\"go\", [[\"amount\", \"int\"]]]]": "signals refused S2 /0/1/0",
    b"[[\"go\", []], [\"stop\", []], [\"go\", [\"what\"]]]": "signals refused S4 /2/0",
    json.dumps([["go", ["int"] * 33]]).encode(): "signals refused S5 args",
    b"[]" + b" " * 1_048_575: "signals refused S5 size",
}
# Files of signals that are accepted.
ACCEPTED_FILES = (b"[]", b"[]" + b" " * 1_048_574, json.dumps([["go", ["int"] * 32]]).encode(), b" [ [\"A_1\",[]]]\r\n")


def wrong_files(command):
    """What is wrong with what is said of files of signals, and of words."""
    empty = json.dumps({"version": 1, "classes": [], "rules": [], "items": []}).encode()
    with tempfile.TemporaryDirectory() as room:
        path = os.path.join(room, "signals.json")
        ends = [(path, content, 3, said) for content, said in REFUSED_FILES.items()]
        ends += [(path, content, 0, "") for content in ACCEPTED_FILES]
        ends += [(os.path.join(room, "none"), b"", 3, "the signals' file can't be read"),
                 (room, b"", 3, "the signals' file can't be read")]
        for name, content, status, said in ends:
            with open(path, "wb") as file:
                file.write(content)
            done = by_pipe([*command, "--signals", name], empty)
            if (done[0], done[2].decode().strip(), bool(done[1])) != (status, said, status == 0):
                yield f"{content[:60]!r} in {name}: {done}"
        for words in (["--signals"], ["--text", "--text"], ["--signals", path, "--signals", path], ["text"],
                      ["--tree"], [path], ["--signals", path, "more"]):
            done = by_pipe([*command, *words], empty)
            if (done[0], done[1], done[2].decode().strip()) != (3, b"", "command line refused"):
                yield f"the words {words}: {done}"


def is_there(script, line):
    """Whether a finding of kinds names something: by its path in the script, or in the body of a unit."""
    words = line.split()[1:]
    whole = script
    if words[0] == "unit":
        units = list(bodies(script))
        whole, words = units[int(words[1]) - 1], words[2:]
    for step in words[0].strip("/").split("/"):
        if isinstance(whole, list) and not (step.isdigit() and int(step) < len(whole)):
            return False
        if not isinstance(whole, list) and step not in ("rules", "items"):
            return False
        whole = whole[int(step)] if isinstance(whole, list) else whole[step]
    return True


def bodies(script):
    """The bodies of the units that a report numbers; a moment has none."""
    clock = 0
    for item in script["items"]:
        if item[0] == "tx":
            yield item[1]
        else:
            moments = set().union(*(moments_named(rule[1], clock, item[1]) for rule in script["rules"]))
            yield from [None] * len(moments)
            clock = item[1]


def too_few(done):
    """Says of how many scripts each verdict is given, of each sort of scripts. Yields for each verdict whether too few
    of those have it that use each value as what it is."""
    for name, least in LEAST_GIVEN.items():
        others, kinded = calm_ones(done, name, False), calm_ones(done, name, True)
        for title, scripts in (("scripts", others), ("kinded scripts", kinded)):
            print(f"{name}: {sum(scripts.values())} of {len(scripts)} {title} that met no such cause have the verdict")
        lacking = [str(seed) for seed, is_given in kinded.items() if not is_given]
        is_wrong = len(kinded) >= ENOUGH and 100 * (len(kinded) - len(lacking)) < least * len(kinded)
        if is_wrong:
            print(f"FAILED {name}: {least} in 100 are wanted, and these lack it: {' '.join(lacking)}")
        yield is_wrong


def calm_ones(done, name, is_kinded):
    """The scripts of a sort that met no cause that a verdict excludes: whether each has the verdict."""
    return {seed: given[name] for seed, (_, given) in enumerate(done)
            if name in given and (maker_of(seed) is KindedMaker) == is_kinded}


MAKERS = (ScriptMaker, KindedMaker, Version4Maker)


def maker_of(seed):
    return MAKERS[seed % len(MAKERS)]


def made(seed):
    return maker_of(seed)(seed).script()


def main():
    parser = argparse.ArgumentParser(description=__doc__, formatter_class=argparse.RawDescriptionHelpFormatter)
    parser.add_argument("--scripts", type=int, default=5000)
    parser.add_argument("--jobs", type=int, default=os.cpu_count())
    parser.add_argument("--show", type=int)
    options = parser.parse_args()
    if options.show is not None:
        print(json.dumps(made(options.show), indent=1))
        return 0
    commands = {name: command_of(name) for name in ("hipac", "hipac_check")}
    files = list(wrong_files(commands["hipac_check"]))
    for wrong in files:
        print(f"FAILED file {wrong}")
    with concurrent.futures.ThreadPoolExecutor(options.jobs) as pool:
        done = list(pool.map(lambda seed: check(commands, seed), range(options.scripts)))
    for seed, (wrong, _) in enumerate(done):
        if wrong:
            print(f"FAILED script {seed}: {wrong}")
    failed = sum(1 for wrong, _ in done if wrong) + sum(1 for wrong in too_few(done) if wrong) + bool(files)
    print(f"{len(done) + len(VERDICTS) + 1 - failed} passed, {failed} failed")
    return 1 if failed else 0


if __name__ == "__main__":
    sys.exit(main())
