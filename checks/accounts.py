#!/usr/bin/env python3
"""Compares what `hipac-tools why` says of scripts with a plain, slow account from the definitions.

    checks/accounts.py [--scripts N] [--first N] [--jobs N]

For each script the program's report with trees must be the one of the definitions (definitions.py and
definitions_run.py). Then each fact that `why` and `view` tell is compared with the plain account (plain_account.py): of
each node its trigger with the parts of the occurrence, each entry of its condition, why it aborted, what undid it and
what it came to; each fault that lasts; each dropped task; and for each rule in each unit how often it was triggered,
its status at each signal, and what became of each occurrence that its event could have been completed with. The same
facts are worded, and each kind of sentence must occur.

The scripts are N random ones, from number 0 on or from `--first` on, and with number 0 the examples too. HIPAC names
the program; the default is the one that ./hipac starts. The seeds are fixed: script n is the same on each machine. The
last line is 'N passed, M failed'.
"""

import argparse
import concurrent.futures
import json
import math
import os
import re
import sys
import traceback
from collections import Counter
from pathlib import Path

TOP = os.path.dirname(os.path.dirname(os.path.abspath(__file__)))
sys.path[:0] = [os.path.join(TOP, "tools"), os.path.join(TOP, "checks")]
sys.dont_write_bytecode = True

import definitions_run  # noqa: E402 (they lie in tools/ and checks/)
import plain_account  # noqa: E402
from hipac_tools import account as accounts  # noqa: E402
from hipac_tools import fates, faulting, report, why  # noqa: E402
from hipac_tools.answers import rule_answer, status_by_report  # noqa: E402
from hipac_tools.command import REFUSED  # noqa: E402
from hipac_tools.model import page_model  # noqa: E402
from hipac_tools.notes import ABORT, NO_ABORT, VETO, undone_by  # noqa: E402
from hipac_tools.pasts import Fate  # noqa: E402
from hipac_tools.report import Act, Fire, children  # noqa: E402
from hipac_tools.wording import ALL  # noqa: E402
from live_sessions import by_pipe, command_of  # noqa: E402
from tests.made_scripts import ScriptMaker  # noqa: E402
from tests.made_version4 import Version4Maker  # noqa: E402

# With so many scripts each kind of sentence occurs.
ENOUGH = 1000

# A part of each kind of sentence that is told of firings, pasts and conditions.
SENTENCES = [
    "was taken by", "ended the closure itself", "was undone, as", "was forgotten at",
    r"wasn't heard, as rule \w+ was disabled, since disable",
    r"wasn't heard, as rule \w+ wasn't installed\.", r"wasn't heard, as rule \w+ wasn't installed, since remove",
    "has yet to follow", "the next moment of", "no earlier .* is left", "no earlier .* counts", "since the last",
    "there was no .* before it\\.",
    "there was no .* before it since", r"At .* it was disabled, since", r"At .* it wasn't installed\.",
    r"At .* it wasn't installed, since", "would have been too deep", r"It wasn't installed\.",
    "It wasn't installed, since", "It was disabled, since", "doesn't count, as it was undone", "did happen:",
    "waits for happened either", "Nothing of that happened", "Nothing was signalled",
    "It has no condition", "Its condition was satisfied", "Its condition wasn't satisfied", "ended with a fault",
    r"met a fault at \w+ -?\d+:", r"met a fault at \w+ -?\d+, with", "as there is no object of", "found none that fits",
    r"found \w+ -?\d+(, -?\d+)* among", r"found \w+ -?\d+\.", r"as there is no \w+ -?\d+", "isn't true of",
    r"with q0 = \w+ -?\d+ \(the first of", r"with q0 = \w+ -?\d+[.:]", r"with q0 = .* and q1 = ",
    "was triggered by", "was fired by the statement", "after signal", "the count is", "in a `sub`", "in the action of",
    "ran at the end of the transaction", "ran in a transaction of its own", "so it was put off", "So it did nothing",
    "Its action committed", "ran and changed nothing", "It vetoed", "was undone, as", "as no transaction round its",
    "before its condition was tested, as unit", "before its action ran, as", "vetoed first",
    "Though it committed, the condition of", "Though it committed, the action of",
    "acted in vain", "failed once", "each time", "vetoed once", "and was dropped", "wasn't triggered in",
    r"No x\d\w* found nothing", r"No x\d\w* found \w+ -?\d", r"The value v\d\w* is .*, with v", "the count over",
    "the sum over", "the least over", "the greatest over", "the next key of", r"The value v\d\w* isn't there",
    r"The value v\d\w* met a fault", "over no object, as", "It is closed, so it vetoed",
    "The closed rule .* as its condition ended", "The closed rule .* as its action aborted",
    r"vetoed with (-?\d|true|false|\")",
    *(f"aborted {cause}" for cause in ("A1", "A2", "A3", "A4", "A5", "A6", "A7", "A8", r"A9 \w+")),
]


class AccountMaker(ScriptMaker):
    """Makes scripts whose rules have pasts: sequences and closures of few signals, changes of status, aborts."""

    def script(self):
        whole = super().script()
        for _ in range(self.random.randint(2, 8)):
            moves = [move for _ in range(self.random.randint(1, 5)) for move in self.moves()]
            whole["items"].append(["tx", moves + ([["abort"]] if self.chance(0.1) else [])])
        return whole

    def moves(self):
        """Statements of a transaction that rules hear: a signal, an aborted `sub`, a rule that forgets its past."""
        rule = self.random.choice(self.rule_names)
        return self.random.choice([
            *[[self.heard()]] * 6, [["sub", [self.heard(), ["abort"]], []]], [["sub", [self.heard()], []]],
            [["sub", [["install", rule], ["disable", rule], ["enable", rule]], []]],
            [["sub", [["install", rule], ["disable", rule], self.heard(), ["enable", rule]], []]],
            [["install", rule], ["disable", rule], self.heard(), ["enable", rule], ["disable", rule]],
            [["remove", rule], self.heard(), ["install", rule]], [["sub", [["disable", rule], ["abort"]], []]]])

    def event(self, level):
        if level == 0 and self.chance(0.7) or level == 1 and self.chance(0.25):
            return [self.pick("seq", "seq", "closure", "closure", "or"), self.event(level + 1), self.event(level + 1)]
        return self.heard()[:2] if self.chance(0.8) else super().event(3)

    def heard(self):
        return ["signal", self.pick("a", "b", "c"), []]

    def statement(self, known, queries, level, in_action):
        if self.chance(0.2):
            return ["signal", self.pick("a", "b", "c"), [self.number(known, 2)]]
        if self.chance(0.1):
            return [self.pick("install", "enable", "disable", "remove"), self.random.choice(self.rule_names)]
        return super().statement(known, queries, level, in_action)

    def predicate(self, known):
        name = list(known)[-1]
        if self.chance(0.3):
            asks = ["=", ["key", name], self.pick(self.random.randint(1, 4), self.number({}, 1))]
            return ["and", asks, self.test(known)] if self.chance(0.6) else asks
        if len(known) > 1 and self.chance(0.3):
            others = ["+", ["key", list(known)[0]], ["key", list(known)[-2]]]
            return [self.pick("<", "<=", "!="), others, ["/", 6, ["-", ["key", name], 2]]]
        return super().predicate(known)


MAKERS = (ScriptMaker, AccountMaker, Version4Maker, AccountMaker)


def made(seed):
    return MAKERS[seed % len(MAKERS)](seed).script()


def written():
    """The examples."""
    folders = ("examples", "examples/tutorial")
    return [path for folder in folders for path in sorted(Path(TOP, folder).glob("*.json"))]


# ---- the tools' facts, as plain tuples

class ToolFacts:
    """What the tools' account has, with each node by its place in the trees."""

    def __init__(self, account):
        self.account = account
        self.places = {}
        self.nodes = []
        for unit in account.report.units:
            for number, transaction in enumerate(unit.transactions):
                self._number(transaction, (unit.number, number))
        self.signals = sorted((signal for node in self.nodes for signal in node.note.signals),
                              key=lambda signal: signal.number)

    def _number(self, node, place):
        self.places[id(node)] = place
        self.nodes.append(node)
        for number, item in enumerate(children(node)):
            self._number(item, place + (number,))

    def place(self, node):
        return None if node is None else self.places[id(node)]

    def signal_facts(self):
        return [(signal_facts(signal.primitive), self.place(signal.within), signal.path, signal.depth,
                 self.place(signal.operation), tuple(signal.triggered) if signal.primitive else ())
                for signal in self.signals]

    def node_facts(self):
        return {self.place(node): self._node(node) for node in self.nodes}

    def _node(self, node):
        note = node.note
        is_task = isinstance(node, (Fire, Act))
        trigger = note.trigger and (note.trigger.number, numbers(note.occurrence), note.occurrence.count)
        stop = note.stop and (str(note.stop.end)[len("aborted "):], note.stop.path, self.place(note.stop.firing))
        return {"undone by": self.place(undone_by(node)), "statement": note.path, "trigger": trigger, "stop": stop,
                "queries": [query_facts(query) for query in note.queries],
                "fate": fates.WORDS[fates.fate_of(node)] if is_task else None}

    def fault_facts(self):
        return [(self.place(fault.node), fault.is_condition, fault.cause) for unit in self.account.report.units
                for transaction in unit.transactions for fault in faulting.lasting_faults(transaction)]

    def dropped_facts(self):
        whys = {ABORT: "abort", VETO: "veto", NO_ABORT: "no abort"}
        return sorted((self.place(node), one.rule, one.mode, one.is_tested, one.trigger.number, numbers(one.occurrence),
                       whys[one.why], self.place(one.by) or ()) for node in self.nodes for one in node.note.dropped)

    def rule_facts(self, unit, answer):
        tally = fates.tally([node for _, node in answer.tasks], answer.dropped)
        return {"silences": [self._silence(silence) for silence in answer.silences],
                "fates": {fates.WORDS[fate]: number for fate, number in tally.fates.items()},
                "is by event": tally.is_by_event,
                "throughout": answer.throughout and (answer.throughout.status, self.place(answer.throughout.since)),
                "undone operation": self.place(answer.undone_operation),
                "status by the trees": status_by_report(self.account, unit, answer.rule),
                "triggers": tally.triggers}

    def _silence(self, one):
        shortfalls = [(each.lack.at, each.lack.is_vain, [self._candidate(candidate) for candidate in each.candidates])
                      for each in one.shortfalls]
        return (one.signal.number, one.past.status, self.place(one.past.since), one.is_mentioned, one.is_too_deep,
                shortfalls)

    def _candidate(self, one):
        is_signal = one.fate in (Fate.TAKEN, Fate.ENDING)
        return numbers(one.occurrence), one.fate.name, one.by.number if is_signal else self.place(one.by)


def numbers(occurrence):
    return tuple(signal.number for signal in occurrence.signals)


def signal_facts(primitive):
    if primitive is None:
        return ("fire",)
    one = primitive
    return one.kind, one.name, one.key, one.old, one.new, one.arguments, one.moment


def query_facts(query):
    given = [(one.name, one.row.name, one.row.key, one.rows) for one in query.given]
    key = None if query.fault else query.key
    return (query.word, query.name, query.on, query.objects, given, query.known, query.value, key, query.keys,
            query.fault_key, query.failed, query.values)


# ---- the comparison

def plain_signals(run):
    return [(("fire",) if one.kind == "fire" else
             (one.kind, one.name, one.key, one.old, one.new, one.arguments, one.time),
             one.within.number, one.path, one.depth, plain_account.place(one.operation), one.triggered)
            for one in run.signals]


def answers_of(account):
    """All that `why` can be asked of rules: each unit with the answer for each rule, in full."""
    return [(unit, [rule_answer(account, unit, rule, math.inf) for rule in account.rules])
            for unit in account.report.units]


def differences(run, account, answers):
    """The facts that differ, each with what the tools say and what the definitions say."""
    tools = ToolFacts(account)
    pairs = [("signals", tools.signal_facts(), plain_signals(run)),
             ("dropped", tools.dropped_facts(), plain_account.dropped_facts(run)),
             ("faults", tools.fault_facts(), plain_account.fault_facts(run))]
    ours, plain = tools.node_facts(), plain_account.node_facts(run)
    pairs.append(("places", sorted(ours), sorted(plain)))
    pairs += [(f"node {place} {what}", ours[place][what], plain[place][what])
              for place in ours if place in plain for what in ours[place]]
    for unit, of_rules in answers:
        for number, answer in enumerate(of_rules):
            ours, plain = tools.rule_facts(unit, answer), plain_account.rule_facts(run, unit.number, number)
            pairs += [(f"unit {unit.number} rule {answer.rule} {what}", ours[what], plain[what]) for what in plain]
    return [pair for pair in pairs if pair[1] != pair[2]]


def derived_differences(run, account, output):
    """The same of what the trees alone show: each trigger that is told is the right one."""
    alone = accounts.Account(account.base, report.read(output), account.places)
    tools = ToolFacts(accounts.derived(alone, accounts.TOO_LONG, True))
    plain = plain_account.node_facts(run)
    said = [(tools.place(node), tools.place(node.note.trigger.operation)) for node in tools.nodes if node.note.trigger]
    right = [(place, plain_account.place(run.signals[plain[place]["trigger"][0]].operation)) for place, _ in said]
    return [("triggers by the trees", said, right)] if said != right else []


class Unfolded(why.Lines):
    """Lines of any length."""

    def say(self, level, words):
        self.lines.append(self.places.told(words))


def worded(account, answers):
    """All that `why` says on a script, and the page of `view`."""
    lines = Unfolded(math.inf, account.places, ALL)
    for unit, of_rules in answers:
        why.UnitText(account, unit, lines).write()
        for answer in of_rules:
            why.RuleText(account, answer, lines).write()
    return "\n".join(page_model(account).sentences + lines.lines)


def tried(command, which):
    """What is wrong with the account of a script, by its seed or its file, in lines, and the kinds of sentences in it.
    A file may have a script that the program refuses."""
    try:
        if isinstance(which, int):
            return compared(command, made(which))
        text = which.read_bytes()
        return ([], Counter()) if by_pipe(command, text)[0] == REFUSED else compared(command, json.loads(text))
    except Exception:  # (whatever the tools raise is a failure of theirs)
        return [traceback.format_exc()], Counter()


def compared(command, script):
    text = json.dumps(script).encode()
    status, output, errors = by_pipe([*command, "--tree"], text)
    if status != 0:
        return [f"the program ended with status {status}: {errors.decode()}"], Counter()
    run = definitions_run.Run(script)
    if definitions_run.report(run) != output.decode():
        return ["the program's report isn't that of the definitions"], Counter()
    try:
        account = accounts.account_of(text, output.decode(), watch=[rule[0] for rule in script["rules"]])
    except accounts.NoAccount as fault:
        return [str(fault)], Counter()
    answers = answers_of(account)
    found = differences(run, account, answers) + derived_differences(run, account, output.decode())
    words = worded(account, answers)
    kinds = Counter(kind for kind in SENTENCES if re.search(kind, words))
    return [f"{what}: `why` has {ours}, the definitions {plain}" for what, ours, plain in found], kinds


def main():
    parser = argparse.ArgumentParser()
    parser.add_argument("--scripts", type=int, default=5000)
    parser.add_argument("--first", type=int, default=0)
    parser.add_argument("--jobs", type=int, default=os.cpu_count())
    options = parser.parse_args()
    command, failed, kinds = command_of("hipac"), 0, Counter()
    scripts = [] if options.first else written()
    scripts += range(options.first, options.first + options.scripts)
    with concurrent.futures.ProcessPoolExecutor(options.jobs) as pool:
        for which, (wrong, told) in zip(scripts, pool.map(tried, [command] * len(scripts), scripts, chunksize=8)):
            failed += bool(wrong)
            kinds += told
            for line in wrong[:3]:
                print(f"script {which}: {line[:2000]}")
    never = [kind for kind in SENTENCES if not kinds[kind]] if options.scripts >= ENOUGH else []
    for kind in never:
        print(f"no answer has a sentence with: {kind}")
    print(f"{len(scripts) - failed} passed, {failed + len(never)} failed")
    return 1 if failed or never else 0


if __name__ == "__main__":
    sys.exit(main())
