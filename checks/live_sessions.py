#!/usr/bin/env python3
"""Compares answers of hipac_live with reports of hipac, on random sessions, and checks each kind of answer.

    checks/live_sessions.py [--sessions N] [--jobs N]

Each session runs with 1 and 4 workers, with trees and without, and once in three times with its script in a file
(`--script`). Its input is cut into random pieces, each for one read.
The answers to accepted lines, without their last lines, must be the report on their journal: the script whose items are
the first line's followed by the accepted ones. So must the state in the answer to the last `["show"]`. A line that asks
for a class's objects or for one object must have their lines in that state. Refused lines must have exactly their
refusal, and each `ok` the number of units. Before that, each kind of line and each refusal has a case by name, with the
exact bytes.

HIPAC and HIPAC_LIVE name the programs. The default is the ones that ./hipac and ./hipac-live start. The seeds are
fixed: session n is the same on each machine. The last line is 'N passed, M failed'.
"""

import argparse
import json
import os
import random
import select
import socket
import struct
import subprocess
import sys
import tempfile
import time
from dataclasses import dataclass

from harness import ENVIRONMENT, LIMIT, TOP, by_pipe, bytes_of, command_of, expect, run_checks
from tests.made_scripts import ScriptMaker

# The most bytes of one read of the program: the socket would cut a longer piece.
MOST_READ = 4096

# The most bytes of a line.
MOST = 1_048_576


# ---- the programs


@dataclass
class Programs:
    """The words that start each program."""

    hipac: list
    live: list


def started(command, given, wrote, said):
    return subprocess.Popen(command, stdin=given, stdout=wrote, stderr=said, env=ENVIRONMENT)


def in_pieces(command, pieces):
    """Runs a program that gets each piece in one read: its status, standard output and standard error."""
    ours, its = socket.socketpair(socket.AF_UNIX, socket.SOCK_SEQPACKET)
    with tempfile.TemporaryFile() as wrote, tempfile.TemporaryFile() as said, ours:
        with its:
            running = started(command, its, wrote, said)
        ours.settimeout(LIMIT)
        try:
            for piece in pieces:
                ours.sendall(piece)
        except OSError:
            # The program has ended, or takes no more.
            pass
        ours.close()
        return ended(running, wrote, said)


def ended(running, wrote, said):
    try:
        status = running.wait(LIMIT)
    finally:
        running.kill()
    texts = []
    for file in (wrote, said):
        file.seek(0)
        texts.append(file.read())
    return (status, *texts)


# ---- random sessions


@dataclass
class Line:
    """A line without its line feed, and what is expected of it."""

    text: bytes
    # The item, if it is an accepted one.
    item: object = None
    # The class, or the class and key, if it asks for objects.
    excerpt: object = None
    # The whole answer, if it is refused.
    refusal: bytes = b""


def nested(form, levels, inside):
    for _ in range(levels):
        inside = form(inside)
    return inside


def refused_statement(pick):
    """A refused statement, its refusal, and the path of the fault in the statement."""
    return pick([
        (["veto"], "S2", ""), (["emit"], "S2", ""), (["create", "acct"], "S2", ""), (["if", True, []], "S2", ""),
        (["delete", 7, 1], "S2", "/1"), (["sub", [["abort", 1]], []], "S2", "/1/0"),
        (["emit", ["id", -1]], "S2", "/1/1"),
        (["emit", 1.5], "S3", "/1"), (["delete", "acct", 1e3], "S3", "/2"), (["emit", ["+", 1, 2**63]], "S3", "/1/2"),
        (["install", "nobody"], "S4", "/1"), (["create", "none", 1, []], "S4", "/1"),
        (["emit", ["of", "x", "bal"]], "S4", "/1/1"), (["update", "acct", 1, [["none", 1]]], "S4", "/3/0/0"),
        (["update", "acct", 1, [["bal", 1], ["bal", 2]]], "S4", "/3/1/0"),
        (["create", "acct", 7, [["bal", 1]]], "S4", "/3"), (["for", "q0", []], "S4", "/1"),
        (["emit", "a" * 1025], "S5 text", None), (["signal", "go", [0] * 33], "S5 args", None),
        (["emit", nested(lambda e: ["neg", e], 16, 1)], "S5 expr", None),
        (nested(lambda statement: ["sub", [statement], []], 16, ["abort"]), "S5 nesting", None),
    ])


# Lines that are refused in any state, each with its refusal.
NO_ITEMS = [
    (b"", "S1"), (b"  \t", "S1"), (b'["tx",[', "S1"), (b'["tx",[]] []', "S1"), (b"\x00", "S1"),
    (b'["tx",[["emit","\xff"]]]', "S1"), (b"[]", "S2 /"), (b"7", "S2 /"), (b'"show"', "S2 /"), (b'["show",1]', "S2 /1"),
    (b'["tx"]', "S2 /"), (b'{"version":1}', "S2 /"), (b'["tx",{}]', "S2 /1"), (b'["clock",-1]', "S2 /1"),
    (b'["clock","3"]', "S2 /1"), (b'["clock",1.0]', "S3 /1"), (b'["clock",1e400]', "S1"),
]

SHOW = [b'["show"]', b' [ "show" ]', b'["\\u0073how"]']


class SessionMaker:
    """Makes one session: a first line, later lines, and the pieces of the input."""

    def __init__(self, seed):
        self.random = random.Random(seed)
        self.maker = ScriptMaker(seed)
        self.clock = 0
        script = self.maker.script()
        opening = self.random.randint(0, min(3, len(script["items"])))
        self.script = dict(script, items=script["items"][:opening])
        self.pass_on(self.script["items"])
        self.lines = [Line(self.text_of(self.script))]
        for item in script["items"][opening:]:
            self.add_others()
            self.lines.append(Line(self.text_of(item), item=item))
            self.pass_on([item])
        if self.random.random() < 0.04:
            self.add_refused(b" " * (MOST + 1 + self.random.randint(0, 9)), "S5 size")
        self.add_others()
        self.lines.append(Line(self.random.choice(SHOW)))
        self.add_excerpts()
        if self.random.random() < 0.3:
            # (an empty line needs a line feed)
            self.lines.append(Line(b"[", refusal=b"refused S1\n"))

    def pass_on(self, items):
        for word, what in items:
            self.clock = what if word == "clock" else self.clock

    def text_of(self, value):
        apart = self.random.choice([(",", ":"), (", ", ": "), (" ,\t", " : ")])
        return json.dumps(value, separators=apart, ensure_ascii=self.random.random() < 0.5).encode()

    def add_refused(self, text, why):
        self.lines.append(Line(text, refusal=f"refused {why}\n".encode()))

    def add_refused_body(self):
        """A transaction whose last statement is refused, so that nothing of it runs."""
        change, install = ["update", "acct", 1, [["bal", 90]]], ["install", self.maker.rule_names[0]]
        body = [["create", "bare", 90, []], change, install, ["emit", 90]][: self.random.randint(0, 4)]
        statement, why, path = refused_statement(self.random.choice)
        why += "" if path is None else f" /1/{len(body)}{path}"
        self.add_refused(self.text_of(["tx", [*body, statement]]), why)

    def add_others(self):
        """Lines that change nothing, sometimes with the state before and after."""
        for _ in range(self.random.choice([0, 0, 1, 1, 2])):
            shows = self.random.random() < 0.3
            if shows:
                self.lines.append(Line(self.random.choice(SHOW)))
            if self.clock and self.random.random() < 0.2:
                self.add_refused(self.text_of(["clock", self.random.randint(0, self.clock - 1)]), "S2 /1")
            elif self.random.random() < 0.5:
                self.add_refused_body()
            else:
                self.add_refused(*self.random.choice(NO_ITEMS))
            if shows:
                self.lines.append(Line(self.random.choice(SHOW)))

    def add_excerpts(self):
        """Lines that ask for a class's objects or for one object, after one that shows the whole state."""
        for name, _ in self.script["classes"][:2]:
            for excerpt in ([name], [name, self.random.randint(-2, 4)]):
                self.lines.append(Line(self.text_of(["show", *excerpt]), excerpt=excerpt))

    def input(self):
        """The bytes of the first line, and those of the later ones. Some have a carriage return, and the last line may
        lack its line feed."""
        ends = [self.random.choice([b"\n", b"\n", b"\r\n"]) for _ in self.lines]
        ends[-1] = self.random.choice([b"", b"\n", b"\r\n"])
        first, *later = (line.text + end for line, end in zip(self.lines, ends))
        return first, b"".join(later)

    def pieces(self, given):
        """The same bytes, cut at random."""
        longest = self.random.choice([2, 40, 400, MOST_READ]) if len(given) < 50_000 else MOST_READ
        at = 0
        while at < len(given):
            size = self.random.randint(1, longest)
            yield given[at : at + size]
            at += size

    def journal(self):
        """The script of all accepted items."""
        items = [*self.script["items"], *(line.item for line in self.lines if line.item)]
        return json.dumps(dict(self.script, items=items)).encode()


# ---- comparisons


def answers_of(wrote):
    """The answers in an output: for each the lines before the last one, and the last one."""
    answers, body = [], []
    for line in wrote.splitlines(keepends=True):
        if line.startswith((b"ok ", b"refused ")):
            answers.append((b"".join(body), line))
            body = []
        else:
            body.append(line)
    expect(body, [], "lines after the last answer")
    return answers


def report_of(hipac, journal, tree):
    """The units of the report on a journal, and its final state."""
    status, wrote, said = by_pipe([*hipac, "--workers", "1", *tree], journal)
    expect((status, said), (0, b""), "the journal's status and standard error")
    lines = wrote.splitlines(keepends=True)
    final = lines.index(b"final\n")
    expect(lines[-1], b"end\n", "the journal's last line")
    return b"".join(lines[:final]), b"".join(lines[final + 1 : -1])


def objects_in(state, excerpt):
    """The lines of a class's objects, or of one object, among those of a state."""
    head = " ".join(["object", *map(str, excerpt)]).encode()
    return b"".join(line for line in state.splitlines(keepends=True) if line.startswith((head + b" ", head + b"\n")))


def look_at(made, answers, units, state):
    """The answers match the lines, by the report on the journal."""
    expect(len(answers), len(made.lines), "answers")
    bodies, ran, shown = [], 0, None
    for number, (line, (body, last)) in enumerate(zip(made.lines, answers)):
        what = f"line {number + 1}, {line.text[:200]!r}"
        if line.refusal:
            expect((body, last), (b"", line.refusal), what)
            continue
        if number == 0 or line.item:
            bodies.append(body)
            ran += sum(each.startswith(b"unit ") for each in body.splitlines())
            shown = None
        elif line.excerpt:
            expect(body, objects_in(shown, line.excerpt), what)
        else:
            expect(body, body if shown is None else shown, f"{what}: the state after no more than refused lines")
            shown = body
        expect(last, f"ok {ran}\n".encode(), what)
    expect(b"".join(bodies), units, "the answers without their last lines, and the journal's report")
    expect(shown, state, "the state, and the journal's final one")


def look_at_refusal(made, hipac):
    """A script with this line as its last item has the same refusal."""
    items = [*made.script["items"], *(line.item for line in made.lines if line.item)]
    forms = (b'["tx"', b'["clock"')
    refused = [line for line in made.lines if line.text.startswith(forms) and line.refusal > b"refused S2"]
    if not refused or not items:
        return
    line = made.random.choice(refused)
    # (the text of the line itself, so that numbers are written as in the line)
    before, after = json.dumps(dict(made.script, items=[*items, "HERE"])).split('"HERE"')
    given = before.encode() + line.text + after.encode()
    wanted = line.refusal.replace(b" /", f" /items/{len(items)}/".encode()).replace(b"/\n", b"\n")
    expect(by_pipe(hipac, given), (2, wanted, b""), f"a script with the line {line.text[:200]!r}")


def session(seed, programs):
    """One session, with each number of workers, with trees and without."""
    made = SessionMaker(seed)
    (first_line, later_lines), journal = made.input(), made.journal()
    with tempfile.NamedTemporaryFile() as file:
        file.write(json.dumps(made.script, indent=made.random.choice([None, 1])).encode())
        file.flush()
        compare(seed, programs, made, journal, (first_line + later_lines, later_lines, file.name))
    look_at_refusal(made, programs.hipac)


def compare(seed, programs, made, journal, ways):
    """The session's answers are those by its journal. Its script is in its first line or in a file."""
    all_lines, later_lines, name = ways
    for tree in ([], ["--tree"]):
        units, state = report_of(programs.hipac, journal, tree)
        for workers in ("1", "4"):
            in_file = (seed + int(workers) + len(tree)) % 3 == 0
            given = later_lines if in_file else all_lines
            command = [*programs.live, "--workers", workers, *tree, *(["--script", name] if in_file else [])]
            whole = seed % 8 == int(workers) + len(tree)
            status, wrote, said = by_pipe(command, given) if whole else in_pieces(command, made.pieces(given))
            expect((status, said), (0, b""), "status and standard error")
            look_at(made, answers_of(wrote), units, state)


# ---- cases by name


def script(items=(), **others):
    """A first line: a class, a rule that reports changes, and one that fires at 5 and 9."""
    tell = ["tell", ["update", "acct"], "immediate", [], "immediate", [["emit", ["new", 0, "bal"]]]]
    wake = ["wake", ["or", ["at", 5], ["at", 9]], "immediate", [], "immediate", [["emit", ["time", 0]]]]
    whole = {"version": 1, "classes": [["acct", [["bal", "int"]]]], "rules": [tell, wake], "items": list(items)}
    return json.dumps({**whole, **others}, separators=(",", ":"))


OPEN = ["tx", [["install", "tell"], ["install", "wake"], ["create", "acct", 1, [["bal", 3]]]]]
UP = script([OPEN])
STATE = "object acct 1 bal=3\nrule tell enabled\nrule wake enabled\nok 1\n"


def change(balance):
    return json.dumps(["tx", [["update", "acct", 1, [["bal", balance]]]]])


def emit(expression):
    return json.dumps(["tx", [["emit", expression]]])


def later(line, answer):
    """A session with this line after the script, and `["show"]` before and after it."""
    same = "" if answer.startswith("ok") or not answer.startswith("refused") else STATE
    tail = '["show"]\n' if same else ""
    return f'{UP}\n["show"]\n{line}\n{tail}', f"unit 1 committed\nok 1\n{STATE}{answer}{same}", 0


def first(line, answer):
    """A session whose first line is refused, so that no later line is answered."""
    return f'{line}\n["show"]\n{UP}\n', answer, 2


def longest(line, size):
    """The line, padded with spaces to this number of bytes."""
    return line + " " * (size - len(line.encode()))


CLASSES = [[f"c{n}", []] for n in range(65)]
FIELDS = [["wide", [[f"f{n}", "int"] for n in range(33)]]]
RULES = [[f"r{n}", ["commit"], "immediate", [], "immediate", []] for n in range(257)]
EVENT = [["r", nested(lambda e: ["or", e, ["commit"]], 16, ["commit"]), "immediate", [], "immediate", []]]
OFTEN = [["r", ["every", 1, 1], "immediate", [], "immediate", []]]

# Each case: the input, the answers, the status.
CASES = {
    "no line": ("", "", 0),
    "the script alone": (UP, "unit 1 committed\nok 1\n", 0),
    "a script without items": (script(), "ok 0\n", 0),
    "an item": later(change(5), "unit 2 committed\nemit 5\nok 2\n"),
    "an item without its line feed": (f"{UP}\n{change(5)}",
                                      "unit 1 committed\nok 1\nunit 2 committed\nemit 5\nok 2\n", 0),
    "an item with a carriage return": later(f"{change(5)}\r", "unit 2 committed\nemit 5\nok 2\n"),
    "an item with spaces round it": later(f" \t{change(5)}  ", "unit 2 committed\nemit 5\nok 2\n"),
    "an item that aborts": later('["tx",[["abort"]]]', "unit 2 aborted A8\nok 2\n"),
    "a move of the clock": later('["clock",9]', "unit 2 time 5 committed\nemit 5\n"
                                                "unit 3 time 9 committed\nemit 9\nok 3\n"),
    "a move to no moment": later('["clock",4]', "ok 1\n"),
    "the clock goes on": (f'{UP}\n["clock",5]\n["clock",9]\n["clock",9]',
                          "unit 1 committed\nok 1\nunit 2 time 5 committed\nemit 5\nok 2\n"
                          "unit 3 time 9 committed\nemit 9\nok 3\nok 3\n", 0),
    "a class's objects": later('["show","acct"]', "object acct 1 bal=3\nok 1\n"),
    "one object": later('["show","acct",1]', "object acct 1 bal=3\nok 1\n"),
    "an object that there is not": later(' [ "show" , "acct" , 0 ]', "ok 1\n"),
    "a rule base that nothing is in": (f'{script()}\n["show"]', "ok 0\nrule tell absent\nrule wake absent\nok 0\n", 0),
    "the longest line": later(longest(change(5), MOST), "unit 2 committed\nemit 5\nok 2\n"),
    "the longest script": (longest(UP, MOST), "unit 1 committed\nok 1\n", 0),
    "S1, no JSON": later('["tx",[', "refused S1\n"),
    "S1, an empty line": later("", "refused S1\n"),
    "S1, a carriage return alone": later("\r", "refused S1\n"),
    "S1, two values": later('["tx",[]]["tx",[]]', "refused S1\n"),
    "S2, no form": later("{}", "refused S2 /\n"),
    "S2, a veto": later('["tx",[["emit",1],["veto"]]]', "refused S2 /1/1\n"),
    "S2, show of no class": later('["show",1]', "refused S2 /1\n"),
    "S4, show of an unknown class": later('["show","item"]', "refused S4 /1\n"),
    "S2, show of no key": later('["show","acct","1"]', "refused S2 /2\n"),
    "S3, show of no whole key": later('["show","acct",1.0]', "refused S3 /2\n"),
    "S2, show with too many parts": later('["show","acct",1,2]', "refused S2 /\n"),
    "S2, a clock that goes back": (f'{UP}\n["clock",3]\n["clock",2]\n["clock",3]\n',
                                   "unit 1 committed\nok 1\nok 1\nrefused S2 /1\nok 1\n", 0),
    "S3": later(emit(1.5), "refused S3 /1/0/1\n"),
    "S4, no such rule": later('["tx",[["install","nobody"]]]', "refused S4 /1/0/1\n"),
    "S4, no such field": later('["tx",[["update","acct",1,[["bal",9],["stok",1]]]]]', "refused S4 /1/0/3/1/0\n"),
    "S5 size": later(longest(change(5), MOST + 1), "refused S5 size\n"),
    "S5 text": later(emit("a" * 1025), "refused S5 text\n"),
    "S5 args": later(json.dumps(["tx", [["signal", "go", [0] * 33]]]), "refused S5 args\n"),
    "S5 expr": later(emit(nested(lambda e: ["neg", e], 16, 1)), "refused S5 expr\n"),
    "S5 nesting": later(json.dumps(["tx", [nested(lambda inside: ["sub", [inside], []], 16, ["abort"])]]),
                        "refused S5 nesting\n"),
    "S5 moments": (f'{script([["tx", [["install", "r"]]]], rules=OFTEN)}\n["clock",1001]\n["show"]\n',
                   "unit 1 committed\nok 1\nrefused S5 moments\nrule r enabled\nok 1\n", 0),
    "S6, a script line after the first": later(script(version=3), "refused S2 /\n"),
    "first line: S1": first("{", "refused S1\n"),
    "first line: S1, empty": first("", "refused S1\n"),
    "first line: S2": first('["show"]', "refused S2 /\n"),
    "first line: S2, an item": first(script(["tx"]), "refused S2 /items/0\n"),
    "first line: S3": first(script(version=1.5), "refused S3 /version\n"),
    "first line: S4": first(script([["tx", [["install", "nobody"]]]]), "refused S4 /items/0/1/0/1\n"),
    "first line: S5 size": first(longest(UP, MOST + 1), "refused S5 size\n"),
    "first line: S5 depth": first(script(depth=17), "refused S5 depth\n"),
    "first line: S5 classes": first(script(classes=CLASSES), "refused S5 classes\n"),
    "first line: S5 fields": first(script(classes=FIELDS, rules=[]), "refused S5 fields\n"),
    "first line: S5 rules": first(script(rules=RULES), "refused S5 rules\n"),
    "first line: S5 event": first(script(rules=EVENT), "refused S5 event\n"),
    "first line: S6": first(script(version=3), "refused S6\n"),
}


# The first line of sessions of text, and the cases: the input after it, and the answers to that.
UP_TEXT = (
    "version 1 class acct { bal: int } rule tell on update acct do { emit new.bal } "
    "rule wake on moment 5 or moment 9 do { emit event.time } "
    "transaction { install tell install wake create acct(1) set bal = 3 }\n"
)
TEXT_CASES = {
    "text, an item": ("transaction { update acct(1) set bal = 5 }\n", "unit 2 committed\nemit 5\nok 2\n"),
    "text, without a line feed": ("transaction { emit 7 } # seven", "unit 2 committed\nemit 7\nok 2\n"),
    "text, with a carriage return": ("transaction { emit 7 }\r\nshow\r\n", "unit 2 committed\nemit 7\nok 2\n"
                                     f"{STATE.replace('ok 1', 'ok 2')}"),
    "text, moves of the clock": ("clock 5\nclock 9\nclock 8\n", "unit 2 time 5 committed\nemit 5\nok 2\n"
                                 "unit 3 time 9 committed\nemit 9\nok 3\nrefused S2 1:7\n"),
    "text, show": (" show # all\n", STATE),
    "text, S1": ("transaction { emit }\nshow acct\n", "refused S1 1:20\nrefused S1 1:6\n"),
    "text, S1, an empty line": ("\n#\nshow\n", f"refused S1 1:1\nrefused S1 1:2\n{STATE}"),
    "text, S1, JSON": ('["show"]\nshow\n', f"refused S1 1:1\n{STATE}"),
    "text, S2": ("transaction { emit 1 veto }\nshow\n", f"refused S2 1:22\n{STATE}"),
    "text, S4": ("transaction { update acct(1) set stok = 1 }\nshow\n", f"refused S4 1:34\n{STATE}"),
    "text, S5 size": (longest("show", MOST + 1) + "\nshow\n", f"refused S5 size\n{STATE}"),
    "text, the longest line": (longest("show", MOST) + "\n", STATE),
}


def text_case(live, given, answers):
    """A session of text, whose first line is a script."""
    wanted = (0, f"unit 1 committed\nok 1\n{answers}".encode(), b"")
    expect(by_pipe([*live, "--text"], (UP_TEXT + given).encode()), wanted, "status, answers and standard error")


def refused_text(live):
    """A refused script as text ends the session."""
    refusals = {"version 3": "S6", "version 1 transaction { delete nobody(1) }": "S4 1:32", "": "S1 1:1"}
    for line, refusal in refusals.items():
        wanted = (2, f"refused {refusal}\n".encode(), b"")
        expect(by_pipe([*live, "--text"], f"{line}\nshow\n".encode()), wanted, f"answers to {line!r}")


# A rule base that is checked: a rule reads the first argument of `go` as a number, and `tell` waits for a signal.
UP_CHECKED = script(
    [["tx", [["install", "add"], ["create", "acct", 1, [["bal", 3]]]]]],
    rules=[["add", ["signal", "go"], "immediate", [], "immediate", [["emit", ["+", ["arg", 0, 0], 1]]]]])
UNKINDED = ["add", ["signal", "go"], "immediate", [], "immediate", [["emit", ["+", ["arg", 0, 0], "a"]]]]
ENDLESS = ["loop", ["update", "acct"], "immediate", [], "immediate", [["update", "acct", ["id", 0], []]]]
STATE_CHECKED = "object acct 1 bal=3\nrule add enabled\nok 1\n"

# The lines after UP_CHECKED, and the answers.
CHECKED_CASES = {
    "checked, an item": (json.dumps(["tx", [["signal", "go", [1]]]]), "unit 2 committed\nemit 2\nok 2\n"),
    "checked, S8, an argument": (json.dumps(["tx", [["emit", 1], ["signal", "go", ["a"]]]]),
                                 "refused S8 kinds /1/1/2/0\n"),
    "checked, S8, too few arguments": (json.dumps(["tx", [["signal", "go", []]]]), "refused S8 kinds /1/0\n"),
    "checked, S8, a wrong kind": (json.dumps(["tx", [["if", 1, [], []]]]), "refused S8 kinds /1/0/1\n"),
    "checked, S8, the first of two": (json.dumps(["tx", [["emit", ["neg", "a"]], ["emit", ["not", 1]]]]),
                                      "refused S8 kinds /1/0/1/1\n"),
    "checked, S8, an occurrence": (json.dumps(["tx", [["emit", ["id", 0]]]]), "refused S8 kinds /1/0/1\n"),
    "checked, S4": (json.dumps(["tx", [["emit", ["neg", "a"]], ["install", "nobody"]]]), "refused S4 /1/1/1\n"),
    "checked, a move of the clock": ('["clock",9]', "ok 1\n"),
    "checked, A4": (json.dumps(["tx", [["emit", ["+", 2**63 - 1, 1]]]]), "unit 2 aborted A4\nok 2\n"),
    "checked, A4 in a rule": (json.dumps(["tx", [["signal", "go", [2**63 - 1]]]]), "unit 2 committed\nok 2\n"),
}

# First lines that a checked rule base refuses, and what it says.
REFUSED_CHECKED = {
    script(rules=[UNKINDED]): "refused S8 kinds /rules/0/5/0/1/2\n",
    script(rules=[ENDLESS]): "refused S8 depth\n",
    script(rules=[ENDLESS, UNKINDED]): "refused S8 kinds /rules/1/5/0/1/2\n",
    script([["tx", []], ["tx", [["emit", ["neg", "a"]]]]]): "refused S8 kinds unit 2 /0/1/1\n",
    script([["tx", [["install", "nobody"]]]], rules=[UNKINDED]): "refused S4 /items/0/1/0/1\n",
    "{": "refused S1\n",
}


def checked_case(live, line, answers):
    """A session of a checked rule base: the line changes nothing if it is refused."""
    given = f"{UP_CHECKED}\n{line}\n"
    tail = '["show"]\n' if answers.startswith("refused") else ""
    wanted = (0, f"unit 1 committed\nok 1\n{answers}{STATE_CHECKED if tail else ''}".encode(), b"")
    expect(by_pipe([*live, "--checked"], (given + tail).encode()), wanted, "status, answers and standard error")


def checked_scripts(live):
    """A script that a checked rule base refuses, as the first line and in a file, also as the last line of the input.
    Unchecked it isn't refused."""
    for line, answer in REFUSED_CHECKED.items():
        for end in ("", '\n["show"]\n'):
            expect(by_pipe([*live, "--checked"], f"{line}{end}".encode()), (2, answer.encode(), b""), line)
        with tempfile.NamedTemporaryFile() as file:
            file.write(line.encode())
            file.flush()
            expect(by_pipe([*live, "--checked", "--script", file.name], b""), (2, answer.encode(), b""), line)
        if "S8" in answer:
            expect(by_pipe(live, line.encode())[0], 0, f"the status of {line}, unchecked")


def checked_text(live):
    """A checked rule base of texts, whose refusals have paths."""
    given = UP_TEXT + 'transaction { emit 1 + "a" }\ntransaction { emit 7 }\n'
    wanted = (0, b"unit 1 committed\nok 1\nrefused S8 kinds /1/0/1/2\nunit 2 committed\nemit 7\nok 2\n", b"")
    expect(by_pipe([*live, "--checked", "--text"], given.encode()), wanted, "status, answers and standard error")


# A file of signals, and what it lets later lines give, where no rule of UP waits for them.
SIGNALS = '[["paid", ["int", "text"]]]'
DECLARED_CASES = {
    "as declared": (["tx", [["signal", "paid", [1, "a"]]]], "unit 2 committed\nok 2\n"),
    "more arguments": (["tx", [["signal", "paid", [1, "a", True]]]], "unit 2 committed\nok 2\n"),
    "another kind": (["tx", [["signal", "paid", [1, 2]]]], "refused S8 kinds /1/0/2/1\n"),
    "too few": (["tx", [["signal", "paid", [1]]]], "refused S8 kinds /1/0\n"),
    "a rule's signal": (["tx", [["signal", "go", ["a"]]]], "refused S8 kinds /1/0/2/0\n"),
}

# Files that give no signals, and what is said.
WRONG_SIGNALS = {
    "[": "signals refused S1\n", '[["paid",["number"]]]': "signals refused S2 /0/1/0\n",
    '[["paid",[]],["paid",[]]]': "signals refused S4 /1/0\n",
}


def declared_signals(live):
    """With --signals a rule base is checked, and the file says what signals carry that no rule of the script reads. A
    rule that uses a declared argument as another kind is refused."""
    with tempfile.NamedTemporaryFile() as file:
        file.write(SIGNALS.encode())
        file.flush()
        for words in (["--signals", file.name], ["--checked", f"--signals={file.name}"]):
            for name, (line, answers) in DECLARED_CASES.items():
                wanted = (0, f"unit 1 committed\nok 1\n{answers}".encode(), b"")
                expect(by_pipe([*live, *words], f"{UP_CHECKED}\n{json.dumps(line)}\n".encode()), wanted, name)
            reads = script(rules=[["add", ["signal", "paid"], "immediate", [], "immediate",
                                   [["emit", ["+", ["arg", 0, 1], 1]]]]])
            expect(by_pipe([*live, *words], reads.encode()), (2, b"refused S8 kinds /rules/0/5/0/1/1\n", b""), reads)
    expect(by_pipe([*live, "--signals", "/nowhere/signals"], b""), (3, b"", b"the signals' file can't be read\n"),
           "no file of signals")
    for text, said in WRONG_SIGNALS.items():
        with tempfile.NamedTemporaryFile() as file:
            file.write(text.encode())
            file.flush()
            expect(by_pipe([*live, "--signals", file.name], UP.encode()), (3, b"", said.encode()), text)


def checked_at_once(live):
    """A checked rule base answers each line before the next is sent, also the script."""
    session = {UP_CHECKED: "unit 1 committed\nok 1\n", '["tx",[["if",1,[],[]]]]': "refused S8 kinds /1/0/1\n"}
    with started([*live, "--checked"], subprocess.PIPE, subprocess.PIPE, subprocess.DEVNULL) as running:
        for line, answer in session.items():
            running.stdin.write(f"{line}\n".encode())
            running.stdin.flush()
            expect(read_within(running, len(answer)), answer, f"the answer to {line}")
        running.stdin.close()
        expect((running.stdout.read(), running.wait(LIMIT)), (b"", 0), "what comes at the end")


# Scripts in files, on lines of their own.
FILE = json.dumps(json.loads(UP), indent=1)
FILE_TEXT = UP_TEXT.replace(" rule", "\n\n# a rule\nrule").replace(" transaction", "\ntransaction")
READ = "unit 1 committed\nok 1\n"

# Each case: further words, the file, the input, the answers and the status.
FILE_CASES = {
    "file": ([], FILE, f'["show"]\n{change(5)}', f"{READ}{STATE}unit 2 committed\nemit 5\nok 2\n", 0),
    "file, no line": ([], FILE, "", READ, 0),
    "file, of one line": ([], UP, '["show"]\n', READ + STATE, 0),
    "file, and a script as a line": ([], FILE, f'{UP}\n["show"]\n', f"{READ}refused S2 /\n{STATE}", 0),
    "file, and an empty line": ([], FILE, '\n["show"]\n', f"{READ}refused S1\n{STATE}", 0),
    "file, with carriage returns": ([], FILE.replace("\n", "\r\n"), '["show"]\r\n', READ + STATE, 0),
    "file, the longest": ([], longest(FILE, MOST), '["show"]\n', READ + STATE, 0),
    "file, S5 size": ([], longest(FILE, MOST + 1), '["show"]\n', "refused S5 size\n", 2),
    "file, S5 size, far more": ([], longest(FILE, 4 * MOST), '["show"]\n', "refused S5 size\n", 2),
    "file, S1, empty": ([], "", f"{UP}\n", "refused S1\n", 2),
    "file, S1, cut off": ([], FILE[:-1], '["show"]\n', "refused S1\n", 2),
    "file, S1, text": ([], FILE_TEXT, "show\n", "refused S1\n", 2),
    "file, S4": ([], script([["tx", [["install", "nobody"]]]]), "", "refused S4 /items/0/1/0/1\n", 2),
    "file of text": (["--text"], FILE_TEXT, "show\ntransaction { emit 7 }\n",
                     f"{READ}{STATE}unit 2 committed\nemit 7\nok 2\n", 0),
    "file of text, no line": (["--text"], FILE_TEXT, "", READ, 0),
    "file of text, S1": (["--text"], "version 1\n# no class\n  clas", "show\n", "refused S1 3:3\n", 2),
    "file of text, S4": (["--text"], "version 1\ntransaction {\n  install nobody\n}\n", "", "refused S4 3:11\n", 2),
    "file of text, S1, JSON": (["--text"], FILE, "show\n", "refused S1 1:1\n", 2),
}


def file_case(live, words, file, given, answers, status):
    """A session whose script is in a file."""
    with tempfile.NamedTemporaryFile() as named:
        named.write(file.encode())
        named.flush()
        found = by_pipe([*live, *words, "--script", named.name], given.encode())
    expect(found, (status, answers.encode(), b""), "status, answers and standard error")


def refused_files(live):
    """A file that can't be read, or no name of one: nothing is read, and nothing is answered."""
    for name in ("/nowhere/rules.json", "", TOP):
        wanted = (3, b"", b"the script's file can't be read\n")
        expect(by_pipe([*live, "--script", name], UP.encode()), wanted, f"with the file {name!r}")
    for words in (["--script"], ["--script", "a", "--script", "b"], ["--script", "--tree"]):
        expect(by_pipe([*live, *words], UP.encode()), (3, b"", b"command line refused\n"), f"with {words}")


def hipac_has_no_file(hipac):
    """hipac reads its script from standard input alone."""
    expect(by_pipe([*hipac, "--script", "/dev/null"], UP.encode()), (3, b"", b"command line refused\n"), "by hipac")


def case(live, given, answers, status):
    expect(by_pipe(live, given.encode()), (status, answers.encode(), b""), "status, answers and standard error")


def trees(live):
    text = b"""unit 1 committed
  op install tell
  op install wake
  op create acct 1 bal=3
ok 1
unit 2 committed
emit 5
  op update acct 1 bal=5
  fire tell immediate satisfied committed
    emit 5
ok 2
"""
    expect(by_pipe([*live, "--tree"], f"{UP}\n{change(5)}\n".encode()), (0, text, b""), "with trees")


def refused_words(live):
    """Unknown words on the command line: nothing is read, and nothing is answered."""
    for words in (["--workers", "65"], ["--workers", "0"], ["--workers"], ["--trees"], ["file"], ["--tree", "--tree"]):
        expect(by_pipe([*live, *words], UP.encode()), (3, b"", b"command line refused\n"), f"with {words}")


def failed_read(live):
    """A read that fails after a line and a half: the complete line has been answered."""
    with socket.create_server(("127.0.0.1", 0)) as server:
        ours = socket.create_connection(server.getsockname())
        its = server.accept()[0]
    deadline = time.monotonic() + LIMIT
    with ours, tempfile.TemporaryFile() as wrote, tempfile.TemporaryFile() as said:
        with its:
            running = started(live, its, wrote, said)
        ours.sendall(f"{UP}\n{change(5)[:9]}".encode())
        while not os.fstat(wrote.fileno()).st_size and running.poll() is None and time.monotonic() < deadline:
            time.sleep(0.01)
        # (closing resets the connection, so that the next read fails)
        ours.setsockopt(socket.SOL_SOCKET, socket.SO_LINGER, struct.pack("ii", 1, 0))
        ours.close()
        wanted = (4, b"unit 1 committed\nok 1\n", b"fault F2\n")
        expect(ended(running, wrote, said), wanted, "status, answers and standard error")


def nobody():
    """A pipe without a reader."""
    reader, writer = os.pipe()
    os.close(reader)
    return open(writer, "wb")


def failed_write(live):
    """Nobody reads the answers: the first write fails."""
    for wrote in (open("/dev/full", "wb"), nobody()):
        with wrote:
            how = {"stdout": wrote, "stderr": subprocess.PIPE, "env": ENVIRONMENT}
            done = subprocess.run(live, input=f"{UP}\n".encode(), timeout=LIMIT, check=False, **how)
        expect((done.returncode, done.stderr), (4, b"fault F3\n"), "status and standard error")


def read_within(running, size):
    """This number of bytes of a program's output, or fewer if it writes no more in time."""
    taken, deadline = b"", time.monotonic() + LIMIT
    while len(taken) < size and select.select([running.stdout], [], [], max(0, deadline - time.monotonic()))[0]:
        more = os.read(running.stdout.fileno(), size - len(taken))
        if not more:
            break
        taken += more
    return taken.decode()


def answers_at_once(live):
    """Each line is answered before the next is sent."""
    session = {UP: "unit 1 committed\nok 1\n", "[": "refused S1\n", change(5): "unit 2 committed\nemit 5\nok 2\n"}
    with started(live, subprocess.PIPE, subprocess.PIPE, subprocess.DEVNULL) as running:
        for line, answer in session.items():
            running.stdin.write(f"{line}\n".encode())
            running.stdin.flush()
            expect(read_within(running, len(answer)), answer, f"the answer to {line}")
        running.stdin.close()
        expect((running.stdout.read(), running.wait(LIMIT)), (b"", 0), "what comes at the end")


def stored(live):
    folder = os.path.join(TOP, "crates", "hipac_live")
    given, wanted = (bytes_of(os.path.join(folder, name)) for name in ("stdin", "stdout"))
    expect(by_pipe(live, given), (0, wanted, b""), "status, answers and standard error")


def launcher():
    """The launcher passes its words and its input to the program."""
    how = {"stdout": subprocess.PIPE, "stderr": subprocess.DEVNULL, "timeout": LIMIT, "check": False}
    done = subprocess.run([os.path.join(TOP, "hipac-live"), "--workers", "1"], input=UP.encode(), **how)
    expect((done.returncode, done.stdout), (0, b"unit 1 committed\nok 1\n"), "status and answers")


def checks(programs, sessions):
    """The name and the function of each check."""
    live = programs.live
    for name, (given, answers, status) in CASES.items():
        yield name, lambda given=given, answers=answers, status=status: case(live, given, answers, status)
    for name, (given, answers) in TEXT_CASES.items():
        yield name, lambda given=given, answers=answers: text_case(live, given, answers)
    for name, (line, answers) in CHECKED_CASES.items():
        yield name, lambda line=line, answers=answers: checked_case(live, line, answers)
    for name, how in FILE_CASES.items():
        yield name, lambda how=how: file_case(live, *how)
    for look in (stored, trees, refused_text, refused_words, refused_files, checked_scripts, checked_text,
                 declared_signals, checked_at_once, failed_read, failed_write, answers_at_once):
        yield look.__name__.replace("_", " "), lambda look=look: look(live)
    yield "hipac has no file", lambda: hipac_has_no_file(programs.hipac)
    if "HIPAC_LIVE" not in os.environ:
        yield "the launcher", launcher
    for seed in range(sessions):
        yield f"session {seed}", lambda seed=seed: session(seed, programs)


def main():
    parser = argparse.ArgumentParser(description=__doc__, formatter_class=argparse.RawDescriptionHelpFormatter)
    parser.add_argument("--sessions", type=int, default=1000, help="how many sessions are made at random (1,000)")
    parser.add_argument("--jobs", type=int, default=os.cpu_count(), help="how many go on at once (one a processor)")
    words = parser.parse_args()
    programs = Programs(command_of("hipac"), command_of("hipac_live"))
    return run_checks(checks(programs, words.sessions), words.jobs)


if __name__ == "__main__":
    sys.exit(main())
