"""Journals: what is in them, what is made of a cut one, and that the rule base comes back the same."""

from __future__ import annotations

import errno
import json
import os
import resource
import signal
import subprocess
import unittest
from pathlib import Path
from unittest import mock

from hipac import Journal, JournalFault, PROGRAM, ProgramEnded, Refused

from .making import BY, NO_OVERSELL, STOCK, RuleBaseTest, python, rule, script
from .test_endings import OPENS

TICK = rule("tick", ["every", 10, 10], [["emit", ["time", 0]]])
DAY = rule("day", ["closure", ["signal", "sold"], ["every", 10, 10]], [["emit", ["count"]]])
GIVEN = script([NO_OVERSELL, TICK, DAY], [["tx", [["install", it] for it in ("no_oversell", "tick", "day")]]])

# A client that is never done, and tells what was answered.
CLIENT = """
import sys
sys.path.insert(0, sys.argv[1])
from hipac import Base
base = Base.recover(sys.argv[2], sys.argv[3], by=sys.argv[4])
print(base.pid, flush=True)
for number in range(10**9):
    base.tx([["update", "item", 7, [["stock", number]]]])
    print(number, flush=True)
"""


def a_day(base) -> None:
    """Items of each kind: committed, aborted, refused, and a move of the clock."""
    note = ["create", "note", 1, [["text", "é \"x\"\n\u2028"], ["read", False]]]
    base.tx([["create", "item", 7, [["stock", 3]]], note])
    base.tx([["update", "item", 7, [["stock", -1]]]])
    base.tx([["signal", "sold", []]])
    base.clock(12)
    try:
        base.tx([["emit"]])
    except Refused:
        pass
    base.tx([["signal", "sold", []], ["update", "item", 7, [["stock", 2]]]])


class RecoveryTest(RuleBaseTest):
    def setUp(self):
        self.path = self.folder() / "journal"

    def after_a_day(self):
        """A rule base with a journal, and its state."""
        base = self.recovered(self.path, GIVEN)
        a_day(base)
        return base, base.show()

    def killed(self, base) -> None:
        """A rule base whose process was killed: it lets go of the journal. The library's process is our own: such a
        rule base is closed."""
        if BY == "library":
            return base.close()
        os.kill(base.pid, signal.SIGKILL)
        with self.assertRaises(ProgramEnded) as caught:
            base.show()
        self.assertFalse(caught.exception.is_kept)
        return base.close()

    def test_a_journal_brings_all_back(self):
        base, state = self.after_a_day()
        units = base.units
        self.killed(base)
        again = self.recovered(self.path, GIVEN)
        self.assertEqual((again.show(), again.units, again.time, again.replayed), (state, units, 12, 7))
        self.assertEqual(len(again.last_replayed.units), 1)
        # The past is back too: one was sold since moment 10.
        self.assertEqual([it.emits for it in again.clock(20)], [[20, 1]])
        again.close()
        self.assertEqual(self.recovered(self.path).time, 20)

    def test_options_may_change(self):
        base, state = self.after_a_day()
        base.close()
        again = self.recovered(self.path, workers=1, tree=True)
        self.assertEqual(again.show(), state)
        self.assertEqual(again.tx([]).tree, [])

    def test_what_is_in_a_journal(self):
        base = self.recovered(self.path, STOCK)
        base.tx([["emit", "é\n"]])
        base.show()
        base.clock(3)
        with self.assertRaises(ValueError):
            base.tx([["emit", float("nan")]])
        lines = self.path.read_bytes().split(b"\n")
        self.assertEqual(lines[1:], ['["tx",[["emit","é\\n"]]]'.encode(), b'["clock",3]', b""])
        ended = subprocess.run(PROGRAM, input=self.path.read_bytes(), capture_output=True, check=True)
        self.assertEqual(ended.stdout.decode(), 'unit 1 committed\nok 1\nunit 2 committed\nemit "é\\n"\nok 2\nok 2\n')

    def test_a_cut_last_line(self):
        base, state = self.after_a_day()
        base.close()
        whole = self.path.read_bytes()
        for rest in (b"[", b'["tx",[["update","item",7,[["stock",9]]]]]', b"\xff" * 10_000):
            self.path.write_bytes(whole + rest)
            again = self.recovered(self.path, GIVEN)
            self.assertEqual(again.show(), state)
            again.tx([["delete", "item", 7]])
            again.close()
            self.assertEqual(self.path.read_bytes(), whole + b'["tx",[["delete","item",7]]]\n')

    def test_a_cut_first_line(self):
        self.path.write_bytes(b'{"version":2,"cl')
        base = self.recovered(self.path, STOCK)
        self.assertEqual((base.replayed, base.units), (0, 1))
        base.close()
        self.assertEqual(self.recovered(self.path).replayed, 1)

    def test_a_line_that_had_no_answer(self):
        """The program goes away with the answer: the line runs once, when the journal is replayed."""
        base = self.recovered(self.path, script(), program=python(OPENS + "sys.stdin.readline()\nsys.exit(4)"))
        with self.assertRaises(ProgramEnded) as caught:
            base.tx([["create", "item", 1, [["stock", 5]]], ["emit", "made"]])
        self.assertTrue(caught.exception.is_kept)
        with self.assertRaises(ProgramEnded) as caught:
            base.tx([["create", "item", 2, [["stock", 5]]]])
        self.assertFalse(caught.exception.is_kept)
        base.close()
        again = self.recovered(self.path)
        self.assertEqual([it.emits for it in again.last_replayed.units], [["made"]])
        self.assertEqual([it.key for it in again.show().objects], [1])

    def test_an_interrupt_after_the_line_was_written(self):
        """The line is in the journal, and so the rule base that goes on must be one that has run it."""
        base = self.recovered(self.path, STOCK)
        with mock.patch(f"hipac.{BY}.{BY.title()}.send", side_effect=KeyboardInterrupt):
            with self.assertRaises(KeyboardInterrupt):
                base.tx([["delete", "item", 7]])
        with self.assertRaises(ProgramEnded):
            base.show()
        base.close()
        self.assertEqual(self.recovered(self.path).show().objects, [])

    def test_a_refused_last_line(self):
        base = self.recovered(self.path, STOCK)
        with self.assertRaises(Refused):
            base.tx([["update", "item", 7, [["stok", 1]]]])
        base.close()
        last = self.recovered(self.path).last_replayed
        self.assertEqual((last.code, last.part), ("S4", "stok"))

    def test_journals_of_others(self):
        """Such as `tee` makes them, with questions, refused lines, spaces and carriage returns."""
        first = b'{"version": 1, "classes": [], "rules": [], "items": []}\r\n'
        self.path.write_bytes(first + b'["show"]\r\n\n{\n [ "clock", 4 ] \n')
        base = self.recovered(self.path)
        self.assertEqual((base.replayed, base.time, base.units), (5, 4, 0))

    def test_another_script(self):
        self.recovered(self.path, STOCK).close()
        before = self.path.read_bytes()
        with self.assertRaisesRegex(JournalFault, "another script"):
            self.recovered(self.path, GIVEN)
        self.assertEqual(self.path.read_bytes(), before)
        self.recovered(self.path, dict(reversed(STOCK.items()))).close()

    def test_no_script(self):
        with self.assertRaisesRegex(JournalFault, "no script is given"):
            self.recovered(self.path)

    def test_a_refused_script_leaves_no_line(self):
        with self.assertRaises(Refused):
            self.recovered(self.path, {"version": 9})
        self.assertEqual(self.path.read_bytes(), b"")
        self.recovered(self.path, STOCK)

    def test_replay_without_a_journal(self):
        base, state = self.after_a_day()
        base.close()
        with Journal(self.path) as journal:
            first, *lines = journal.lines()
        other = self.base(first)
        other.replay(line.decode() for line in lines)
        self.assertEqual(other.show(), state)
        with self.assertRaises(ValueError):
            other.replay(['["tx",[]]\n'])


class JournalTest(RuleBaseTest):
    def setUp(self):
        self.path = self.folder() / "journal"

    def test_lines_are_synced_before_they_are_sent(self):
        def sync(_: object) -> None:
            self.assertEqual(self.path.read_bytes(), b"one\n")

        with Journal(self.path) as journal:
            with mock.patch("os.fsync", side_effect=sync) as synced:
                journal.append(b"one")
            self.assertEqual(synced.call_count, 1)
            with self.assertRaises(ValueError):
                journal.append(b"two\nlines")
            self.assertEqual(list(journal.lines()), [b"one"])
        with self.assertRaises(JournalFault):
            journal.append(b"closed")

    def test_one_process_has_it(self):
        journal = Journal(self.path)
        with mock.patch("hipac.journals.LOCK_LIMIT", 0.1), self.assertRaisesRegex(JournalFault, "another process"):
            Journal(self.path)
        journal.close()
        Journal(self.path).close()

    def test_a_full_disk(self):
        """A line that can't be written whole isn't sent, and leaves nothing behind."""
        base = self.recovered(self.path, STOCK)
        before = self.path.read_bytes()
        limits = resource.getrlimit(resource.RLIMIT_FSIZE)
        resource.setrlimit(resource.RLIMIT_FSIZE, (len(before) + 5, limits[1]))
        try:
            for _ in range(2):
                with self.assertRaisesRegex(JournalFault, "a line can't be written") as caught:
                    base.tx([["delete", "item", 7]])
                self.assertEqual((caught.exception.__cause__.errno, self.path.read_bytes()), (errno.EFBIG, before))
        finally:
            resource.setrlimit(resource.RLIMIT_FSIZE, limits)
        self.assertEqual(base.tx([["emit", 1]]).number, 2)
        self.assertEqual(self.path.read_bytes(), before + b'["tx",[["emit",1]]]\n')

    def test_a_line_that_was_not_synced(self):
        with Journal(self.path) as journal:
            journal.append(b"one")
            with mock.patch("os.fsync", side_effect=[OSError(errno.EIO, "broken"), None]):
                with self.assertRaises(JournalFault):
                    journal.append(b"two")
            journal.append(b"three")
            self.assertEqual(list(journal.lines()), [b"one", b"three"])

    def test_a_disk_that_is_gone(self):
        with Journal(self.path) as journal:
            with mock.patch("os.fsync", side_effect=OSError(errno.EIO, "broken")):
                with self.assertRaises(JournalFault):
                    journal.append(b"one")
            with self.assertRaisesRegex(JournalFault, "takes no more lines"):
                journal.append(b"two")

    def test_a_killed_client_leaves_a_journal(self):
        """A client that is killed in the middle of its work lets go of the journal, and its program ends by itself."""
        words = python(CLIENT) + [str(Path(__file__).resolve().parents[1]), str(self.path), json.dumps(STOCK), BY]
        running = subprocess.Popen(words, stdout=subprocess.PIPE, stderr=subprocess.DEVNULL)
        self.addCleanup(running.stdout.close)
        program = int(running.stdout.readline())
        answered = [int(running.stdout.readline()) for _ in range(50)][-1]
        running.kill()
        rest = running.stdout.read().split(b"\n")[:-1]
        running.wait()
        answered = int(rest[-1]) if rest else answered
        again = self.recovered(self.path, STOCK)
        self.assertIn(again.show().find("item", 7)["stock"], (answered, answered + 1))
        self.assertNotEqual(again.pid, program)


if __name__ == "__main__":
    unittest.main()
