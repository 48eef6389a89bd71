"""What a client is told when the program goes away, and that it is told the same again."""

from __future__ import annotations

import os
import signal
import threading
import time
import unittest
from unittest import mock

from hipac import AnswerFault, PROGRAM, ProgramEnded, Refused, Base, TimedOut

from .making import STOCK, RuleBaseTest, python, script

# Answers the first line, and then goes on as the text says.
OPENS = "import os, signal, sys, time\nsys.stdin.readline()\nprint('ok 0', flush=True)\n"


class EndingTest(RuleBaseTest):
    def expect_ended(self, call, **wanted) -> ProgramEnded:
        with self.assertRaises(ProgramEnded) as caught:
            call()
        error = caught.exception
        self.assertEqual({name: getattr(error, name) for name in wanted}, wanted)
        return error

    def expect_same_again(self, base: Base, error: ProgramEnded) -> None:
        for call in (lambda: base.tx([]), lambda: base.clock(1), base.show, lambda: base.replay(["[]"])):
            with self.assertRaises(type(error)) as caught:
                call()
            again = caught.exception
            self.assertEqual((again.status, again.errors, again.fault, str(again)),
                             (error.status, error.errors, error.fault, str(error)))
        base.close()
        base.close()

    def test_each_fault(self):
        for fault in ("F1", "F2", "F3"):
            text = f"sys.stdin.readline()\nprint('fault {fault}', file=sys.stderr)\nsys.exit(4)"
            base = self.base(script(), program=python(OPENS + text))
            error = self.expect_ended(base.show, status=4, fault=fault, errors=f"fault {fault}\n")
            self.expect_same_again(base, error)

    def test_a_read_that_fails(self):
        folder = ["sh", "-c", 'exec "$0" "$@" </', *PROGRAM]
        self.expect_ended(lambda: self.base(STOCK, program=folder), status=4, fault="F2")

    def test_a_write_that_fails(self):
        full = ["sh", "-c", 'exec "$0" "$@" >/dev/full', *PROGRAM]
        self.expect_ended(lambda: self.base(STOCK, program=full), status=4, fault="F3")

    def test_a_refused_command_line(self):
        error = self.expect_ended(lambda: self.base(STOCK, program=[*PROGRAM, "--frobnicate"]), status=3, fault=None)
        self.assertIn("command line refused", str(error))

    def test_a_refused_script(self):
        with mock.patch.object(Base, "close", autospec=True, side_effect=Base.close) as closed:
            with self.assertRaises(Refused):
                self.base({"version": 9})
        base = closed.call_args[0][0]
        self.expect_same_again(base, self.expect_ended(base.show, status=2, fault=None))

    def test_a_status_that_says_nothing(self):
        text = "sys.stdin.readline()\nsys.stderr.write('why\\n' * 3)\nsys.exit(2)"
        base = self.base(script(), program=python(OPENS + text))
        error = self.expect_ended(base.show, status=2, fault=None, errors="why\nwhy\nwhy\n")
        self.assertEqual(str(error), "the program ended with status 2; it said:\nwhy\nwhy\nwhy")
        self.expect_same_again(base, error)

    def test_killed_between_lines(self):
        base = self.base(STOCK)
        os.kill(base.pid, signal.SIGKILL)
        error = self.expect_ended(lambda: base.tx([["emit", "x" * 1000]] * 900), status=-9, fault=None)
        self.assertEqual(str(error), "the program was killed by signal 9")
        self.expect_same_again(base, error)

    def test_killed_in_the_middle_of_an_answer(self):
        text = "sys.stdin.readline()\nprint('unit 1 comm', end='', flush=True)\nos.kill(os.getpid(), signal.SIGKILL)"
        base = self.base(script(), program=python(OPENS + text))
        self.expect_same_again(base, self.expect_ended(lambda: base.tx([]), status=-9))

    def test_killed_while_it_is_waited_for(self):
        base = self.base(script(), program=python(OPENS + "time.sleep(60)"))
        killer = threading.Timer(0.2, os.kill, (base.pid, signal.SIGKILL))
        killer.start()
        self.expect_same_again(base, self.expect_ended(base.show, status=-9))

    def test_no_program(self):
        with self.assertRaises(FileNotFoundError):
            self.base(STOCK, program=["/nowhere/hipac-live"])

    def test_closed(self):
        base = self.base(STOCK)
        base.close()
        error = self.expect_ended(base.show, status=0)
        self.assertEqual(str(error), "the rule base is closed")
        self.expect_same_again(base, error)
        with Base(STOCK, program=PROGRAM) as other:
            other.tx([])
        self.expect_ended(other.show, status=0)

    def test_closing_ends_the_program(self):
        with self.assertRaises(ZeroDivisionError):
            with Base(STOCK, program=PROGRAM) as base:
                _ = 1 // 0
        with self.assertRaises(ProcessLookupError):
            os.kill(base.pid, 0)

    def test_what_is_no_answer(self):
        for said in ("'hello'", "'ok 7'", "'refused'", "'unit 2 committed'", "b'\\xff'", "'ok 0'",
                     "'unit 1 committed\\nunit 2 committed\\nok 2'", "'rule r enabled\\nok 0'"):
            base = self.base(script(), program=python(
                OPENS + f"sys.stdin.readline()\nsaid = {said}\n"
                "sys.stdout.buffer.write((said if isinstance(said, bytes) else said.encode()) + b'\\n')\n"
                "sys.stdout.flush()\ntime.sleep(60)"))
            with self.assertRaises(AnswerFault):
                base.tx([])
            self.expect_same_again(base, self.expect_ended(base.show, status=-9))

    def test_an_interrupt(self):
        """Whatever breaks off an answer, the next call doesn't take the rest of it for its own."""
        base = self.base(STOCK)
        with mock.patch("hipac.reading.Reader.take", side_effect=KeyboardInterrupt):
            with self.assertRaises(KeyboardInterrupt):
                base.tx([])
        self.expect_same_again(base, self.expect_ended(base.show, status=-9))


class TimeoutTest(RuleBaseTest):
    def test_an_answer_that_takes_too_long(self):
        base = self.base(script(), program=python(OPENS + "time.sleep(60)"), timeout=0.2)
        begun = time.monotonic()
        for _ in range(2):
            with self.assertRaisesRegex(TimedOut, "no answer in 0.2 seconds"):
                base.show()
        self.assertLess(time.monotonic() - begun, 10)

    def test_a_line_that_is_never_taken(self):
        base = self.base(script(), program=python(OPENS + "time.sleep(60)"), timeout=0.2)
        with self.assertRaises(TimedOut):
            base.tx([["emit", "x" * 1000]] * 1000)

    def test_answers_in_time(self):
        base = self.base(STOCK, timeout=30)
        self.assertEqual([base.tx([]).number for _ in range(3)], [2, 3, 4])


if __name__ == "__main__":
    unittest.main()
