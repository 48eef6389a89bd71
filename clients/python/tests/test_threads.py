"""Several threads on one rule base: each has the answers to its own lines."""

from __future__ import annotations

import os
import signal
import unittest
from concurrent.futures import ThreadPoolExecutor

from hipac import ProgramEnded, Refused

from .making import STOCK, RuleBaseTest, installed, rule

THREADS, CALLS = 8, 20


class ThreadsTest(RuleBaseTest):
    def test_each_has_its_answers(self):
        base = self.base(STOCK)

        def caller(thread: int) -> list:
            numbers = []
            for call in range(CALLS):
                unit = base.tx([["emit", thread], ["emit", call], ["emit", "x" * (call * 20)]])
                self.assertEqual(unit.emits, [thread, call, "x" * (call * 20)])
                numbers.append(unit.number)
                if call % 10 == 0:
                    self.assertEqual(base.show().find("item", 7)["stock"], 3)
                    with self.assertRaises(Refused) as caught:
                        base.tx([["emit", thread, call]])
                    self.assertEqual(caught.exception.part, ["emit", thread, call])
            return numbers

        with ThreadPoolExecutor(THREADS) as pool:
            numbers = list(pool.map(caller, range(THREADS)))
        self.assertTrue(all(it == sorted(it) for it in numbers))
        self.assertEqual(sorted(sum(numbers, [])), list(range(2, 2 + THREADS * CALLS)))

    def test_updates_are_one_after_the_other(self):
        more = [["update", "item", 7, [["stock", ["+", ["of", "i", "stock"], 1]]]]]
        count = rule("count", ["signal", "go"], more, queries=[["i", "item", True]])
        base = self.base(installed(count))
        base.tx([["create", "item", 7, [["stock", 0]]]])
        with ThreadPoolExecutor(THREADS) as pool:
            list(pool.map(lambda _: base.tx([["signal", "go", []]]), range(THREADS * CALLS)))
        self.assertEqual(base.show().find("item", 7)["stock"], THREADS * CALLS)

    def test_all_are_told_that_the_program_ended(self):
        base = self.base(STOCK)

        def caller(thread: int) -> int:
            with self.assertRaises(ProgramEnded) as caught:
                for call in range(10_000):
                    if (thread, call) == (0, 5):
                        os.kill(base.pid, signal.SIGKILL)
                    base.tx([["emit", thread]])
            return caught.exception.status

        with ThreadPoolExecutor(THREADS) as pool:
            self.assertEqual(list(pool.map(caller, range(THREADS))), [-signal.SIGKILL] * THREADS)

    def test_closing_waits_for_an_answer(self):
        base = self.base(STOCK)
        with ThreadPoolExecutor(2) as pool:
            answer = pool.submit(base.tx, [["emit", "x" * 1000]] * 300)
            while not answer.done() and not base._way.turn.locked():
                pass
            base.close()
            self.assertEqual(len(answer.result().emits), 300)


if __name__ == "__main__":
    unittest.main()
