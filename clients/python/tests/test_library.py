"""Rule bases in this process: the library is found, a base has its thread, and all else is as by the program."""

from __future__ import annotations

import doctest
import gc
import os
import threading
import unittest
import warnings
from concurrent.futures import ThreadPoolExecutor
from unittest import mock

import hipac
from hipac import Base, LibraryMissing, ProgramEnded, Refused, WrongThread, find_library

from .making import BY, REPOSITORY, STOCK, RuleBaseTest, rule, script
from .test_texts import STOCK_TEXT


class OptionsTest(unittest.TestCase):
    def test_each_way_has_its_own(self):
        for options in ({"by": "library", "program": ["true"]}, {"by": "library", "timeout": 1},
                        {"by": "program", "library": "libhipac.so"}):
            with self.subTest(options), self.assertRaises(TypeError):
                Base(STOCK, **options)
        with self.assertRaises(ValueError):
            Base(STOCK, by="pipes")

    def test_no_library(self):
        for path in ("/nowhere/libhipac.so", __file__):
            with self.subTest(path), self.assertRaisesRegex(LibraryMissing, "is no libhipac"):
                Base(STOCK, by="library", library=path)
        with mock.patch.dict(os.environ, HIPAC_LIBRARY="/nowhere/other.so"):
            self.assertEqual(find_library(), "/nowhere/other.so")
            self.assertEqual(find_library("some.so"), "some.so")

    def test_none_anywhere(self):
        with mock.patch.dict(os.environ), mock.patch("hipac.library._ABOVE", REPOSITORY / "clients"):
            os.environ.pop("HIPAC_LIBRARY", None)
            with mock.patch("ctypes.util.find_library", return_value=None):
                with self.assertRaisesRegex(LibraryMissing, "./build hipac_c makes it"):
                    find_library()
            with mock.patch("ctypes.util.find_library", return_value="libhipac.so.1"):
                self.assertEqual(find_library(), "libhipac.so.1")


@unittest.skipUnless(BY == "library", "it is of the library alone")
class LibraryTest(RuleBaseTest):
    def test_a_base_has_its_thread(self):
        base = self.base(STOCK)
        with ThreadPoolExecutor(1) as pool:
            for call in (base.show, base.close, lambda: base.tx([]), lambda: base.get("item", 7), base.snapshot):
                with self.assertRaisesRegex(WrongThread, "belongs to the thread 'MainThread'"):
                    pool.submit(call).result()
        self.assertEqual(base.tx([["emit", 1]]).emits, [1])

    def test_each_thread_has_its_bases(self):
        def work(number: int) -> list:
            with Base(STOCK) as base:
                return [base.tx([["emit", number]]).emits for _ in range(5)]

        with ThreadPoolExecutor(4) as pool:
            self.assertEqual(list(pool.map(work, range(12))), [[[number]] * 5 for number in range(12)])

    def test_a_call_within_a_call(self):
        base = self.base(STOCK)
        with mock.patch("hipac.base.read_answer", side_effect=lambda *_: base.show()):
            with self.assertRaisesRegex(WrongThread, "still at work"):
                base.show()

    def test_a_refused_script(self):
        with self.assertRaises(Refused) as caught:
            Base(rules="version 1 rule r on update item do { veto }")
        self.assertEqual((caught.exception.code, caught.exception.place), ("S4", (1, 28)))

    def test_closed(self):
        base = self.base(STOCK)
        base.close()
        base.close()
        for call in (base.show, lambda: base.tx([]), lambda: base.replay(["[]"])):
            with self.assertRaisesRegex(ProgramEnded, "the rule base is closed") as caught:
                call()
            self.assertEqual((caught.exception.status, caught.exception.fault), (0, None))

    def test_no_memory(self):
        path = self.folder() / "journal"
        base = self.recovered(path, STOCK)
        with mock.patch.object(base._way, "_line", return_value=2):
            with self.assertRaisesRegex(ProgramEnded, "no memory") as caught:
                base.tx([["emit", 1]])
        self.assertEqual((caught.exception.status, caught.exception.fault, caught.exception.is_kept), (4, "F1", True))
        for call in (base.show, lambda: base.tx([])):
            with self.assertRaisesRegex(ProgramEnded, "no memory") as caught:
                call()
            self.assertEqual((caught.exception.fault, caught.exception.is_kept), ("F1", False))
        base.close()
        self.assertEqual([it.emits for it in self.recovered(path).last_replayed.units], [[1]])

    def test_an_unknown_status(self):
        base = self.base(STOCK)
        with mock.patch.object(base._way, "_line", return_value=7), self.assertRaisesRegex(Exception, "status is 7"):
            base.tx([])
        self.assertRaises(ProgramEnded, base.show)

    def test_an_interrupt(self):
        base = self.base(STOCK)
        with mock.patch("hipac.reading.Reader.take", side_effect=KeyboardInterrupt):
            with self.assertRaises(KeyboardInterrupt):
                base.tx([["emit", 1]])
        with self.assertRaisesRegex(ProgramEnded, "the library was ended, as KeyboardInterrupt"):
            base.show()

    def test_one_object_of_texts(self):
        base = self.base(None, rules=STOCK_TEXT)
        for name, key in (("item", 8), ("nobody", 7), ('item",7,"', 7), ("", 7), ("note", -2 ** 63), ("item", 2 ** 80)):
            self.assertIsNone(base.get(name, key))
        self.assertEqual(base.get("item", 7).fields, {"stock": 3})

    def test_answers_without_lines_below(self):
        """The answers that are read at once are as the others."""
        for tree in (False, True):
            base = self.base(STOCK, tree=tree)
            unit = base.tx([["update", "item", 7, [["stock", 1]]]])
            self.assertEqual((unit.number, unit.time, str(unit.ending), unit.emits, unit.cascade, base.units),
                             (2, None, "committed", [], [], 2))
            self.assertEqual(unit.tree is None, not tree)
            self.assertEqual(base.tx([["emit", 1]]).number, 3)

    def test_many_lines(self):
        base = self.base(None, rules=STOCK_TEXT)
        for number in range(200):
            self.assertEqual(base.transaction("update item(7) set stock = $n", n=number).number, number + 2)
        self.assertEqual(base.get("item", 7)["stock"], 199)

    def test_one_that_is_not_closed(self):
        closed = threading.Event()
        with mock.patch("hipac.library.Library._free", side_effect=closed.set):
            base = Base(STOCK)
            with self.assertWarns(ResourceWarning):
                del base
                gc.collect()
        self.assertTrue(closed.is_set())

    def test_one_that_another_thread_drops(self):
        bases = [Base(STOCK)]
        way = bases[0]._way
        self.addCleanup(way.end)
        with warnings.catch_warnings(), ThreadPoolExecutor(1) as pool:
            warnings.simplefilter("ignore", ResourceWarning)
            pool.submit(way.__del__).result()
        self.assertEqual(bases[0].tx([]).number, 2)

    def test_workers_change_nothing(self):
        base = self.base(script([rule("r", ["signal", "go"], [["emit", 1]])]), workers=4)
        self.assertEqual(base.tx([["install", "r"], ["signal", "go", []]]).emits, [1])


def load_tests(loader: unittest.TestLoader, tests: unittest.TestSuite, _: object) -> unittest.TestSuite:
    """The doctests run as all else does, by one way or the other."""
    here = os.getcwd()
    for module in (hipac, hipac.base):
        tests.addTests(doctest.DocTestSuite(module, setUp=lambda _: os.chdir(REPOSITORY),
                                            tearDown=lambda _: os.chdir(here)))
    return tests


if __name__ == "__main__":
    unittest.main()
