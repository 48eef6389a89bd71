#!/usr/bin/env python3
"""Runs the tests of the client and of its example, all or those whose names have one of the words given.

    clients/python/tests/run.py [--library] [WORD ..]

They run the program: $HIPAC_LIVE where that is set, else ./hipac-live, which is made first if need be. With --library
those that both ways share, and the library's own, run by the library: $HIPAC_LIBRARY where that is set, else the one
that ./build hipac_c has made.
"""

from __future__ import annotations

import os
import subprocess
import sys
import unittest
from pathlib import Path

CLIENT = Path(__file__).resolve().parents[1]
ORDERS = CLIENT.parents[1] / "examples" / "orders"
sys.dont_write_bytecode = True
sys.path.insert(0, str(CLIENT))

from hipac import PROGRAM, HipacError, find_library  # noqa: E402 - found by the path above

# The tests that concern the program alone.
OF_THE_PROGRAM = ("test_endings", "test_threads")


def has_program() -> bool:
    status = subprocess.run(PROGRAM, stdin=subprocess.DEVNULL, check=False).returncode
    if status != 0:
        print(f"the program {PROGRAM[0]} doesn't run: status {status}", file=sys.stderr)
    return status == 0


def has_library() -> bool:
    try:
        find_library()
        return True
    except HipacError as fault:
        print(fault, file=sys.stderr)
        return False


def found(folder: Path, words: list, **how: str) -> unittest.TestSuite:
    loader = unittest.TestLoader()
    loader.testNamePatterns = [f"*{word}*" for word in words] or None
    return loader.discover(str(folder), **how)


def main(words: list) -> int:
    by_library = "--library" in words
    words = [word for word in words if word != "--library"]
    os.environ["HIPAC_BY"] = "library" if by_library else "program"
    if not (has_library() if by_library else has_program()):
        return 1
    suite = unittest.TestSuite()
    for path in sorted(CLIENT.glob("tests/test_*.py")):
        if not by_library or path.stem not in OF_THE_PROGRAM:
            suite.addTests(found(CLIENT / "tests", words, pattern=path.name, top_level_dir=str(CLIENT)))
    if not by_library:
        suite.addTests(found(ORDERS, words))
    return 0 if unittest.TextTestRunner().run(suite).wasSuccessful() else 1


if __name__ == "__main__":
    sys.exit(main(sys.argv[1:]))
