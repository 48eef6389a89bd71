#!/usr/bin/env python3
"""Runs the tests of the editors' files, all or those whose names have one of the words.

    editors/tests/run.py [WORD ..]
"""

from __future__ import annotations

import sys
import unittest
from pathlib import Path

TOP = Path(__file__).resolve().parents[2]
sys.dont_write_bytecode = True


def main(words: list[str]) -> int:
    loader = unittest.TestLoader()
    loader.testNamePatterns = [f"*{word}*" for word in words] or None
    suite = loader.discover(str(TOP / "editors" / "tests"), top_level_dir=str(TOP / "editors"))
    return 0 if unittest.TextTestRunner().run(suite).wasSuccessful() else 1


if __name__ == "__main__":
    sys.exit(main(sys.argv[1:]))
