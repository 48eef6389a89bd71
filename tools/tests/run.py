#!/usr/bin/env python3
"""Runs the tests of the tools, all or those whose names contain one of the words: tools/tests/run.py [WORD ..]

They run the program too: $HIPAC if that is set, else ./hipac, which is built first if need be.
"""

from __future__ import annotations

import sys
import unittest
from pathlib import Path

TOOLS = Path(__file__).resolve().parents[1]
sys.path.insert(0, str(TOOLS))

from hipac_tools import program  # noqa: E402 - found by the path above


def main(words: list[str]) -> int:
    ended = program.run(b'{"version": 1, "classes": [], "rules": [], "items": []}', [])
    if (ended.status, ended.output) != (0, "final\nend\n"):
        print(f"the program {program.program_path()} doesn't run: status {ended.status}", file=sys.stderr)
        print(ended.errors, end="", file=sys.stderr)
        return 1
    loader = unittest.TestLoader()
    loader.testNamePatterns = [f"*{word}*" for word in words] or None
    suite = loader.discover(str(TOOLS / "tests"), top_level_dir=str(TOOLS))
    return 0 if unittest.TextTestRunner().run(suite).wasSuccessful() else 1


if __name__ == "__main__":
    sys.exit(main(sys.argv[1:]))
