"""The graph of each example is the stored one: which rule may set off which, chains, cycles, warnings."""

import subprocess
import sys
import unittest
from pathlib import Path

REPOSITORY = Path(__file__).resolve().parents[2]
STORED = Path(__file__).resolve().parent / "graphs"


class Examples(unittest.TestCase):
    def test_each_graph_is_the_stored_one(self):
        for script in sorted((REPOSITORY / "examples").glob("*.json")):
            with self.subTest(script.name):
                words = [sys.executable, "-m", "hipac_tools", "graph", str(script)]
                ended = subprocess.run(words, cwd=REPOSITORY / "tools", capture_output=True, text=True, check=False)
                stored = (STORED / f"{script.stem}.txt").read_text(encoding="utf-8")
                self.assertEqual((ended.returncode, ended.stdout), (0, stored))


if __name__ == "__main__":
    unittest.main()
