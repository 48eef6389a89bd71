"""The Python of the pages runs as it is written, and prints what its comments say. The session of docs/LIVE.md has the
answers that it shows."""

from __future__ import annotations

import json
import os
import re
import subprocess
import sys
import unittest

from hipac import PROGRAM

from .making import ASKED_BY, BY, REPOSITORY, RuleBaseTest

PAGES = ("clients/python/README.md", "docs/LIVE.md")
BLOCK = re.compile(r"```python\n(.*?)```", re.DOTALL)
PRINTED = re.compile(r"print\(.*\) +# (.*)")
SESSION = re.compile(r"```text\n(> .*?)```", re.DOTALL)


def session(page):
    """The lines of the client in a page's session, each with its continuations, and the answers."""
    sent, answers = [], []
    for line in SESSION.search(page)[1].splitlines():
        if line.startswith("> "):
            sent.append(line[2:])
        elif line.startswith(" "):
            sent[-1] += line
        else:
            answers.append(line)
    return sent, answers


class PagesTest(RuleBaseTest):
    def test_pages(self):
        for name in PAGES:
            for text in BLOCK.findall((REPOSITORY / name).read_text(encoding="utf-8")):
                with self.subTest(name):
                    room = self.folder()
                    (room / "examples").symlink_to(REPOSITORY / "examples")
                    how = {"cwd": room, "env": {**os.environ, "PYTHONPATH": str(REPOSITORY / "clients" / "python")}}
                    words = [sys.executable, "-c", "from hipac import Base\n" + ASKED_BY.format(BY) + "\n" + text]
                    ended = subprocess.run(words, capture_output=True, text=True, check=False, **how)
                    self.assertEqual(ended.returncode, 0, ended.stderr)
                    self.assertEqual(ended.stdout.splitlines(), PRINTED.findall(text))

    def test_session(self):
        sent, answers = session((REPOSITORY / "docs" / "LIVE.md").read_text(encoding="utf-8"))
        lines = (REPOSITORY / "examples" / "live.lines").read_text(encoding="utf-8")
        self.assertEqual([json.loads(line) for line in sent], [json.loads(line) for line in lines.splitlines()])
        ended = subprocess.run(PROGRAM, input=lines, capture_output=True, text=True, check=False)
        self.assertEqual((ended.returncode, ended.stdout.splitlines()), (0, answers))


if __name__ == "__main__":
    unittest.main()
