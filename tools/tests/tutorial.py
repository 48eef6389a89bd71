#!/usr/bin/env python3
"""The commands in docs/TUTORIAL.md and what they print. Run as a program it rewrites all stored outputs:

    tools/tests/tutorial.py

A ```sh block of the page has one command, and the ```text block after it the command's output. A ```rules block is a
part of the script whose file is named last before it. Each script in examples/tutorial has a stored report beside it.
"""

from __future__ import annotations

import re
import shlex
import subprocess
import sys
from dataclasses import dataclass
from pathlib import Path

TOOLS = Path(__file__).resolve().parents[1]
if __name__ == "__main__":
    sys.path.insert(0, str(TOOLS))

from hipac_tools import program, proved  # noqa: E402 - found by the path above

REPOSITORY = TOOLS.parent
PAGE = REPOSITORY / "docs" / "TUTORIAL.md"
SCRIPTS = REPOSITORY / "examples" / "tutorial"

FENCED = re.compile(r"^```(\w*)\n(.*?)^```$", re.MULTILINE | re.DOTALL)
NAMED = re.compile(r"examples/tutorial/([\w-]+\.rules)")
LINK = re.compile(r"\]\(([^)\s]+)\)")


@dataclass(frozen=True)
class Block:
    """A fenced block: the word after its fence, its text, its line, and the script that is named last before it."""

    word: str
    text: str
    line: int
    script: str


def blocks(page: str) -> list[Block]:
    """All fenced blocks of a page, in order."""
    found = []
    for fenced in FENCED.finditer(page):
        names = NAMED.findall(page, 0, fenced.start())
        line = page.count("\n", 0, fenced.start()) + 1
        found.append(Block(fenced[1], fenced[2], line, names[-1] if names else ""))
    return found


def scripts() -> list[Path]:
    return sorted(SCRIPTS.glob("*.rules"))


def report_of(script: Path) -> str:
    """What the program writes for a script."""
    return program.run_script(script.read_bytes(), []).output


def printed(command: str) -> str:
    """What a command of the page prints to standard output. The programs are $HIPAC and $HIPAC_CHECK if
    those are set."""
    words = shlex.split(command)
    if words[0] == "./hipac" and words[-2] == "<":
        return program.run((REPOSITORY / words[-1]).read_bytes(), words[1:-2]).output
    if words[0] == "./hipac-check" and words[-2] == "<":
        return program.run((REPOSITORY / words[-1]).read_bytes(), words[1:-2], proved.program_path()).output
    if words[0] == "./hipac-tools":
        ended = subprocess.run(words, cwd=REPOSITORY, stdin=subprocess.DEVNULL, stdout=subprocess.PIPE, check=False)
        return ended.stdout.decode("utf-8")
    raise ValueError(f"no command for this page: {command}")


def with_outputs(page: str) -> str:
    """The page with each command's output written again."""
    parts: list[str] = []
    end, command = 0, None
    for fenced in FENCED.finditer(page):
        if fenced[1] == "text" and command is not None:
            parts += [page[end:fenced.start(2)], printed(command)]
            end = fenced.end(2)
        command = fenced[2] if fenced[1] == "sh" else None
    return "".join(parts) + page[end:]


def main() -> None:
    for script in scripts():
        script.with_suffix(".report").write_text(report_of(script), encoding="utf-8")
    PAGE.write_text(with_outputs(PAGE.read_text(encoding="utf-8")), encoding="utf-8")


if __name__ == "__main__":
    main()
