"""The Vim files in Vim itself, without a screen: what stands at the places of the samples, and `:make`."""

from __future__ import annotations

import json
import shutil
import subprocess
import tempfile
import unittest
from pathlib import Path

from .places import RESERVED, TOKEN, TOP, places, scripts

RUNTIME = TOP / "editors" / "vim"

# The groups that a kind of place may have.
GROUPS = {
    "comment": {"hipacComment"}, "text": {"hipacText"}, "escape": {"hipacEscape"}, "number": {"hipacNumber"},
    "declaration": {"hipacDeclaration"}, "kind": {"hipacKind"}, "mode": {"hipacMode"}, "control": {"hipacControl"},
    "query": {"hipacQuery"}, "aggregate": {"hipacAggregate"}, "event": {"hipacEvent"},
    "property": {"hipacProperty"}, "statement": {"hipacStatement"}, "logical": {"hipacLogical"},
    "boolean": {"hipacBoolean"}, "subject": {"hipacSubject"}, "operator": {"hipacOperator"},
    "quoted": {"hipacQuoted"}, "member": {"hipacMember"}, "name": {"hipacName"},
}
MEANT = {"hipacControl", "hipacLogical", "hipacBoolean", "hipacSubject", "hipacProperty", "hipacMode", "hipacStatement"}


def run_vim(commands: list[str], folder: Path, environment: dict | None = None) -> None:
    """Runs Vim with these commands, and no settings but ours."""
    script = folder / "commands.vim"
    script.write_text("\n".join([*commands, "qall!"]) + "\n", encoding="utf-8")
    start = ["vim", "-N", "-u", "NONE", "-i", "NONE", "-n", "-es", "--cmd", f"set runtimepath^={RUNTIME}"]
    begin = ["-c", "filetype plugin on", "-c", "syntax on", "-S", str(script)]
    how = {"stdin": subprocess.DEVNULL, "stdout": subprocess.DEVNULL, "timeout": 300, "check": False}
    subprocess.run([*start, *begin], cwd=folder, env=environment, **how)


def groups_in(path: Path, asked: list[tuple[int, int]]) -> list[str]:
    """The names of the groups at these lines and columns, both from 1. A column is a byte."""
    with tempfile.TemporaryDirectory() as room:
        out = Path(room) / "out"
        pairs = json.dumps([list(place) for place in asked])
        commands = [
            f"edit {path}",
            f"let found = map({pairs}, 'synIDattr(synID(v:val[0], v:val[1], 1), \"name\")')",
            f"call writefile([&filetype] + found, '{out}')",
        ]
        run_vim(commands, Path(room))
        kind, *found = out.read_text(encoding="utf-8").split("\n")[:-1]
        assert kind == "hipac", f"{path} has the type {kind!r}"
        return found


@unittest.skipUnless(shutil.which("vim"), "needs vim: apt-get install vim")
class Vim(unittest.TestCase):
    def test_places_of_the_samples(self) -> None:
        asked = places()
        for path in sorted({place[0] for place in asked}):
            mine = [place for place in asked if place[0] == path]
            groups = groups_in(path, [(number, column + 1) for _, number, column, _, _ in mine])
            for (_, number, column, word, kind), group in zip(mine, groups):
                with self.subTest(file=path.name, line=number, word=word, column=column):
                    self.assertIn(group, GROUPS[kind])

    def test_all_scripts(self) -> None:
        for path in scripts():
            tokens, asked = [], []
            for number, line in enumerate(path.read_text(encoding="utf-8").split("\n"), 1):
                for token in TOKEN.finditer(line):
                    tokens.append(token)
                    asked.append((number, len(line[:token.start()].encode()) + 1))
            for token, place, group in zip(tokens, asked, groups_in(path, asked)):
                with self.subTest(file=str(path.relative_to(TOP)), place=place, token=token.group()):
                    self.assertNotIn("Wrong", group)
                    self.assertEqual(group == "hipacComment", token.lastgroup == "comment")
                    self.assertEqual(group == "hipacText", token.lastgroup == "text")
                    if token.lastgroup == "word" and token.group() in RESERVED:
                        self.assertIn(group, MEANT)

    def test_wrong_tokens(self) -> None:
        with tempfile.TemporaryDirectory() as room:
            path = Path(room) / "wrong.rules"
            path.write_text('version 007\ntransaction { emit "\\q" }\n', encoding="utf-8")
            self.assertEqual(groups_in(path, [(1, 9), (2, 21)]), ["hipacWrong", "hipacWrongEscape"])

    def test_other_files_named_rules_stay_what_they_are(self) -> None:
        with tempfile.TemporaryDirectory() as room:
            path, out = Path(room) / "other.rules", Path(room) / "out"
            path.write_text('# udev\nACTION=="add", RUN+="x"\n', encoding="utf-8")
            run_vim([f"edit {path}", f"call writefile([&filetype], '{out}')"], Path(room))
            self.assertNotEqual(out.read_text(encoding="utf-8"), "hipac\n")

    def test_make_lists_what_check_says(self) -> None:
        with tempfile.TemporaryDirectory() as room:
            folder = Path(room)
            (folder / "one.rules").write_text("version 1\nclass a { b: integer }\n", encoding="utf-8")
            tools = folder / "tools"
            message = "one.rules:2:14: refused S1 2:14: expected `int`, `bool` or `text`, found `integer`"
            tools.write_text(f"#!/bin/sh\necho '{message}'\necho '  2 | class'\nexit 2\n", encoding="utf-8")
            tools.chmod(0o755)
            out = folder / "out"
            commands = [
                "edit one.rules",
                "silent! make!",
                "let places = map(filter(getqflist(), 'v:val.valid'), '[bufname(v:val.bufnr), v:val.lnum, v:val.col]')",
                f"call writefile([json_encode(places)], '{out}')",
            ]
            run_vim(commands, folder, {"HIPAC_TOOLS": str(tools), "PATH": "/usr/bin:/bin", "HOME": room})
            self.assertEqual(json.loads(out.read_text(encoding="utf-8")), [["one.rules", 2, 14]])


if __name__ == "__main__":
    unittest.main()
