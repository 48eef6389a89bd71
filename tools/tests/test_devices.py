"""Devices that never end, that are full, and that aren't there; options that don't exist."""

from __future__ import annotations

import os
import resource
import subprocess
import sys
import tempfile
import threading
import time
import unittest
from pathlib import Path
from typing import Any

from hipac_tools import command

from .trials import REPOSITORY

EXAMPLE = str(REPOSITORY / "examples" / "first.json")
MOST_MEMORY = 1 << 30
SECONDS = 60
WORDS = {"check": [EXAMPLE], "print": [EXAMPLE], "graph": [EXAMPLE], "view": [EXAMPLE], "why": [EXAMPLE, "2"]}

REFUSING = "#!/bin/sh\nwc -c >&2\necho refused S5 size\nexit 2\n"
"""A program in hipac's place that says how many bytes it was given."""


def limited() -> None:
    resource.setrlimit(resource.RLIMIT_AS, (MOST_MEMORY, MOST_MEMORY))


class Devices(unittest.TestCase):
    def launch(self, *words: str, **how: Any) -> subprocess.CompletedProcess:
        started = [sys.executable, "-m", "hipac_tools", *words]
        how = {"stdin": subprocess.DEVNULL, "stdout": subprocess.PIPE, **how}
        return subprocess.run(started, stderr=subprocess.PIPE, text=True, timeout=SECONDS, check=False,
                              cwd=REPOSITORY / "tools", **how)

    def test_an_endless_file_is_read_one_byte_too_far(self) -> None:
        with tempfile.TemporaryDirectory() as folder:
            program = Path(folder, "hipac")
            program.write_text(REFUSING, encoding="utf-8")
            program.chmod(0o755)
            how: dict[str, Any] = {"preexec_fn": limited, "env": {**os.environ, "HIPAC": str(program)}}
            told = "1:1: refused S5 size: a script has at most 1,048,576 bytes, and this has more\n"
            ended = self.launch("check", "/dev/zero", **how)
            self.assertEqual((ended.returncode, ended.stdout, ended.stderr), (2, f"/dev/zero:{told}", ""))
            with open("/dev/zero", "rb") as endless:
                ended = self.launch("check", "-", **{**how, "stdin": endless})
            self.assertEqual((ended.returncode, ended.stdout), (2, f"standard input:{told}"))
            for word in ("print", "graph"):
                ended = self.launch(word, "/dev/zero", **how)
                told = "/dev/zero: a script has at most 1,048,576 bytes, and this has more\n"
                self.assertEqual((ended.returncode, ended.stderr), (2, told))
            ended = self.launch("why", "/dev/zero", "1", **how)
            self.assertEqual(ended.returncode, 2)
            self.assertEqual(len(command.bytes_of("/dev/zero")), 1_048_577)

    def test_a_pipe_is_read_whole(self) -> None:
        reads, writes = os.pipe()
        pieces = [b'{"version": 1, ', b'"classes": [], ', b'"rules": [], "items": []}']

        def feed() -> None:
            for piece in pieces:
                os.write(writes, piece)
                time.sleep(0.1)
            os.close(writes)

        feeder = threading.Thread(target=feed)
        feeder.start()
        self.assertEqual(command.bytes_of(f"/dev/fd/{reads}"), b"".join(pieces))
        feeder.join()
        os.close(reads)

    def test_a_full_device_is_one_line_and_a_fault(self) -> None:
        calls: list[tuple[str, list[str]]] = [*WORDS.items(), ("--help", []), ("check", ["--help"])]
        with open("/dev/full", "wb") as full:
            for word, more in calls:
                with self.subTest(word):
                    ended = self.launch(word, *more, stdout=full)
                    told = "hipac-tools: standard output can't be written: No space left on device\n"
                    self.assertEqual((ended.returncode, ended.stderr), (4, told))

    def test_a_closed_output_is_one_line_and_a_fault(self) -> None:
        ended = self.launch("print", EXAMPLE, stdout=None, preexec_fn=lambda: os.close(1))
        self.assertEqual((ended.returncode, ended.stderr),
                         (4, "hipac-tools: standard output can't be written: it is closed\n"))

    def test_a_reader_that_stops_early_is_no_fault(self) -> None:
        reads, writes = os.pipe()
        os.close(reads)
        ended = self.launch("print", EXAMPLE, stdout=writes)
        os.close(writes)
        self.assertEqual((ended.returncode, ended.stderr), (0, ""))

    def test_a_file_that_can_not_be_written_is_named_itself(self) -> None:
        for word, option in (("view", "--out"), ("graph", "--svg")):
            for target, status, why in (("/nosuch/x", 3, "No such file or directory"),
                                        ("/dev/full", 4, "No space left on device")):
                with self.subTest(word=word, target=target):
                    ended = self.launch(word, EXAMPLE, option, target)
                    self.assertEqual((ended.returncode, ended.stderr), (status, f"{word}: {target}: {why}\n"))

    def test_a_script_that_can_not_be_read_is_named(self) -> None:
        ended = self.launch("view", "/nosuch/x.json")
        self.assertEqual((ended.returncode, ended.stderr), (2, "view: /nosuch/x.json: No such file or directory\n"))
        ended = self.launch("view", EXAMPLE, "/nosuch/x.report")
        self.assertEqual((ended.returncode, ended.stderr), (2, "view: /nosuch/x.report: No such file or directory\n"))

    def test_an_option_that_does_not_exist_is_named(self) -> None:
        for word, more in WORDS.items():
            ended = self.launch(word, *more, "--foo")
            self.assertEqual((ended.returncode, ended.stdout), (3, ""))
            self.assertEqual(ended.stderr.split("\n")[0], f"{word}: there is no option `--foo`")
            self.assertIn(f"usage: hipac-tools {word} ", ended.stderr)
        ended = self.launch("view", EXAMPLE, "--ou", "x.html")
        self.assertEqual(ended.stderr.split("\n")[0], "view: there is no option `--ou`: did you mean `--out`?")


if __name__ == "__main__":
    unittest.main()
