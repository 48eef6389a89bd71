"""The order desk: its page as it is written, many clients at once, and what is left when something is killed."""

from __future__ import annotations

import contextlib
import os
import re
import signal
import socket
import subprocess
import sys
import tempfile
import unittest
from concurrent.futures import ThreadPoolExecutor
from pathlib import Path
from typing import Iterator, List, Tuple

HERE = Path(__file__).resolve().parent
REPOSITORY = HERE.parents[1]

sys.path.insert(0, str(REPOSITORY / "clients" / "python"))
from hipac import PROGRAM  # noqa: E402 - found by the path above

STEP = re.compile(r"```sh\n(.*?)```(?:\n\n```text\n(.*?)```)?", re.DOTALL)

LIMIT = 60


def free_port() -> int:
    """A port that is free, as is the one after it, which the page takes."""
    while True:
        with socket.socket() as probe, socket.socket() as after, contextlib.suppress(OSError, OverflowError):
            probe.bind(("127.0.0.1", 0))
            after.bind(("127.0.0.1", probe.getsockname()[1] + 1))
            return probe.getsockname()[1]


class DeskTest(unittest.TestCase):
    @classmethod
    def setUpClass(cls) -> None:
        # The launcher makes the program first if need be.
        subprocess.run(PROGRAM, stdin=subprocess.DEVNULL, stderr=subprocess.DEVNULL, check=True)

    def setUp(self) -> None:
        room = tempfile.TemporaryDirectory(prefix="orders-")
        self.addCleanup(room.cleanup)
        self.journal = os.path.join(room.name, "orders.journal")
        self.port = free_port()
        self.how = {"env": {**os.environ, "DESK_PORT": str(self.port), "TMPDIR": room.name}, "cwd": REPOSITORY,
                    "stderr": subprocess.DEVNULL}

    def serve(self) -> subprocess.Popen:
        """A desk that is open."""
        words = [sys.executable, str(HERE / "desk.py"), "serve", self.journal]
        desk = subprocess.Popen(words, text=True, **{**self.how, "stderr": subprocess.PIPE})
        self.addCleanup(desk.stderr.close)
        self.addCleanup(desk.wait, LIMIT)
        self.addCleanup(desk.kill)
        for line in desk.stderr:
            if line.startswith("desk: open"):
                return desk
        return self.fail("the desk didn't open")

    def desk(self, *words: str) -> subprocess.CompletedProcess:
        """A desk that has ended."""
        how = {"env": self.how["env"], "capture_output": True, "text": True}
        return subprocess.run([sys.executable, str(HERE / "desk.py"), *words], timeout=LIMIT, check=False, **how)

    @contextlib.contextmanager
    def client(self) -> Iterator["Client"]:
        with socket.create_connection(("127.0.0.1", self.port), LIMIT) as connection:
            with connection.makefile("rw", encoding="utf-8") as lines:
                yield Client(lines)

    def ask(self, *requests: str) -> List[List[str]]:
        with self.client() as client:
            return [client.ask(it) for it in requests]


class Client:
    def __init__(self, lines) -> None:
        self.lines = lines

    def ask(self, request: str) -> List[str]:
        """The lines of an answer, the last of them first."""
        self.lines.write(request + "\n")
        self.lines.flush()
        told: List[str] = []
        for line in self.lines:
            told.insert(0, line.strip("\n "))
            if not line.startswith(" "):
                break
        return told


class PageTest(DeskTest):
    def test_the_page_is_as_it_is_written(self):
        steps: List[Tuple[str, str]] = STEP.findall((HERE / "README.md").read_text(encoding="utf-8"))
        self.assertEqual(len(steps), 10)
        pipes = {"stdin": subprocess.PIPE, "stdout": subprocess.PIPE, "text": True}
        shell = subprocess.Popen(["bash"], start_new_session=True, **pipes, **self.how)
        try:
            for commands, wanted in steps:
                shell.stdin.write(commands + "echo end of step\n")
                shell.stdin.flush()
                told = "".join(iter(shell.stdout.readline, "end of step\n"))
                self.assertEqual(told, wanted, commands)
        finally:
            os.killpg(shell.pid, signal.SIGKILL)
            shell.communicate(timeout=LIMIT)


class CrashTest(DeskTest):
    DAY = ("product 7 20 5 desk lamp", "order 1 7 2", "pay 1", "order 2 7 9", "order 3 7 90", "complain 7", "nonsense",
           "clock 1500", "order 4 7 1")

    def test_killed_between_any_two_lines(self):
        """The desk and its program, one after the other: all that was answered is there again, and goes on alike."""
        whole = self.serve()
        wanted = self.ask(*self.DAY, "complain 7", "clock 2880", "show")
        whole.kill()
        whole.wait(LIMIT)
        os.remove(self.journal)
        found, desk = [], self.serve()
        for number, request in enumerate(self.DAY):
            found += self.ask(request)
            before = self.ask("show")
            desk = self.crash(desk, number % 2 == 0)
            self.assertEqual(self.ask("show"), before)
        self.assertEqual(found + self.ask("complain 7", "clock 2880", "show"), wanted)

    def crash(self, desk: subprocess.Popen, kills_desk: bool) -> subprocess.Popen:
        if kills_desk:
            desk.kill()
        else:
            program, = map(int, subprocess.check_output(["pgrep", "-P", str(desk.pid)]).split())
            os.kill(program, signal.SIGKILL)
            self.assertRegex(self.ask("show")[0][0], "^no: the desk goes down")
            with self.assertRaises(ConnectionRefusedError):
                self.ask("show")
        self.assertEqual(desk.wait(LIMIT), -signal.SIGKILL if kills_desk else 1)
        return self.serve()

    def test_a_desk_that_is_in_use(self):
        self.serve()
        ended = self.desk("serve", self.journal)
        self.assertEqual(ended.returncode, 1)
        self.assertIn("another process has this journal", ended.stderr)


class OpeningTest(DeskTest):
    def test_a_client_waits_while_the_journal_is_read(self):
        """The program answers the journal's lines only when it is let go on."""
        self.serve().kill()
        room = Path(self.journal).parent
        gate, program = room / "gate", room / "program"
        script = f"#!/bin/sh\nuntil [ -e {gate} ]; do sleep 0.1; done\nexec {PROGRAM[0]} \"$@\"\n"
        program.write_text(script, encoding="utf-8")
        program.chmod(0o755)
        self.how["env"]["HIPAC_LIVE"] = str(program)
        words = [sys.executable, str(HERE / "desk.py")]
        desk = subprocess.Popen([*words, "serve", self.journal], **self.how)
        self.addCleanup(desk.wait, LIMIT)
        self.addCleanup(desk.kill)
        asking = subprocess.Popen([*words, "ask", "show"], text=True, stdout=subprocess.PIPE,
                                  **{**self.how, "stderr": subprocess.PIPE})
        # The desk may not have sent the line yet.
        self.assertRegex(asking.stderr.readline(), r"\Adesk: opening, [01] of 1 lines\n\Z")
        gate.touch()
        told, _ = asking.communicate(timeout=LIMIT)
        self.assertEqual((told, asking.returncode), ("done\n", 0))


class ManyTest(DeskTest):
    CLIENTS, ORDERS, STOCK = 8, 10, 50

    def test_nothing_is_sold_twice(self):
        self.serve()
        self.ask(f"product 7 {self.STOCK} 0 desk lamp")

        def caller(number: int) -> List[str]:
            with self.client() as client:
                return [client.ask(f"order {number * self.ORDERS + it} 7 1")[0] for it in range(self.ORDERS)]

        with ThreadPoolExecutor(self.CLIENTS) as pool:
            ends = sum(pool.map(caller, range(self.CLIENTS)), [])
        self.assertEqual(ends.count("done"), self.STOCK)
        self.assertEqual(ends.count("no: there are not so many in stock"), self.CLIENTS * self.ORDERS - self.STOCK)
        shown = self.ask("show")[0]
        self.assertEqual(len(shown), 2 + self.STOCK)
        self.assertIn('product 7 name="desk lamp" stock=0 low=0 awaited=false', shown)


REQUESTS = "no: the requests are product, order, pay, ship, cancel, deliver, complain, clock, show"


class RequestTest(DeskTest):
    def test_each_request(self):
        self.serve()
        for request, wanted in (
                ("product 7 3 2 desk lamp", ["done"]),
                ("product 7 3 2 another", ["no: that number is taken"]),
                ("order 1 9 1", ["no: there is no such product"]),
                ("order 1 7 0", ["no: an order is for one piece or more"]),
                ("order 1 7 4", ["no: there are not so many in stock"]),
                ("order 1 7 2", ["done", "pieces ordered so far 2", "reorder 7"]),
                ("order one 7 2", ["no: a number is wanted there"]),
                ("cancel 2", ["no: there is nothing of that number"]),
                ("cancel 1", ["done"]),
                ("pay 1", ["no: the order is past that, or not yet there"]),
                ("deliver 7 10", ["done"]),
                ("deliver 8 10", ["no: there is nothing of that number"]),
                ("complain 8", ["no: there is nothing of that number"]),
                ("complain 7", ["done"]), ("complain 7", ["done", "two complaints in a row 7"]),
                ("clock 1439", ["done"]), ("clock 1440", ["done", "still open 0", "orders today 1"]),
                ("clock 1", ["no: the clock doesn't go back: it is minute 1440"]),
                ("clock noon", ["no: the request is: clock MINUTE"]),
                ("product -1 3 2 lamp", ["no: a product's number, its stock and the least stock aren't negative"]),
                ("order 2 7 9999999999999999999", ["no: a number is too large"]),
                (f"product 9 1 1 {'x' * 1025}", ["no: that is too long"]),
                ("order 1 7", ["no: the request is: order NUMBER PRODUCT COUNT"]),
                ("show 1", ["no: the request is: show"]), ("oder 1 7 2", [REQUESTS]), ("", [REQUESTS]),
                ("show", ["done", 'order 1 product=7 count=2 state="cancelled" reminded=false',
                          'product 7 name="desk lamp" stock=13 low=2 awaited=false'])):
            with self.subTest(request):
                self.assertEqual(self.ask(request), [wanted])

    def test_words_that_are_none(self):
        for words in ([], ["serve"], ["ask"], ["open", "x"]):
            ended = self.desk(*words)
            self.assertEqual((ended.returncode, ended.stdout), (2, ""))


if __name__ == "__main__":
    unittest.main()
