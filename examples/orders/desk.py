#!/usr/bin/env python3
"""An order desk: requests of many clients, one rule base, and a journal.

    desk.py serve JOURNAL      takes requests on a local port and answers each, until it is ended
    desk.py ask WORD ..        sends one request, and prints the answer

$DESK_PORT is the port, 7070 if it isn't set. The desk's page for a browser is on the port after it.

These are the requests, one a line; each number is a whole number:

    product NUMBER STOCK LOW NAME   a new product, which is reordered when there are less than LOW
    order NUMBER PRODUCT COUNT      a new order
    pay NUMBER, ship NUMBER, cancel NUMBER     what becomes of an order
    deliver PRODUCT COUNT           pieces come in
    complain PRODUCT                somebody complains
    clock MINUTE                    so many minutes have gone by since the desk was opened; a day has 1440
    show                            all there is

An answer is what the rules emit, a line each and indented, and then `done` or `no: ` with the reason. A desk that is
still reading its journal answers `wait: ` with how far it is, and `ask` asks again.
`rules.rules` says what is allowed and what follows; the program reads it. The desk only refuses numbers that no rule
would ask about.
"""

from __future__ import annotations

import contextlib
import os
import re
import socket
import socketserver
import sys
import threading
import time
from pathlib import Path
from typing import Dict, Iterable, Iterator, List, Optional

sys.path.insert(0, str(Path(__file__).resolve().parents[2] / "clients" / "python"))

import page  # noqa: E402 - it stands beside this file
from hipac import (  # noqa: E402 - found by the path above
    Base, HipacError, Journal, JournalFault, ProgramEnded, Refused, Unit, Value)

RULES = Path(__file__).with_name("rules.rules")
ADDRESS = ("127.0.0.1", int(os.environ.get("DESK_PORT", "7070")))

# Seconds in which a desk that was just started is tried again.
PATIENCE = 10

# What a cause means to a client. A veto has its reason as its message; a closed rule that failed has none.
REASONS = {
    "A1": "that number is taken",
    "A2": "there is nothing of that number",
    "A9": "the numbers are too large",
}

# The words that follow the first word of each request. A name may have several words.
REQUESTS = {
    "product": "NUMBER STOCK LOW NAME", "order": "NUMBER PRODUCT COUNT", "pay": "NUMBER", "ship": "NUMBER",
    "cancel": "NUMBER", "deliver": "PRODUCT COUNT", "complain": "PRODUCT", "clock": "MINUTE", "show": "",
}

# The transactions of the requests that have one. `$number` is the word NUMBER of the request.
TRANSACTIONS = {
    "product": "create product($number) set name = $name, stock = $stock, low = $low, awaited = false",
    "order": 'create order($number) set product = $product, count = $count, state = "open", reminded = false',
    "pay": 'update order($number) set state = "paid"',
    "ship": 'update order($number) set state = "shipped"',
    "cancel": 'update order($number) set state = "cancelled"',
    "deliver": "with product($product) as p { update product(p.key) set stock = p.stock + $count, awaited = false "
               "signal stocked(p.key) }",
    "complain": "with product($product) as p { signal complaint(p.key) }",
}

# The least and the largest number.
NUMBERS = range(-2 ** 63, 2 ** 63)


class NoRequest(Exception):
    """A line that is none of the requests."""


class Unfit(Exception):
    """A request that isn't asked, with the reason."""


def usage_of(word: str) -> str:
    """What a request looks like that begins with this word."""
    if word in REQUESTS:
        return f"the request is: {word} {REQUESTS[word]}".rstrip()
    return f"the requests are {', '.join(REQUESTS)}"


def value_of(word: str) -> Value:
    """A word of a request: a number, or else a text."""
    if not re.fullmatch("-?[0-9]+", word):
        return word
    if int(word) not in NUMBERS:
        raise Unfit("a number is too large")
    return int(word)


def values_of(word: str, words: List[str]) -> Dict[str, Value]:
    """The words of a request by their names."""
    names = REQUESTS.get(word, "").lower().split()
    if names[-1:] == ["name"]:
        words = [*words[:len(names) - 1], " ".join(words[len(names) - 1:])]
    if not names or len(words) != len(names):
        raise NoRequest
    values = {name: it if name == "name" else value_of(it) for name, it in zip(names, words)}
    if word == "product" and any(isinstance(it, int) and it < 0 for it in values.values()):
        raise Unfit("a product's number, its stock and the least stock aren't negative")
    return values


def news(units: Iterable[Unit]) -> List[str]:
    """What the rules emitted: a text begins a line, and the numbers after it belong to it."""
    lines: List[str] = []
    for value in (value for unit in units for value in unit.all_emits):
        if isinstance(value, str) or not lines:
            lines.append(f"  {value}")
        else:
            lines[-1] += f" {value}"
    return lines


def end_of(units: List[Unit]) -> str:
    """The last line of an answer."""
    ending = next((it.ending for it in units if not it.committed), None)
    if ending is None:
        return "done"
    return f"no: {ending.message or REASONS.get(ending.cause or '', str(ending))}"


def reason_of(refused: Refused, word: str, base: Base) -> str:
    """Why a request was refused, in the words of a client, who has seen no rules and no paths."""
    if refused.code == "S8":
        return "a number is wanted there"
    if word == "clock" and refused.limit is None:
        return f"the clock doesn't go back: it is minute {base.time}"
    return "that is too long" if refused.limit else "that can't be asked"


def run(base: Base, word: str, words: List[str]) -> List[Unit]:
    """The units of a request."""
    values = values_of(word, words)
    if word in TRANSACTIONS:
        return [base.transaction(TRANSACTIONS[word], **values)]
    minute = values["minute"]
    if not isinstance(minute, int):
        raise NoRequest
    return base.clock(minute)


def answer(base: Base, request: str) -> List[str]:
    """The lines of the answer to a request. The rule base takes one request after the other."""
    word, *rest = request.split() or [""]
    if word == "show" and not rest:
        return [f"  {it}" for it in base.show().objects] + ["done"]
    try:
        units = run(base, word, rest)
    except NoRequest:
        return [f"no: {usage_of(word)}"]
    except (JournalFault, Unfit) as fault:
        return [f"no: {fault}"]
    except Refused as refused:
        return [f"no: {reason_of(refused, word, base)}"]
    return news(units) + [end_of(units)]


class CountedJournal(Journal):
    """A journal that tells how much of it has been read."""

    read = 0

    def __init__(self, path: str):
        super().__init__(path)
        self.total = sum(1 for _ in super().lines())

    def lines(self) -> Iterator[bytes]:
        for line in super().lines():
            self.read += 1
            yield line


class Desk(socketserver.ThreadingTCPServer):
    """A thread for each client. It goes down with the rule base: started anew, it has all back from the journal."""

    allow_reuse_address = True
    daemon_threads = True

    def __init__(self, journal: CountedJournal):
        super().__init__(ADDRESS, Client)
        self.journal = journal
        self.base: Optional[Base] = None
        """The rule base, once the whole journal has been read."""
        self.fault: Optional[HipacError] = None
        """Why the desk goes down."""

    def progress(self) -> str:
        """How far a desk is that is opening."""
        return f"opening, {self.journal.read:,} of {self.journal.total:,} lines"

    def answer(self, request: str) -> List[str]:
        """The lines of the answer to a request. Once it is written, `end_if_failed` is due."""
        if self.base is None:
            return [f"wait: {self.progress()}"]
        try:
            return answer(self.base, request)
        except HipacError as fault:
            # Whoever gets the answer may start a new desk and ask it at once. That request mustn't reach this one.
            self.stop_listening()
            self.fault = self.fault or fault
            is_kept = isinstance(fault, ProgramEnded) and fault.is_kept
            return ["no: the desk goes down; " + ("this runs when it is up again" if is_kept else "ask again")]

    def stop_listening(self) -> None:
        """Refuses new clients from here on."""
        # Where several clients meet the fault at once, the first of them has shut the socket.
        with contextlib.suppress(OSError):
            self.socket.shutdown(socket.SHUT_RDWR)

    def end_if_failed(self) -> None:
        """Ends the desk if the rule base has gone."""
        if self.fault is not None:
            self.shutdown()


class Client(socketserver.StreamRequestHandler):
    """One client and its requests."""

    server: Desk

    def handle(self) -> None:
        # A client that goes away in the middle does no harm.
        with contextlib.suppress(ConnectionError):
            for raw in self.rfile:
                self.reply(raw.decode("utf-8", "replace"))

    def reply(self, request: str) -> None:
        lines = self.server.answer(request)
        try:
            self.wfile.write("".join(line + "\n" for line in lines).encode())
        finally:
            self.server.end_if_failed()


@contextlib.contextmanager
def listening(*servers: socketserver.BaseServer) -> Iterator[List[threading.Thread]]:
    """Servers that take requests, each in a thread of its own."""
    threads = [threading.Thread(target=it.serve_forever, args=[0.1], daemon=True) for it in servers]
    for thread in threads:
        thread.start()
    try:
        yield threads
    finally:
        for server in servers:
            server.shutdown()


def serve(path: str) -> int:
    """Takes requests while the journal is read, and answers them from then on."""
    with CountedJournal(path) as journal, Desk(journal) as desk, page.PageServer(desk) as pages:
        with listening(desk, pages) as threads, Base.recover(journal, rules=RULES, checked=True, by="program") as base:
            desk.base = base
            print(f"desk: open on port {ADDRESS[1]}, with a page at {pages.url}; lines replayed: {base.replayed}; "
                  f"units so far: {base.units}", file=sys.stderr)
            with contextlib.suppress(KeyboardInterrupt):
                threads[0].join()
    if desk.fault is not None:
        print(f"desk: {desk.fault}", file=sys.stderr)
    return 0 if desk.fault is None else 1


def connected() -> socket.socket:
    """A connection to the desk, which perhaps was started just now."""
    deadline = time.monotonic() + PATIENCE
    while True:
        try:
            return socket.create_connection(ADDRESS)
        except ConnectionRefusedError:
            if time.monotonic() > deadline:
                raise ConnectionRefusedError(f"no desk is open on port {ADDRESS[1]}: start one with `serve`") from None
            time.sleep(0.1)


def exchange(request: str) -> Iterator[str]:
    """Sends a request, and gives the lines of the answer as they come."""
    # A connection that is reset ends as one that is closed does.
    with contextlib.suppress(ConnectionError), connected() as desk, desk.makefile("rw", encoding="utf-8") as lines:
        lines.write(request + "\n")
        lines.flush()
        for line in lines:
            yield line
            if not line.startswith(" "):
                return
    yield "no: the desk has gone away\n"


def ask(request: str) -> int:
    """Asks a desk, and waits for one that is opening."""
    told = ""
    while True:
        for line in exchange(request):
            if not line.startswith("wait: "):
                print(line, end="", flush=True)
            elif line != told:
                print(f"desk: {line[len('wait: '):]}", end="", file=sys.stderr, flush=True)
                told = line
        if not line.startswith("wait: "):
            return 0 if line == "done\n" else 1
        time.sleep(0.2)


def main(words: List[str]) -> int:
    if len(words) == 2 and words[0] == "serve":
        return serve(words[1])
    if len(words) > 1 and words[0] == "ask":
        return ask(" ".join(words[1:]))
    print(__doc__, end="", file=sys.stderr)
    return 2


if __name__ == "__main__":
    try:
        sys.exit(main(sys.argv[1:]))
    except (HipacError, OSError) as fault:
        sys.exit(f"desk: {fault}")
