#!/usr/bin/env python3
"""Measures the library for C beside sqlite3, in one process each, and prints the table of bench/README.md on it.

    bench/in_process.py LIBRARY [--times N] [--updates N] [--instructions]

LIBRARY is the proved libhipac.so, which `./build hipac_c` makes; libhipac.a lies beside it. Each update is a line of
its own, on which one rule fires to keep a sum. In sqlite3, over a database in memory, it is a statement that was
prepared once, with a trigger, each a transaction of its own. From C both run in one program (in_process.c, which gcc
makes with Debian's libsqlite3-dev), from Python both in this one: the client's `Base` beside the module sqlite3. Both
keep the texts that they have seen. They take turns, N times (21) of so many updates (20,000), so that the load of the
machine falls on both; the table has the medians, and the median of their ratios.

With `--instructions` it counts the instructions of an update from C, by callgrind, in place of its time.
"""

from __future__ import annotations

import argparse
import os
import sqlite3
import statistics
import subprocess
import sys
import tempfile
import time
from collections.abc import Callable

from live import SQL, script_of
from measuring import heading, instructions_of

TOP = os.path.dirname(os.path.dirname(os.path.abspath(__file__)))
sys.path.insert(0, os.path.join(TOP, "clients", "python"))
sys.dont_write_bytecode = True

from hipac import Base  # noqa: E402 (it lies in clients/python)

TEXT = """version 1
class acct { bal: int }
class seen { sum: int }
rule note on update acct do {
  with seen(1) as s { update seen(1) set sum = s.sum + (new.bal - old.bal) }
}
transaction {
  install note
  create acct(1) set bal = 0
  create seen(1) set sum = 0
}
"""

# The script of both notations, by the word that names it.
SCRIPTS = {"text": TEXT, "JSON": script_of([])}

Pairs = list[tuple[float, float]]

# glibc clears memory by one instruction, which callgrind counts by the byte. With this it uses vectors.
BY_VECTORS = {"GLIBC_TUNABLES": "glibc.cpu.x86_rep_stosb_threshold=1000000000"}


def made(given: argparse.Namespace, notation: str, room: str) -> list[str]:
    """Makes the program in C, and gives the words that run it."""
    program, path = os.path.join(room, "in_process"), os.path.join(room, "script")
    archive = os.path.join(os.path.dirname(os.path.abspath(given.library)), "libhipac.a")
    source = os.path.join(TOP, "bench", "in_process.c")
    subprocess.run(["gcc", "-O2", f"-I{TOP}/include", source, archive, "-lsqlite3", "-lpthread", "-o", program],
                   check=True)
    with open(path, "w", encoding="utf-8") as file:
        file.write(SCRIPTS[notation])
    return [program, path, " ".join(SQL), str(given.times), str(given.updates), notation]


def from_c(given: argparse.Namespace, notation: str, room: str) -> Pairs:
    """Nanoseconds of an update by the library and by sqlite3, each time."""
    said = subprocess.run(made(given, notation, room), stdout=subprocess.PIPE, text=True, check=True).stdout
    return [(float(ours), float(theirs)) for ours, theirs in map(str.split, said.splitlines())]


def counted(given: argparse.Namespace, notation: str, room: str) -> list[float]:
    """Thousands of instructions of an update by the library and by sqlite3."""
    words, environment = made(given, notation, room), {**os.environ, **BY_VECTORS}
    totals = [instructions_of(words, environment=environment, options=[f"--toggle-collect={function}"])
              for function in ("by_hipac", "by_sqlite")]
    return [total / (given.times * given.updates) / 1000 for total in totals]


def timed(update: Callable[[int], object], first: int, count: int) -> float:
    """Nanoseconds of an update."""
    begun = time.perf_counter_ns()
    for number in range(first, first + count):
        update(number)
    return (time.perf_counter_ns() - begun) / count


def base_of(notation: str, library: str) -> tuple[Base, Callable[[int], object]]:
    """A rule base, and what updates it."""
    if notation == "text":
        base = Base(rules=TEXT, by="library", library=library)
        return base, lambda number: base.transaction("update acct(1) set bal = $bal", bal=number)
    base = Base(SCRIPTS[notation], by="library", library=library)
    return base, lambda number: base.tx([["update", "acct", 1, [["bal", number]]]])


def from_python(given: argparse.Namespace, notation: str) -> Pairs:
    """The same from Python."""
    base, by_hipac = base_of(notation, given.library)
    store = sqlite3.connect(":memory:", isolation_level=None)
    store.executescript("\n".join(SQL))
    pairs = []
    for each in range(given.times):
        first = each * given.updates + 1
        ours = timed(by_hipac, first, given.updates)
        theirs = timed(lambda it: store.execute("update acct set bal = ? where id = 1", (it,)), first, given.updates)
        pairs.append((ours, theirs))
    last = given.times * given.updates
    sums = [thing["sum"] for thing in base.rows("seen")], store.execute("select sum from seen").fetchall()
    if sums != ([last], [(last,)]):
        sys.exit(f"the sums are {sums}, and not {last}")
    base.close()
    return pairs


def row(name: str, pairs: Pairs) -> None:
    ours, theirs = (statistics.median(column) / 1000 for column in zip(*pairs))
    ratio = statistics.median(ours / theirs for ours, theirs in pairs)
    print(f"| {name} | {ours:.2f} | {theirs:.2f} | {ratio:.2f} |", flush=True)


def print_counts(given: argparse.Namespace, room: str) -> None:
    heading(["One update with one firing, thousands of instructions", "hipac", "sqlite3", "hipac / sqlite3"])
    for notation in SCRIPTS:
        ours, theirs = counted(given, notation, room)
        print(f"| from C, a line of {notation} | {ours:.1f} | {theirs:.1f} | {ours / theirs:.2f} |", flush=True)


def main() -> None:
    words = argparse.ArgumentParser(description=__doc__, formatter_class=argparse.RawDescriptionHelpFormatter)
    words.add_argument("library", metavar="LIBRARY")
    words.add_argument("--times", type=int, default=21, help="how often they take turns")
    words.add_argument("--updates", type=int, default=20_000, help="how many updates each turn has")
    words.add_argument("--instructions", action="store_true", help="counts instructions in place of time, from C")
    given = words.parse_args()
    with tempfile.TemporaryDirectory(prefix="in-process-") as room:
        if given.instructions:
            print_counts(given, room)
            return
        heading(["One update with one firing", "hipac, us", "sqlite3, us", "hipac / sqlite3"])
        for notation in SCRIPTS:
            row(f"from C, a line of {notation}", from_c(given, notation, room))
        for notation in SCRIPTS:
            row(f"from Python, {notation}", from_python(given, notation))


if __name__ == "__main__":
    main()
