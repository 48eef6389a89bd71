#!/usr/bin/env python3
"""Measures a rule base that stays up, and prints the tables of bench/README.md on it.

    bench/live.py HIPAC_LIVE HIPAC [--times N] [--lines N] [--objects N] [--orders N] [--trips N]

HIPAC_LIVE and HIPAC are the proved programs, which `./build` makes. Each line is a transaction of one update, on which
one rule fires to keep a sum. All commands of a table run alternately, N times (5), so that the load of the machine
affects all of them, and the table has their median times.

The first table has the time of a line (1,000,000 of them) by a pipe; of the same units in scripts of at most 1 MiB; and
of the same updates, one statement for each line by a pipe, in sqlite3 with a trigger over an in-memory database. The
second one has the memory of hipac_live after a hundredth of the lines and after all of them. The third one has the
memory that each of 1,000,000 objects of one field takes. The fourth one has the time of an order by a line (100,000 of
them) at an order desk of five rules, with 1,000 objects and with 1,000,000. The fifth one has the time from a line to
its answer (the median of 10,000) for a client in Python by two pipes, beside that of a program in C which only sends
each line back; gcc makes it.
"""

import argparse
import json
import os
import shutil
import statistics
import subprocess
import sys
import tempfile
import time

from costs import CUSTOMERS, ITEMS, ORDERS, desk_orders, desk_rules
from measuring import SQLITE, heading
from scripts import ACCOUNT, add, create, immediate, installs, script

ECHO = r"""
#include <stdio.h>

int main(void) {
    char line[65536];
    while (fgets(line, sizeof line, stdin)) {
        fputs(line, stdout);
        fflush(stdout);
    }
    return 0;
}
"""

CHANGE = ["-", ["new", 0, "bal"], ["old", 0, "bal"]]
RULES = [immediate("note", ["update", "acct"], [], [add("seen", "sum", 1, CHANGE)])]
BEGIN = ["tx", installs(RULES) + [create(1, 0), ["create", "seen", 1, [["sum", 0]]]]]
SQL = [
    "create table acct(id integer primary key, bal integer);",
    "create table seen(id integer primary key, sum integer);",
    "create trigger note after update on acct begin update seen set sum = sum + new.bal - old.bal where id = 1; end;",
    "insert into acct values(1, 0);",
    "insert into seen values(1, 0);",
]

# The number of lines that are sent before their answers are read: both fit in a pipe.
AT_ONCE = 500

# The number of units of a script that is within the program's limit of 1 MiB.
IN_SCRIPT = 20_000

# The number of objects that one line creates, within the same limit.
IN_LINE = 10_000


def update(number):
    return f'["tx",[["update","acct",1,[["bal",{number}]]]]]\n'


def script_of(items):
    return script([ACCOUNT, ["seen", [["sum", "int"]]]], RULES, [BEGIN, *items])


def write(folder, name, lines):
    path = os.path.join(folder, name)
    with open(path, "w") as file:
        file.writelines(lines)
    return path


# ---- many lines


def inputs(folder, count):
    """The files of the same updates, by the name of their row. Each is one command's input."""
    live = write(folder, "live", [script_of([]) + "\n", *map(update, range(count))])
    sql = (f"update acct set bal = {number} where id = 1;\n" for number in range(count))
    sqlite = write(folder, "sql", [*(f"{each}\n" for each in SQL), *sql, "select sum from seen;\n"])
    scripts = []
    for first in range(0, count, IN_SCRIPT):
        numbers = range(first, min(first + IN_SCRIPT, count))
        items = [["tx", [["update", "acct", 1, [["bal", number]]]]] for number in numbers]
        scripts.append(write(folder, f"script-{first}", script_of(items)))
    return [live], scripts, [sqlite]


def timed(command, paths):
    """The time of the command over each of these inputs, one after another, and the last line that it wrote."""
    took = 0
    for path in paths:
        with tempfile.TemporaryFile() as printed:
            begun = time.perf_counter()
            with subprocess.Popen(["cat", path], stdout=subprocess.PIPE) as given:
                status = subprocess.run(command, stdin=given.stdout, stdout=printed, check=False).returncode
                given.stdout.close()
            took += time.perf_counter() - begun
            printed.seek(max(0, os.fstat(printed.fileno()).st_size - 100))
            last = printed.read().splitlines()[-1:]
        if status:
            sys.exit(f"{command}: status {status}: {last}")
    return took, last


def print_lines(given, folder):
    """Prints the first table, and returns the seconds of a line of hipac_live."""
    files = inputs(folder, given.lines)
    commands = [[given.live], [given.hipac], SQLITE]
    ends = [[f"ok {given.lines + 1}".encode()], [b"end"], [str(given.lines - 1).encode()]]
    taken = [[] for _ in commands]
    for _ in range(given.times):
        for number, (command, paths) in enumerate(zip(commands, files)):
            took, last = timed(command, paths)
            if last != ends[number]:
                sys.exit(f"{command}: the last line is {last}, and not {ends[number]}")
            taken[number].append(took / given.lines)
    heading(["Updates, each with one firing", "us an update", "updates a second"])
    names = [f"{given.lines:,} lines into `hipac_live`", f"the same in scripts for `hipac`: {len(files[1])}",
             "`sqlite3`, with a trigger"]
    middle = list(map(statistics.median, taken))
    for name, took in zip(names, middle):
        print(f"| {name} | {took * 1e6:.1f} | {1 / took:,.0f} |", flush=True)
    return middle[0]


# ---- a client


class Client:
    """A program that answers lines, by two pipes."""

    def __init__(self, command, ends):
        self.running = subprocess.Popen(command, stdin=subprocess.PIPE, stdout=subprocess.PIPE, bufsize=0)
        self.to, self.by, self.ends = self.running.stdin.fileno(), self.running.stdout.fileno(), ends

    def ask(self, text, number):
        """Sends lines, and reads answers until this number of units have run."""
        wanted, taken = self.ends(number), b""
        os.write(self.to, text)
        while not taken.endswith(wanted):
            more = os.read(self.by, 65536)
            if not more:
                sys.exit(f"the program has ended: {taken[-200:]!r}")
            taken = taken[-len(wanted) :] + more

    def memory(self):
        """The program's current and largest memory, in KiB."""
        with open(f"/proc/{self.running.pid}/status") as file:
            sizes = dict(line.split(":", 1) for line in file)
        return [int(sizes[name].split()[0]) for name in ("VmRSS", "VmHWM")]

    def close(self):
        self.running.stdin.close()
        self.running.wait()


def live_client(given):
    client = Client([given.live], lambda number: f"ok {number + 1}\n".encode())
    client.ask(f"{script_of([])}\n".encode(), 0)
    return client


def print_memory(given):
    client, sent = live_client(given), 0
    heading(["Lines", "VmRSS, KiB", "VmHWM, KiB"])
    for stop in (given.lines // 100, given.lines):
        while sent < stop:
            some = min(AT_ONCE, stop - sent)
            client.ask("".join(map(update, range(sent, sent + some))).encode(), sent + some)
            sent += some
        print(f"| {stop:,} | " + " | ".join(f"{size:,}" for size in client.memory()) + " |", flush=True)
    client.close()


def creations(first):
    """A line that creates objects with ascending keys."""
    statements = ",".join(f'["create","acct",{key},[["bal",{key}]]]' for key in range(first, first + IN_LINE))
    return f'["tx",[{statements}]]\n'


def print_objects(given):
    client, lines = live_client(given), given.objects // IN_LINE
    before = client.memory()[0]
    for number in range(lines):
        # The script has made the object 1.
        client.ask(creations(2 + number * IN_LINE).encode(), number + 1)
    taken = 1024 * (client.memory()[0] - before)
    heading(["Objects of one integer field", "bytes each"])
    print(f"| {lines * IN_LINE:,} | {taken / (lines * IN_LINE):.0f} |", flush=True)
    client.close()


def line_of(statements):
    return json.dumps(["tx", statements], separators=(",", ":")) + "\n"


def desk_lines(size, orders):
    """The script of an order desk, lines that create so many items and as many customers, and so many orders. None is
    refused."""
    rules, step = desk_rules(), IN_LINE // 2
    yield script([CUSTOMERS, ITEMS, ORDERS], rules, [["tx", installs(rules)]]) + "\n"
    for first in range(0, size, step):
        keys = range(first, min(first + step, size))
        yield line_of([["create", "customer", key, [["most", 10**9], ["owed", 0]]] for key in keys])
        yield line_of([["create", "item", key, [["stock", 10**9], ["price", key % 50 + 1]]] for key in keys])
    for number, customer, item, quantity in desk_orders(size, orders):
        fields = [["customer", customer], ["item", item], ["qty", quantity]]
        yield line_of([["create", "orders", number, fields]])


def print_orders(given, folder):
    heading(["Objects", "us an order by a line"])
    for size in (500, given.objects // 2):
        paths = [write(folder, f"desk-{size}-{orders}", desk_lines(size, orders)) for orders in (0, given.orders)]
        taken = []
        for _ in range(given.times):
            without, whole = (timed([given.live], [path])[0] for path in paths)
            taken.append((whole - without) / given.orders)
        print(f"| {2 * size:,} | {statistics.median(taken) * 1e6:.1f} |", flush=True)


def middle_trip(client, trips):
    """The median time from a line to its answer."""
    taken = []
    for number in range(1, trips + 1):
        text = update(number).encode()
        begun = time.perf_counter()
        client.ask(text, number)
        taken.append(time.perf_counter() - begun)
    client.close()
    return statistics.median(taken)


def print_trips(given, folder, own):
    """Prints the fourth table: own is the time of a line of hipac_live itself."""
    echo = os.path.join(folder, "echo")
    subprocess.run(["gcc", "-O2", "-o", echo, write(folder, "echo.c", ECHO)], check=True)
    live, back = [], []
    for _ in range(given.times):
        live.append(middle_trip(live_client(given), given.trips))
        back.append(middle_trip(Client([echo], lambda _: b"]\n"), given.trips))
    trip, bare = statistics.median(live), statistics.median(back)
    heading(["From a line to its answer", "us"])
    print(f"| `hipac_live` | {trip * 1e6:.1f} |")
    print(f"| the same less its own time of an update | {(trip - own) * 1e6:.1f} |")
    print(f"| a program that sends each line back | {bare * 1e6:.1f} |")


def main():
    words = argparse.ArgumentParser(description=__doc__, formatter_class=argparse.RawDescriptionHelpFormatter)
    words.add_argument("live", metavar="HIPAC_LIVE")
    words.add_argument("hipac", metavar="HIPAC")
    words.add_argument("--times", type=int, default=5, help="how often each command runs")
    words.add_argument("--lines", type=int, default=1_000_000, help="how many lines are sent, 100 or more")
    words.add_argument("--objects", type=int, default=1_000_000, help=f"how many objects are held, {IN_LINE:,} or more")
    words.add_argument("--orders", type=int, default=100_000, help="how many orders are sent")
    words.add_argument("--trips", type=int, default=10_000, help="how many lines are sent each after the answer before")
    given = words.parse_args()
    for name in ("sqlite3", "gcc"):
        if not shutil.which(name):
            words.error(f"{name} is needed and isn't there: it is Debian's package {name}")
    if given.lines < 100:
        words.error("fewer than 100 lines measure nothing")
    if given.objects < IN_LINE:
        words.error(f"fewer than {IN_LINE:,} objects measure nothing")
    with tempfile.TemporaryDirectory(prefix="live-") as folder:
        own = print_lines(given, folder)
        print()
        print_memory(given)
        print()
        print_objects(given)
        print()
        print_orders(given, folder)
        print()
        print_trips(given, folder, own)


if __name__ == "__main__":
    main()
