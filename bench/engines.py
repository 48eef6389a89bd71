"""What a firing costs hipac, two engines in C++ of the same language (limit/README.md), and sqlite3 with triggers.

A workload is three scripts: the whole, the one without its firings, and an idle one, whose statements stand behind
`if false`. The whole less the one without is what a firing costs, with its part of the reading. The whole less the idle
one is what the engine alone takes for it. The idle form of a prepared statement finds no row to update, or the row that
it is to insert. sqlite3's shell has no idle form, since it takes longest to compile statements.
"""

import os
import shutil
import subprocess
import sys
import tempfile
from dataclasses import dataclass

import costs
from measuring import SQLITE, Command, Prepared, counts_instructions, heading, in_turn, keep
from scripts import Sql
from workloads import deep_chains, deep_chains_sql, single_firings, single_firings_sql

ENGINES = {"C++, kept rows": "kept", "C++, in place": "in_place"}
LIMIT = os.path.join(os.path.dirname(os.path.abspath(__file__)), "limit")


@dataclass
class Workload:
    name: str
    # Firings, or orders.
    firings: int
    without: str
    idle: str
    whole: str
    sql: Sql

    def scripts(self):
        return self.without, self.idle, self.whole

    def prepared(self):
        """The same for prepared statements."""
        sql = self.sql
        return [Prepared(sql.begin, statement, rows, sql.end, sql.is_one)
                for statement, rows in ((sql.statement, []), (sql.idle, sql.rows), (sql.statement, sql.rows))]


def of_updates(name, make, make_sql, **none):
    whole, firings = make()
    return Workload(name, firings, make(**none)[0], make(is_idle=True)[0], whole, make_sql())


def of_orders(size, orders=1000):
    scripts = costs.desk_script(size, 0), costs.desk_script(size, orders, True), costs.desk_script(size, orders)
    return Workload(f"an order, {size:,} items", orders, *scripts, costs.desk_sql(size, orders))


WORKLOADS = [
    lambda: of_updates("single firings", single_firings, single_firings_sql, updates=0),
    lambda: of_updates("chains", deep_chains, deep_chains_sql, chains=0),
    lambda: of_orders(10),
    lambda: of_orders(4000),
]


def made_engines(folder):
    """Compiles the engines in C++: their commands by their names. It says so if they can't be compiled."""
    made = {}
    for name, source in ENGINES.items():
        path = os.path.join(folder, source)
        words = ["g++", "-O3", "-std=c++17", os.path.join(LIMIT, f"{source}.cpp"), "-o", path, "-lsimdjson"]
        if shutil.which("g++") and subprocess.run(words, check=False).returncode == 0:
            made[name] = [path]
    if len(made) < len(ENGINES):
        print("bench: the engines in C++ aren't here: apt-get install g++ libsimdjson-dev", file=sys.stderr)
    return made


def runs_of(workload, commands):
    """The runs of each program: the first is without firings, perhaps an idle one follows, and the last is whole."""
    runs = {name: [Command(words, text) for text in workload.scripts()] for name, words in commands.items()}
    runs["sqlite3, shell"] = [Command(SQLITE, text) for text in (workload.sql.text(), workload.sql.whole())]
    runs["sqlite3, prepared"] = workload.prepared()
    return runs


def check(workload, commands, printed):
    """All that read the script write the same report, and both ways of sqlite3 have the same rows."""
    reports = {printed[name] for name in commands}
    if len(reports) != 1 or printed["sqlite3, shell"] != printed["sqlite3, prepared"]:
        sys.exit(f"{workload.name}: the reports differ")


def print_engines(given):
    columns = ["Workload", "Program", "us", "engine alone, us"]
    heading(columns + (["instructions", "engine alone, instructions"] if counts_instructions() else []))
    with tempfile.TemporaryDirectory() as folder:
        commands = {"hipac": [given.program, "--workers", "1"], **made_engines(folder)}
        for make in WORKLOADS:
            workload = make()
            for kind, text in zip(("without", "idle", "whole"), workload.scripts()):
                keep(given.keep, f"{workload.name.replace(' ', '_').replace(',', '')}_{kind}", text)
            print_workload(workload, commands, given.times)


def cells_of(found, firings, shown):
    """The cells of a program: the last of what was found less the first, and less the idle one."""
    alone = shown((found[-1] - found[1]) / firings) if len(found) == 3 else ""
    return [shown((found[-1] - found[0]) / firings), alone]


def print_workload(workload, commands, times):
    runs = runs_of(workload, commands)
    middle, printed = in_turn([run for some in runs.values() for run in some], times)
    middle, printed = iter(middle), iter(printed)
    taken = {name: [next(middle) for _ in some] for name, some in runs.items()}
    check(workload, commands, {name: [next(printed) for _ in some][-1] for name, some in runs.items()})
    for name, some in runs.items():
        cells = cells_of(taken[name], workload.firings, lambda seconds: f"{seconds * 1e6:.2f}")
        if counts_instructions():
            counts = [run.instructions() for run in some]
            cells += cells_of(counts, workload.firings, lambda count: f"{count:,.0f}")
        print(f"| {workload.name} | {name} | " + " | ".join(cells) + " |", flush=True)
