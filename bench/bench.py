#!/usr/bin/env python3
"""Measures what firings cost, and prints the tables of bench/README.md.

    bench/bench.py PROGRAM [--times N] [--only LETTERS] [--tables NAMES] [--instructions] [--keep FOLDER]
                   [--beside OTHER]

PROGRAM is the proved program, which `./build` makes. All commands of a workload run alternately, N times (9), so that
the load of the machine affects all of them; a time is the middle one. If sqlite3 has something like the rules, it runs
the same as triggers over an in-memory database, in the same run.

The table `firings` has the workloads of many firings: the median time of each run, and firings per second. Its last
columns say how many times as fast two and four workers are as one, and what the machine gave: how many processors' work
copies of the run with 1 worker did at once. With `--beside` another build of the program runs in turn with this one,
and one more column has the ratio of their times with 1, 2 and 4 workers: below 1, this one is faster.

The table `engines` has what a firing costs hipac, two engines in C++ (bench/limit), sqlite3's shell and its prepared
statements, in time and, where valgrind is there, in instructions (bench/engines.py). The tables of bench/costs.py have
the cost of one firing as something grows: the time of a script less that of the same script without its firings. With
`--instructions` they have numbers of instructions, which the load of the machine doesn't change.
"""

import argparse
import sys

from costs import TABLES
from engines import print_engines
from measuring import SQLITE, Command, Prepared, counted, heading, in_turn, keep
from workloads import WORKLOADS

WORKERS = (1, 2, 4)
COPIES = (2, 4)


def print_firings(given):
    heading(["Workload", "Firings", *(f"{w} worker{'s' if w > 1 else ''}" for w in WORKERS),
             "sqlite3", "Speedup", "Processors", *(["Of the other"] if given.beside else [])])
    for letter, title, make, make_sql in WORKLOADS:
        if given.only and letter not in given.only:
            continue
        text, firings = make()
        keep(given.keep, letter, text)
        alone = [given.program, "--workers", "1"]
        runs = [Command([given.program, "--workers", str(workers)], text) for workers in WORKERS]
        runs += [Command(alone, text, copies) for copies in COPIES]
        runs += [Command(SQLITE, make_sql().whole())] if make_sql else []
        if given.beside:
            runs += [Command([given.beside, "--workers", str(workers)], text) for workers in WORKERS]
        middle, outputs = in_turn(runs, given.times)
        if len(set(outputs[: len(WORKERS)])) != 1:
            sys.exit(f"({letter}): the reports differ")
        one, two, four, *more = middle
        cells = [f"{took * 1000:.0f} ms, {firings / took:,.0f}/s" for took in (one, two, four)]
        cells += [f"{more[2] * 1000:.0f} ms, {firings / more[2]:,.0f}/s" if make_sql else ""]
        cells += [f"{one / two:.1f}, {one / four:.1f}"]
        cells += [", ".join(f"{copies * one / took:.1f}" for copies, took in zip(COPIES, more))]
        if given.beside:
            cells += [", ".join(f"{this / other:.2f}" for this, other in zip(middle, middle[-len(WORKERS) :]))]
        print(f"| ({letter}) {title} | {firings:,} | " + " | ".join(cells) + " |", flush=True)


def print_costs(name, given):
    """What one worker, the default number and sqlite3 cost, each less the run without firings."""
    title, unit, cases = TABLES[name]
    per = f"{'instructions' if given.instructions else 'us'} a{'n' if unit[0] in 'aeiou' else ''} {unit}"
    heading([f"{title[0].upper()}{title[1:]}", f"1 worker, {per}", "the default", "of 1 worker",
             "sqlite3, shell", "of the shell", "sqlite3, prepared", "of prepared"])
    for make in cases:
        label, case = make()
        keep(given.keep, f"{name}-{label.replace(' ', '_').replace(',', '')}-{case.size}", case.whole)
        runs = [Command(command, text)
                for command in ([given.program, "--workers", "1"], [given.program])
                for text in (case.without, case.whole)]
        runs += sql_runs(case.sql) if case.sql else []
        found, outputs = counted(runs) if given.instructions else in_turn(runs, given.times)
        if outputs[1] != outputs[3] or (case.sql and outputs[5] != outputs[7]):
            sys.exit(f"{label}, {case.size}: the reports differ")
        costs = [(whole - less) / case.firings for less, whole in zip(found[::2], found[1::2])]
        cells = [f"{cost:,.0f}" if given.instructions else f"{cost * 1e6:.1f}" for cost in costs]
        ratios = [f"{costs[1] / cost:.2f}" for cost in costs]
        both = [cell for number in range(2, len(costs)) for cell in (cells[number], ratios[number])] or [""] * 4
        print(f"| {label}, {case.size:,} | " + " | ".join([*cells[:2], ratios[0], *both]) + " |", flush=True)


def sql_runs(sql):
    """Both ways of sqlite3, each without its rows and with them."""
    runs = [Command(SQLITE, sql.text()), Command(SQLITE, sql.whole())]
    return runs + [Prepared(sql.begin, sql.statement, rows, sql.end, sql.is_one) for rows in ([], sql.rows)]


PRINTERS = {"firings": print_firings, "engines": print_engines}
NAMES = [*PRINTERS, *TABLES]


def main():
    words = argparse.ArgumentParser(description=__doc__.splitlines()[0])
    words.add_argument("program")
    words.add_argument("--times", type=int, default=9)
    words.add_argument("--only", metavar="LETTERS", default="", help="of the table `firings`, these workloads alone")
    words.add_argument("--tables", metavar="NAMES", default=",".join(NAMES),
                       help="prints these tables alone: " + ",".join(NAMES))
    words.add_argument("--instructions", action="store_true", help="of the costs: counts instructions, by callgrind")
    words.add_argument("--keep", metavar="FOLDER", help="also writes the scripts there")
    words.add_argument("--beside", metavar="OTHER", default="", help="of the table `firings`: compares with this build")
    given = words.parse_args()
    for number, name in enumerate(given.tables.split(",")):
        if number:
            print()
        if name in PRINTERS:
            PRINTERS[name](given)
        else:
            print_costs(name, given)


if __name__ == "__main__":
    main()
