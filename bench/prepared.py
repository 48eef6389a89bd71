"""Runs a statement for each of many rows in Python's module sqlite3, which prepares it once.

    prepared.py < INPUT

The input is JSON, [BEGIN, STATEMENT, ROWS, END, IS_ONE]: statements to begin with, a statement with parameters, the
rows that it runs with, queries for the end, and whether all rows are one transaction (otherwise each is one). The
first line of the output is the number of seconds that the rows took; the others are what the queries answer, as
sqlite3's shell prints it. A row that a trigger refuses changes nothing.
"""

import json
import sqlite3
import sys
import time


def run_rows(store, statement, rows, is_one):
    if is_one:
        store.execute("begin")
        store.executemany(statement, rows)
        store.execute("commit")
        return
    for row in rows:
        try:
            store.execute(statement, row)
        except sqlite3.IntegrityError:
            pass


def main():
    begin, statement, rows, end, is_one = json.load(sys.stdin)
    rows = list(map(tuple, rows))
    store = sqlite3.connect(":memory:", isolation_level=None)
    store.executescript("\n".join(begin))
    begun = time.perf_counter()
    run_rows(store, statement, rows, is_one)
    print(time.perf_counter() - begun)
    for query in end:
        for row in store.execute(query):
            print("|".join(map(str, row)))


if __name__ == "__main__":
    main()
