"""How the scripts of this folder measure commands: in turn, by their middle times and by instructions."""

import json
import os
import re
import shutil
import statistics
import subprocess
import sys
import tempfile
import time

SQLITE = ["sqlite3", "-batch", ":memory:"]
PREPARED = [sys.executable, os.path.join(os.path.dirname(os.path.abspath(__file__)), "prepared.py")]
# (a fixed seed for the hashes of Python's texts, so that each run counts the same instructions)
ENVIRONMENT = {**os.environ, "PYTHONHASHSEED": "0"}
CALLGRIND = ["valgrind", "--tool=callgrind"]


class Command:
    """A command over an input, run in a number of copies at once."""

    def __init__(self, words, text, copies=1):
        self.words, self.text, self.copies = words, text, copies

    def timed(self):
        """The wall time in seconds, and what the first copy printed."""
        with tempfile.TemporaryDirectory() as folder:
            script = written(folder, self.text)
            reports = [os.path.join(folder, f"report{number}") for number in range(self.copies)]
            begun = time.perf_counter()
            running = []
            for report in reports:
                with open(script, "rb") as given, open(report, "wb") as printed:
                    running.append(subprocess.Popen(self.words, stdin=given, stdout=printed, env=ENVIRONMENT,
                                                    stderr=subprocess.DEVNULL))
            statuses = [one.wait() for one in running]
            took = time.perf_counter() - begun
            with open(reports[0], "rb") as printed:
                out = printed.read()
        # sqlite3 ends with 1 if a trigger has refused an order.
        if any(statuses) and self.words is not SQLITE:
            sys.exit(f"{self.words}: statuses {statuses}: {out[:200]!r}")
        return took, out

    def instructions(self):
        """The number of instructions, by callgrind."""
        with tempfile.TemporaryDirectory() as folder, open(written(folder, self.text), "rb") as given:
            return instructions_of(self.words, given)


class Prepared(Command):
    """The statements of an `Sql` with its rows, in the module sqlite3 of Python. Its time is that of the rows alone."""

    def __init__(self, begin, statement, rows, end, is_one):
        super().__init__(PREPARED, json.dumps([begin, statement, rows, end, is_one]))

    def timed(self):
        _, out = super().timed()
        seconds, out = out.split(b"\n", 1)
        return float(seconds), out


def instructions_of(words, given=subprocess.DEVNULL, environment=ENVIRONMENT, options=()):
    """The number of instructions that a command takes with this input, by callgrind with these options."""
    with tempfile.TemporaryDirectory() as folder:
        counts = os.path.join(folder, "counts")
        subprocess.run([*CALLGRIND, *options, f"--callgrind-out-file={counts}", *words], stdin=given, check=False,
                       env=environment, stdout=subprocess.DEVNULL, stderr=subprocess.DEVNULL)
        with open(counts) as file:
            found = re.search(r"(?m)^(?:summary|totals): (\d+)", file.read())
    if not found:
        sys.exit(f"{words}: callgrind counts nothing")
    return int(found[1])


def written(folder, text):
    path = os.path.join(folder, "script")
    with open(path, "w") as file:
        file.write(text)
    return path


def in_turn(runs, times):
    """The middle time of each run, all of them alternately, and what each printed."""
    taken, outputs = [[] for _ in runs], [None] * len(runs)
    for _ in range(times):
        for number, run in enumerate(runs):
            took, outputs[number] = run.timed()
            taken[number].append(took)
    return [statistics.median(times) for times in taken], outputs


def counted(runs):
    """The number of instructions of each run, and what each printed."""
    return [run.instructions() for run in runs], [run.timed()[1] for run in runs]


def counts_instructions():
    return shutil.which("valgrind") is not None


def heading(columns):
    print("| " + " | ".join(columns) + " |")
    print("|" + "---|" * len(columns))


def keep(folder, name, text):
    if folder:
        os.makedirs(folder, exist_ok=True)
        with open(os.path.join(folder, f"{name}.json"), "w") as file:
            file.write(text)
