#!/usr/bin/env python3
"""Compares hipac_text with the notation's reader and printer in Python.

    checks/notation.py [--scripts N] [--first N] [--jobs N]

- `hipac_text print` writes the text that the printer in Python writes, of random scripts of versions 1, 2 and 4 with
  all forms (tools/tests/making.py) and of all examples in JSON.
- `hipac_text read` reads each of these texts as the script, with the members in order, on one line.
- Texts that are no scripts (tools/tests/faulty_texts.py, checks/refusals.py, and the texts above with a token changed,
  one for each four scripts) are refused at the place that the reader in Python names, or read as it reads them.
- `hipac_text print` refuses what `hipac` refuses (checks/refusals.py), with the same line, unless there is a text for
  it. That text is read as the same value.
- Other words than the two, and devices that fail, end the program as docs/SCRIPT.md says.

HIPAC_TEXT names the program; the default is the one that ./hipac-text starts. The seeds are fixed: script n is the same
on each machine. The last line is 'N passed, M failed'.
"""

import argparse
import concurrent.futures
import glob
import json
import os
import random
import re
import subprocess
import sys

import refusals
from harness import ENVIRONMENT, LIMIT, TOP, Failed, by_pipe, command_of, expect
from limits import MOST_BYTES

sys.path.insert(0, os.path.join(TOP, "tools"))

from hipac_tools import rulebase  # noqa: E402 (they lie in tools/)
from hipac_tools.notation.reader import decoded, read_bytes  # noqa: E402
from hipac_tools.notation.tokens import NotText  # noqa: E402
from hipac_tools.notation.writer import script_text  # noqa: E402
from hipac_tools.positions import line_and_column  # noqa: E402
from tests.faulty_texts import FAULTY_SCRIPTS  # noqa: E402
from tests.making import RandomScripts  # noqa: E402

MEMBERS = ("version", "depth", "classes", "rules", "items")

# A text is broken in one of so many scripts.
BROKEN = 4

TOKEN = re.compile(r'"(?:[^"\\]|\\.)*"|`?\w+`?|[<>!]?=|[^\s\w]')

WRONG = ("if", "do", "{", "}", ")", "(", "0x", "007", "!", "`on`", "let", '"', "where", "= =", "\u00e9", "then",
         "99999999999999999999")

# The refusals of what no text stands for, whatever else is wrong: what isn't JSON, and numbers outside 64 bits.
WITHOUT_TEXT = ("S1", "S3")

WRONG_WORDS = ((), ("copy",), ("READ",), ("read ",), ("read", "x.rules"), ("print", "print"), ("--help",), ("",))


def json_text(root):
    """A script's JSON as the program writes it."""
    ordered = {name: root[name] for name in MEMBERS if name in root}
    return json.dumps(ordered, separators=(",", ":"), ensure_ascii=False) + "\n"


def expected(given):
    """The status and the output of reading a text."""
    if len(given) > MOST_BYTES:
        return 2, "refused S5 size\n"
    try:
        return 0, json_text(read_bytes(given).value)
    except NotText as fault:
        line, column = line_and_column(decoded(given), fault.start)
        return 2, f"refused S1 {line}:{column}\n"


def answer(command, task, given):
    """The status and the output of a task; it says nothing else."""
    status, wrote, said = by_pipe([*command, task], given)
    expect(said, b"", "standard error")
    return status, wrote.decode()


def check_text(command, given):
    expect(answer(command, "read", given), expected(given), f"the reading of {given[:200]!r}")


def check_script(command, root):
    """A script is printed as Python prints it, and read back."""
    text = script_text(rulebase.read(json.dumps(root)))
    expect(answer(command, "print", json.dumps(root).encode()), (0, text), "the text")
    expect(answer(command, "read", text.encode()), (0, json_text(root)), "the JSON")
    return text


def check_refused(command, refusal, script):
    """What `hipac` refuses is refused, unless it has a text; that text is read as the same value."""
    status, wrote = answer(command, "print", script.encode())
    if status == 0:
        expect(refusal[:2] in WITHOUT_TEXT, False, f"whether there is no text of {script[:200]}")
        expect(answer(command, "read", wrote.encode()), (0, json_text(json.loads(script))), "the JSON")
    else:
        expect((status, wrote), (2, f"refused {refusal}\n"), "the refusal")


def check_large(command):
    """JSON of the largest size is printed, and of one byte more refused."""
    script = refusals.script().encode()
    expect(answer(command, "print", script.ljust(MOST_BYTES)), (0, "version 1\n"), "the largest JSON")
    expect(answer(command, "print", script.ljust(MOST_BYTES + 1)), (2, "refused S5 size\n"), "one byte more")


def check_words(command, words):
    """Words that name no task are refused, and nothing is read."""
    expect(by_pipe([*command, *words], b"version 1"), (3, b"", b"command line refused\n"), f"the words {words}")


def ended(command, task, **how):
    """The status and the standard error of a task with these devices."""
    done = subprocess.run([*command, task], stderr=subprocess.PIPE, timeout=LIMIT, check=False, env=ENVIRONMENT, **how)
    return done.returncode, done.stderr


def check_devices(command, task):
    """A read or a write that fails ends the program with its fault."""
    folder = os.open(TOP, os.O_RDONLY)
    try:
        expect(ended(command, task, stdin=folder, stdout=subprocess.PIPE), (4, b"fault F2\n"), "a folder as input")
    finally:
        os.close(folder)
    with open("/dev/full", "wb") as full:
        expect(ended(command, task, stdout=full, input=b"version 1"), (4, b"fault F3\n"), "a full device")


def broken(text, chance):
    """A text with a token that is left out, doubled or another one."""
    tokens = list(TOKEN.finditer(text))
    token = chance.choice(tokens)
    instead = chance.choice(("", token.group() + " " + token.group(), chance.choice(WRONG)))
    return text[:token.start()] + instead + text[token.end():]


def check_seed(command, seed):
    text = check_script(command, RandomScripts(seed).script())
    if seed % BROKEN == 0:
        check_text(command, broken(text, random.Random(seed)).encode())


def example(path):
    with open(path, encoding="utf-8") as file:
        return json.load(file)


def examples():
    """The scripts in JSON among the examples."""
    for path in sorted(glob.glob(os.path.join(TOP, "examples", "**", "*.json"), recursive=True)):
        root = example(path)
        if isinstance(root, dict) and "items" in root and "version" in root:
            yield path, root


def tasks(first, number):
    """The title of each check, its function, and what it is given after the program."""
    yield "large JSON", check_large
    for words in WRONG_WORDS:
        yield f"the words {words}", check_words, words
    for task in ("read", "print"):
        yield f"devices of {task}", check_devices, task
    for path, root in examples():
        yield path, check_script, root
    for n, faulty in enumerate(FAULTY_SCRIPTS):
        yield f"faulty text {n}", check_text, faulty.text.encode()
    for title, _, text in refusals.TEXTS:
        yield f"text: {title}", check_text, text
    for title, refusal, script in refusals.REFUSALS:
        yield f"refused: {title}", check_refused, refusal, script
    for seed in range(first, first + number):
        yield f"script {seed}", check_seed, seed


def failure(command, check, *arguments):
    """What is wrong, if anything."""
    try:
        check(command, *arguments)
    except Failed as wrong:
        return str(wrong)
    return None


def main():
    parser = argparse.ArgumentParser(description=__doc__, formatter_class=argparse.RawDescriptionHelpFormatter)
    parser.add_argument("--scripts", type=int, default=300)
    parser.add_argument("--first", type=int, default=0)
    parser.add_argument("--jobs", type=int, default=os.cpu_count())
    options = parser.parse_args()
    command = command_of("hipac_text")
    every = tasks(options.first, options.scripts)
    with concurrent.futures.ThreadPoolExecutor(options.jobs) as pool:
        done = list(pool.map(lambda task: (task[0], failure(command, *task[1:])), every))
    for title, wrong in done:
        if wrong:
            print(f"FAILED {title}: {wrong}")
    failed = sum(1 for _, wrong in done if wrong)
    print(f"{len(done) - failed} passed, {failed} failed")
    return 1 if failed else 0


if __name__ == "__main__":
    sys.exit(main())
