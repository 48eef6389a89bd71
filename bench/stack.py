#!/usr/bin/env python3
"""Measures the stack that the deepest script takes, and prints it.

    bench/stack.py PROGRAM

PROGRAM is the built hipac. The scripts are as deep as the limits allow: 16 firings, 16 levels of statements in each
action, expressions of 16 levels in each condition and in the deepest statement. Each runs under smaller and smaller
`ulimit -s`, which bounds the main thread's stack and each worker's, until it no longer gives its report.
"""

import json
import resource
import subprocess
import sys

GREATEST = 9223372036854775807


def nested(form, levels, inside):
    for level in range(levels):
        inside = form(f"x{level}", inside)
    return inside


TRUTH = nested(lambda _, e: ["not", e], 15, False)
LEAST = nested(lambda _, e: ["neg", e], 15, GREATEST)

# A form around a statement: one more level.
FORMS = {
    "sub": lambda _, body: [["sub", body, []]],
    "sub, otherwise": lambda _, body: [["sub", [["abort"]], body]],
    "if": lambda _, body: [["if", True, body, []]],
    "for": lambda _, body: [["for", "q", body]],
    "each": lambda name, body: [["each", name, "acct", TRUTH, body]],
    "with": lambda name, body: [["with", name, "acct", 1, body]],
}


def script(form):
    """Two siblings, each of which begins a chain of firings down to the deepest level."""
    action = nested(form, 15, [["emit", LEAST], ["signal", "go", [LEAST]]])
    rules = [
        [name, ["signal", signal], "immediate", [["q", "acct", TRUTH]], "immediate", action]
        for name, signal in (("r", "go"), ("s", "start"), ("t", "start"))
    ]
    installs = [["install", rule[0]] for rule in rules]
    body = nested(FORMS["sub"], 15, [["signal", "start", []]])
    items = [["tx", [["create", "acct", 1, [["bal", 1]]], *installs]], ["tx", body]]
    whole = {"version": 2, "depth": 16, "classes": [["acct", [["bal", "int"]]]], "rules": rules, "items": items}
    return json.dumps(whole, separators=(",", ":")).encode()


def runs(program, workers, text, kilobytes):
    """The report under a bound on the stack, or nothing if the program fails."""
    size = kilobytes * 1024
    done = subprocess.run(
        [program, "--workers", str(workers)],
        input=text,
        stdout=subprocess.PIPE,
        stderr=subprocess.DEVNULL,
        preexec_fn=lambda: resource.setrlimit(resource.RLIMIT_STACK, (size, size)),
        check=False,
    )
    return done.stdout if done.returncode == 0 else None


def least_stack(program, workers, text):
    """The least bound, in steps of 16 KiB, under which the report is the same as without one."""
    enough, little = 65_536, 64
    wanted = runs(program, workers, text, enough)
    if wanted is None:
        sys.exit("the program doesn't end well under 64 MiB")
    while enough - little > 16:
        middle = (enough + little) // 2
        # With threads three times: which thread runs a task differs from run to run.
        if all(runs(program, workers, text, middle) == wanted for _ in range(3 if workers > 1 else 1)):
            enough = middle
        else:
            little = middle
    return enough


def main():
    if len(sys.argv) != 2:
        sys.exit(__doc__)
    print("| Statements | 1 worker | 4 workers |\n|---|---|---|")
    for name, form in FORMS.items():
        text = script(form)
        cells = [f"{least_stack(sys.argv[1], workers, text):,} KiB" for workers in (1, 4)]
        print(f"| {name} | {' | '.join(cells)} |", flush=True)


if __name__ == "__main__":
    main()
