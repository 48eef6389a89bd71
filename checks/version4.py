#!/usr/bin/env python3
"""Compares the program's reports on random scripts of version 4 with those of the definitions.

    checks/version4.py [--scripts N] [--first N] [--jobs N] [--plain] [--show N]

The scripts have all forms of version 4: conditions that find nothing, count and sum, values and the clock's moment,
vetoes with messages, closed rules inside each other, faults of each cause, and siblings that write what others read
(tools/tests/made_version4.py). The program's report must be the one of the definitions (definitions.py and
definitions_run.py), with and without trees, with 1, 2 and 4 workers. Among many scripts each kind of ending must occur.

With --plain there is no program: the scripts are only run by the definitions, and read by `hipac-tools check`. With
--show a script is written out, and not run. HIPAC names the program; the default is the one that ./hipac starts. The
seeds are fixed: script n is the same on each machine. The last line is 'N passed, M failed'.
"""

import argparse
import concurrent.futures
import itertools
import json
import os
import re
import sys
import traceback

from harness import TOP, by_pipe, command_of

sys.path.insert(0, os.path.join(TOP, "tools"))

import definitions_run  # noqa: E402 (they lie in tools/ and checks/)
from hipac_tools import check  # noqa: E402
from tests.made_version4 import Version4Maker  # noqa: E402

# With so many scripts each kind of ending occurs.
ENOUGH = 300

WORKERS = ("1", "2", "4")

ENDINGS = [
    *(f"fire .* fault {cause} none" for cause in ("A3", "A4", "A5", "A6")),
    *(f"aborted A{number}" for number in range(1, 9)),
    r"^unit \d+ aborted A9 r\d$", r"^unit \d+ aborted A9 r\d -?\d+$", r'^unit \d+ aborted A9 r\d ".*"$',
    r"^unit \d+ aborted A9 r\d (true|false)$", r"^unit \d+ time \d+ aborted A9",
    r"^(separate|dependent|exclusive) r\d aborted A9 r\d$", r"^(separate|dependent|exclusive) r\d aborted A9 r\d .",
    r"^ +sub aborted A9 r\d$", r"^ +sub aborted A9 r\d .", r"^ +fire (r\d) immediate satisfied aborted A9 (?!\1)",
    r"^ +fire (r\d) immediate satisfied aborted A9 \1", r"^ +act (r\d) deferred aborted A9 \1",
    r"^ +act (r\d) deferred aborted A9 (?!\1)", r"^ +fire r\d (deferred|separate|dependent|exclusive) fault",
    r"^ +fire r\d immediate satisfied later", r"^emit ",
]
"""Parts of the reports with trees; each occurs in some report."""

FORMS = [
    '["no", "', *(f'["{word}", "' for word in ("sum", "least", "greatest", "next", "value")), '["now"]', '["count", "',
    '["count"]', '["veto"]', '["veto", "', '["veto", ["value", "', '"closed"]', "________",
]
"""Parts of the scripts; each occurs in some script."""


def made(seed):
    return Version4Maker(seed).script()


def tried(command, seed):
    """What is wrong with the reports of a script, or nothing, and which endings and forms occur in it."""
    try:
        script = made(seed)
        text, run = json.dumps(script), definitions_run.Run(script)
        wrong = differences(command, text.encode(), run) if command else refusal_of(text)
        report = definitions_run.report(run)
        return wrong, [kind for kind in ENDINGS if re.search(kind, report, re.M)] + [kind for kind in FORMS
                                                                                     if kind in text]
    except Exception:  # (whatever the definitions raise is a failure)
        return traceback.format_exc(), []


def refusal_of(text):
    """What `hipac-tools check` says of a script, if it refuses it."""
    fault = check.read(text.encode()).fault
    return f"refused {fault.refusal}: {fault.message}" if fault else ""


def differences(command, text, run):
    """The first difference between a report of the program and that of the definitions, in words."""
    for is_tree, workers in itertools.product((False, True), WORKERS):
        wanted = definitions_run.report(run, is_tree)
        words = ["--tree"] * is_tree + ["--workers", workers]
        status, output, errors = by_pipe([*command, *words], text)
        if status != 0:
            return f"with {' '.join(words)} status {status}: {(output + errors).decode(errors='replace')[:500]}"
        if output != wanted.encode():
            pairs = enumerate(itertools.zip_longest(output.decode().split("\n"), wanted.split("\n")), 1)
            number, (wrote, defined) = next((number, pair) for number, pair in pairs if pair[0] != pair[1])
            return f"with {' '.join(words)} line {number} is {wrote!r}, by the definitions {defined!r}"
    return ""


def main():
    parser = argparse.ArgumentParser(description=__doc__, formatter_class=argparse.RawDescriptionHelpFormatter)
    parser.add_argument("--scripts", type=int, default=20_000)
    parser.add_argument("--first", type=int, default=0)
    parser.add_argument("--jobs", type=int, default=os.cpu_count())
    parser.add_argument("--plain", action="store_true")
    parser.add_argument("--show", type=int)
    options = parser.parse_args()
    if options.show is not None:
        print(json.dumps(made(options.show), indent=1))
        return 0
    command = None if options.plain else command_of("hipac")
    seeds, failed, found = range(options.first, options.first + options.scripts), 0, set()
    with concurrent.futures.ProcessPoolExecutor(options.jobs) as pool:
        for seed, (wrong, kinds) in zip(seeds, pool.map(tried, [command] * len(seeds), seeds, chunksize=8)):
            found.update(kinds)
            if wrong:
                failed += 1
                print(f"FAILED script {seed}: {wrong}", flush=True)
    never = [kind for kind in ENDINGS + FORMS if kind not in found] if options.scripts >= ENOUGH else []
    for kind in never:
        print(f"FAILED no script or report has: {kind}")
    print(f"{len(seeds) - failed} passed, {failed + len(never)} failed")
    return 1 if failed or never else 0


if __name__ == "__main__":
    sys.exit(main())
