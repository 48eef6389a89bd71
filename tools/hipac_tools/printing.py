"""The word `print`: the canonical text of a script in the notation."""

from __future__ import annotations

import sys

from . import rulebase
from .command import DONE, START_OPTIONS, unknown_option, without_start, wrong_words
from .notation.writer import script_text

USAGE = """usage: hipac-tools print SCRIPT [--script FILE] [--checked] [--signals FILE]

Writes a script in the notation, a rule as `rule NAME on EVENT if .. do { .. }`: the one canonical text of it, without
comments. SCRIPT is JSON or a text in the notation; `-` is standard input. It may be a journal; if its script is in a
file, --script names that, and it is run with --checked and --signals as its rule base was.
The exit status is 0, or 2 where it is no script, or 3 where the words are wrong or the file can't be read."""


def main(arguments: list[str]) -> int:
    """Writes the script to standard output."""
    if arguments in (["--help"], ["-h"]):
        print(USAGE)
        return DONE
    words, start = without_start(arguments)
    if len(words) != 1 or unknown_option(words):
        return wrong_words("print", USAGE, arguments, START_OPTIONS)
    try:
        text = script_text(rulebase.read_file(words[0], start))
    except rulebase.Refused as fault:
        print(fault, file=sys.stderr)
        return fault.status
    sys.stdout.buffer.write(text.encode("utf-8"))
    return DONE
