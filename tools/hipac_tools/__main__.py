"""The words of `./hipac-tools`: each is a module of this package with a function `main`, loaded only for its word."""

from __future__ import annotations

import importlib
import io
import os
import sys
from dataclasses import dataclass

from .command import DONE, FAILED, WRONG_WORDS
from .near import nearest


@dataclass(frozen=True)
class Word:
    """A word of the command line: the module that implements it, what it does in one line, and the module's function
    for it."""

    module: str
    says: str
    function: str = "main"


WORDS = {
    "check": Word("check", "says where and why a script is refused"),
    "print": Word("printing", "writes a script in the notation"),
    "graph": Word("graph", "draws which rules can trigger which"),
    "view": Word("view", "shows what a script's transactions did"),
    "why": Word("why", "says why a rule acted, or didn't"),
    "faults": Word("faults", "lists the conditions and actions that ended with a fault"),
    "journal": Word("journal", "writes the script of a journal"),
    "snapshot": Word("journal", "writes a new rule base that stands as a journal's", "main_snapshot"),
}


def usage() -> str:
    lines = ["usage: hipac-tools WORD ..", ""]
    lines += [f"  {name:<8} {word.says}" for name, word in WORDS.items()]
    return "\n".join([*lines, "", "`hipac-tools WORD --help` says more of one; docs/TOOLS.md shows each by example."])


def main(arguments: list[str]) -> int:
    if not arguments or arguments[0] in ("--help", "-h", "help"):
        print(usage())
        return DONE
    name = arguments[0]
    if name not in WORDS:
        meant = nearest(name, WORDS)
        question = f": did you mean `{meant}`?" if meant else ""
        print(f"hipac-tools: there is no word `{name}`{question}\n\n{usage()}", file=sys.stderr)
        return WRONG_WORDS
    module = importlib.import_module(f"{__package__}.{WORDS[name].module}")
    return getattr(module, WORDS[name].function)(arguments[1:])


def run() -> int:
    """Runs `main`. A reader that stops early, such as `head`, is no fault; any other failure to write is one. Each word
    reports the files that it can't read or write itself, so only standard output is left."""
    if sys.stdout is None:
        return unwritten("it is closed")
    if isinstance(sys.stdout, io.TextIOWrapper):
        sys.stdout.reconfigure(errors="backslashreplace")
    try:
        status = main(sys.argv[1:])
        sys.stdout.flush()
        return status
    except OSError as fault:
        os.dup2(os.open(os.devnull, os.O_WRONLY), sys.stdout.fileno())
        return DONE if isinstance(fault, BrokenPipeError) else unwritten(fault.strerror)


def unwritten(why: str) -> int:
    print(f"hipac-tools: standard output can't be written: {why}", file=sys.stderr)
    return FAILED


if __name__ == "__main__":
    sys.exit(run())
