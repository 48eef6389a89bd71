"""Shared by several tests: the accepted scripts, and a word of the tool run in this process."""

from __future__ import annotations

import contextlib
import io
import json
import re
from concurrent.futures import ThreadPoolExecutor
from pathlib import Path
from typing import Callable

from hipac_tools import program, rulebase
from hipac_tools.course import Course
from hipac_tools.places import PRINTED, Places, marked
from hipac_tools.report import Report

from .breaking import paths_of

AT_ONCE = 4
"""So many runs of the program go on at a time."""

TESTS = Path(__file__).resolve().parent
REPOSITORY = TESTS.parents[1]


def accepted_scripts() -> dict[str, object]:
    """Each accepted script by the name of its file: those of examples/ and those kept for the tests."""
    files = sorted((REPOSITORY / "examples").glob("*.json")) + sorted((TESTS / "accepted").glob("*.json"))
    return {file.name: json.loads(file.read_text(encoding="utf-8")) for file in files}


def refusals(texts: list[str], is_text: bool = False) -> list[str]:
    """The program's answer to each script, JSON or text: its refusal, or nothing if it is accepted."""
    def refusal(text: str) -> str:
        ended = program.run(text.encode("utf-8"), program.words_for(is_text))
        if ended.status not in (0, 2):
            raise AssertionError(f"status {ended.status} {ended.errors} for {text}")
        return ended.output.strip()[len("refused "):] if ended.status == 2 else ""

    with ThreadPoolExecutor(AT_ONCE) as pool:
        return list(pool.map(refusal, texts))


def followed(script: object) -> Report:
    """The report of the tools' own course of a script."""
    return Course(rulebase.read(json.dumps(script))).report()


PLACE = re.compile(r"line\s+(\d+:\d+)")


def with_paths(text: str, script: object) -> str:
    """A text on a script on one line, with paths in place of the lines and columns, and without the note on them."""
    places = Places(json.dumps(script))
    paths = ("/" + "/".join(map(str, steps)) for steps in paths_of(script))
    known = {places.told(marked(path)): path for path in paths}
    return PLACE.sub(lambda found: known[f"line {found[1]}"], text.replace(f"({PRINTED})\n", ""))


def run_word(main: Callable[[list[str]], int], *arguments: str) -> tuple[int, str, str]:
    """The status of a word, and what it wrote to standard output and standard error."""
    output, errors = io.StringIO(), io.StringIO()
    with contextlib.redirect_stdout(output), contextlib.redirect_stderr(errors):
        status = main(list(arguments))
    return status, output.getvalue(), errors.getvalue()
