"""What stands at places of the samples, and the scripts that are looked at."""

from __future__ import annotations

import re
from pathlib import Path

TOP = Path(__file__).resolve().parents[2]
SAMPLES = TOP / "editors" / "tests" / "samples"

RESERVED = set(
    "on if do where as set else otherwise then until and or not true false new old event key immediate deferred "
    "separate dependent exclusive create update delete signal emit each for with sub abort veto install enable disable "
    "remove fire".split()
)

TOKEN = re.compile(
    r"""(?P<comment>\#[^\n]*)|(?P<text>"(?:[^"\\\n]|\\.)*")|(?P<quoted>`[A-Za-z][A-Za-z0-9_]*`)"""
    r"""|(?P<word>[A-Za-z][A-Za-z0-9_]*)|(?P<number>[0-9]+)|(?P<symbol>!=|<=|>=|[{}()\[\],:;.=<>+\-*/%])"""
)


def scripts() -> list[Path]:
    """The samples and all scripts of the repository that are text."""
    return sorted({*SAMPLES.glob("*.rules"), *TOP.glob("examples/**/*.rules"), *TOP.glob("docs/**/*.rules")})


# (sample, line, word, its which-th occurrence in the line, what it is)
PLACES = [
    ("forms", 1, "name", 1, "comment"),
    ("forms", 2, "version", 1, "declaration"),
    ("forms", 3, "depth", 1, "declaration"),
    ("forms", 3, "6", 1, "number"),
    ("forms", 5, "class", 1, "declaration"),
    ("forms", 5, "stock", 1, "name"),
    ("forms", 5, "int", 1, "kind"),
    ("forms", 5, "bool", 1, "kind"),
    ("forms", 5, "text", 1, "kind"),
    ("forms", 8, "rule", 1, "declaration"),
    ("forms", 8, "closed", 1, "mode"),
    ("forms", 8, "on", 1, "control"),
    ("forms", 8, "create", 1, "statement"),
    ("forms", 8, "or", 1, "logical"),
    ("forms", 8, "deferred", 1, "mode"),
    ("forms", 9, "some", 1, "query"),
    ("forms", 9, "where", 1, "control"),
    ("forms", 9, "key", 1, "property"),
    ("forms", 9, "event", 1, "subject"),
    ("forms", 9, "key", 2, "property"),
    ("forms", 9, "stock", 1, "member"),
    ("forms", 9, "not", 1, "logical"),
    ("forms", 10, "no", 1, "query"),
    ("forms", 10, "new", 1, "subject"),
    ("forms", 10, "!=", 1, "operator"),
    ("forms", 11, "let", 1, "query"),
    ("forms", 11, "count", 1, "aggregate"),
    ("forms", 11, "now", 1, "subject"),
    ("forms", 12, "sum", 1, "aggregate"),
    ("forms", 12, "over", 1, "aggregate"),
    ("forms", 12, "true", 1, "boolean"),
    ("forms", 13, "greatest", 1, "aggregate"),
    ("forms", 14, "next", 1, "aggregate"),
    ("forms", 15, "separate", 1, "mode"),
    ("forms", 16, "text", 1, "text"),
    ("forms", 16, '\\"', 1, "escape"),
    ("forms", 16, "\\u00e9", 1, "escape"),
    ("forms", 16, "comment", 1, "text"),
    ("forms", 17, "veto", 1, "statement"),
    ("forms", 20, "closure", 1, "event"),
    ("forms", 20, "until", 1, "control"),
    ("forms", 20, "every", 1, "event"),
    ("forms", 20, "from", 1, "event"),
    ("forms", 22, "count", 1, "property"),
    ("forms", 22, "arg", 1, "property"),
    ("forms", 22, "time", 1, "property"),
    ("forms", 25, "commit", 1, "event"),
    ("forms", 25, "moment", 1, "event"),
    ("forms", 25, "then", 1, "control"),
    ("forms", 27, "transaction", 1, "declaration"),
    ("forms", 28, "install", 1, "statement"),
    ("forms", 30, "`set`", 1, "quoted"),
    ("forms", 33, "let", 1, "query"),
    ("forms", 33, "least", 1, "aggregate"),
    ("forms", 36, "`on`", 1, "quoted"),
    ("forms", 39, "clock", 1, "declaration"),
    ("names", 3, "count", 1, "name"),
    ("names", 3, "sum", 1, "name"),
    ("names", 3, "let", 1, "name"),
    ("names", 3, "now", 1, "name"),
    ("names", 3, "version", 1, "name"),
    ("names", 3, "from", 1, "name"),
    ("names", 3, "rule", 1, "name"),
    ("names", 4, "next", 1, "name"),
    ("names", 4, "class", 2, "name"),
    ("names", 4, "closed", 1, "name"),
    ("names", 4, "over", 1, "name"),
    ("names", 6, "closed", 1, "name"),
    ("names", 6, "count", 1, "name"),
    ("names", 7, "count", 1, "name"),
    ("names", 7, "let", 1, "name"),
    ("names", 7, "sum", 1, "member"),
    ("names", 7, "count", 2, "member"),
    ("names", 7, "version", 1, "member"),
    ("names", 7, "now", 1, "name"),
    ("names", 8, "let", 1, "query"),
    ("names", 8, "over", 1, "name"),
    ("names", 8, "count", 1, "aggregate"),
    ("names", 8, "count", 2, "name"),
    ("names", 8, "now", 1, "name"),
    ("names", 8, "now", 2, "name"),
    ("names", 10, "count", 1, "name"),
    ("names", 10, "over", 1, "name"),
    ("names", 10, "class", 1, "member"),
    ("names", 10, "let", 1, "name"),
    ("names", 10, "now", 1, "name"),
    ("names", 10, "closed", 1, "name"),
    ("names", 10, "closed", 2, "member"),
    ("names", 11, "over", 1, "member"),
    ("names", 12, "`now`", 1, "quoted"),
    ("names", 13, "now", 1, "subject"),
    ("names", 16, "rule", 1, "declaration"),
    ("names", 16, "rule", 2, "name"),
    ("names", 16, "closed", 1, "mode"),
    ("names", 16, "every", 1, "name"),
    ("names", 16, "moment", 1, "name"),
    ("names", 16, "from", 1, "member"),
    ("names", 19, "no", 1, "name"),
    ("names", 19, "rule", 1, "member"),
]


def column_of(line: str, word: str, which: int) -> int:
    """Where a word, or a sign, stands in a line for the which-th time: from 0."""
    edge = r"(?<![A-Za-z0-9_\\]){}(?![A-Za-z0-9_])" if word[0].isalnum() else "{}"
    return [found.start() for found in re.finditer(edge.format(re.escape(word)), line)][which - 1]


def places() -> list[tuple[Path, int, int, str, str]]:
    """The file, the line from 1, the column from 0, the word, and what it is."""
    found = []
    for sample, number, word, which, kind in PLACES:
        path = SAMPLES / f"{sample}.rules"
        line = path.read_text(encoding="utf-8").split("\n")[number - 1]
        found.append((path, number, column_of(line, word, which), word, kind))
    return found
