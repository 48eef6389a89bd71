"""What ./hipac-check proves of a script before it runs: its verdicts, and its findings with their places.

docs/CHECKING.md says what each verdict promises.
"""

from __future__ import annotations

import json
import os
from dataclasses import dataclass, field
from typing import Any, Iterator, Optional

from . import language, program
from .command import DONE

PROGRAM = "hipac-check"

GIVEN = {"int": "an int", "bool": "a bool", "text": "a text", "any": "a value of a kind that isn't known"}
WANTED = {"int": "an int is wanted", "bool": "a bool is wanted", "text": "a text is wanted",
          "known": "a value of a known kind is wanted, since it is compared",
          "ordered": "an int or a text is wanted, since it is ordered"}
REASONS = {
    "no_occurrence": "a transaction has no occurrence to read",
    "no_such_part": "not each occurrence of the event has this part",
    "other_form": "an occurrence of the event may have another form here, which lacks this",
    "no_such_field": "the class has no such field",
    "no_such_argument": "not each statement gives the signal this argument",
    "too_few_arguments": "rules read more arguments of the signal than this gives",
    "unset_field": "a field isn't set",
    "unknown_name": "no row and no value of this name is known here",
    "not_fired": "the rule reads parts of its occurrence, and the occurrence of a rule that is fired has none",
}
HELP = {
    "never": ("it may be installed, and no firing reaches it from the script's transactions and moments",),
    "uninstalled": ("the script does the same if this rule does nothing",),
    "open": ('with the seventh part "closed" it vetoes what it can\'t compute',),
}


@dataclass(frozen=True)
class Link:
    """Why a rule may trigger the next one of a chain: the paths of a statement and of what it ends of an event."""

    by: str
    event: str


@dataclass(frozen=True)
class Finding:
    """A finding: its word, the path of what it is about, from the script's root, and what is said of it."""

    word: str
    path: str
    message: str
    hints: tuple[str, ...] = ()


@dataclass(frozen=True)
class Proved:
    """The three verdicts, the findings, and a chain of more firings than may nest: its rules and its links."""

    verdicts: dict[str, str]
    findings: list[Finding] = field(default_factory=list)
    chain: list[str] = field(default_factory=list)
    links: list[Link] = field(default_factory=list)

    @property
    def text(self) -> str:
        """The verdicts in one line."""
        return ", ".join(f"{word} {verdict}" for word, verdict in self.verdicts.items())


def program_path() -> str:
    """The program: $HIPAC_CHECK if that is set, else `./hipac-check` at the repository's root."""
    return os.environ.get("HIPAC_CHECK") or str(program.REPOSITORY / PROGRAM)


def proved_of(value: Any, signals: Optional[str] = None) -> Proved | str:
    """What the program says of an accepted script with this JSON value, by the signatures of a file if one is named; or
    how it failed."""
    words = [] if signals is None else ["--signals", signals]
    ended = program.run(json.dumps(value).encode("utf-8"), words, program_path())
    if ended.status != DONE:
        return f"{PROGRAM} ended with status {ended.status}" + (f": {ended.errors.strip()}" if ended.errors else "")
    lines = [line.split() for line in ended.output.splitlines()]
    bodies = list(unit_paths(value))
    return Proved({line[0]: " ".join(line[1:]) for line in lines[:3]},
                  [finding(line, bodies) for line in lines[3:] if line[0] not in ("chain", "by")],
                  [line[1] for line in lines if line[0] == "chain"],
                  [Link(*line[1:]) for line in lines if line[0] == "by"])


def unit_paths(value: Any) -> Iterator[str]:
    """The paths of the units' bodies, in the order in which a report counts the units."""
    events, clock = [rule[1] for rule in value["rules"]], 0
    for number, (word, content) in enumerate(value["items"]):
        if word == "tx":
            yield f"/items/{number}/1"
        else:
            yield from [f"/items/{number}"] * len(language.due_moments(events, clock, content))
            clock = content


def finding(line: list[str], bodies: list[str]) -> Finding:
    """A finding by its line's words."""
    word, *rest = line
    if word == "kind":
        before, (path, *reason) = ("", rest) if rest[0] != "unit" else (bodies[int(rest[1]) - 1], rest[2:])
        return Finding(word, f"{before}{path}".rstrip("/"), reason_text(reason))
    path, name = rest
    if word == "open":
        part = "condition" if path.endswith("/3") else "action"
        return Finding(word, path, f"arithmetic may end the {part} of `{name}`, and then it doesn't veto", HELP[word])
    never = "is never installed" if word == "uninstalled" else "never fires here"
    return Finding(word, f"{path}/0", f"the rule `{name}` {never}", HELP[word])


def reason_text(reason: list[str]) -> str:
    if reason[0] == "wanted":
        return f"this is {GIVEN[reason[3]]}, and {WANTED[reason[1]]}"
    return REASONS[reason[0]]


def depth_text(value: Any) -> str:
    """What is proved of the depth of a script with this JSON value, as a line of the word `graph`."""
    proved = proved_of(value)
    if isinstance(proved, str):
        return proved
    verdict = proved.verdicts["depth"]
    if verdict == "unknown":
        return "a run may meet A7: no bound of the chains is proved"
    if verdict.endswith(" here"):
        return f"it is proved that this script's run doesn't meet A7 (depth {verdict}); with other transactions it may"
    return f"it is proved that no run meets A7, whatever transactions come (depth {verdict})"
