"""Journals of a rule base that stays up: the words `journal` and `snapshot`, and journals in place of scripts.

A journal has what was sent to `./hipac-live`, a line each. Its script is the first line, or in a file beside it. Its
accepted items are found by running it.
"""

from __future__ import annotations

import json
import os
import subprocess
import sys
from dataclasses import dataclass, field
from pathlib import Path
from typing import Any, Iterator, List, Optional, Tuple

from .command import (
    DONE, FAILED, PLAIN_START, REFUSED, SCRIPT_OPTION, START_OPTIONS, Start, WRONG_WORDS, begins_journal,
    begins_with_item, bytes_of, is_journal, is_script, is_text, shown, unread, without_start, wrong_words,
)
from .notation.reader import decoded, read_bytes, read_line
from .notation.tokens import NotText
from .program import REPOSITORY, words_for

JOURNAL_USAGE = """usage: hipac-tools journal JOURNAL [--until N] [--script FILE] [--checked] [--signals FILE]

Writes the script of a journal: the journal's own script, with the items of the accepted later lines. They are found by
running the journal. With --until it ends with unit N. For JOURNAL `-` is standard input. If the journal doesn't begin
with its script, --script names the file that has it; if it does, places are then those in the file. A journal of a
checked rule base is run with --checked, or with --signals and its file.
The exit status is 0, 2 for what is no journal, 3 for wrong words, 4 where the program failed."""

SNAPSHOT_USAGE = """\
usage: hipac-tools snapshot JOURNAL [--until N] [--lose-pasts] [--script FILE] [--checked] [--signals FILE]

Writes the lines of a new rule base that stands as the journal's does: the objects, the rules' statuses and the clock.
It is a script on one line, or a journal if that is too long. Rules that would not go on as before are named, and then
nothing is written unless --lose-pasts is given. With --until it stands as after unit N. If the journal doesn't begin
with its script, --script names the file that has it. A journal of a checked rule base is run with --checked, or with
--signals and its file.
The exit status is 0, 2 for what is no journal or would differ, 3 for wrong words, 4 where the program failed."""

NO_SCRIPT = "this begins with an item, as a journal whose script is in a file: --script FILE names that"


class NoJournal(Exception):
    """The lines are no journal, or the program failed on them. `status` is the exit status."""

    def __init__(self, words: str, status: int = REFUSED):
        super().__init__(words)
        self.status = status


@dataclass(frozen=True)
class Opening:
    """The script of a journal: its first line, or the content of a file; and how its lines are checked."""

    content: bytes
    is_text: bool
    start: Start = PLAIN_START

    @property
    def file(self) -> Optional[str]:
        return self.start.script_file

    @property
    def value(self) -> Any:
        """The script as JSON has it, or None if it is none."""
        try:
            return read_bytes(self.content).value if self.is_text else json.loads(self.content)
        except (NotText, ValueError, RecursionError):
            return None

    @property
    def show(self) -> bytes:
        """The line that asks for the state."""
        return b"show" if self.is_text else b'["show"]'

    def clock(self, moment: str) -> bytes:
        """The line that moves the clock."""
        return f"clock {moment}".encode() if self.is_text else f'["clock", {moment}]'.encode()

    def is_item(self, line: bytes) -> bool:
        """Whether an accepted line is an item, and asks for no state."""
        value = read_line(decoded(line)).value if self.is_text else json.loads(line)
        return bool(value[0] != "show")


@dataclass
class Ran:
    """A journal that was run: its script, its accepted items, and the report on all of them with trees."""

    opening: Opening
    items: List[bytes] = field(default_factory=list)
    report: List[str] = field(default_factory=list)

    @property
    def script_text(self) -> str:
        """The script with the items: as text the lines themselves, as JSON an item to a line."""
        if self.opening.is_text:
            parts = [self.opening.content.removesuffix(b"\n"), *self.items]
            return b"".join(part + b"\n" for part in parts).decode("utf-8")
        value = self.opening.value
        head = {name: member for name, member in value.items() if name != "items"}
        items = ",\n".join(json.dumps(item, ensure_ascii=False)
                           for item in [*value["items"], *map(json.loads, self.items)])
        return json.dumps(head, ensure_ascii=False)[:-1] + ', "items": [\n' + items + "\n]}\n"

    @property
    def report_text(self) -> str:
        return "".join(line + "\n" for line in self.report)


def program_path() -> str:
    """The program: $HIPAC_LIVE if that is set, else `./hipac-live` at the repository's root."""
    return os.environ.get("HIPAC_LIVE") or str(REPOSITORY / "hipac-live")


def answers_to(opening: Opening, lines: List[bytes]) -> Iterator[List[str]]:
    """The answers to a script and to lines, with their trees, each a list of lines."""
    words = [program_path(), "--tree", *opening.start.checks, *words_for(opening.is_text)]
    if opening.file is not None:
        words += [SCRIPT_OPTION, os.path.abspath(opening.file)]
    sent = lines if opening.file is not None else [opening.content, *lines]
    content = b"".join(line + b"\n" for line in sent)
    ended = subprocess.run(words, input=content, capture_output=True, check=False)
    if ended.returncode not in (DONE, REFUSED):
        raise NoJournal(f"the program failed: {ended.stderr.decode('utf-8', 'replace').strip()}", FAILED)
    answer: List[str] = []
    # The report's texts have no line end that isn't escaped but the line feed.
    for line in ended.stdout.decode("utf-8").split("\n")[:-1]:
        answer.append(line)
        if line.startswith(("ok ", "refused ")):
            yield answer
            answer = []


def whole_lines(content: bytes) -> List[bytes]:
    """The lines of a journal. A last line without its line feed was cut off while it was written."""
    return content.split(b"\n")[:-1]


def divided(content: bytes, start: Start) -> Tuple[Opening, List[bytes]]:
    """The script of a journal, and its later lines."""
    lines, script_file = whole_lines(content), start.script_file
    if script_file is None:
        if begins_with_item(content):
            raise NoJournal(NO_SCRIPT)
        if b"\n" not in content or not begins_journal(content):
            raise NoJournal("the first line is no script by itself")
        return Opening(lines[0], is_text(lines[0]), start), lines[1:]
    script = bytes_of(script_file)
    opening = Opening(script, is_text(script, script_file), start)
    is_known = begins_with_item(content) or begins_journal(content)
    if is_known and opening.is_text != is_text(content):
        names = ("JSON", "text in the notation")
        raise NoJournal(f"its lines are {names[not opening.is_text]}, and {script_file} is {names[opening.is_text]}")
    if lines and begins_journal(content):
        if Opening(lines[0], opening.is_text).value != opening.value:
            raise NoJournal(f"the journal begins with another script than {script_file} has")
        return opening, lines[1:]
    if is_script(content):
        raise NoJournal(f"this is a script, and no journal for {script_file}")
    return opening, lines


def until_unit(opening: Opening, item: bytes, answer: List[str], last: int) -> Tuple[bytes, List[str]]:
    """An item and its answer, up to a unit. Only a move of the clock has several units: it then ends at that one's
    moment."""
    units = [at for at, line in enumerate(answer) if line.startswith("unit ")]
    numbers = [int(answer[at].split(" ")[1]) for at in units]
    if not numbers or numbers[-1] <= last:
        return item, answer
    stop = units[numbers.index(last) + 1]
    return opening.clock(answer[units[numbers.index(last)]].split(" ")[3]), answer[:stop]


def accepted(opening: Opening, lines: List[bytes]) -> Iterator[Tuple[bytes, List[str]]]:
    """The script and the accepted items, with the lines of their reports."""
    answers = answers_to(opening, lines)
    first = next(answers, None)
    if first is None or first[-1].startswith("refused "):
        what = "the first line" if opening.file is None else opening.file
        raise NoJournal(f"{what} is refused: {first[-1] if first else 'no answer'}")
    yield opening.content, first
    for line, answer in zip(lines, answers):
        if not answer[-1].startswith("refused ") and opening.is_item(line):
            yield line, answer


def run(content: bytes, last: Optional[int] = None, start: Start = PLAIN_START) -> Ran:
    """Runs a journal, up to a unit if one is given."""
    opening, lines = divided(content, start)
    ran, count, is_first = Ran(opening), 0, True
    for item, answer in accepted(opening, lines):
        if not is_first:
            item, answer = (item, answer) if last is None else until_unit(opening, item, answer, last)
            ran.items.append(item)
        is_first = False
        ran.report += [line for line in answer if not line.startswith("ok ")]
        count += sum(line.startswith("unit ") for line in answer)
        if last is not None and count >= last:
            break
    if last is not None and not 0 < last <= count:
        raise NoJournal(f"there is no unit {last}: the journal has {count}")
    state = list(answers_to(opening, [*ran.items, opening.show]))[-1][:-1]
    ran.report += ["final", *state, "end"]
    return ran


def run_if_one(content: bytes, start: Start = PLAIN_START) -> Optional[Ran]:
    """Runs what is given in place of a script, if it is a journal: so it is if it has its script in a file."""
    if start.script_file is None and begins_with_item(content):
        raise NoJournal(NO_SCRIPT)
    is_one = start.script_file is not None or is_journal(content, bool(start.checks))
    return run(content, start=start) if is_one else None


@dataclass(frozen=True)
class Words:
    """The command line of both words."""

    journal: str
    until: Optional[int] = None
    lose_pasts: bool = False
    start: Start = PLAIN_START


def words_of(arguments: List[str]) -> Optional[Words]:
    """The words in any order; None if they are wrong."""
    left, start = without_start(arguments)
    until, lose_pasts = None, False
    names: List[str] = []
    while left:
        word = left.pop(0)
        if word == "--until" and left and left[0].isascii() and left[0].isdigit():
            until = int(left.pop(0))
        elif word == "--lose-pasts":
            lose_pasts = True
        elif word.startswith("--"):
            return None
        else:
            names.append(word)
    return Words(names[0], until, lose_pasts, start) if len(names) == 1 else None


def main(arguments: List[str]) -> int:
    """The word `journal`."""
    return _main("journal", JOURNAL_USAGE, arguments, lambda words, ran: sys.stdout.write(ran.script_text))


def main_snapshot(arguments: List[str]) -> int:
    """The word `snapshot`."""
    return _main("snapshot", SNAPSHOT_USAGE, arguments, _write_snapshot)


def _write_snapshot(words: Words, ran: Ran) -> None:
    client, opening = _client(), ran.opening
    given = {"rules" if opening.is_text else "script": opening.content if opening.file is None else Path(opening.file)}
    try:
        with client.Base(**given, by="program", program=[program_path()]) as base:
            base.replay(ran.items)
            lines = base.snapshot(lose_pasts=words.lose_pasts)
    except client.SnapshotFault as fault:
        raise NoJournal(f"{fault}; with --lose-pasts it is written all the same") from None
    sys.stdout.buffer.write(b"".join(line + b"\n" for line in lines))


def _client() -> Any:
    """The client for Python, which stands beside the tools in the repository."""
    sys.path.insert(0, str(Path(REPOSITORY, "clients", "python")))
    import hipac  # pylint: disable=import-outside-toplevel

    return hipac


def _main(word: str, usage: str, arguments: List[str], write: Any) -> int:
    if arguments in (["--help"], ["-h"]):
        print(usage)
        return DONE
    words = words_of(arguments)
    if words is None or (words.lose_pasts and word == "journal"):
        options = ["--until", *START_OPTIONS] + (["--lose-pasts"] if word == "snapshot" else [])
        return wrong_words(word, usage, arguments, options)
    try:
        write(words, run(bytes_of(words.journal), words.until, words.start))
    except OSError as fault:
        print(f"{word}: {unread(fault, words.journal)}", file=sys.stderr)
        return WRONG_WORDS
    except NoJournal as fault:
        print(f"{word}: {shown(words.journal)}: {fault}", file=sys.stderr)
        return fault.status
    return DONE
