"""Shared by the words of the command line: exit statuses, the bytes of files, what is wrong with the words."""

from __future__ import annotations

import json
import os
import re
import sys
from dataclasses import dataclass
from typing import BinaryIO, Callable, Iterable, Optional, TypeVar

from .near import nearest
from .notation.reader import decoded, read_bytes, read_line
from .notation.tokens import NotText
from .positions import Node

Text = TypeVar("Text", str, bytes)

DONE, REFUSED, WRONG_WORDS, FAILED, DIFFERENT = 0, 2, 3, 4, 5
"""The program's statuses, which the words give too: all is well, a script that is no script, words that are wrong or a
file that can't be read, a fault of the program or of a device. The last is of the tools alone: a report differs from
the one that they find by following the script."""

STANDARD_INPUT = "-"

MOST_BYTES = 1_048_576
"""So many bytes may a script have."""

SCRIPT_OPTION, CHECKED_OPTION, SIGNALS_OPTION = "--script", "--checked", "--signals"
START_OPTIONS = (SCRIPT_OPTION, CHECKED_OPTION, SIGNALS_OPTION)
"""Words of ./hipac-live: the file of a journal's script, and how its lines were checked. Whoever takes a journal takes
these options."""

MOST_REPORT_BYTES = 1 << 28
"""So many bytes of a report are read. A report may be much longer than its script."""


def bytes_of(name: str, most: int = MOST_BYTES) -> bytes:
    """A file's bytes, or those of standard input: all, or one more than the most. So a device that never ends isn't
    read to its end. A journal is read whole."""
    if name == STANDARD_INPUT:
        return _read_script(sys.stdin.buffer, most)
    with open(name, "rb") as file:
        return _read_script(file, most)


TEXT_SUFFIX, JSON_SUFFIX = ".rules", ".json"
BEGINS_TEXT = re.compile(rb"\s*[A-Za-z#]")


def is_text(content: bytes, name: str = "") -> bool:
    """Whether a script is text in the notation, and not JSON: by the name of its file, else by its first character."""
    if name.endswith((TEXT_SUFFIX, JSON_SUFFIX)):
        return name.endswith(TEXT_SUFFIX)
    return BEGINS_TEXT.match(content) is not None


def is_journal(content: bytes, is_checked: bool = False) -> bool:
    """Whether these are lines of which the first is a script by itself. A text may also be on several lines, and then
    isn't a journal: in one the next line is an item, and the lines together are no script, or mean the same."""
    later = content.partition(b"\n")[2].strip()
    if not later or not begins_journal(content):
        return False
    if not is_text(content):
        return True
    next_line = later.partition(b"\n")[0]
    return is_read(read_line, decoded(next_line)) and (is_checked or not is_read(read_bytes, content))


def begins_journal(content: bytes) -> bool:
    """Whether the first line is a script by itself."""
    first = content.partition(b"\n")[0]
    return is_script(first)


def begins_with_item(content: bytes) -> bool:
    """Whether the first line is an item, or `show`: so begins a journal whose script is in a file."""
    first = content.lstrip().partition(b"\n")[0]
    if is_text(first):
        return is_read(read_line, decoded(first))
    try:
        value = json.loads(first)
    except (ValueError, RecursionError):
        return False
    return isinstance(value, list) and value[:1] in (["tx"], ["clock"], ["show"])


def is_script(content: bytes) -> bool:
    """Whether all this is a script as it is written, on any number of lines."""
    if is_text(content):
        return is_read(read_bytes, content)
    try:
        return isinstance(json.loads(content), dict)
    except (ValueError, RecursionError):
        return False


def is_read(read: Callable[[Text], Node], text: Text) -> bool:
    """Whether a reader of the notation takes a text."""
    try:
        read(text)
    except NotText:
        return False
    return True


def _read_script(file: BinaryIO, most: int) -> bytes:
    content = _read(file, most)
    if len(content) > most and (is_journal(content) or begins_with_item(content)):
        content += _read(file, MOST_REPORT_BYTES)
    return content


def _read(file: BinaryIO, most: int) -> bytes:
    """Reads in pieces, since a pipe may give fewer bytes at once than it has."""
    pieces, left = [], most + 1
    while left > 0:
        piece = file.read(min(left, 1 << 20))
        if not piece:
            break
        pieces.append(piece)
        left -= len(piece)
    return b"".join(pieces)


def shown(name: str) -> str:
    """A file as messages name it."""
    return "standard input" if name == STANDARD_INPUT else name


def unread(fault: OSError, name: str) -> str:
    """The file that can't be read, and why. The name is for standard input, which has none of its own."""
    return f"{fault.filename or shown(name)}: {fault.strerror or fault}"


@dataclass(frozen=True)
class Start:
    """How the rule base of a journal was started: the file of its script, if it had one, and whether it was checked,
    perhaps by a file of signals."""

    script_file: Optional[str] = None
    is_checked: bool = False
    signals: Optional[str] = None

    @property
    def checks(self) -> list[str]:
        """The words by which the program checks the lines."""
        words = [CHECKED_OPTION] if self.is_checked else []
        return words if self.signals is None else [*words, SIGNALS_OPTION, os.path.abspath(self.signals)]


PLAIN_START = Start()


def without_start(arguments: Iterable[str]) -> tuple[list[str], Start]:
    """The words without those of a start, and what they say. An option without its file stays, and is then one too
    many."""
    words, script_file = _without_file(list(arguments), SCRIPT_OPTION)
    words, signals = _without_file(words, SIGNALS_OPTION)
    left = [word for word in words if word != CHECKED_OPTION]
    return left, Start(script_file, len(left) < len(words), signals)


def _without_file(words: list[str], option: str) -> tuple[list[str], Optional[str]]:
    if option not in words[:-1]:
        return words, None
    at = words.index(option)
    return words[:at] + words[at + 2:], words[at + 1]


def wrong_words(word: str, usage: str, arguments: Iterable[str] = (), known: Iterable[str] = ()) -> int:
    """Says that the words are wrong, and returns the status for it. An unknown option among them is named, with the
    known one that is nearest to it."""
    option = unknown_option(arguments, known)
    if option is not None:
        meant = nearest(option, [*known, "--help"])
        question = f": did you mean `{meant}`?" if meant else ""
        print(f"{word}: there is no option `{option}`{question}\n", file=sys.stderr)
    print(usage, file=sys.stderr)
    return WRONG_WORDS


def unknown_option(arguments: Iterable[str], known: Iterable[str] = ()) -> Optional[str]:
    """The first word that looks like an option and is none; `-` alone is standard input."""
    options = (word for word in arguments if word.startswith("-") and word != STANDARD_INPUT)
    return next((word for word in options if word not in known), None)


def write_file(word: str, name: str, content: bytes) -> int:
    """Writes a file that the words name, and returns the status: if the file can't be opened, the words are wrong; if
    it can't be written, the device has failed."""
    status = WRONG_WORDS
    try:
        with open(name, "wb") as file:
            status = FAILED
            file.write(content)
    except OSError as fault:
        print(f"{word}: {name}: {fault.strerror}", file=sys.stderr)
        return status
    return DONE
