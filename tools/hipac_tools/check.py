"""`check SCRIPT ..`: says whether the program accepts a script, and if it doesn't, where and why.

The program decides. The tool reads the script a second time, in the program's order of checks, to find the place and
the message for the refusal. If its own reading has another result, it reports only the program's line.
"""

from __future__ import annotations

import re
import sys
from dataclasses import dataclass, replace
from typing import Optional, Union

from . import program
from .checking.dialect import TEXT
from .checking.excerpt import excerpt
from .checking.faults import Fault, Faulty, Note
from .checking.decided import undecided
from .checking.scope import MOST_FAULTS, Warned
from .checking.script import Script, read_script
from .command import (
    DONE, FAILED, MOST_BYTES, REFUSED, WRONG_WORDS, bytes_of, is_text, shown, unknown_option, wrong_words,
)
from .notation.reader import decoded, read_bytes
from .notation.tokens import NotText
from .proved import Proved, proved_of
from .positions import Node, NotJson, find, line_and_column, parse
from .wording import counted

USAGE = """usage: hipac-tools check [--live] [--proved] [--signals FILE] SCRIPT ..

Says of each script whether the program accepts it. Of a refused one it says where and why. A script is JSON, or text in
the notation (NAME.rules). With --live any transaction may follow the script's, as in a rule base that stays up. With
--proved it also says what ./hipac-check proves of an accepted one, and with --signals by the signatures of FILE. `-` is
standard input.
The exit status is the program's: 0 accepted, 2 refused, 3 the words are wrong, 4 the program failed."""

SIGNALS = "--signals"
OPTIONS = ("--live", "--proved", SIGNALS)
PLACE = re.compile(r"[0-9]+:[0-9]+")
"""A line and a column, as refusals of texts have them."""

MEANINGS = {
    "S1": "the script is no JSON, or no text in the notation",
    "S2": "this value has the wrong shape",
    "S3": "this number is no whole number of 64 bits with sign",
    "S4": "this name is unknown or doubled",
    "S5": "the script passes a limit",
    "S6": "this version isn't known",
}


@dataclass(frozen=True)
class Read:
    """The result of the tool's own reading: the text and its values as far as they can be read, and the faults in the
    order of checks."""

    text: str
    root: Optional[Node]
    script: Optional[Script] = None
    faults: tuple[Fault, ...] = ()

    @property
    def fault(self) -> Optional[Fault]:
        """The first fault, which is the program's refusal."""
        return self.faults[0] if self.faults else None


def main(arguments: list[str]) -> int:
    if arguments in (["--help"], ["-h"]):
        print(USAGE)
        return DONE
    names, signals = without_signals(arguments)
    names = [argument for argument in names if argument not in OPTIONS]
    if not names or unknown_option(names) or arguments[-1] == SIGNALS:
        return wrong_words("check", USAGE, arguments, OPTIONS)
    is_proved = "--proved" in arguments or signals is not None
    return max(check(name, "--live" in arguments, is_proved, signals) for name in names)


def without_signals(arguments: list[str]) -> tuple[list[str], Optional[str]]:
    """The words without the file that declares signals, and that file, if it is named."""
    if SIGNALS not in arguments:
        return arguments, None
    at = arguments.index(SIGNALS)
    return arguments[:at] + arguments[at + 2:], "".join(arguments[at + 1:at + 2])


def check(name: str, is_live: bool = False, is_proved: bool = False, signals: Optional[str] = None) -> int:
    """Checks one script, and returns the program's status; or that of wrong words, if a file of signals is refused."""
    try:
        script = bytes_of(name)
    except OSError as fault:
        print(f"{name}: {fault.strerror}", file=sys.stderr)
        return WRONG_WORDS
    is_notation = is_text(script, name)
    ended = program.run(script, program.words_for(is_notation))
    if ended.status == DONE:
        own = own_reading(script, is_notation, is_live)
        proved = proved_of(own.root.value, signals) if is_proved and own.root else None
        print("\n".join(accepted(shown(name), own, proved)))
        if signals is not None and isinstance(proved, str):
            return WRONG_WORDS
    elif ended.status == REFUSED and ended.output.startswith("refused "):
        refusal = ended.output[len("refused "):].strip()
        print("\n".join(refused(shown(name), refusal, own_reading(script, is_notation))))
    else:
        return failed(shown(name), ended)
    return ended.status


def failed(name: str, ended: program.Ended) -> int:
    """Says that the program failed; the status for it."""
    print(f"{name}: the program ended with status {ended.status}\n{ended.errors}", end="", file=sys.stderr)
    return ended.status if ended.status in (WRONG_WORDS, FAILED) else FAILED


# ---- the tool's own reading


def own_reading(script: bytes, is_notation: bool, is_live: bool = False) -> Read:
    return read_text(script, is_live) if is_notation else read(script, is_live)


def read(script: bytes, is_live: bool = False) -> Read:
    """Reads a script in JSON in the order of checks: its size, then its JSON, then its contents."""
    if len(script) > MOST_BYTES:
        return too_long()
    text = script.decode("utf-8", "replace")
    try:
        text = script.decode("utf-8")
        root = parse(text)
    except UnicodeDecodeError as fault:
        offset = len(script[:fault.start].decode("utf-8"))
        hints = ("a script is saved as UTF-8",)
        return Read(text, None, None, (Fault("S1", offset, offset + 1, "the bytes here are no UTF-8", hints),))
    except NotJson as fault:
        return Read(text, None, None, (json_fault(fault),))
    try:
        return Read(text, root, read_script(root, is_live))
    except Faulty as faulty:
        return Read(text, root, None, tuple(faulty.faults))


def read_text(script: bytes, is_live: bool = False) -> Read:
    """Reads a script in the notation in the same order. Where the path of a value would be, a refusal has its place."""
    if len(script) > MOST_BYTES:
        return too_long()
    text = decoded(script)
    try:
        root = read_bytes(script)
    except NotText as fault:
        return Read(text, None, None, (text_fault(fault, text),))
    try:
        return Read(text, root, read_script(root, is_live, TEXT))
    except Faulty as faulty:
        faults = (replace(fault, refusal=placed(fault.refusal, text, root)) for fault in faulty.faults)
        return Read(text, root, None, tuple(faults))


def too_long() -> Read:
    message = f"a script has at most {MOST_BYTES:,} bytes, and this has more"
    return Read("", None, None, (Fault("S5 size", 0, 0, message),))


def text_fault(fault: NotText, text: str) -> Fault:
    notes = () if fault.opened is None else (Note("it begins here:", fault.opened, fault.opened + 1),)
    line, column = line_and_column(text, fault.start)
    hints = (fault.hint,) if fault.hint else ()
    return Fault(f"S1 {line}:{column}", fault.start, fault.end, fault.message, hints, notes)


def placed(refusal: str, text: str, root: Node) -> str:
    """A refusal of a text's script, with the line and the column of the value in place of its path."""
    code, _, path = refusal.partition(" ")
    if not path.startswith("/"):
        return refusal
    line, column = line_and_column(text, find(root, path).node.start)
    return f"{code} {line}:{column}"


def json_fault(fault: NotJson) -> Fault:
    notes = () if fault.opened is None else (Note("it begins here:", fault.opened, fault.opened + 1),)
    return Fault("S1", fault.start, fault.end, fault.message, (fault.hint,) if fault.hint else (), notes)


# ---- messages


def accepted(name: str, own: Read, proved: Union[Proved, str, None] = None) -> list[str]:
    """The line for an accepted script, its warnings and its hints, and what is proved of it. Where that decides, the
    tool's own hints are left out."""
    if own.script is None or own.root is None:
        return [f"{name}: accepted"]
    script = own.script
    counts = ", ".join((counted(script.rules, "rule"), counted(script.classes, "class", "classes"),
                        counted(script.items, "item")))
    lines = [f"{name}: accepted ({counts})"]
    faults = [fault_of(warned) for warned in script.warnings]
    if isinstance(proved, Proved):
        faults = undecided(faults, proved, own.root)
    for word, fault in sorted(faults, key=lambda told_of: told_of[1].start):
        lines += told(name, own.text, word, fault)
    if isinstance(proved, Proved):
        lines.append(f"{name}: proved: {proved.text}")
    return lines + [f"{name}: {proved}"] * isinstance(proved, str)


def fault_of(warned: Warned) -> tuple[str, Fault]:
    """A warning or a hint, with its word."""
    node, hints = warned.place.node, tuple(warned.help.split("\n")) if warned.help else ()
    return warned.word, Fault("", node.start, node.end, warned.message, hints)


def refused(name: str, refusal: str, own: Read) -> list[str]:
    """Where and why a script is refused. The tool's own faults are reported only if the first is the program's refusal;
    the others are those that the program would find once the ones before are mended."""
    if own.fault is None or own.fault.refusal != refusal:
        return told(name, own.text, f"refused {refusal}", general_fault(refusal, own))
    return told_all(name, own)


def told_all(name: str, own: Read) -> list[str]:
    """All faults that the tool found, as far as they are told."""
    lines = [line for fault in own.faults for line in told(name, own.text, f"refused {fault.refusal}", fault)]
    if len(own.faults) == MOST_FAULTS:
        lines.append(f"{name}: these are the first {MOST_FAULTS} faults; there may be more")
    return lines


def general_fault(refusal: str, own: Read) -> Fault:
    """What can be said of a refusal from its line alone."""
    code, _, path = refusal.partition(" ")
    message = MEANINGS.get(code, "the script is refused")
    if PLACE.fullmatch(path):
        start = offset_of(own.text, *map(int, path.split(":")))
        return Fault(refusal, start, start, message)
    if own.root is None or not path.startswith("/"):
        return Fault(refusal, 0, 0, message)
    found = find(own.root, path)
    hint = () if found.exact else (f"the value at {path} isn't there; this is the nearest one round it",)
    return Fault(refusal, found.node.start, found.node.end, message, hint)


def offset_of(text: str, line: int, column: int) -> int:
    """The offset of a line and a column, both from 1."""
    return sum(len(one) + 1 for one in text.split("\n")[:line - 1]) + column - 1


def told(name: str, text: str, head: str, fault: Fault) -> list[str]:
    """A fault as compilers report it: its place and message, the line with a mark, a suggestion, and other places."""
    line, column = line_and_column(text, fault.start)
    places = [line] + [line_and_column(text, note.start)[0] for note in fault.notes]
    gutter = max(len(str(place)) for place in places) + 2
    lines = [f"{name}:{line}:{column}: {head}: {fault.message}"]
    if text:
        lines += excerpt(text, fault.start, fault.end, gutter)
    lines += [f"  {hint}" for hint in fault.hints]
    for note in fault.notes:
        lines.append(f"  {note.text}")
        lines += excerpt(text, note.start, note.end, gutter)
    return lines
