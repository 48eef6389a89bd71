"""The word `faults`: lists the conditions and actions of a script's run that ended with a fault."""

from __future__ import annotations

import sys
from typing import Iterator, List, Optional, Set, Tuple

from . import reasons
from .account import Account, NoAccount, account_of
from .command import (
    DONE, REFUSED, START_OPTIONS, bytes_of, shown, unknown_option, unread, without_start, wrong_words,
)
from .faulting import Fault, consequence, faults_in, vetoes
from .notes import undone_by
from .report import Transaction, Unit
from .why import WIDTH, Lines, head_of
from .wording import SOME, counted, sentence, some_of

USAGE = """usage: hipac-tools faults SCRIPT [--script FILE] [--checked] [--signals FILE]

Lists the conditions and actions that ended with a fault, unit by unit: the cause, the place, and what triggered the
rule. Of a rule that vetoes it says that it didn't. `-` is standard input. SCRIPT may be a journal; if its script is in
a file, --script names that, and it is run with --checked and --signals as its rule base was.
The exit status is 0, 2 for a script that is refused, 3 for wrong words, 4 where the program failed, 5 where the program
gives another report than following the script does."""


TELL = reasons.Teller()


def main(arguments: List[str]) -> int:
    if arguments in (["--help"], ["-h"]):
        print(USAGE)
        return DONE
    words, start = without_start(arguments)
    if len(words) != 1 or unknown_option(words):
        return wrong_words("faults", USAGE, arguments, START_OPTIONS)
    name = words[0]
    try:
        text = list_of_faults(account_of(bytes_of(name), start=start))
    except NoAccount as fault:
        print(f"faults: {shown(name)}: {fault}", file=sys.stderr)
        return fault.status
    except OSError as fault:
        print(f"faults: {unread(fault, name)}", file=sys.stderr)
        return REFUSED
    sys.stdout.buffer.write(text.encode("utf-8"))
    return DONE


def list_of_faults(account: Account) -> str:
    """All faults of a script's run, and how many there are."""
    lines = Lines(WIDTH, account.places)
    if account.doubt is not None:
        lines.say(0, f"{account.doubt}: only what the report itself tells is said here.")
    number = 0
    units: Set[int] = set()
    silent: Set[str] = set()
    for unit, transaction, fault in all_faults(account):
        if transaction is not None:
            lines.say(0, head_of(unit, transaction))
        number, units = number + 1, units | {unit.number}
        lines.say(1, sentence(f"{fault.what} ended with a fault ({fault.cause}): {fault.words}{fault.place}"))
        lines.say_all(2, what_became(account, fault) + TELL.origins(fault.node))
        if vetoes(account, fault.node.rule) and not undone_by(fault.node):
            silent.add(fault.node.rule)
    counts = counted(len(account.report.units), "unit")
    if not number:
        lines.say(0, f"no condition and no action ended with a fault in {counts}")
        return lines.text()
    lines.say(0, f"{counted(number, 'fault')} in {len(units)} of {counts}")
    if silent:
        told = some_of(sorted(silent), SOME.lines)
        lines.say(0, f"Rules that were to veto and didn't: {told}; docs/SCRIPT.md, \"Guards\", says how they do.")
    return lines.text()


def all_faults(account: Account) -> Iterator[Tuple[Unit, Optional[Transaction], Fault]]:
    """Each fault with its unit, and with its transaction if it is the first one there."""
    for unit in account.report.units:
        for transaction in unit.transactions:
            for at, fault in enumerate(faults_in(transaction)):
                yield unit, transaction if at == 0 else None, fault


def what_became(account: Account, fault: Fault) -> List[str]:
    """What followed from a fault, if that wasn't undone."""
    undone = reasons.undone_words(fault.node)
    if fault.node.note.vetoed_by_failing:
        return [consequence(account, fault)[:-1] + f": {undone}."]
    return [f"That was undone, as {undone}."] if undone else [consequence(account, fault)]
