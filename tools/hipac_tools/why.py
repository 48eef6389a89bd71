"""The word `why`: says in a terminal why a unit ended as it did, or why a rule acted in it or didn't."""

from __future__ import annotations

import sys
import textwrap
from collections import Counter
from typing import Any, Dict, List, Optional

from . import fates, faulting, reasons
from .account import Account, NoAccount, account_of
from .answers import RuleAnswer, Silence, rule_answer, status_by_report
from .command import (
    DONE, REFUSED, START_OPTIONS, WRONG_WORDS, bytes_of, unknown_option, without_start, wrong_words,
)
from .course import STEPS
from .language import DETACHED
from .near import nearest
from .notation.event_texts import event_text
from .notes import NO_ABORT
from .pasts import Past
from .places import Places
from .reasons import STATUS_WORDS, Teller
from .report import Act, Fire, Sub, Transaction, Unit, walk
from .wording import ALL, Most, SOME, some_of, times

USAGE = """usage: hipac-tools why SCRIPT UNIT [RULE] [--all] [--script FILE] [--checked] [--signals FILE]

Says why the unit of that number ended as it did: what aborted, by which cause, and what led there. With a rule it says
what the rule did in that unit and why, or why it wasn't triggered. Units are numbered from 1, as in the report; `-` is
standard input. Of long lists only the first things are told; with --all it is everything. SCRIPT may be a journal; if
its script is in a file, --script names that, and it is run with --checked and --signals as its rule base was.
The exit status is 0, 2 for a script that is refused, 3 for wrong words, 4 where the program failed, 5 where the program
gives another report than following the script does."""

EVERYTHING = "--all"
WIDTH = 110


class WrongWords(Exception):
    """Words of the command line that name no unit or no rule of the script."""


def main(arguments: List[str]) -> int:
    if arguments in (["--help"], ["-h"]):
        print(USAGE)
        return DONE
    most = ALL if EVERYTHING in arguments else SOME
    words, start = without_start(word for word in arguments if word != EVERYTHING)
    if len(words) not in (2, 3) or unknown_option(words):
        return wrong_words("why", USAGE, arguments, [EVERYTHING, *START_OPTIONS])
    if not words[1].isdigit():
        print(f"why: {words[1]} is no unit's number; the words are SCRIPT UNIT [RULE]", file=sys.stderr)
        return WRONG_WORDS
    name, number = words[0], int(words[1])
    try:
        account = account_of(bytes_of(name), watch=words[2:], start=start)
        text = explained(account, number, words[2] if len(words) == 3 else None, most)
    except (OSError, NoAccount) as fault:
        print(f"why: {name}: {fault}", file=sys.stderr)
        return fault.status if isinstance(fault, NoAccount) else REFUSED
    except WrongWords as fault:
        print(f"why: {fault}", file=sys.stderr)
        return WRONG_WORDS
    sys.stdout.buffer.write(text.encode("utf-8"))
    return DONE


def explanation(script_bytes: bytes, number: int, rule: Optional[str] = None, most: Most = SOME, steps: int = STEPS,
                width: int = WIDTH) -> str:
    """The whole answer for a script as one text."""
    account = account_of(script_bytes, watch=[] if rule is None else [rule], steps=steps)
    return explained(account, number, rule, most, width)


def explained(account: Account, number: int, rule: Optional[str] = None, most: Most = SOME, width: int = WIDTH) -> str:
    """The whole answer as one text, its lines folded at a width."""
    if not 1 <= number <= len(account.report.units):
        raise WrongWords(f"there is no unit {number}; the last one is unit {len(account.report.units)}")
    if rule is not None and rule not in account.rules:
        meant = nearest(rule, account.rules)
        which = f"did you mean {meant}?" if meant else f"the rules are {', '.join(account.rules)}"
        raise WrongWords(f"there is no rule {rule}; {which}")
    unit = account.report.units[number - 1]
    lines = Lines(width, account.places, most)
    if account.doubt is not None:
        lines.say(0, f"{account.doubt}: only what the report itself tells is said here.")
    if rule is None:
        UnitText(account, unit, lines).write()
    else:
        RuleText(account, rule_answer(account, unit, rule, most.candidates), lines).write()
    return lines.text()


class Lines:
    """Lines of text, folded and indented. They name places of the script by line and column."""

    def __init__(self, width: int, places: Places, most: Most = SOME) -> None:
        self.width = width
        self.places = places
        self.most = most
        self.lines: List[str] = []

    def say(self, level: int, words: str) -> None:
        lead = "  " * level
        self.lines += textwrap.wrap(self.places.told(words), self.width, initial_indent=lead,
                                    subsequent_indent=lead + "  ", break_long_words=False, break_on_hyphens=False)

    def say_all(self, level: int, sentences: List[str]) -> None:
        for sentence in sentences:
            self.say(level, sentence)

    def some(self, things: List[Any]) -> List[Any]:
        """The first of many things."""
        return things if len(things) <= self.most.lines else things[:int(self.most.lines)]

    def say_more(self, level: int, things: List[Any], what: str = "") -> None:
        """How many of many things were left out."""
        if len(things) > self.most.lines:
            self.say(level, f"and {len(things) - self.most.lines} more{what}")

    def text(self) -> str:
        """All lines; if the places aren't those of the file, the last one says whose they are."""
        if self.places.note is not None:
            self.say(0, f"({self.places.note})")
        return "\n".join(self.lines) + "\n"


def head_of(unit: Unit, transaction: Transaction) -> str:
    if transaction.rule is not None:
        return f"{transaction.mode} {transaction.rule} {transaction.end}"
    moment = "" if unit.moment is None else f" time {unit.moment}"
    return f"unit {unit.number}{moment} {transaction.end}"


class UnitText:
    """Why a unit and the transactions of its cascade ended as they did."""

    def __init__(self, account: Account, unit: Unit, lines: Lines):
        self.account = account
        self.unit = unit
        self.lines = lines
        self.tell = Teller(lines.most)

    def write(self) -> None:
        for transaction in self.unit.transactions:
            self.lines.say(0, head_of(self.unit, transaction))
            self._transaction(transaction)
        for transaction in self.unit.transactions:
            for dropped in transaction.note.dropped:
                if dropped.mode in DETACHED and dropped.why != NO_ABORT:
                    self.lines.say(0, f"{dropped.mode} {dropped.rule} dropped")
                    self.lines.say_all(1, self.tell.dropped(dropped, f"Rule {dropped.rule}"))

    def _transaction(self, transaction: Transaction) -> None:
        say = self.lines.say
        self.lines.say_all(1, faulting.leading_sentences(self.account, transaction, self.lines.most))
        if transaction.rule is not None:
            self._task(transaction)
        elif transaction.end.committed:
            say(1, "All of its own statements ran." if self.unit.moment is None else "It ran to its end.")
        if not transaction.end.committed:
            self.lines.say_all(1, self._new_in_chain(transaction, transaction))
        self._inner(transaction)
        self._rules(transaction)

    def _rules(self, transaction: Transaction) -> None:
        """The fates of the rules within a transaction. What it detached is explained separately, except for
        exclusive tasks that no abort released, for which there is nothing more to say."""
        tasks = Counter(fates.line_of(node) for node in walk(transaction)
                        if isinstance(node, (Fire, Act)) and node is not own_task(transaction))
        tasks.update(fates.dropped_line(one) for one in transaction.note.dropped
                     if one.mode not in DETACHED or one.why == NO_ABORT)
        if tasks:
            self.lines.say(1, "Rules:")
            self.lines.say_all(2, self.lines.some(often(tasks)))
            self.lines.say_more(2, often(tasks))
        is_alone = len(self.unit.transactions) == 1 and not transaction.note.dropped
        if not tasks and is_alone and transaction.end.committed and self.account.doubt is None:
            self.lines.say(1, "No rule was triggered.")

    def _task(self, transaction: Transaction) -> None:
        """What triggered a transaction of the cascade, and how its one task went. A veto is explained as the abort."""
        note, task = transaction.note, own_task(transaction)
        self.lines.say(1, f"Rule {transaction.rule} was {self.tell.trigger(note.trigger, note.occurrence)}.")
        if isinstance(task, Fire) and task.condition != "satisfied":
            self.lines.say(1, " ".join(self.tell.condition(task)))
        if task.end.cause != "A9":
            self.lines.say(1, reasons.action_sentence(task, self.account.mode_of_action(task.rule)))

    def _inner(self, transaction: Transaction) -> None:
        """The parts that aborted by themselves while the transaction continued. A veto that aborts several nodes at
        once is explained for the outermost."""
        own = own_task(transaction)
        aborted = [node for node in walk(transaction) if isinstance(node, (Sub, Fire, Act)) and not node.end.committed
                   and not is_part_of_veto(node) and not (node is own and node.end.cause != "A9")]
        for node in self.lines.some(aborted):
            self.lines.say(1, f"Within it {reasons.name_of(node)} {node.end}:")
            self.lines.say_all(2, self._new_in_chain(node, transaction))
        self.lines.say_more(1, aborted, " parts aborted within it")

    def _new_in_chain(self, node: Any, transaction: Transaction) -> List[str]:
        """What led to an abort, without what was already said about the origin of a cascade's transaction."""
        sentences, own = self.tell.chain(node), own_task(transaction)
        if own is not None:
            for who in ("It", f"Rule {own.rule}"):
                known = self.tell.origins(own, who)
                if sentences[-len(known):] == known:
                    return sentences[:-len(known)]
        return sentences


def own_task(transaction: Transaction) -> Any:
    """The task of a transaction of a cascade; None for a unit's own transaction."""
    return None if transaction.rule is None else transaction.items[0]


def is_part_of_veto(node: Any) -> bool:
    """Whether a veto only passed through a node, on its way to the transaction that it aborts."""
    if node.end.cause != "A9":
        return False
    stop, around = node.note.stop, node.note.parent
    if stop is None or around.note.stop is None:
        return around.end == node.end if stop is None else stop.firing is None
    return stop.firing is None or around.note.stop.firing is stop.firing


class RuleText:
    """Why a rule fired in a unit, or why it didn't."""

    def __init__(self, account: Account, answer: RuleAnswer, lines: Lines):
        self.account = account
        self.answer = answer
        self.lines = lines
        self.tell = Teller(lines.most)

    def write(self) -> None:
        answer, lines = self.answer, self.lines
        verdict = fates.verdict([node for _, node in answer.tasks], answer.dropped, f"in unit {answer.unit.number}")
        lines.say(0, f"rule {answer.rule} {verdict}")
        for transaction, node in lines.some(answer.tasks):
            self._firing(transaction, node)
        lines.say_more(1, answer.tasks)
        for one in lines.some(answer.dropped):
            lines.say_all(1, self.tell.dropped(one))
        lines.say_more(1, answer.dropped, " were dropped")
        if answer.tasks or answer.dropped:
            self._silences(answer.missed)
        else:
            self._never()

    def _firing(self, transaction: Transaction, node: Any) -> None:
        say = self.lines.say
        say(1, f"{node}, in {reasons.name_of(transaction)}")
        if isinstance(node, Fire):
            self.lines.say_all(2, self.tell.origins(node))
            say(2, " ".join(self.tell.condition(node)))
        else:
            self.lines.say_all(2, self.tell.trigger_sentences(node, "It"))
        say(2, reasons.action_sentence(node, self.account.mode_of_action(node.rule)))
        undone = reasons.undone_words(node)
        if undone and node.items:
            say(2, f"What it did was undone, as {undone}.")

    def _silences(self, silences: List[Silence]) -> None:
        for silence in self.lines.some(silences):
            first, *others = self.tell.silence(silence, self.answer.rule)
            self.lines.say(1, first)
            self.lines.say_all(2, others)
        self.lines.say_more(1, silences)

    # If it never fired

    def _never(self) -> None:
        answer, say = self.answer, self.lines.say
        if self.account.doubt is not None:
            status = status_by_report(self.account, answer.unit, answer.rule)
            say(1, f"When the unit began it {STATUS_WORDS[status]}.")
            return say(1, f"What was signalled in the unit {reasons.UNTOLD}.")
        say(1, f"Its event is: {event_text(self.account.rules[answer.rule].event)}.")
        if not answer.silences:
            return say(1, "Nothing was signalled in that unit.")
        if answer.throughout is not None:
            return self._never_enabled(answer.throughout)
        self._silences(answer.mentioned)
        if not answer.mentioned:
            say(1, f"Nothing of that happened. What did: {self._happened(answer.silences)}.")

    def _never_enabled(self, past: Past) -> None:
        answer, undone = self.answer, self.answer.undone_operation
        self.lines.say(1, f"It {STATUS_WORDS[past.status]}{reasons.since_words(past.since)}.")
        if undone is not None:
            self.lines.say(1, f"The operation {reasons.operation_words(undone)} doesn't count, as it was undone: "
                              f"{reasons.undone_words(undone)}.")
        self.lines.say(1, f"What its event waits for did happen: {self._happened(answer.mentioned)}."
                       if answer.mentioned else "Nothing that its event waits for happened either.")

    def _happened(self, silences: List[Silence]) -> str:
        """What was signalled, each with how often."""
        return some_of(often(Counter(str(silence.signal) for silence in silences)), self.lines.most.lines)


def often(counts: Dict[str, int]) -> List[str]:
    """Things with the number of times they occurred, if that is more than once."""
    return [thing + ("" if number == 1 else f" ({times(number)})") for thing, number in counts.items()]
