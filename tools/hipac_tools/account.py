"""A script with its report, and the reasons for the report's nodes.

The reasons come from the course (`course.py`), whose report must be the program's line by line. If the script does more
than the course follows, `derived` gives the reasons that the report's tree alone shows, and `doubt` says so.
"""

from __future__ import annotations

from dataclasses import dataclass, field
from itertools import zip_longest
from typing import Any, Dict, Iterable, List, Optional, Set, Tuple

from . import journal, language, pasts, program, report, rulebase
from .command import DIFFERENT, FAILED, PLAIN_START, REFUSED, Start, WRONG_WORDS
from .course import Course, STEPS, TooLong
from .notes import Note, Signal
from .pasts import Hearing
from .places import Places
from .notation.tokens import NotText
from .positions import NotJson
from .report import Act, Fire, Operation, Report
from .values import Primitive

TOO_LONG = "The script does more than is followed here"


class NoAccount(Exception):
    """There is nothing to explain: the script is refused, the report isn't one, or it isn't the one that following the
    script gives. `status` is the exit status."""

    def __init__(self, words: str, status: int):
        super().__init__(words)
        self.status = status


@dataclass
class Account:
    """`heard` are the hearings of the rules that were watched."""

    base: rulebase.RuleBase
    report: Report
    places: Places
    doubt: Optional[str] = None
    heard: Dict[str, List[Hearing]] = field(default_factory=dict)

    @property
    def rules(self) -> Dict[str, rulebase.Rule]:
        return {rule.name: rule for rule in self.base.rules}

    def mode_of_action(self, rule: str) -> str:
        """The mode of a rule's action. Of a script that is too long to follow the report may name other rules."""
        return self.rules[rule].ca if rule in self.rules else "not immediate"


def account_of(script_bytes: bytes, report_text: Optional[str] = None, watch: Iterable[str] = (),
               steps: int = STEPS, start: Start = PLAIN_START) -> Account:
    """Runs the program if no report is given, reads the report, and notes why things happened in it. A journal is
    explained as the script of its accepted lines; its own script may be in a file."""
    is_own = report_text is None
    if report_text is None:
        script_bytes, report_text = _run(script_bytes, start)
    try:
        text = script_bytes.decode("utf-8")
        base, places = rulebase.read(text), Places(text)
        found = report.read(report_text)
    except (UnicodeDecodeError, rulebase.Refused, NotJson, NotText):
        raise NoAccount("this is no script; `hipac-tools check` says more", REFUSED)
    except report.ReportFault as fault:
        raise NoAccount(f"the report can't be read: {fault}", REFUSED)
    account = Account(base, found, places)
    try:
        course = Course(base, [name for name in watch if name in account.rules], steps)
        followed = course.report()
    except TooLong:
        return derived(account, TOO_LONG, is_own)
    except (LookupError, TypeError, ValueError, AttributeError, RecursionError) as fault:
        # A script that the program would refuse, with a report given for it; or a fault of the course.
        raise _different(is_own, f"following the script ends with {type(fault).__name__}")
    if followed != found:
        raise _how_different(followed, found, is_own)
    return Account(base, followed, places, None, course.heard)


def _how_different(followed: Report, found: Report, is_own: bool) -> NoAccount:
    if report.write(found) == report.write(followed, trees=False):
        return NoAccount("the report has no trees: make it with ./hipac --tree", REFUSED)
    lines = zip_longest(report.write(found).split("\n"), report.write(followed).split("\n"), fillvalue="")
    number, one, other = next((number, *pair) for number, pair in enumerate(lines, 1) if pair[0] != pair[1])
    return _different(is_own, f"line {number} is `{one.strip()}`, and by following the script `{other.strip()}`")


def _different(is_own: bool, where: str) -> NoAccount:
    if is_own:
        return NoAccount(f"the tools follow this script otherwise than the program runs it: {where}. This is a fault "
                         "of the tools or of the program; please report it with the script", DIFFERENT)
    return NoAccount(f"the report isn't this script's: {where}", DIFFERENT)


def _run(script_bytes: bytes, start: Start) -> Tuple[bytes, str]:
    """The script, and the program's report on it."""
    try:
        ran = journal.run_if_one(script_bytes, start)
    except journal.NoJournal as fault:
        raise NoAccount(str(fault), fault.status) from None
    if ran is not None:
        return ran.script_text.encode(), ran.report_text
    ended = program.run_script(script_bytes, ["--tree"])
    if ended.status == REFUSED:
        raise NoAccount(f"the script is {ended.output.strip()}; `hipac-tools check` says more", REFUSED)
    if ended.status != 0:
        status = ended.status if ended.status in (WRONG_WORDS, FAILED) else FAILED
        raise NoAccount(f"the program ended with status {ended.status}: {ended.errors.strip()}", status)
    return script_bytes, ended.output


def derived(account: Account, doubt: str, is_own: bool) -> Account:
    """The report with the notes that its tree alone gives: the parents of nodes, and plain triggers if the report is
    certainly the script's own."""
    fired = _fired_by_statements(account.base)
    plain = {rule.name: rule.event for rule in account.base.rules
             if is_own and language.has_one_part(rule.event) and rule.name not in fired}
    closed = {rule.name for rule in account.base.rules if rule.is_closed}
    for unit in account.report.units:
        for transaction in unit.transactions:
            transaction.note = Note(None, unit=unit.number)
            _derive(transaction, plain)
            _derive_vetoes(transaction, closed)
    account.doubt = doubt
    return account


def _fired_by_statements(base: rulebase.RuleBase) -> Set[str]:
    """The rules that some statement `fire` of the script names."""
    bodies = [rule.action for rule in base.rules] + [item[1] for item in base.items if item[0] == "tx"]
    return {statement[1] for body in bodies for statement in language.statements(body) if statement[0] == "fire"}


def _derive(holder: Any, plain: Dict[str, List[Any]]) -> None:
    """The first immediate firing of a plain rule after an operation that its event matches is that operation's: if
    the rule weren't enabled there, no later signal could trigger it without an operation on a rule between."""
    last: Optional[Operation] = None
    fired: List[str] = []
    for node in holder.items:
        node.note = Note(holder)
        if isinstance(node, Operation):
            last, fired = node, []
        elif isinstance(node, Fire) and node.mode == "immediate":
            if last is not None and node.rule not in fired and _matches(plain.get(node.rule), last):
                node.note.trigger = Signal(Primitive(last.verb, last.name, last.key), holder, "", 0, last)
            fired.append(node.rule)
        if hasattr(node, "items"):
            _derive(node, plain)
            if any(isinstance(inner, Operation) and not inner.on_object for inner in report.walk(node)):
                last = None


def _derive_vetoes(transaction: Any, closed: Set[str]) -> None:
    """The firings of closed rules that vetoed because they failed: all that did, but for those that passed on a veto or
    vetoed by a statement."""
    for node in report.walk(transaction):
        if isinstance(node, (Fire, Act)) and node.rule in closed:
            is_fault = isinstance(node, Fire) and node.condition.startswith("fault ")
            node.note.vetoed_by_failing = is_fault or node.end.cause not in (None, "A9")


def _matches(event: Optional[List[Any]], operation: Operation) -> bool:
    if event is None or not operation.on_object:
        return False
    primitive = Primitive(operation.verb, operation.name, operation.key)
    return pasts.mentions(event, primitive)
