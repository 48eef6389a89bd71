"""A rule base that is asked line by line, in this process or in a program that stays up."""

from __future__ import annotations

import os
import shutil
import threading
from pathlib import Path
from typing import Any, Callable, Iterable, List, NoReturn, Optional, Sequence, Tuple, Type, TypeVar, Union

from .answers import Answer, Object, State, Unit, Value
from .errors import AnswerFault, HipacError, JournalFault, ProgramEnded, Refused, SnapshotFault, TimedOut
from .journals import Journal
from .library import Library
from .lines import Line, TransactionText
from .program import Program
from .reading import Reader, plain_unit, read_answer
from .scripts import JsonScript, Lines, Rules, Script, TextScript, lines_of
from .snapshots import snapshot_lines
from .texts import BEGINS_TEXT, form_of
from .ways import Way

# The folder above this package's: the repository's, or PREFIX/lib of what `./build --install PREFIX` has installed.
_ABOVE = Path(__file__).resolve().parents[3]


def _program() -> str:
    """The program: $HIPAC_LIVE where that is set, else the repository's launcher, the one that was installed with this
    package, or the one on the path."""
    places = [_ABOVE / "hipac-live", _ABOVE.parent / "bin" / "hipac-live"]
    found = [str(place) for place in places if place.is_file()]
    return os.environ.get("HIPAC_LIVE") or (found or [shutil.which("hipac-live") or "hipac-live"])[0]


PROGRAM: Tuple[str, ...] = (_program(),)
"""The words that start the program: $HIPAC_LIVE where that is set, else the repository's launcher, or the installed
program."""

WAYS = ("library", "program")
"""What a rule base may be asked by."""


def _first_of(journal: Journal, first: bytes, given: Optional[Lines]) -> Lines:
    """The script of a journal: that of its first line, or the given file's if it has the same."""
    kept = TextScript(first) if BEGINS_TEXT.match(first) else JsonScript(first)
    if given is None:
        return kept
    if not given.is_same(kept):
        raise JournalFault(f"{journal.path}: the journal begins with another script than the one given")
    return kept if given.is_sent else given


SomeBase = TypeVar("SomeBase", bound="Base")


class Base:
    """A rule base, in this process by the library libhipac, or in a program that stays up.

    >>> base = Base(rules='''version 1
    ... class item { stock: int }
    ... rule no_oversell on update item deferred if some item i where i.stock < 0 do { veto }
    ... transaction { install no_oversell create item(7) set stock = 3 }''')
    >>> unit = base.transaction("update item(7) set stock = $stock emit $words", stock=1, words="two less")
    >>> unit.committed, unit.emits
    (True, ['two less'])
    >>> print(base.transaction("update item(7) set stock = $stock", stock=-2))
    unit 3 aborted A9 no_oversell
    >>> base.get("item", 7)["stock"]
    1
    >>> base.close()

    It is given a `script` in JSON, and then its items are JSON (`tx`); or the `rules` as text in the notation, and then
    its items are texts (`transaction`). A text in a file is given as its `Path`.

    - `by`: `"library"` or `"program"`. All methods, answers, exceptions and journals are the same with both. A rule
      base of the library belongs to the thread that opened it, and a call of another thread is a WrongThread. Threads
      may share one of the program: each call is one line and its answer.
    - `library`: the path of the library, else `find_library` says where it is.
    - `program`: the words that start the program, else `PROGRAM`. The launcher makes it first if need be, which takes
      a minute or two. What is said on standard error is logged as warnings of "hipac".
    - `workers`: the program's, 1 to 64. The answers don't change, and the library works in the caller's thread alone.
    - `tree`: whether the units have trees.
    - `checked`: whether what could ever end with A3, A6 or A7 is refused, the script too (`Refused`, S8).
    - `signals`, of the program alone: the path of a file that declares signals; then the rule base is checked.
    - `timeout`, of the program alone: so many seconds a line and its answer may take. If they take longer, the program
      is killed, and `TimedOut` is raised. The state is lost, unless there is a journal. Starting and replaying have no
      limit.

    What a call answered has happened, and is lost with the process unless there is a journal (`recover`).
    """

    def __init__(self, script: Optional[Script] = None, *, rules: Optional[Rules] = None, by: str = "library",
                 library: Union[str, "os.PathLike[str]", None] = None, program: Optional[Sequence[str]] = None,
                 workers: Optional[int] = None, tree: bool = False, checked: bool = False,
                 signals: Union[str, "os.PathLike[str]", None] = None, timeout: Optional[float] = None):
        lines = lines_of(script, rules)
        if lines is None:
            raise TypeError("a rule base is given a script, or rules")
        if workers is not None and not 1 <= workers <= 64:
            raise ValueError(f"there are 1 to 64 workers, and not {workers}")
        if by not in WAYS:
            raise ValueError(f"a rule base is asked by {' or '.join(WAYS)}, and not by {by!r}")
        if by == "library" and (program is not None or signals is not None or timeout is not None):
            raise TypeError("program=, signals= and timeout= go with by=\"program\"")
        if by == "program" and library is not None:
            raise TypeError("library= goes with by=\"library\"")
        opening = lines.opening()
        self._lines, self._tree, self._timeout = lines, tree, timeout
        self._journal: Optional[Journal] = None
        self._ended: Optional[ProgramEnded] = None
        self.units = 0
        """How many units have run."""
        self.time = 0
        """Where the clock stands."""
        self.replayed = 0
        """How many lines of a journal were sent again, the script among them."""
        self.last_replayed: Union[Answer, Refused, None] = None
        """The answer to the last of these lines: perhaps nobody has had it yet."""
        if by == "library":
            self._way: Way = Library(library, lines.is_text, tree, checked)
        else:
            flags = [word for word, is_set in (("--tree", tree), ("--checked", checked)) if is_set]
            values = {"--workers": workers, "--signals": signals}
            words = [it for word, value in values.items() if value is not None for it in (word, str(value))]
            self._way = Program([*(program or PROGRAM), *words, *flags, *lines.words], lines.is_sent)
        try:
            with self._way.turn:
                self.opening: List[Unit] = self._exchange(opening).units
            """The units of the script's own items."""
            if by == "program" and lines.has_changed():
                raise HipacError("the file of the rules was changed while the program read it")
        except BaseException:
            self.close()
            raise

    @classmethod
    def recover(cls: Type[SomeBase], journal: Union[Journal, str, "os.PathLike[str]"],
                script: Optional[Script] = None, *, rules: Optional[Rules] = None, **options: Any) -> SomeBase:
        """The rule base of a journal, which goes on with it: each later item is in it before it is sent.

        The journal's first line is the script. An empty journal begins with the script given here, in JSON or as
        `rules`. If the journal has another script than the one given here, it is a JournalFault; white space and
        comments are no difference. A line that was in the journal and had no answer runs once, with the others;
        `last_replayed` has the answer to the last one. The options are those of a new one.
        """
        kept = journal if isinstance(journal, Journal) else Journal(journal)
        base = None
        try:
            lines = kept.lines()
            first = next(lines, None)
            given = lines_of(script, rules)
            begun: Any = given if first is None else _first_of(kept, first, given)
            if begun is None:
                raise JournalFault(f"{kept.path}: the journal is empty, and no script is given")
            base = cls(begun, **options)
            if first is None:
                kept.append(begun.opening().raw)
            else:
                base.replay(lines)
                base.replayed += 1
        except BaseException:
            if base is not None:
                base.close()
            kept.close()
            raise
        base._journal = kept
        return base

    @property
    def pid(self) -> int:
        """The number of the process in which the rules run."""
        return self._way.pid

    def transaction(self, statements: str, /, **values: Value) -> Unit:
        """Runs a transaction, of statements as text; of a rule base that was given `rules`.

        `$name` in the text stands for the value of that name: so no text that is a value needs quotes.
        """
        if not self._lines.is_text:
            raise TypeError("this rule base is given JSON: its transactions are lists (tx)")
        return self._unit(TransactionText(form_of(statements), values))

    def tx(self, body: Sequence[Any]) -> Unit:
        """Runs a transaction, a list of statements; of a rule base that was given JSON."""
        return self._unit(self._lines.item(["tx", body]))

    def clock(self, t: int) -> List[Unit]:
        """Moves the clock, and gives a unit for each moment that was due."""
        return self.item(self._lines.clock(t))

    def item(self, item: Union[Sequence[Any], str]) -> List[Unit]:
        """Runs an item of a script, and gives its units: `["tx", body]` or `["clock", t]`, or else its text."""
        return self._ask(self._lines.item(item), self._journal).units

    def show(self) -> State:
        """The objects and the rules as they are."""
        return self._ask(self._lines.show()).state

    def get(self, class_name: str, key: int) -> Optional[Object]:
        """The object as it is, or None if there is none. By the library, and with JSON, the cost doesn't grow with the
        number of objects. With texts by the program it is that of `show`, since no text asks for a part of the
        state."""
        try:
            return self._ask(self._lines.show(class_name, key)).state.find(class_name, key)
        except Refused:
            # With texts a class that there is not has no objects, whichever way they are asked for.
            if self._lines.is_text:
                return None
            raise

    def rows(self, class_name: str) -> List[Object]:
        """The objects of a class as they are, in rising key order. With JSON the cost goes with their number, with
        texts it is that of `show`."""
        return self._ask(self._lines.show(class_name)).state.all(class_name)

    def snapshot(self, script: Optional[Script] = None, *, rules: Optional[Rules] = None,
                 lose_pasts: bool = False) -> List[bytes]:
        """The lines of a journal whose rule base stands as this one does: a script, and items if it is too long.

        The new rule base has the objects, the rules' statuses and the clock's time. Its units are numbered anew. An
        enabled rule with `seq` or `closure` in its event loses its past, and one on `commit` fires once more; where
        there is such a rule, and `lose_pasts` isn't set, it is a SnapshotFault. If a script is given, in JSON or as
        `rules`, its classes and rules take the place of this one's: a rule has the status of the old one of its name,
        and the script's own items follow.
        """
        lines = lines_of(script, rules) or self._lines.without_items()
        with self._way.turn:
            self._raise_if_ended()
            state, time_now = self._exchange(self._lines.show()).state, self.time
        found = {name: it.difference() for name, it in lines.events().items() if state.rules.get(name) == "enabled"}
        differences = {name: why for name, why in found.items() if why is not None}
        if differences and not lose_pasts:
            raise SnapshotFault(differences)
        return snapshot_lines(lines, state, time_now)

    def replay(self, lines: Iterable[Union[str, bytes]]) -> None:
        """Sends the later lines of a journal (`Journal.lines`), and skips their answers and refusals."""
        for line in lines:
            raw = line.encode("utf-8") if isinstance(line, str) else line
            if b"\n" in raw:
                raise ValueError("a line has no line feed")
            kept = self._lines.kept(raw)
            with self._way.turn:
                self._raise_if_ended()
                try:
                    self.last_replayed = self._exchange(kept)
                except Refused as refused:
                    self.last_replayed = refused
                self.replayed += 1

    def close(self) -> None:
        """Ends the rule base, after the answer to a call that another thread is in. Later calls raise ProgramEnded."""
        with self._way.turn:
            if self._ended is None:
                end = self._way.end()
                self._ended = ProgramEnded(end.status, end.errors, end.why or ("" if end.status else _CLOSED))
            if self._journal is not None:
                self._journal.close()

    def __enter__(self: SomeBase) -> SomeBase:
        return self

    def __exit__(self, *_: object) -> None:
        self.close()

    def _unit(self, line: Line) -> Unit:
        """Runs a transaction."""
        with self._way.turn:
            if self._ended is not None:
                self._raise_if_ended()
            if self._timeout is not None or self._journal is not None or self._tree:
                return self._exchange(line, self._journal, self._timeout).units[0]
            # What most calls come to, in fewer steps.
            try:
                told = line.ask(self._way)
                unit = None if told is None else plain_unit(told, self.units + 1)
                if unit is not None:
                    self.units += 1
                    return unit
                answer = self._answer(line, told)
            except BaseException as fault:
                self._give_up(fault, False, False)
        if isinstance(answer, Refused):
            raise line.explain(answer)
        return answer.units[0]

    def _ask(self, line: Line, journal: Optional[Journal] = None) -> Answer:
        with self._way.turn:
            if self._ended is not None:
                self._raise_if_ended()
            return self._exchange(line, journal, self._timeout)

    def _raise_if_ended(self) -> None:
        """An exception of its own for each call, whose line isn't kept: no such line gets into the journal."""
        if self._ended is not None:
            raise type(self._ended)(self._ended.status, self._ended.errors, self._ended.why)

    def _exchange(self, line: Line, journal: Optional[Journal] = None, timeout: Optional[float] = None) -> Answer:
        """Sends a line and reads its answer. Where that is broken off in any way, the rule base is of no more use."""
        is_kept = False
        alarm = None if timeout is None else _Alarm(timeout, self._way.kill)
        try:
            if journal is not None:
                journal.append(line.raw)
                is_kept = True
            answer = self._answer(line, line.ask(self._way))
        except JournalFault:
            # The line is neither in the journal nor sent.
            raise
        except BaseException as fault:
            self._give_up(fault, alarm is not None and alarm.is_late, is_kept)
        finally:
            if alarm is not None:
                alarm.cancel()
        if isinstance(answer, Refused):
            raise line.explain(answer)
        return answer

    def _answer(self, line: Line, told: Optional[bytes]) -> Union[Answer, Refused]:
        """The answer to a line, which is told already or is still to be read."""
        reader = Reader(self.units, self._tree, line.is_text)
        answer = self._read(reader) if told is None else read_answer(told, reader)
        if isinstance(answer, Answer):
            self._take_in(line, answer)
        return answer

    def _read(self, reader: Reader) -> Union[Answer, Refused]:
        """Reads an answer line by line."""
        while True:
            told = self._way.read()
            if told is None:
                raise EOFError
            answer = reader.take(told)
            if answer is not None:
                return answer

    def _take_in(self, line: Line, answer: Answer) -> None:
        """Notes how matters stand, if what was answered is what was asked for."""
        asked = line.word
        if (asked == "tx" and len(answer.units) != 1) or (asked == "show" and answer.units):
            raise AnswerFault(f"the answer to {asked!r} has {len(answer.units)} units")
        if asked != "show" and answer.state != State():
            raise AnswerFault(f"the answer to {asked!r} is a state")
        moment = line.time()
        self.units, self.time = answer.count, self.time if moment is None else moment

    def _give_up(self, fault: BaseException, is_late: bool, is_kept: bool) -> NoReturn:
        has_gone = isinstance(fault, (EOFError, OSError))
        if not has_gone:
            self._way.kill()
        status, errors, why = self._way.end()
        if not has_gone:
            why = f"{self._way.name} was ended, as {fault!r} came before its answer"
            self._ended = ProgramEnded(status, errors, why)
            raise fault
        if is_late:
            why = f"no answer in {self._timeout} seconds; the program was killed"
            self._ended = TimedOut(status, errors, why, is_kept)
        else:
            self._ended = ProgramEnded(status, errors, why, is_kept)
        raise self._ended from None


_CLOSED = "the rule base is closed"


class _Alarm:
    """Kills the program after so many seconds, and notes that it was too late."""

    def __init__(self, seconds: float, kill: Callable[[], None]):
        self.is_late = False
        self._kill = kill
        self._timer = threading.Timer(seconds, self._expire)
        self._timer.start()

    def _expire(self) -> None:
        self.is_late = True
        self._kill()

    def cancel(self) -> None:
        self._timer.cancel()
