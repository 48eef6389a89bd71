"""Follows a script's course and notes why everything in it happens.

A report says what happened; it doesn't say which query was empty, which signal triggered a rule, or which statement
aborted a transaction. So the script is run here a second time, slowly, with notes. The program decides: `account.py`
compares its report with the one of this course, and a course that disagrees is not used.
"""

from __future__ import annotations

import sys
from dataclasses import dataclass, replace
from typing import Any, Callable, Dict, Iterable, List, Optional, Tuple

from . import language, pasts
from .language import Over
from .notes import ABORT, Dropped, EXPRESSION, Given, NO, NO_ABORT, Note, Query, Signal, Stop, VETO, ancestry
from .pasts import Hearing, Past
from .report import (Act, COMMITTED, Emit, End, FinalObject, Fire, Holder, Operation, Report, Sub, Transaction, Unit)
from .rulebase import Entry, Let, Rule, RuleBase, numbered_items
from .values import (
    Environment, Fault, Occurrence, Primitive, Row, evaluate, is_int, key_after, kind_of, put_together, truth,
    value_text,
)

STEPS = 3_000_000
RECURSION = 10_000


class TooLong(Exception):
    """The script takes more steps than are followed here."""


class Aborting(Exception):
    """Passes to the innermost transaction around it, which it aborts."""

    def __init__(self, stop: Stop):
        super().__init__(stop.words)
        self.stop = stop


class Vetoing(Exception):
    """Passes out of the action that vetoes, to the transaction around the firing."""

    def __init__(self, stop: Stop):
        super().__init__(stop.words)
        self.stop = stop


@dataclass
class Task:
    """A condition to test, or (with what that found) an action to run. One that runs later keeps the top-level
    transaction that it was made in."""

    rule: Rule
    mode: str
    depth: int
    trigger: Signal
    occurrence: Occurrence
    found: Optional[Environment] = None
    made_in: Any = None
    released: bool = False


@dataclass(frozen=True)
class Mark:
    """The state of the course when a transaction began."""

    journal: int
    queued: int
    detached: int


class Course:
    """The state of a running script: objects, the pasts of rules, and the tasks for later. `heard` are the hearings of
    the rules to watch."""

    def __init__(self, base: RuleBase, watch: Iterable[str] = (), steps: int = STEPS):
        self.base = base
        self.heard: Dict[str, List[Hearing]] = {name: [] for name in watch}
        self.signals = 0
        self.steps = steps
        self.limit = base.depth_limit
        self.kinds = {one.name: dict(one.fields) for one in base.classes}
        self.rules = base.rules
        self.by_name = {rule.name: rule for rule in self.rules}
        self.bodies = {rule.name: f"/rules/{number}/5" for number, rule in enumerate(self.rules)}
        self.listeners = _listeners(self.rules)
        self.objects: Dict[str, Dict[int, Dict[str, Any]]] = {name: {} for name in self.kinds}
        self.pasts: Dict[str, Past] = {rule.name: Past() for rule in self.rules}
        self.journal: List[Tuple[Dict[Any, Any], Any, Any]] = []
        self.queued: List[Task] = []
        self.detached: List[Task] = []
        self.here: Any = None
        self.top: Any = None
        self.now = 0

    # Units

    def report(self) -> Report:
        """Runs all items; raises TooLong if that takes more steps than are followed."""
        sys.setrecursionlimit(max(sys.getrecursionlimit(), RECURSION))
        result = Report()
        for number, (item, _, moments) in enumerate(numbered_items(self.base)):
            path = f"/items/{number}/1"
            if item[0] == "tx":
                self._unit(result, None, lambda: self._body(item[1], path, Environment(now=self.now), 0))
            for self.now in moments:
                moment = Primitive("time", moment=self.now)
                self._unit(result, self.now, lambda: self._signal(moment, path, 0))
            self.now = self.now if item[0] == "tx" else item[1]
        for name in self.kinds:
            for key in sorted(self.objects[name]):
                result.objects.append(FinalObject(name, key, _texts(self.objects[name][key])))
        result.rules = [(rule.name, self.pasts[rule.name].status) for rule in self.rules]
        return result

    def _unit(self, result: Report, moment: Optional[int], body: Callable[[], None]) -> None:
        self.detached = []
        unit = Unit(len(result.units) + 1, moment, [self._transaction(Transaction(COMMITTED), body)])
        result.units.append(unit)
        while self.detached:
            generation = [task for task in self.detached if task.mode != "exclusive" or task.released]
            for task in self.detached:
                if task.mode == "exclusive" and not task.released:
                    self._drop(task, NO_ABORT)
            later: List[Task] = []
            for task in generation:
                self.detached = []
                head = Transaction(COMMITTED, task.rule.name, task.mode)
                done = self._transaction(head, lambda: self._task(task), task)
                unit.transactions.append(done)
                later.extend(self.detached)
            self.detached = later
        for transaction in unit.transactions:
            transaction.note.unit = unit.number

    def _transaction(self, node: Transaction, body: Callable[[], None], task: Optional[Task] = None) -> Transaction:
        node.note = Note(None) if task is None else Note(None, trigger=task.trigger, occurrence=task.occurrence)
        self.here = self.top = node
        self.queued = []
        self.journal.clear()
        mark = self._mark()
        try:
            body()
            self._signal(Primitive("commit"), "", 0 if task is None else task.depth)
            while self.queued:
                tasks, self.queued = self.queued, []
                self._group(tasks)
        except Aborting as aborting:
            self._abort(node, mark, aborting.stop)
        node.emits = _lasting_emits(node) if node.end.committed else []
        return node

    # Nested transactions

    def _mark(self) -> Mark:
        return Mark(len(self.journal), len(self.queued), len(self.detached))

    def _abort(self, node: Any, mark: Mark, stop: Stop) -> None:
        """Undoes everything since the mark. Of the detached tasks it releases the exclusive and drops the dependent
        ones."""
        while len(self.journal) > mark.journal:
            container, name, old = self.journal.pop()
            if old is _NONE:
                container.pop(name, None)
            else:
                container[name] = old
        for task in self.queued[mark.queued:]:
            self._drop(task, ABORT, node)
        del self.queued[mark.queued:]
        made = self.detached[mark.detached:]
        del self.detached[mark.detached:]
        for task in made:
            if task.mode == "exclusive":
                task.released = True
            if task.mode == "dependent":
                self._drop(task, ABORT, node)
            else:
                self.detached.append(task)
        node.note.stop = stop
        if isinstance(node, Fire):
            node.action = stop.end
        else:
            node.end = stop.end

    def _drop(self, task: Task, why: int, by: Any = None) -> None:
        dropped = Dropped(task.rule.name, task.mode, task.found is not None, task.trigger, task.occurrence, why, by)
        task.made_in.note.dropped.append(dropped)

    def _put(self, container: Dict[Any, Any], name: Any, value: Any) -> None:
        self.journal.append((container, name, container.get(name, _NONE)))
        if value is _NONE:
            container.pop(name, None)
        else:
            container[name] = value

    def _add(self, node: Any, path: str, **known: Any) -> Any:
        node.note = Note(self.here, path, **known)
        self.here.items.append(node)
        return node

    # Statements

    def _body(self, body: List[Any], path: str, environment: Environment, depth: int) -> None:
        for number, statement in enumerate(body):
            here = f"{path}/{number}"
            self._count_step()
            try:
                self._statement(statement, here, environment, depth)
            except Fault as fault:
                raise Aborting(Stop(End(fault.cause), fault.words, here))

    def _statement(self, statement: List[Any], path: str, environment: Environment, depth: int) -> None:
        _STATEMENTS[statement[0]](self, statement, path, environment, depth)

    def _create(self, statement: List[Any], path: str, environment: Environment, depth: int) -> None:
        name = statement[1]
        key, fields = self._evaluated(statement, environment)
        if key in self.objects[name]:
            raise Fault("A1", f"`create {name} {key}`: {name} {key} is there already")
        row = {field: fields[field] for field in self.kinds[name]}
        self._put(self.objects[name], key, row)
        node = self._add(Operation("create", name, key, _texts(row)), path)
        self._signal(Primitive("create", name, key, new=row), path, depth, node)

    def _update(self, statement: List[Any], path: str, environment: Environment, depth: int) -> None:
        name = statement[1]
        key, fields = self._evaluated(statement, environment)
        old = self._row("update", name, key)
        row = dict(old, **fields)
        self._put(self.objects[name], key, row)
        node = self._add(Operation("update", name, key, _texts(row)), path)
        self._signal(Primitive("update", name, key, old=old, new=row), path, depth, node)

    def _delete(self, statement: List[Any], path: str, environment: Environment, depth: int) -> None:
        name = statement[1]
        key = self._key("delete", name, statement[2], environment)
        old = self._row("delete", name, key)
        self._put(self.objects[name], key, _NONE)
        node = self._add(Operation("delete", name, key), path)
        self._signal(Primitive("delete", name, key, old=old), path, depth, node)

    def _evaluated(self, statement: List[Any], environment: Environment) -> Tuple[int, Dict[str, Any]]:
        """A create's or update's key and fields: all are evaluated before any kind is tested."""
        word, name = statement[:2]
        key = evaluate(statement[2], environment)
        fields = {pair[0]: evaluate(pair[1], environment) for pair in statement[3]}
        self._fit_key(word, name, key)
        for field, value in fields.items():
            kind = self.kinds[name][field]
            if kind_of(value) != kind:
                of = f"the field {field} is of kind {kind}, and the value is {value_text(value)}"
                raise Fault("A3", f"`{word} {name} {key}`: {of}")
        return key, fields

    def _key(self, word: str, name: str, expression: Any, environment: Environment) -> int:
        key = evaluate(expression, environment)
        self._fit_key(word, name, key)
        return key

    def _fit_key(self, word: str, name: str, key: Any) -> None:
        if not is_int(key):
            raise Fault("A3", f"`{word} {name}`: the key is {value_text(key)}, which is no whole number")

    def _row(self, word: str, name: str, key: int) -> Dict[str, Any]:
        row = self.objects[name].get(key)
        if row is None:
            raise Fault("A2", f"`{word} {name} {key}`: there is no {name} {key}")
        return row

    def _signal_statement(self, statement: List[Any], path: str, environment: Environment, depth: int) -> None:
        arguments = tuple(evaluate(argument, environment) for argument in statement[2])
        self._signal(Primitive("signal", statement[1], arguments=arguments), path, depth)

    def _emit(self, statement: List[Any], path: str, environment: Environment, depth: int) -> None:
        self._add(Emit(value_text(evaluate(statement[1], environment))), path)

    def _if(self, statement: List[Any], path: str, environment: Environment, depth: int) -> None:
        arm = 2 if truth(statement[1], environment, "the test of `if`") else 3
        self._body(statement[arm], f"{path}/{arm}", environment, depth)

    def _each(self, statement: List[Any], path: str, environment: Environment, depth: int) -> None:
        _, name, of, predicate, body = statement
        rows = [row for row in self._rows(of)
                if self._true_of(predicate, environment.naming(name, row), "the predicate of `each`")]
        for row in rows:
            self._body(body, path + "/4", environment.naming(name, row), depth)

    def _for(self, statement: List[Any], path: str, environment: Environment, depth: int) -> None:
        for row in environment.answers[statement[1]]:
            self._body(statement[2], path + "/2", environment.naming(statement[1], row), depth)

    def _with(self, statement: List[Any], path: str, environment: Environment, depth: int) -> None:
        _, name, of, expression, body = statement
        key = self._key("with", of, expression, environment)
        row = Row(of, key, self._row("with", of, key))
        self._body(body, path + "/4", environment.naming(name, row), depth)

    def _let(self, statement: List[Any], path: str, environment: Environment, depth: int) -> None:
        _, name, aggregate, body = statement
        looked = self._looked("", aggregate, environment)
        value = self._value(aggregate, looked, environment)
        if value is None:
            raise Fault("A2", f"`let {name}`: there is no object for the {aggregate[0]} one of {looked.on}")
        self._body(body, path + "/3", environment.holding(name, value), depth)

    def _sub(self, statement: List[Any], path: str, environment: Environment, depth: int) -> None:
        node, parent, mark = self._add(Sub(COMMITTED), path), self.here, self._mark()
        self.here = node
        try:
            self._body(statement[1], path + "/1", environment, depth)
        except Aborting as aborting:
            self._abort(node, mark, aborting.stop)
        except Vetoing as vetoing:
            self._abort(node, mark, vetoing.stop)
            raise
        finally:
            self.here = parent
        if not node.end.committed:
            self._body(statement[2], path + "/2", environment, depth)

    def _give_up(self, statement: List[Any], path: str, environment: Environment, depth: int) -> None:
        raise Fault("A8", "the statement `abort`")

    def _veto(self, statement: List[Any], path: str, environment: Environment, depth: int) -> None:
        action = next(node for node in self._ancestors() if isinstance(node, (Fire, Act)))
        message = [value_text(evaluate(form, environment)) for form in statement[1:]]
        raise Vetoing(Stop(End("A9", action.rule, *message), "its statement `veto`", path))

    def _ancestors(self) -> List[Any]:
        """The nodes that are open, the innermost first."""
        return [self.here, *ancestry(self.here)]

    # Rules as state

    def _set_rule(self, statement: List[Any], path: str, environment: Environment, depth: int) -> None:
        verb, name = statement
        before = self.pasts[name]
        if verb in ("enable", "disable"):
            self._fit_installed(verb, name)
        node = self._add(Operation(verb, name), path)
        after = before.after(node, self.by_name[name].event)
        if after is before:
            return
        self._put(self.pasts, name, after)
        if name in self.heard:
            self.heard[name].append(Hearing(before, change=node))

    def _fit_installed(self, verb: str, name: str) -> None:
        if self.pasts[name].status == pasts.ABSENT:
            raise Fault("A2", f"`{verb} {name}`: rule {name} isn't installed")

    def _fire(self, statement: List[Any], path: str, environment: Environment, depth: int) -> None:
        name = statement[1]
        self._fit_installed("fire", name)
        if depth + 1 > self.limit:
            raise Fault("A7", f"`fire {name}` would be a firing at depth {depth + 1}, and the limit is {self.limit}")
        rule = self.by_name[name]
        signal = self._noted(Signal(None, self.here, path, depth, triggered=[name]))
        self._spread([Task(rule, rule.ec, depth + 1, signal, Occurrence((), 0))])

    # Signals and firings

    def _noted(self, signal: Signal) -> Signal:
        signal.number, self.signals = self.signals, self.signals + 1
        self.top.note.signals.append(signal)
        return signal

    def _signal(self, primitive: Primitive, path: str, depth: int, operation: Optional[Operation] = None) -> None:
        signal = self._noted(Signal(primitive, self.here, path, depth, operation))
        for name, hearings in self.heard.items():
            hearings.append(Hearing(self.pasts[name], signal))
        tasks = []
        for rule in self._listening(primitive):
            before = self.pasts[rule.name]
            after, occurrence = before.after_signal(rule.event, signal)
            if after is not before:
                self._put(self.pasts, rule.name, after)
            if occurrence is not None:
                tasks.append(Task(rule, rule.ec, depth + 1, signal, occurrence))
        signal.triggered = [task.rule.name for task in tasks]
        if tasks and depth + 1 > self.limit:
            names = " and ".join(signal.triggered)
            words = f"{primitive} would trigger {names} at depth {depth + 1}, and the limit is {self.limit}"
            raise Aborting(Stop(End("A7"), words, path))
        self._spread(tasks)

    def _listening(self, primitive: Primitive) -> List[Rule]:
        heard = self.listeners.get((primitive.kind, primitive.name), [])
        if primitive.kind != "time":
            return heard
        return [rule for rule in heard if pasts.mentions(rule.event, primitive)]

    def _spread(self, tasks: List[Task]) -> None:
        """Queues the deferred tasks, detaches the separate ones, then runs the immediate ones."""
        for task in tasks:
            self._set_aside(task)
        self._group([task for task in tasks if task.mode == "immediate"])

    def _set_aside(self, task: Task) -> None:
        task.made_in = self.top
        if task.mode == "deferred":
            self.queued.append(task)
        elif task.mode != "immediate":
            self.detached.append(task)

    def _group(self, tasks: List[Task]) -> None:
        for place, task in enumerate(tasks):
            try:
                self._task(task)
            except Aborting as aborting:
                for later in tasks[place + 1:]:
                    self._drop(later, VETO, aborting.stop.firing)
                raise

    def _task(self, task: Task) -> None:
        """Runs one firing; if it vetoes, the transaction around the firing aborts."""
        self._count_step()
        if task.found is not None:
            node = self._add(Act(task.rule.name, task.mode, COMMITTED), "", trigger=task.trigger,
                             occurrence=task.occurrence)
            self._action(node, task, task.found)
            return
        node = self._add(Fire(task.rule.name, task.mode, "satisfied", "none"), "", trigger=task.trigger,
                         occurrence=task.occurrence)
        found = self._condition(node, task)
        if found is None:
            if task.rule.is_closed and node.condition != "unsatisfied":
                self._veto_by_failing(node, "")
        elif task.rule.ca == "immediate":
            node.action = COMMITTED
            self._action(node, task, found)
        else:
            node.action = "later"
            self._set_aside(Task(task.rule, task.rule.ca, task.depth, task.trigger, task.occurrence, found))

    def _veto_by_failing(self, node: Any, path: str) -> None:
        """The veto of a firing that failed, as its rule is closed."""
        node.note.vetoed_by_failing = True
        raise Aborting(Stop(End("A9", node.rule), f"vetoed by {node.rule}", path, node))

    # Conditions

    def _condition(self, node: Fire, task: Task) -> Optional[Environment]:
        """What the entries found, as the environment of the action; None if one of them isn't satisfied."""
        environment = Environment(task.occurrence, now=self.now)
        for entry in task.rule.entries:
            asked = self._looked(entry.name, _asked(entry), environment)
            if isinstance(entry, Let):
                asked.word = entry.aggregate[0] if not language.is_single(entry.aggregate) else EXPRESSION
            elif entry.is_no:
                asked.word = NO
            node.note.queries.append(asked)
            try:
                after = self._entry(entry, asked, environment)
            except Fault as fault:
                node.condition, asked.fault = "fault " + fault.cause, fault.words
                return None
            if after is None:
                node.condition = "unsatisfied"
                return None
            environment = after
        return environment

    def _entry(self, entry: Entry, asked: Query, environment: Environment) -> Optional[Environment]:
        """What is known after an entry; None if it isn't satisfied."""
        if isinstance(entry, Let):
            value = self._value(entry.aggregate, asked, environment)
            return None if value is None else environment.holding(entry.name, value)
        answer = self._answer(_asked(entry), asked, environment)
        if entry.is_no:
            return None if answer else environment
        if not answer:
            return None
        answers = {**environment.answers, entry.name: answer}
        return replace(environment.naming(entry.name, answer[0]), answers=answers)

    def _looked(self, name: str, form: Any, environment: Environment) -> Query:
        """The note of an entry, with what it takes from the entries before; `form` is an aggregate, or the rows that a
        query looks at."""
        over = form if isinstance(form, Over) else language.over(form)
        on = over.class_name if over is not None else form[1] if language.is_next(form) else ""
        parts = [form] if over is None else [over.predicate, over.term]
        named = {tuple(leaf[:2]) for part in parts if part is not None for leaf in language.leaves(part)}
        rows = [Given(row, found[0], len(found)) for row, found in environment.answers.items()
                if {("of", row), ("key", row)} & named]
        known = [(let, value_text(value)) for let, value in environment.values.items() if ("value", let) in named]
        return Query(name, on, len(self.objects[on]) if on else 0, rows, known)

    def _answer(self, over: Over, query: Query, environment: Environment) -> List[Row]:
        """The rows that fit. If the query asked for one object by its key and it doesn't fit, the note says why."""
        answer = []
        for row in self._looked_at(over, query, environment):
            query.fault_key = row.key
            if self._true_of(over.predicate, environment.naming(over.name, row), "the predicate"):
                answer.append(row)
        query.keys, query.fault_key = [row.key for row in answer], None
        self._note_failing(over, query, environment)
        return answer

    def _looked_at(self, over: Over, query: Query, environment: Environment) -> List[Row]:
        """The rows that a predicate is tried on, with the key that it asks for in the note."""
        try:
            query.key = self._asked_key(over, environment)
        except Fault:
            query.fault_key = min(self.objects[over.class_name])
            raise
        return self._rows(over.class_name, query.key)

    def _note_failing(self, over: Over, query: Query, environment: Environment) -> None:
        """Why the one object that was asked for by its key doesn't fit."""
        rows = [] if query.key is None or query.keys else self._rows(over.class_name, query.key)
        for row in rows:
            here = environment.naming(over.name, row)
            query.failed = next(test for test in language.conjuncts(over.predicate) if not evaluate(test, here))
            query.values = _values_in(query.failed, here)

    def _asked_key(self, over: Over, environment: Environment) -> Optional[int]:
        """The key of the one object that a query looks at; None if it looks at the whole class, or if the program
        doesn't evaluate the key."""
        first = language.conjuncts(over.predicate)[0]
        if not self.objects[over.class_name] or not language.is_key_asked(over.name, first):
            return None
        key = evaluate(first[2] if first[1] == ["key", over.name] else first[1], environment)
        return key if is_int(key) else None

    # Aggregates

    def _value(self, aggregate: Any, query: Query, environment: Environment) -> Any:
        """The value of an aggregate; None for the least or the greatest of no row."""
        over = language.over(aggregate)
        if over is not None:
            value = self._over_rows(aggregate[0], over, query, environment)
        elif language.is_next(aggregate):
            self._count_step()
            value = key_after(max(self.objects[aggregate[1]], default=None), aggregate[1])
        else:
            value = evaluate(aggregate, environment)
        query.value = None if value is None else value_text(value)
        return value

    def _over_rows(self, word: str, over: Over, query: Query, environment: Environment) -> Any:
        """Row by row the predicate, then the term, then what it comes to with those before."""
        value, keys = (0 if word in ("count", "sum") else None), []
        for row in self._looked_at(over, query, environment):
            query.fault_key = row.key
            here = environment.naming(over.name, row)
            if self._true_of(over.predicate, here, "the predicate"):
                value = put_together(word, value, None if over.term is None else evaluate(over.term, here))
                keys.append(row.key)
        query.keys, query.fault_key = keys, None
        self._note_failing(over, query, environment)
        return value

    def _action(self, node: Any, task: Task, found: Environment) -> None:
        """Runs an action. A closed rule passes on the veto of another firing inside it."""
        parent, mark, self.here = self.here, self._mark(), node
        try:
            self._body(task.rule.action, self.bodies[task.rule.name], found, task.depth)
        except Aborting as aborting:
            self._abort(node, mark, aborting.stop)
            if task.rule.is_closed and aborting.stop.end.cause == "A9":
                raise
            if task.rule.is_closed:
                self._veto_by_failing(node, aborting.stop.path)
        except Vetoing as vetoing:
            self._abort(node, mark, vetoing.stop)
            raise Aborting(Stop(vetoing.stop.end, f"vetoed by {task.rule.name}", vetoing.stop.path, node))
        finally:
            self.here = parent

    def _rows(self, name: str, only: Optional[int] = None) -> List[Row]:
        objects = self.objects[name]
        keys = sorted(objects) if only is None else [only]
        return [Row(name, key, objects[key]) for key in keys if key in objects]

    def _true_of(self, predicate: Any, environment: Environment, what: str) -> bool:
        self._count_step()
        return truth(predicate, environment, what)

    def _count_step(self) -> None:
        self.steps -= 1
        if self.steps < 0:
            raise TooLong("the script does more than is followed here")


_NONE = object()

_STATEMENTS: Dict[str, Callable[..., None]] = {
    "create": Course._create, "update": Course._update, "delete": Course._delete, "signal": Course._signal_statement,
    "emit": Course._emit, "if": Course._if, "each": Course._each, "for": Course._for, "with": Course._with,
    "let": Course._let, "sub": Course._sub, "abort": Course._give_up, "veto": Course._veto, "fire": Course._fire,
    "install": Course._set_rule, "enable": Course._set_rule, "disable": Course._set_rule, "remove": Course._set_rule,
}


def _listeners(rules: List[Rule]) -> Dict[Tuple[str, str], List[Rule]]:
    """The rules, in rule order, by the kinds of primitives that their events mention."""
    found: Dict[Tuple[str, str], List[Rule]] = {}
    for rule in rules:
        for pattern in language.patterns(rule.event):
            word = "time" if pattern[0] in ("at", "every") else pattern[0]
            heard = found.setdefault((word, pattern[1] if word not in ("time", "commit") else ""), [])
            if rule not in heard:
                heard.append(rule)
    return found


def _asked(entry: Entry) -> Any:
    """The rows that a query or a `no` looks at, or the aggregate of a `let`."""
    return entry.aggregate if isinstance(entry, Let) else Over(entry.name, entry.class_name, entry.predicate)


def _values_in(test: Any, environment: Environment) -> List[Tuple[Any, str]]:
    """The values that a test was made with, each with the form that gave it. What `and` or `or` left out may fail."""
    values = []
    for leaf in language.leaves(test):
        try:
            values.append((leaf, value_text(evaluate(leaf, environment))))
        except Fault:
            continue
    return values


def _texts(row: Dict[str, Any]) -> Tuple[Tuple[str, str], ...]:
    return tuple((name, value_text(value)) for name, value in row.items())


def _lasting_emits(node: Holder) -> List[str]:
    values: List[str] = []
    for item in node.items:
        if isinstance(item, Emit):
            values.append(item.value)
        elif not isinstance(item, Operation) and item.end.committed:
            values.extend(_lasting_emits(item))
    return values
