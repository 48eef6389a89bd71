"""Runs a script by the definitions of hp_model, plain and slow, with a record of all that was signalled
(specs/Tree.antt, Transactions.antt, Firing.antt, Cascade.antt).

Beyond the definitions each node of the tree, each signal and each dropped task keeps where it was and when, by ticks of
one clock.
"""

from dataclasses import dataclass, field, replace
from typing import Any, Optional

from definitions import (Cause, Environment, Occurrence, RuleState, Signal, State, asked, asked_value, at_places,
                         extended, frozen, mentions, occurrence_of, of_kind, operated_rule, text_of, value_of, with_row,
                         with_rule)

DETACHED = ("separate", "dependent", "exclusive")
DONE = ("done",)


# ---- what a run leaves

@dataclass(eq=False)
class Node:
    """A node of a tree: a top-level transaction, a `sub`, a condition with its action, an action, or a leaf.
    `is_vetoing` says that a firing vetoed by failing, as its rule is closed."""

    word: str
    parent: Optional["Node"] = None
    rule: str = ""
    mode: str = ""
    text: str = ""
    verb: str = ""
    path: str = ""
    condition: str = ""
    action: str = ""
    cause: str = ""
    items: list = field(default_factory=list)
    trigger: Any = None
    parts: tuple = ()
    count: int = 0
    queries: list = field(default_factory=list)
    stop_path: str = ""
    stop_firing: Any = None
    is_vetoing: bool = False
    number: tuple = ()
    ended: Optional[int] = None


@dataclass(eq=False)
class Change:
    """An operation that changed a rule's status: the rule's state before it."""

    rule: int
    node: Node
    before: RuleState
    tick: int


@dataclass(eq=False)
class DroppedTask:
    task: "Task"
    why: str
    by: Any
    top: Node


# ---- tasks and courses (specs/Tree.antt, Transactions.antt)

@dataclass(eq=False)
class Task:
    rule: int
    place: str
    depth: int
    trigger: Signal
    occurrence: Occurrence
    within: Node
    found: Optional["Findings"] = None
    is_released: bool = False


@dataclass(frozen=True)
class Findings:
    """What the entries of a satisfied condition found: answers of queries and values of `let`s, by name."""

    answers: tuple = ()
    values: tuple = ()


@dataclass
class Course:
    """The result of work. Items go into the tree at once. `end` is done, or an abort or a veto with its statement's
    path, and for an abort by a veto the firing that vetoed."""

    state: State
    queued: list = field(default_factory=list)
    detached: list = field(default_factory=list)
    end: tuple = DONE

    def then(self, work):
        if self.end != DONE:
            return self
        more = work(self.state)
        return Course(more.state, self.queued + more.queued, self.detached + more.detached, more.end)


@dataclass(frozen=True)
class Context:
    """Where a statement stands: its node, depth, environment, answers, and the rule of the action."""

    node: Node
    depth: int
    env: Environment = Environment()
    answers: tuple = ()
    rule: Optional[int] = None


class Run:
    """A script's run by the definitions: `units` are lists of top-level transactions."""

    def __init__(self, script):
        at_places.cache_clear()
        self.script = script
        self.rules = [[name, frozen(event), *others] for name, event, *others in script["rules"]]
        self.numbers = {rule[0]: number for number, rule in enumerate(self.rules)}
        self.classes = {name: dict(map(tuple, fields)) for name, fields in script["classes"]}
        self.has_entries = script["version"] == 4
        self.limit = script.get("depth", 8)
        self.clock = 0
        self.signals, self.changes, self.operations, self.dropped, self.units = [], [], [], [], []
        self.starts, self.now = [], 0
        self.state = State({}, tuple(RuleState() for _ in self.rules))
        self._items()

    def _items(self):
        """The clock's moment, `now`, is that of the unit of a moment, and else the time of the last move."""
        for number, (word, content) in enumerate(self.script["items"]):
            path = f"/items/{number}/1"
            if word == "tx":
                self._unit(None, lambda context, state: self.body(content, path, context, state))
                continue
            for moment in range(self.now + 1, content + 1):
                signal = Signal("time", time=moment)
                if any(mentions(rule[1], signal) for rule in self.rules):
                    self.now = moment
                    self._unit(moment, self._moment(moment, path))
            self.now = content

    def _moment(self, moment, path):
        return lambda context, state: self.signal_in(Signal("time", time=moment), path, context, state)

    # ---- top-level transactions (specs/Cascade.antt)

    def _unit(self, time, work):
        self.starts.append(self.state)
        transactions, detached = [], []
        self.units.append((time, transactions))
        self._top(Node("unit"), work, transactions, detached)
        while detached:
            due = [task for task in detached if task.place != "exclusive" or task.is_released]
            for task in detached:
                if task not in due:
                    self._drop(task, "no abort", None)
            detached = []
            for task in due:
                name = self.rules[task.rule][0]
                node = Node("task", rule=name, mode=task.place, trigger=task.trigger, parts=task.occurrence.parts,
                            count=task.occurrence.count)
                self._top(node, lambda context, state, task=task: self._task_work(task, context, state), transactions,
                          detached, task.depth)

    def _task_work(self, task, context, state):
        course, vetoing = self.fire_task(task, context.node, state)
        return replace(course, end=vetoing) if vetoing else course

    def _top(self, node, work, transactions, detached, depth=0):
        node.number = (len(self.units), len(transactions))
        transactions.append(node)
        context = Context(node, depth, Environment(now=self.now))
        course = work(context, self.state).then(
            lambda state: self.signal_in(Signal("commit"), "", context, state))
        while course.end == DONE and course.queued:
            queued, course.queued = course.queued, []
            course = course.then(lambda state: self.siblings(queued, node, state))
        course = self.closed(node, self.state, course)
        self.state = course.state
        detached += course.detached

    # ---- ends of transactions

    def closed(self, node, before, course):
        """A transaction that has ended: an abort undoes it and its descendants."""
        node.ended = self._tick()
        if course.end == DONE:
            return course
        _, node.cause, node.stop_path, node.stop_firing = course.end
        for task in course.queued:
            self._drop(task, "abort", node)
        kept = []
        for task in course.detached:
            task.is_released |= task.place == "exclusive"
            if task.place == "dependent":
                self._drop(task, "abort", node)
            else:
                kept.append(task)
        return Course(before, [], kept, course.end)

    def _drop(self, task, why, by):
        node = task.within
        while node.parent is not None:
            node = node.parent
        self.dropped.append(DroppedTask(task, why, by, node))

    def _tick(self):
        self.clock += 1
        return self.clock

    def _add(self, parent, node):
        node.parent, node.number = parent, parent.number + (len(parent.items),)
        parent.items.append(node)
        return node

    # ---- signals and firings (specs/Firing.antt)

    def signal_in(self, signal, path, context, state, operation=None):
        state = extended(signal, state)
        self._note(signal, path, context, state, operation)
        tasks = []
        for number, (rule, here) in enumerate(zip(self.rules, state.rules)):
            found = occurrence_of(rule[1], here.past) if here.status == "enabled" else None
            if found:
                tasks.append(Task(number, rule[2], context.depth + 1, signal, found, context.node))
        signal.triggered = tuple(self.rules[task.rule][0] for task in tasks)
        return self.start(tasks, path, context, state)

    def _note(self, signal, path, context, state, operation=None):
        signal.number, signal.tick, signal.within = len(self.signals), self._tick(), context.node
        signal.path, signal.depth, signal.rules, signal.operation = path, context.depth, state.rules, operation
        self.signals.append(signal)

    def start(self, tasks, path, context, state):
        if not tasks:
            return Course(state)
        if context.depth >= self.limit:
            return Course(state, end=("abort", "A7", path, None))
        return placed(tasks, state).then(
            lambda state: self.siblings([task for task in tasks if task.place == "immediate"], context.node, state))

    def siblings(self, tasks, node, state):
        """Each fires on the state that the one before left; nothing fires after the first veto."""
        course = Course(state)
        for place, task in enumerate(tasks):
            fired, vetoing = self.fire_task(task, node, course.state)
            course = course.then(lambda _: fired)
            if vetoing:
                for later in tasks[place + 1:]:
                    self._drop(later, "veto", vetoing[3])
                return replace(course, end=vetoing)
        return course

    def fire_task(self, task, parent, state):
        """The result of a firing, and if it vetoed the end that this gives the transaction around."""
        rule = self.rules[task.rule]
        word = "fire" if task.found is None else "act"
        node = self._add(parent, Node(word, rule=rule[0], mode=task.place, trigger=task.trigger,
                                      parts=task.occurrence.parts, count=task.occurrence.count))
        found = task.found
        if found is None:
            found = self.verdict(node, rule, task, state)
            if found is None:
                node.action, node.ended = "none", self._tick()
                is_fault = node.condition.startswith("fault")
                return Course(state), self._vetoing(rule, node, ("abort", "", "", None) if is_fault else DONE)
            if rule[4] != "immediate":
                node.action, node.ended = "later", self._tick()
                later = Task(task.rule, rule[4], task.depth, task.trigger, task.occurrence, parent, found)
                return placed([later], state), None
        env = Environment(task.occurrence, values=found.values, now=self.now)
        for name, rows in found.answers:
            env = env.bound(name, rows[0])
        context = Context(node, task.depth, env, found.answers, task.rule)
        course = self.closed(node, state, self.body(rule[5], f"/rules/{task.rule}/5", context, state))
        node.action = "ran"
        return replace(course, end=DONE), self._vetoing(rule, node, course.end)

    def _vetoing(self, rule, node, end):
        """The end that a firing gives the transaction around, if it vetoed: by a statement of its action, or because
        its rule is closed and the firing failed. A closed rule passes on a veto that aborted its action."""
        word, *others = end
        if word == "veto":
            return ("abort", others[0], others[1], node)
        if word == "done" or rule[6:] != ["closed"]:
            return None
        cause, path, firing = others
        node.is_vetoing = not cause.startswith("A9")
        return ("abort", f"A9 {rule[0]}", path, node) if node.is_vetoing else end

    def verdict(self, node, rule, task, state):
        """What the entries of a condition found if it is satisfied, else None."""
        env, answers = Environment(task.occurrence, now=self.now), ()
        for entry in rule[3]:
            one = self.entry(entry, env, state, answers)
            node.queries.append(one)
            is_met = one.value is not None if one.word == "let" else bool(one.answer) == (one.word == "query")
            if one.fault or not is_met:
                node.condition = f"fault {one.fault}" if one.fault else "unsatisfied"
                return None
            name = one.query[0]
            if one.word == "let":
                env = env.let(name, one.value)
            elif one.word == "query":
                env, answers = env.bound(name, one.answer[0]), answers + ((name, one.answer),)
        node.condition = "satisfied"
        return Findings(answers, env.values)

    def entry(self, entry, env, state, answers):
        """An entry as it is asked: a query, or in version 4 `no` or `let`."""
        if self.has_entries and entry[0] == "no":
            return asked(*entry[1:], env, state, answers, "no")
        if self.has_entries and entry[0] == "let":
            return asked_value(*entry[1:], env, state, answers)
        return asked(*entry, env, state, answers)

    # ---- statements

    def body(self, body, path, context, state):
        course = Course(state)
        for number, statement in enumerate(body):
            course = course.then(lambda state: self.statement(statement, f"{path}/{number}", context, state))
        return course

    def statement(self, statement, path, context, state):
        try:
            return getattr(self, "do_" + statement[0])(statement, path, context, state)
        except Cause as cause:
            return Course(state, end=("abort", str(cause), path, None))

    def operated(self, signal, path, context, state):
        """The operation that a signal tells of, and then the signal."""
        one, row = signal, signal.new
        text = " ".join([one.kind, one.name, str(one.key)] + [f"{f}={text_of(v)}" for f, v in (row or {}).items()])
        node = self._add(context.node, Node("op", text=text, verb=one.kind, path=path))
        return self.signal_in(signal, path, context, with_row(state, one.name, one.key, row), node)

    def keyed_row(self, statement, env):
        key = value_of(statement[2], env)
        given = {name: value_of(form, env) for name, form in statement[3]}
        return of_kind("int", key), given

    def do_create(self, statement, path, context, state):
        name, fields = statement[1], self.classes[statement[1]]
        key, given = self.keyed_row(statement, context.env)
        row = {field: of_kind(kind, given[field]) for field, kind in fields.items()}
        if (name, key) in state.objects:
            raise Cause("A1")
        return self.operated(Signal("create", name, key, new=row), path, context, state)

    def do_update(self, statement, path, context, state):
        name, fields = statement[1], self.classes[statement[1]]
        key, given = self.keyed_row(statement, context.env)
        for name_of_field, value in given.items():
            of_kind(fields[name_of_field], value)
        old = self.present(name, key, state)
        row = {field: given.get(field, value) for field, value in old.items()}
        return self.operated(Signal("update", name, key, old, row), path, context, state)

    def do_delete(self, statement, path, context, state):
        name, key = statement[1], of_kind("int", value_of(statement[2], context.env))
        old = self.present(name, key, state)
        return self.operated(Signal("delete", name, key, old), path, context, state)

    def present(self, name, key, state):
        if (name, key) not in state.objects:
            raise Cause("A2")
        return state.objects[name, key]

    def do_signal(self, statement, path, context, state):
        arguments = tuple(value_of(form, context.env) for form in statement[2])
        return self.signal_in(Signal("signal", statement[1], arguments=arguments), path, context, state)

    def do_emit(self, statement, path, context, state):
        value = value_of(statement[1], context.env)
        self._add(context.node, Node("emit", text=text_of(value), path=path))
        return Course(state)

    def do_if(self, statement, path, context, state):
        arm = 2 if of_kind("bool", value_of(statement[1], context.env)) else 3
        return self.body(statement[arm], f"{path}/{arm}", context, state)

    def for_each(self, rows, name, body, path, context, state):
        course = Course(state)
        for row in rows:
            inner = replace(context, env=context.env.bound(name, row))
            course = course.then(lambda state: self.body(body, path, inner, state))
        return course

    def do_each(self, statement, path, context, state):
        _, name, on, predicate, body = statement
        one = asked(name, on, predicate, context.env, state)
        if one.fault:
            raise Cause(one.fault)
        return self.for_each(one.answer, name, body, path + "/4", context, state)

    def do_for(self, statement, path, context, state):
        rows = next(rows for name, rows in context.answers if name == statement[1])
        return self.for_each(rows, statement[1], statement[2], path + "/2", context, state)

    def do_with(self, statement, path, context, state):
        _, name, on, form, body = statement
        key = of_kind("int", value_of(form, context.env))
        row = (on, key, self.present(on, key, state))
        return self.for_each([row], name, body, path + "/4", context, state)

    def do_let(self, statement, path, context, state):
        _, name, aggregate, body = statement
        one = asked_value(name, aggregate, context.env, state)
        if one.fault or one.value is None:
            raise Cause(one.fault or "A2")
        return self.body(body, path + "/3", replace(context, env=context.env.let(name, one.value)), state)

    def do_sub(self, statement, path, context, state):
        node = self._add(context.node, Node("sub", path=path))
        inner = replace(context, node=node)
        course = self.closed(node, state, self.body(statement[1], path + "/1", inner, state))
        if course.end[0] != "abort":
            return course
        return replace(course, end=DONE).then(lambda state: self.body(statement[2], path + "/2", context, state))

    def do_abort(self, statement, path, context, state):
        raise Cause("A8")

    def do_veto(self, statement, path, context, state):
        cause = " ".join(["A9", self.rules[context.rule][0]] + [text_of(value_of(form, context.env))
                                                                for form in statement[1:]])
        return Course(state, end=("veto", cause, path, None))

    def on_rule(self, statement, path, context, state):
        verb, number = statement[0], self.numbers[statement[1]]
        before = state.rules[number]
        after = operated_rule(verb, before)
        node = self._add(context.node, Node("op", text=f"{verb} {statement[1]}", verb=verb, path=path))
        self.operations.append((number, node, self._tick()))
        if after is not before:
            self.changes.append(Change(number, node, before, self.clock))
        return Course(with_rule(state, number, after))

    do_install = do_enable = do_disable = do_remove = on_rule

    def do_fire(self, statement, path, context, state):
        number = self.numbers[statement[1]]
        if state.rules[number].status == "absent":
            raise Cause("A2")
        signal = Signal("fire")
        if context.depth < self.limit:
            self._note(signal, path, context, state)
        task = Task(number, self.rules[number][2], context.depth + 1, signal, Occurrence((), 0), context.node)
        return self.start([task], path, context, state)


def placed(tasks, state):
    return Course(state, [task for task in tasks if task.place == "deferred"],
                  [task for task in tasks if task.place in DETACHED])


# ---- the report

def report(run, trees=True):
    """The text that the program writes for the script, with or without trees."""
    lines = []
    for number, (time, transactions) in enumerate(run.units, 1):
        for node in transactions:
            unit = f"unit {number}" + ("" if time is None else f" time {time}")
            lines.append(f"{node.mode} {node.rule} {_end(node)}" if node.rule else f"{unit} {_end(node)}")
            lines += [] if node.cause else [f"emit {text}" for text in _emits(node)]
            if trees:
                _write(node, 1, lines)
    lines.append("final")
    order = list(run.classes)
    for (name, key), row in sorted(run.state.objects.items(), key=lambda one: (order.index(one[0][0]), one[0][1])):
        lines.append(" ".join([f"object {name} {key}"] + [f"{field}={text_of(value)}" for field, value in row.items()]))
    lines += [f"rule {rule[0]} {state.status}" for rule, state in zip(run.rules, run.state.rules)]
    return "\n".join(lines + ["end", ""])


def _end(node):
    return f"aborted {node.cause}" if node.cause else "committed"


def _emits(node):
    return [text for item in node.items if not item.cause
            for text in ([item.text] if item.word == "emit" else _emits(item))]


def _write(node, level, lines):
    for item in node.items:
        if item.word in ("op", "emit"):
            line = f"{item.word} {item.text}"
        elif item.word == "sub":
            line = f"sub {_end(item)}"
        elif item.word == "act":
            line = f"act {item.rule} {item.mode} {_end(item)}"
        else:
            action = _end(item) if item.action == "ran" else item.action
            line = f"fire {item.rule} {item.mode} {item.condition} {action}"
        lines.append("  " * level + line)
        _write(item, level + 1, lines)
