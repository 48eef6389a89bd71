"""Texts that are no scripts: the place of the fault, its message, and its hint if it has one."""

from __future__ import annotations

from typing import NamedTuple


class FaultyText(NamedTuple):
    """A text, and what is said of it. The text of a script's fault stands behind a version's line."""

    text: str
    place: str
    message: str
    hint: str = ""


FAULTY_SCRIPTS = [
    FaultyText("", "1:1", "expected `version`, found the end"),
    FaultyText(
        '{"version": 1}',
        "1:1",
        "expected `version`, found `{`",
        "this looks like JSON: the name of a script as text ends with `.rules`"),
    FaultyText("version one", "1:9", "expected a number, the version, found `one`"),
    FaultyText("version 1 depth\nclass a {}", "2:1", "expected a number, the depth, found `class`"),
    FaultyText(
        "version 1\nclass a {}\ndepth 8\n",
        "3:1",
        "expected `class`, `rule`, `transaction`, `clock` or the end, found `depth`"),
    FaultyText(
        "version 1\nclock 3\nrule r on commit do {}\n",
        "3:1",
        "expected `transaction`, `clock` or the end, found `rule`",
        "classes come first, then rules, then transactions and moves of the clock"),
    FaultyText(
        "version 1\n\ntx {}\n",
        "3:1",
        "expected `depth`, `class`, `rule`, `transaction`, `clock` or the end, found `tx`",
        "here it is `transaction`"),
    FaultyText("version 1\nclass { a: int }", "2:7", "expected the name of a class, found `{`"),
    FaultyText("version 1\nclass item { stock int }", "2:20", "expected `:`, found `int`"),
    FaultyText("version 1\nclass item { stock: int; price: int }", "2:24", "expected `,` or `}`, found `;`"),
    FaultyText(
        "version 1\nclass item { key: int }",
        "2:14",
        "expected the name of a field or `}`, found `key`",
        "`key` is a word of the notation; as a name it is in backquotes"),
    FaultyText(
        "version 1\nclass item { stock: `int` }",
        "2:21",
        "expected `int`, `bool` or `text`, found the name `int`"),
    FaultyText(
        'version 1\nrule "no oversell" on update item do {}',
        "2:6",
        "expected the name of a rule, found a text",
        "a name has no quotes"),
    FaultyText(
        "version 1\nrule r on insert item do {}",
        "2:11",
        "expected an event, found `insert`",
        "here it is `create`"),
    FaultyText(
        "version 1\nrule r on update of item do {}",
        "2:21",
        "expected `or`, `then`, a mode, `if` or `do`, found `item`"),
    FaultyText(
        "version 1\nrule r on update item\n  if new.stock < 3 do {}",
        "3:6",
        "expected `some`, `no` or `let`, found `new`",
        "a condition asks for objects; test the values of the event by an `if` within `do`"),
    FaultyText(
        "version 1\nrule r on update item\n  if some item where i.stock < 0 do {}",
        "3:16",
        "expected a name for the row, found `where`",
        "`where` is a word of the notation; as a name it is in backquotes"),
    FaultyText(
        "version 1\nrule r on update item\n  if some item i,\n     some item j\n  do {}",
        "3:17",
        "expected `where`, `if` or `do`, found `,`",
        "each query has an `if` of its own, without a comma between"),
    FaultyText(
        "version 1\nrule r on update item\n  if some item i where i.stock < 0\n  and some item j\n  do {}",
        "4:12",
        "expected `.`, an operator, `if` or `do`, found `item`",
        "each query has an `if` of its own"),
    FaultyText(
        "version 1\nrule r on update item\n  deferred separate do {}",
        "3:12",
        "expected `if` or `do`, found `separate`"),
    FaultyText(
        "version 1\nrule r on update item\n  do {\n    veto\n  }\nend\n",
        "6:1",
        "expected `rule`, `transaction`, `clock` or the end, found `end`"),
    FaultyText(
        "version 1\nrule r on create a or create b then create c do {}",
        "2:32",
        "expected `or`, a mode, `if` or `do`, found `then`",
        "`or` and `then` mix only in parentheses"),
    FaultyText(
        "version 1\nrule r on create a and create b do {}",
        "2:20",
        "expected `or`, `then`, a mode, `if` or `do`, found `and`"),
    FaultyText("version 1\nrule r on every 30 do {}", "2:20", "expected `from`, found `do`"),
    FaultyText("version 1\nrule r on at 3 do {}", "2:11", "expected an event, found `at`", "here it is `moment`"),
    FaultyText(
        "version 1\nrule r on closure(create a, create b) do {}",
        "2:27",
        "expected `or`, `then` or `until`, found `,`"),
    FaultyText("version 1\ntransaction {\n  emit\n}", "4:1", "expected a value, found `}`"),
    FaultyText(
        "version 1\ntransaction {\n  emit 1",
        "3:9",
        "expected an operator, `;`, `}` or a statement, found the end"),
    FaultyText(
        "version 1\ntransaction {\n  insert item 7\n}",
        "3:3",
        "expected `}` or a statement, found `insert`",
        "here it is `create`"),
    FaultyText(
        "version 1\ntransaction {\n  update item(7) stock = 3\n}",
        "3:18",
        "expected `set`, `;`, `}` or a statement, found `stock`"),
    FaultyText(
        "version 1\ntransaction {\n  update item(7) set stock 3\n}",
        "3:28",
        "expected `=`, found the number 3"),
    FaultyText(
        "version 1\ntransaction {\n  update item(7) set stock == 3\n}",
        "3:29",
        "expected a value, found `=`",
        "equal is one `=`"),
    FaultyText(
        "version 1\ntransaction {\n  update item 7 set stock = 3\n}",
        "3:15",
        "expected `(`, found the number 7",
        "an object is its class and its key in parentheses: `item(7)`"),
    FaultyText("version 1\ntransaction {\n  delete item()\n}", "3:15", "expected a value, found `)`"),
    FaultyText("version 1\ntransaction {\n  create item(7, 3)\n}", "3:16", "expected an operator or `)`, found `,`"),
    FaultyText("version 1\ntransaction {\n  signal go(1\n}", "4:1", "expected an operator, `,` or `)`, found `}`"),
    FaultyText(
        "version 1\ntransaction {\n  if true then { abort }\n}",
        "3:11",
        "expected an operator or `{`, found `then`",
        "a body is in braces"),
    FaultyText("version 1\ntransaction {\n  if { abort }\n}", "3:6", "expected a value, found `{`"),
    FaultyText(
        "version 1\ntransaction {\n  for o in order { abort }\n}",
        "3:9",
        "expected `{`, found `in`",
        "`for` takes a query's rows; for a class it is `each item i where ..`"),
    FaultyText(
        "version 1\ntransaction {\n  each order where true {}\n}",
        "3:14",
        "expected a name for the row, found `where`",
        "`where` is a word of the notation; as a name it is in backquotes"),
    FaultyText("version 1\ntransaction {\n  with item(7) as {}\n}", "3:19", "expected a name for the row, found `{`"),
    FaultyText(
        "version 1\ntransaction {\n  if a.b {} elif a.c {}\n}",
        "3:13",
        "expected `else`, `;`, `}` or a statement, found `elif`",
        "here it is `else`"),
    FaultyText("version 1\ntransaction {\n  sub {} otherwise\n}", "4:1", "expected `{`, found `}`"),
    FaultyText("version 1\ntransaction {\n  abort()\n}", "3:8", "expected `;`, `}` or a statement, found `(`"),
    FaultyText(
        "version 1\ntransaction {\n  install rule a, b\n}",
        "3:16",
        "expected `;`, `}` or a statement, found `a`"),
    FaultyText("version 1\ntransaction {\n  ;\n}", "3:3", "expected `}` or a statement, found `;`"),
    FaultyText("version 1\nclock later", "2:7", "expected a number, the new time, found `later`"),
    FaultyText(
        "version 1\ntransaction {\n  emit key(i)\n}",
        "3:8",
        "expected a value, found `key`",
        "the key of the row i is `i.key`, that of the event's object `event.key`"),
    FaultyText(
        "version 1\ntransaction {\n  emit new.key\n}",
        "3:12",
        "expected the name of a field, found `key`",
        "the key of the event's object is `event.key`; a field of that name is in backquotes"),
    FaultyText(
        "version 1\ntransaction {\n  emit event.who\n}",
        "3:14",
        "expected `count`, `key`, `time` or `arg`, found `who`",
        "an argument of a signal is `event.arg(0)`, a field of the event's object `new.NAME` or `old.NAME`"),
    FaultyText("version 1\ntransaction {\n  emit new[1,2].stock\n}", "3:13", "expected `]`, found `,`"),
    FaultyText("version 1\ntransaction {\n  emit event\n}", "4:1", "expected `[` or `.`, found `}`"),
    FaultyText(
        "version 1\ntransaction {\n  emit event.arg[0]\n}",
        "3:17",
        "expected `(`, found `[`",
        "brackets choose a part, and stand before the point: `event[1].arg(0)`"),
    FaultyText("version 1\ntransaction {\n  emit event.arg\n}", "4:1", "expected `(`, found `}`"),
    FaultyText(
        "version 1\ntransaction {\n  emit 1 < 2 < 3\n}",
        "3:14",
        "expected an operator, `;`, `}` or a statement, found `<`",
        "comparisons don't chain, and as a value of `set` one is in parentheses"),
    FaultyText(
        "version 1\ntransaction {\n  emit a.b == 1\n}",
        "3:13",
        "expected a value, found `=`",
        "equal is one `=`"),
    FaultyText(
        "version 1\ntransaction {\n  emit !a.b\n}",
        "3:8",
        "no token begins with `!`",
        "not equal is `!=`, and negation is `not`"),
    FaultyText("version 1\ntransaction {\n  emit -(5\n}", "4:1", "expected an operator or `)`, found `}`"),
    FaultyText(
        "version 1\ntransaction {\n  emit a.b = not a.c\n}",
        "3:14",
        "expected a value, found `not`",
        "here `not` is in parentheses"),
    FaultyText(
        "version 1\ntransaction {\n  emit (1 + 2\n  emit 3\n}",
        "4:3",
        "expected an operator or `)`, found `emit`"),
    FaultyText(
        "version 1\ntransaction {\n  emit 1.5\n}",
        "3:9",
        "expected an operator, `;`, `}` or a statement, found `.`"),
    FaultyText("version 1\ntransaction {\n  emit 9223372036854775808\n}", "3:8", "the number is outside 64 bits"),
    FaultyText(
        "version 1\ntransaction {\n  emit new[9223372036854775808].a\n}",
        "3:12",
        "the number is outside 64 bits"),
    FaultyText(
        "version 1\ntransaction {\n  emit 'open'\n}",
        "3:8",
        "no token begins with `'`",
        "a text is in double quotes"),
    FaultyText(
        'version 1\ntransaction {\n  emit "open',
        "3:13",
        'the text isn\'t closed: expected `"`, found the end'),
    FaultyText(
        'version 1\ntransaction {\n  emit "a\\u12"\n}',
        "3:10",
        "`\\u` is no escape",
        'there are \\" \\\\ \\/ \\b \\f \\n \\r \\t and \\u with four hexadecimal digits'),
    FaultyText(
        'version 1\ntransaction {\n  emit "é\tb"\n}',
        "3:10",
        "a text has no control characters",
        "write an escape"),
    FaultyText("version 1\ntransaction {\n  emit $x.a\n}", "3:8", "no token begins with `$`"),
    FaultyText(
        "version 1\ntransaction {\n  emit ``.b\n}",
        "3:9",
        "a name is expected after the backquote",
        "a name is a letter, then letters, digits or `_`"),
    FaultyText(
        "version 1\ntransaction {\n  -- a comment\n}",
        "3:3",
        "expected `}` or a statement, found `-`",
        "a comment begins with `#`"),
    FaultyText('version 1\ntransaction {\n  emit "é" é\n}', "3:12", "no token begins with `é`"),
    FaultyText(
        "version 1\ntransaction {\n  emit 1 2 'x'\n}",
        "3:10",
        "expected an operator, `;`, `}` or a statement, found the number 2"),
    FaultyText(
        "version 1\ntransaction {\n  \temit\t1\t2\n}",
        "3:11",
        "expected an operator, `;`, `}` or a statement, found the number 2"),
    FaultyText(
        "version 1\nrule r on update item\n  if some item(stock < 3) i do {}",
        "3:15",
        "expected a name for the row, found `(`",
        "as in `some item i where i.stock < 0`"),
    FaultyText(
        "version 1\ntransaction {\n  delete item where stock = 0\n}",
        "3:15",
        "expected `(`, found `where`",
        "an object is its class and its key in parentheses: `item(7)`"),
    FaultyText(
        "version 1\ntransaction {\n  ROLLBACK;\n}",
        "3:3",
        "expected `}` or a statement, found `ROLLBACK`",
        "here it is `abort`"),
    FaultyText(
        "version 1\ntransaction {\n  if a.b && a.c {}\n}",
        "3:10",
        "no token begins with `&`",
        "conjunction is `and`"),
    FaultyText(
        "version 1\ntransaction {\n  if a.b || a.c {}\n}",
        "3:10",
        "no token begins with `|`",
        "disjunction is `or`"),
    FaultyText(
        "version 1\ntransaction {\n  if a.b => 3 {}\n}",
        "3:11",
        "expected a value, found `>`",
        "it is written `>=`"),
    FaultyText(
        "version 1\ntransaction {\n  if a.b <> 3 {}\n}",
        "3:11",
        "expected a value, found `>`",
        "not equal is `!=`"),
    FaultyText(
        "version 1\nrule r on update item do;\n",
        "2:25",
        "expected a mode or `{`, found `;`",
        "a body is in braces"),
    FaultyText(
        "version 1\nrule r on update item => { veto }\n",
        "2:23",
        "expected `or`, `then`, a mode, `if` or `do`, found `=`",
        "an action begins with `do`"),
    FaultyText(
        "version 1\nrule r on update item do begin veto end\n",
        "2:26",
        "expected a mode or `{`, found `begin`",
        "a body is in braces"),
    FaultyText(
        "version 1\nrule r on updte item do {}\n",
        "2:11",
        "expected an event, found `updte`",
        "did you mean `update`?"),
    FaultyText(
        "version 1\nrule r on update item defered do {}\n",
        "2:23",
        "expected `or`, `then`, a mode, `if` or `do`, found `defered`",
        "did you mean `deferred`?"),
    FaultyText(
        "version 1\ntransaction {\n  emitt 3\n}",
        "3:3",
        "expected `}` or a statement, found `emitt`",
        "did you mean `emit`?"),
    FaultyText(
        "version 1\nruel r on update item do {}\n",
        "2:1",
        "expected `depth`, `class`, `rule`, `transaction`, `clock` or the end, found `ruel`",
        "did you mean `rule`?"),
    FaultyText(
        "version 1\nclass item { stock: itn }\n",
        "2:21",
        "expected `int`, `bool` or `text`, found `itn`",
        "did you mean `int`?"),
    FaultyText(
        "version 1\ntransaction {\n  if a.b: emit 3\n}",
        "3:9",
        "expected an operator or `{`, found `:`",
        "a body is in braces"),
    FaultyText(
        "version 1\nrule r on closure(create a untill create b) do {}",
        "2:28",
        "expected `or`, `then` or `until`, found `untill`",
        "did you mean `until`?"),
    FaultyText(
        "version 1\ntransaction {\n  emit “open”\n}",
        "3:8",
        "no token begins with `“`",
        "a text is in plain double quotes"),
    FaultyText(
        "version 1\n// a comment\n",
        "2:1",
        "expected `depth`, `class`, `rule`, `transaction`, `clock` or the end, found `/`",
        "a comment begins with `#`"),
    FaultyText(
        "version 4\nrule closed r on update item do {}",
        "2:13",
        "expected `closed` or `on`, found `r`",
        "each rule waits for an event, as `on update item`"),
    FaultyText(
        "version 4\nclosed rule r on update item do {}",
        "2:1",
        "expected `depth`, `class`, `rule`, `transaction`, `clock` or the end, found `closed`",
        "`closed` stands after the name of the rule"),
    FaultyText("version 4\nrule r closed deferred on update item do {}", "2:15", "expected `on`, found `deferred`"),
    FaultyText(
        "version 4\nrule r on update item\n  if not some item i do {}",
        "3:6",
        "expected `some`, `no` or `let`, found `not`",
        "that there is none is `if no item i where ..`"),
    FaultyText(
        "version 4\nrule r on update item\n  if exists item i do {}",
        "3:6",
        "expected `some`, `no` or `let`, found `exists`",
        "here it is `some`"),
    FaultyText(
        "version 4\nrule r on update item\n  if no item i and i.stock < 3 do {}",
        "3:16",
        "expected `where`, `if` or `do`, found `and`"),
    FaultyText(
        "version 4\nrule r on update item\n  if n > 3 do {}",
        "3:6",
        "expected `some`, `no` or `let`, found `n`",
        "a condition asks for objects; test the values of the event by an `if` within `do`"),
    FaultyText(
        "version 4\nrule r on update item\n  if let n = do {}",
        "3:14",
        "expected `count`, `sum`, `least`, `greatest`, `next` or a value, found `do`"),
    FaultyText(
        "version 4\nrule r on update item\n  if let n: count order o do {}",
        "3:11",
        "expected `=`, found `:`",
        "here it is `=`"),
    FaultyText(
        "version 4\nrule r on update item\n  if let n = count do {}",
        "3:20",
        "expected the name of a class, found `do`",
        "`count` begins an aggregate here; a value that begins with this name is in parentheses"),
    FaultyText(
        "version 4\nrule r on update item\n  if let n = count order where true do {}",
        "3:26",
        "expected a name for the row, found `where`",
        "`where` is a word of the notation; as a name it is in backquotes"),
    FaultyText(
        "version 4\nrule r on update item\n  if let n = sum order o do {}",
        "3:24",
        "expected `.`, an operator or `over`, found `o`",
        "as in `let s = sum o.price over order o`"),
    FaultyText(
        "version 4\nrule r on update item\n  if let n = sum o.price over o do {}",
        "3:33",
        "expected a name for the row, found `do`",
        "`do` is a word of the notation; as a name it is in backquotes"),
    FaultyText(
        "version 4\nrule r on update item\n  if let n = least of o.price over order o do {}",
        "3:23",
        "expected `.`, an operator or `over`, found `o`",
        "as in `let s = sum o.price over order o`"),
    FaultyText(
        "version 4\nrule r on update item\n  if let n = next order + 1 do {}",
        "3:25",
        "expected `if` or `do`, found `+`"),
    FaultyText(
        "version 4\nrule r on update item\n  if let n = `count` order o do {}",
        "3:22",
        "expected `.`, an operator, `if` or `do`, found `order`"),
    FaultyText(
        "version 4\nrule r on update item\n  if let n = next do {}",
        "3:19",
        "expected the name of a class, found `do`",
        "`next` begins an aggregate here; a value that begins with this name is in parentheses"),
    FaultyText(
        "version 2\nrule r on update item\n  if let n = 3 do {}",
        "3:6",
        "a `let` of a condition needs version 4"),
    FaultyText(
        "version 4\nrule r on update item\n  if let n = 3 {}\n  do {}",
        "3:16",
        "expected an operator, `if` or `do`, found `{`"),
    FaultyText(
        "version 4\ntransaction {\n  let n = next order; emit n\n}",
        "3:21",
        "expected `{`, found `;`",
        "a body is in braces"),
    FaultyText(
        "version 4\ntransaction {\n  let n = sum - 1 {}\n}",
        "3:19",
        "expected an operator or `over`, found `{`",
        "as in `let s = sum o.price over order o`"),
    FaultyText(
        "version 4\ntransaction {\n  let n == 3 {}\n}",
        "3:10",
        "expected `count`, `sum`, `least`, `greatest`, `next` or a value, found `=`",
        "equal is one `=`"),
    FaultyText(
        "version 4\ntransaction {\n  install let n = 3 {}\n}",
        "3:15",
        "expected `;`, `}` or a statement, found `n`"),
    FaultyText(
        "version 4\ntransaction {\n  emit next order\n}",
        "3:13",
        "expected `.`, an operator, `;`, `}` or a statement, found `order`",
        "an aggregate is the value of a `let`: `let n = next ..`"),
    FaultyText(
        "version 4\ntransaction {\n  emit now()\n}",
        "3:11",
        "expected `.`, an operator, `;`, `}` or a statement, found `(`",
        "`now` has no parentheses"),
    FaultyText(
        "version 4\ntransaction {\n  emit event.now\n}",
        "3:14",
        "expected `count`, `key`, `time` or `arg`, found `now`",
        "the moment of the clock is `now`"),
    FaultyText(
        "version 4\ntransaction {\n  emit n(3)\n}",
        "3:9",
        "expected `.`, an operator, `;`, `}` or a statement, found `(`",
        "an operand has no arguments"),
    FaultyText("version 4\ntransaction {\n  emit n.\n}", "4:1", "expected `key` or the name of a field, found `}`"),
    FaultyText("version 4\ntransaction {\n  veto let\n}", "4:1", "expected a name for the value, found `}`"),
    FaultyText(
        'version 4\ntransaction {\n  veto "a", n\n}',
        "3:11",
        "expected an operator, `;`, `}` or a statement, found `,`"),
    FaultyText(
        "version 4\ntransaction {\n  veto then {}\n}",
        "3:8",
        "expected a value, `;`, `}` or a statement, found `then`"),
    FaultyText(
        "version 4\ntransaction {\n  LET n = 3 {}\n}",
        "3:3",
        "expected `}` or a statement, found `LET`",
        "here it is `let`"),
    FaultyText(
        "version 4\ntransaction {\n  emit value n\n}",
        "3:14",
        "expected `.`, an operator, `;`, `}` or a statement, found `n`",
        "a value is its name alone"),
    FaultyText(
        "version 4\ntransaction {\n  let n = {} {}\n}",
        "3:11",
        "expected `count`, `sum`, `least`, `greatest`, `next` or a value, found `{`"),
    FaultyText("version 4\nclock now", "2:7", "expected a number, the new time, found `now`"),
    FaultyText(
        "version 4\nif no item i",
        "2:1",
        "expected `depth`, `class`, `rule`, `transaction`, `clock` or the end, found `if`"),
    FaultyText(
        "version 4\nrule r on update item\n  if let `let` = 3 do {}\n}",
        "4:1",
        "expected `rule`, `transaction`, `clock` or the end, found `}`"),
    FaultyText(
        "version 4\nrule r on update item\n  if some item i if let n = least i.stock over item do {}",
        "3:53",
        "expected a name for the row, found `do`",
        "`do` is a word of the notation; as a name it is in backquotes"),
    FaultyText(
        "version 4\ntransaction {\n  let n = count order o where {}\n}",
        "3:31",
        "expected a value, found `{`"),
    FaultyText(
        "version 4\ntransaction {\n  let n = (sum o.a over order o) {}\n}",
        "3:16",
        "expected `.`, an operator or `)`, found `o`",
        "an aggregate is the value of a `let`: `let n = sum ..`"),
    FaultyText("version 4\ntransaction {\n  veto if\n}", "4:1", "expected a value, found `}`"),
    FaultyText(
        "version 1\nrule r after update item do {}",
        "2:8",
        "expected `closed` or `on`, found `after`",
        "here it is `on`"),
]
"""Texts that are no scripts."""

FAULTY_LINES = [
    FaultyText("", "1:1", "expected `transaction`, `clock` or `show`, found the end"),
    FaultyText("show show", "1:6", "expected the end, found `show`"),
    FaultyText("clock 5 clock 6", "1:9", "expected the end, found `clock`"),
    FaultyText("version 4", "1:1", "expected `transaction`, `clock` or `show`, found `version`"),
    FaultyText("emit 3", "1:1", "expected `transaction`, `clock` or `show`, found `emit`"),
    FaultyText("transaction { # x }", "1:20", "expected `}` or a statement, found the end"),
]
"""Texts that are no lines to a running rule base."""
