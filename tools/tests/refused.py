"""Refused scripts, each with the messages of `check`.

The marks « and » around a value are not part of the script. `message` follows the refusal in the first line; `more`
are the lines after the excerpt, without the excerpts of other places.
"""

from __future__ import annotations

from dataclasses import dataclass


@dataclass(init=False)
class Case:
    """A refused script."""

    name: str
    refusal: str
    script: str
    start: int
    end: int
    message: str
    more: tuple[str, ...]

    def __init__(self, name: str, refusal: str, marked: str, message: str, *more: str):
        start, end = marked.index("«"), marked.index("»") - 1
        script = marked.replace("«", "").replace("»", "")
        self.name, self.refusal, self.script = name, refusal, script
        self.start, self.end = start, end
        self.message, self.more = message, more


# ---- scripts around the tested value

CLASSES = '["acct", [["bal", "int"], ["owner", "text"]]], ["mark", []]'
RULE = '["r", ["signal", "go"], "immediate", [], "immediate", []]'


def script(version="1", classes=CLASSES, rules="", items="", more=""):
    """A whole script of these parts; `more` follows the version."""
    return (
        f'{{\n  "version": {version},{more}\n  "classes": [{classes}],\n  "rules": [{rules}],\n'
        f'  "items": [{items}]\n}}\n')


def body(statements, rules=""):
    """One transaction with these statements."""
    return script(rules=rules, items=f'\n    ["tx", [\n      {statements}\n    ]]')


def rule(
        event='["signal", "go"]', ec='"immediate"', queries="[]", ca='"immediate"', action="[]", version="1", items=""):
    """One rule of these parts, called r."""
    parts = f'\n    ["r",\n      {event},\n      {ec}, {queries}, {ca},\n      {action}]'
    return script(version=version, rules=parts, items=items)


def action(statements, queries="[]"):
    """One rule with these statements in its action."""
    return rule(queries=queries, action=f"[{statements}]")


CASES = [
    # ---- JSON
    Case(
        "an empty file", "S1",
        '«»',
        "the text ends where a value is expected"),
    Case(
        "spaces alone", "S1",
        '  \n «»',
        "the text ends where a value is expected"),
    Case(
        "a text that ends too early", "S1",
        '{"version": 1, "classes": [«»',
        "the text ends, and a list isn't closed: `]` is missing", "it begins here:"),
    Case(
        "another bracket than the one that closes", "S1",
        body('["emit", 1«}»'),
        "`}` stands where `]` is expected", "it begins here:"),
    Case(
        "a comma too many", "S1",
        body('["emit", 1«,»]'),
        "a comma stands before `]`", "JSON has no comma after the last part"),
    Case(
        "a comma too few", "S1",
        body('["emit" «1»]'),
        "`,` or `]` is expected here", "is a comma missing before it?"),
    Case(
        "a member without a colon", "S1",
        '{"version" «1»}',
        "`:` is expected after the member's name `version`"),
    Case(
        "a member without quotes", "S1",
        '{«version»: 1}',
        "a member's name is a text in double quotes", 'write "version"'),
    Case(
        "a member in a list", "S1",
        '["version"«:» 1]',
        "`:` stands in a list: isn't the list closed before?", "an object is written { }", "it begins here:"),
    Case(
        "two colons in a member", "S1",
        '{"version": 1 «:» 1}',
        "`,` or `}` is expected here", "is a comma missing before it?"),
    Case(
        "single quotes", "S1",
        body("[«'»emit', 1]"),
        "a text stands in double quotes", "write \" in place of '"),
    Case(
        "a comment", "S1",
        body('«//» nothing'),
        "JSON has no comments"),
    Case(
        "a comment with a number sign", "S1",
        body('«#» nothing'),
        "JSON has no comments"),
    Case(
        "a word of another language", "S1",
        body('["emit", «True»]'),
        "`True` is no JSON value", "did you mean `true`?"),
    Case(
        "a word without quotes", "S1",
        body('["emit", «hello»]'),
        "`hello` is no JSON value", 'a text stands in double quotes: "hello"'),
    Case(
        "a number with a zero before it", "S1",
        body('["emit", «012»]'),
        "`012` is no JSON number", "a number has no zeros before it"),
    Case(
        "a number with a plus", "S1",
        body('["emit", «+1»]'),
        "`+1` is no JSON number", "a number has no sign +"),
    Case(
        "a point at the end of a number", "S1",
        body('["emit", «1.»]'),
        "`1.` is no JSON number", "a point stands between digits"),
    Case(
        "a number in hexadecimal", "S1",
        body('["emit", «0x1f»]'),
        "`0x1f` is no JSON number", "a number is digits, perhaps with - before them"),
    Case(
        "a number too large for a float", "S1",
        body('["emit", «1e400»]'),
        "the number `1e400` is too large to be read"),
    Case(
        "a text that isn't closed", "S1",
        body('["emit", «"hello]»\n'),
        "this text isn't closed in its line", 'write " at its end; a line break in a text is \\n'),
    Case(
        "a tab in a text", "S1",
        body('["emit", "a«\t»b"]'),
        "a control character stands in a text", "write \\t"),
    Case(
        "a control character in a text", "S1",
        body('["emit", "a«\x01»b"]'),
        "a control character stands in a text", "write \\u0001"),
    Case(
        "an unknown escape", "S1",
        body('["emit", "a«\\x»41"]'),
        "`\\x` is no escape", 'there are \\" \\\\ \\/ \\b \\f \\n \\r \\t and \\u with four hexadecimal digits'),
    Case(
        "too few digits in an escape", "S1",
        body('["emit", "a«\\u»12"]'),
        "four hexadecimal digits belong to `\\u`"),
    Case(
        "half of a surrogate pair", "S1",
        body('["emit", "«\\ud800»"]'),
        "half of a surrogate pair is no character", "write the pair, or the character itself"),
    Case(
        "a low half of a surrogate pair", "S1",
        body('["emit", "«\\udc00»"]'),
        "half of a surrogate pair is no character", "write the pair, or the character itself"),
    Case(
        "text after the end", "S1",
        script() + '«,»',
        "more text follows after the end of the script", "one script is one JSON value"),
    Case(
        "a byte order mark", "S1",
        '«\ufeff»' + script(),
        "the text begins with a byte order mark", "save it as UTF-8 without one"),
    Case(
        "too many brackets", "S1",
        '[' * 127 + '«[»' + ']' * 128,
        "more than 127 lists and objects lie in one another"),
    Case(
        "a sign that begins no value", "S1",
        body('["emit", «@»]'),
        "no JSON value begins like this"),

    # ---- the root
    Case(
        "a list", "S2 /",
        '«[]»',
        "a script is an object with the members version, classes, rules and items, and this is a list"),
    Case(
        "a text", "S2 /",
        '«"script"»',
        "a script is an object with the members version, classes, rules and items, and this is a text"),
    Case(
        "no members", "S2 /",
        '«{}»',
        "the member `version` is missing, and so are `classes`, `rules` and `items`",
        '"version" is the number 1, 2 or 4'),
    Case(
        "a version alone", "S2 /",
        '«{"version": 3}»',
        "the member `classes` is missing, and so are `rules` and `items`",
        '"classes" is a list of classes, perhaps empty'),
    Case(
        "a member that is missing", "S2 /",
        '«{"version": 1, "classes": [], "rules": []}»',
        "the member `items` is missing", '"items" is a list of transactions and clock moves, perhaps empty'),
    Case(
        "a member misspelt", "S2 /",
        '{"version": 1, "classes": [], «"ruels"»: [], "items": []}',
        "a script has no member `ruels`", "did you mean `rules`?"),
    Case(
        "a member whose name has a line feed", "S2 /",
        script(more=' «"a\\nb"»: 1,'),
        "a script has no member `a\ufffdb`", "its members are version, depth, classes, rules and items"),
    Case(
        "a member too many", "S2 /",
        script(more=' «"name"»: "bank",'),
        "a script has no member `name`", "its members are version, depth, classes, rules and items"),

    # ---- the version and the depth
    Case(
        "a version that is a text", "S2 /version",
        script(version='«"1"»'),
        "the version is a whole number, and this is a text", "write 1 without quotes"),
    Case(
        "a version that is null", "S2 /version",
        script(version='«null»'),
        "the version is a whole number, and this is null"),
    Case(
        "a version with a point", "S3 /version",
        script(version='«1.0»'),
        "a whole number is written without a point and an exponent", "write 1"),
    Case(
        "an unknown version", "S6",
        script(version='«3»'),
        "version 3 isn't known: there are 1, 2 and 4"),
    Case(
        "a version below 1", "S6",
        script(version='«0»'),
        "version 0 isn't known: there are 1, 2 and 4"),
    Case(
        "a version before the depth", "S6",
        script(version='«-1»', more=' "depth": 0,'),
        "version -1 isn't known: there are 1, 2 and 4"),
    Case(
        "a doubled version, of which the last counts", "S6",
        script(more=' "version": «7»,'),
        "version 7 isn't known: there are 1, 2 and 4"),
    Case(
        "a depth that is a text", "S2 /depth",
        script(more=' "depth": «"8"»,'),
        "the depth is a whole number, and this is a text", "write 8 without quotes"),
    Case(
        "a depth that is null", "S2 /depth",
        script(more=' "depth": «null»,'),
        "the depth is a whole number, and this is null"),
    Case(
        "a depth with a point", "S3 /depth",
        script(more=' "depth": «8.0»,'),
        "a whole number is written without a point and an exponent", "write 8"),
    Case(
        "a depth of 0", "S5 depth",
        script(more=' "depth": «0»,'),
        "the depth is 1 to 16, and this is 0"),
    Case(
        "a depth of 17", "S5 depth",
        script(more=' "depth": «17»,'),
        "the depth is 1 to 16, and this is 17"),
    Case(
        "a depth before the classes", "S5 depth",
        script(classes='1', more=' "depth": «-3»,'),
        "the depth is 1 to 16, and this is -3"),

    # ---- classes
    Case(
        "classes that are an object", "S2 /classes",
        '{"version": 1, "classes": «{}», "rules": [], "items": []}',
        "`classes` must be a list of classes [name, fields], and this is an object"),
    Case(
        "a class that is a text", "S2 /classes/0",
        script(classes='«"acct"»'),
        "a class is [name, fields], and this is a text"),
    Case(
        "a class without fields", "S2 /classes/0",
        script(classes='«["acct"]»'),
        "a class is [name, fields]: 2 parts, and this has 1"),
    Case(
        "a class of three parts", "S2 /classes/0",
        script(classes='«["acct", [], []]»'),
        "a class is [name, fields]: 2 parts, and this has 3"),
    Case(
        "a class whose name is a number", "S2 /classes/0/0",
        script(classes='[«1», []]'),
        "a class's name is a text, and this is a number"),
    Case(
        "a name that is empty", "S2 /classes/0/0",
        script(classes='[«""», []]'),
        "a class's name can't be empty", "a name is 1 to 32 bytes: an ASCII letter, then ASCII letters, digits or _"),
    Case(
        "a name that begins with a digit", "S2 /classes/0/0",
        script(classes='[«"1st"», []]'),
        "a class's name can't begin with `1`",
        "a name is 1 to 32 bytes: an ASCII letter, then ASCII letters, digits or _"),
    Case(
        "a name with a dash", "S2 /classes/0/0",
        script(classes='[«"bank-account"», []]'),
        "a class's name can't have `-` in it",
        "a name is 1 to 32 bytes: an ASCII letter, then ASCII letters, digits or _"),
    Case(
        "a name with a space", "S2 /classes/0/0",
        script(classes='[«"bank account"», []]'),
        "a class's name can't have a space in it",
        "a name is 1 to 32 bytes: an ASCII letter, then ASCII letters, digits or _"),
    Case(
        "a name with a line feed", "S2 /classes/0/0",
        script(classes='[«"bank\\n"», []]'),
        "a class's name can't have the character U+000A in it",
        "a name is 1 to 32 bytes: an ASCII letter, then ASCII letters, digits or _"),
    Case(
        "a name with a letter that isn't ASCII", "S2 /classes/0/0",
        script(classes='[«"caf\u00e9"», []]'),
        "a class's name can't have `é` in it",
        "a name is 1 to 32 bytes: an ASCII letter, then ASCII letters, digits or _"),
    Case(
        "a name of 33 bytes", "S2 /classes/0/0",
        script(classes='[«"' + 'a' * 33 + '"», []]'),
        "a class's name has 33 bytes, and 32 are the most",
        "a name is 1 to 32 bytes: an ASCII letter, then ASCII letters, digits or _"),
    Case(
        "a doubled class", "S4 /classes/1/0",
        script(classes='["acct", []],\n    [«"acct"», 1]'),
        "a class `acct` is there already", "the first one is here:"),
    Case(
        "fields that are a number", "S2 /classes/0/1",
        script(classes='["acct", «1»]'),
        "the fields of a class must be a list of fields [name, kind], and this is a number"),
    Case(
        "a field that is a text", "S2 /classes/0/1/0",
        script(classes='["acct", [«"bal"»]]'),
        "a field is [name, kind], and this is a text",
        "put the field into a list of its own: [[name, kind]]"),
    Case(
        "a field without a kind", "S2 /classes/0/1/0",
        script(classes='["acct", [«["bal"]»]]'),
        "a field is [name, kind]: 2 parts, and this has 1"),
    Case(
        "a field whose name is null", "S2 /classes/0/1/0/0",
        script(classes='["acct", [[«null», "int"]]]'),
        "a field's name is a text, and this is null"),
    Case(
        "an unknown kind", "S2 /classes/0/1/0/1",
        script(classes='["acct", [["bal", «"integer"»]]]'),
        '"integer" is no kind', "did you mean `int`?", 'a kind is "int", "bool" or "text"'),
    Case(
        "another unknown kind", "S2 /classes/0/1/0/1",
        script(classes='["acct", [["bal", «"decimal"»]]]'),
        '"decimal" is no kind', 'a kind is "int", "bool" or "text"'),
    Case(
        "a kind that is a number", "S2 /classes/0/1/0/1",
        script(classes='["acct", [["bal", «64»]]]'),
        'a kind is "int", "bool" or "text", and this is a number'),
    Case(
        "a doubled field", "S4 /classes/0/1/1/0",
        script(classes='["acct", [["bal", "int"], [«"bal"», "text"]]]'),
        "a field `bal` is there already", "the first one is here:"),
    Case(
        "33 fields", "S5 fields",
        script(classes='["acct", «[' + '0, ' * 32 + '0]»]'),
        "a class has at most 32 fields, and here are 33", "number 33 is here:"),
    Case(
        "a name before the number of fields", "S2 /classes/0/0",
        script(classes='[«"1"», [' + '0, ' * 32 + '0]]'),
        "a class's name can't begin with `1`",
        "a name is 1 to 32 bytes: an ASCII letter, then ASCII letters, digits or _"),
    Case(
        "65 classes", "S5 classes",
        '{"version": 1, "classes": «[' + '0, ' * 64 + '0]», "rules": [], "items": []}',
        "a script has at most 64 classes, and here are 65", "number 65 is here:"),

    # ---- the form and name of rules
    Case(
        "rules that are an object", "S2 /rules",
        '{"version": 1, "classes": [], "rules": «{}», "items": []}',
        "`rules` must be a list of rules, and this is an object"),
    Case(
        "a rule that is an object", "S2 /rules/0",
        script(rules='«{}»'),
        "a rule is [name, event, ec, queries, ca, action], and this is an object"),
    Case(
        "a rule of five parts", "S2 /rules/0",
        script(rules='«["r", ["commit"], "immediate", [], "immediate"]»'),
        "a rule is [name, event, ec, queries, ca, action]: 6 parts, and this has 5"),
    Case(
        "a rule without queries", "S2 /rules/0",
        script(rules='«["r", ["commit"], "immediate", "immediate", []]»'),
        "a rule is [name, event, ec, queries, ca, action]: 6 parts, and this has 5",
        "the queries stand between the modes; where there are none, write []"),
    Case(
        "a rule whose name is a list", "S2 /rules/0/0",
        script(rules='[«[]», 0, 0, 0, 0, 0]'),
        "a rule's name is a text, and this is a list"),
    Case(
        "a rule whose name is no name", "S2 /rules/0/0",
        script(rules='[«"_r"», 0, 0, 0, 0, 0]'),
        "a rule's name can't begin with `_`",
        "a name is 1 to 32 bytes: an ASCII letter, then ASCII letters, digits or _"),
    Case(
        "a doubled rule, before its parts and later forms", "S4 /rules/1/0",
        script(rules='["r", 0, 0, 0, 0, 0],\n    [«"r"», 0, 0, 0, 0, 0],\n    []'),
        "a rule `r` is there already", "the first one is here:"),
    Case(
        "a wrong form before a wrong event", "S2 /rules/1",
        script(rules='["r", [], 0, 0, 0, 0],\n    «[]»'),
        "a rule is [name, event, ec, queries, ca, action]: 6 parts, and this has 0"),
    Case(
        "257 rules", "S5 rules",
        '{"version": 1, "classes": [], "rules": «[' + '0, ' * 256 + '0]», "items": []}',
        "a script has at most 256 rules, and here are 257", "number 257 is here:"),

    # ---- events
    Case(
        "an event that is a text", "S2 /rules/0/1",
        rule(event='«"commit"»'),
        "an event is a list [word, ..], and this is a text", 'write ["commit"]'),
    Case(
        "an event that is another text", "S2 /rules/0/1",
        rule(event='«"go"»'),
        "an event is a list [word, ..], and this is a text"),
    Case(
        "an empty event", "S2 /rules/0/1",
        rule(event='«[]»'),
        "an event is a list [word, ..], and this list is empty",
        "an event begins with create, update, delete, signal, commit, at, every, or, seq or closure"),
    Case(
        "an event that begins with a number", "S2 /rules/0/1",
        rule(event='«[1, 2]»'),
        "an event begins with its word, and this begins with a number",
        "an event begins with create, update, delete, signal, commit, at, every, or, seq or closure"),
    Case(
        "an event in one list too many", "S2 /rules/0/1",
        rule(event='«[["commit"]]»'),
        "an event begins with its word, and this begins with a list",
        "these are two lists, one in the other: one pair of brackets is too many"),
    Case(
        "an event misspelt", "S2 /rules/0/1",
        rule(event='«["updte", "acct"]»'),
        '"updte" begins no event', "did you mean `update`?"),
    Case(
        "an event of another language", "S2 /rules/0/1",
        rule(event='«["insert", "acct"]»'),
        '"insert" begins no event', "did you mean `create`?"),
    Case(
        "a statement in place of an event", "S2 /rules/0/1",
        rule(event='«["emit", 1]»'),
        '"emit" begins no event', "it begins a statement, and an event is expected here",
        "an event begins with create, update, delete, signal, commit, at, every, or, seq or closure"),
    Case(
        "an event without its class", "S2 /rules/0/1",
        rule(event='«["create"]»'),
        '["create", class] has 1 part after its word, and this has none'),
    Case(
        "a commit with a part", "S2 /rules/0/1",
        rule(event='«["commit", "acct"]»'),
        '["commit"] has no parts after its word, and this has 1'),
    Case(
        "an or of three", "S2 /rules/0/1",
        rule(event='«["or", ["commit"], ["commit"], ["commit"]]»'),
        '["or", event, event] has 2 parts after its word, and this has 3',
        'it takes two: put one into the other, as ["or", a, ["or", b, c]]'),
    Case(
        "an unknown class in an event", "S4 /rules/0/1/1",
        rule(event='["delete", «"acc"»]'),
        "there is no class `acc`", "did you mean `acct`?"),
    Case(
        "a class that is a number in an event", "S2 /rules/0/1/1",
        rule(event='["delete", «7»]'),
        "a class's name is a text, and this is a number"),
    Case(
        "a signal that is no name", "S2 /rules/0/1/1",
        rule(event='["signal", «"go!"»]'),
        "a signal's name can't have `!` in it",
        "a name is 1 to 32 bytes: an ASCII letter, then ASCII letters, digits or _"),
    Case(
        "a moment below 0", "S2 /rules/0/1/1",
        rule(event='["at", «-1»]'),
        "a moment is 0 or more, and this is -1"),
    Case(
        "a moment with a fraction", "S3 /rules/0/1/1",
        rule(event='["at", «1.5»]'),
        "a number must be whole, and this has a fraction"),
    Case(
        "a moment that is a text", "S2 /rules/0/1/1",
        rule(event='["at", «"20"»]'),
        "a moment is a whole number, and this is a text", "write 20 without quotes"),
    Case(
        "every without its first moment", "S2 /rules/0/1",
        rule(event='«["every", 30]»'),
        '["every", first, period] has 2 parts after its word, and this has 1',
        'the first moment comes before the period: ["every", 30, 30]'),
    Case(
        "a first moment below 0", "S2 /rules/0/1/1",
        rule(event='["every", «-5», 0]'),
        "a moment is 0 or more, and this is -5"),
    Case(
        "a period of 0", "S2 /rules/0/1/2",
        rule(event='["every", 0, «0»]'),
        "a period is 1 or more, and this is 0"),
    Case(
        "a wrong event within a seq", "S4 /rules/0/1/2/1/1",
        rule(event='["seq", ["commit"], ["closure", ["update", «"nobody"»], 2]]'),
        "there is no class `nobody`", "known here: acct, mark"),
    Case(
        "an event at level 17", "S5 event",
        rule(event='["or", ' * 16 + '«["create", "nobody"]»' + ', ["commit"]]' * 16),
        "an event has at most 16 levels, and this is the first one at level 17"),
    Case(
        "a wrong form before its level", "S2 /rules/0" + "/1" * 17,
        rule(event='["or", ' * 16 + '«["create"]»' + ', ["commit"]]' * 16),
        '["create", class] has 1 part after its word, and this has none'),

    # ---- modes
    Case(
        "a mode that is a number", "S2 /rules/0/2",
        rule(ec='«1»'),
        'a mode is "immediate", "deferred", "separate" or "dependent", and this is a number'),
    Case(
        "a mode misspelt", "S2 /rules/0/2",
        rule(ec='«"imediate"»'),
        '"imediate" is no mode', "did you mean `immediate`?",
        'a mode is "immediate", "deferred", "separate" or "dependent"'),
    Case(
        "a mode of another language", "S2 /rules/0/4",
        rule(ca='«"detached"»'),
        '"detached" is no mode', "did you mean `separate`?",
        'a mode is "immediate", "deferred", "separate" or "dependent"'),
    Case(
        "an unknown mode in version 2", "S2 /rules/0/4",
        rule(version='2', ca='«"sometimes"»'),
        '"sometimes" is no mode', 'a mode is "immediate", "deferred", "separate", "dependent" or "exclusive"'),
    Case(
        "exclusive in version 1, where the condition is tested", "S2 /rules/0/2",
        rule(ec='«"exclusive"»'),
        "the mode `exclusive` is of version 2", "the script says version 1 here:"),
    Case(
        "exclusive in version 1, where the action runs", "S2 /rules/0/4",
        rule(ca='«"exclusive"»'),
        "the mode `exclusive` is of version 2", "the script says version 1 here:"),
    Case(
        "a mode before the condition", "S2 /rules/0/2",
        rule(ec='«null»', queries='1'),
        'a mode is "immediate", "deferred", "separate" or "dependent", and this is null'),

    # ---- conditions
    Case(
        "a condition that is null", "S2 /rules/0/3",
        rule(queries='«null»'),
        "the condition must be a list of queries [name, class, predicate], and this is null"),
    Case(
        "a query that is a text", "S2 /rules/0/3/0",
        rule(queries='[«"x"», "acct", true]'),
        "a query is [name, class, predicate], and this is a text",
        "put the query into a list of its own: [[name, class, predicate]]"),
    Case(
        "a test in place of queries", "S2 /rules/0/3/0",
        rule(queries='[«"<"», ["new", 0, "bal"], 3]'),
        "a condition is a list of queries [name, class, predicate], and this is a text",
        "a test that needs no object is an `if` in the action"),
    Case(
        "a query without a predicate", "S2 /rules/0/3/0",
        rule(queries='[«["x", "acct"]»]'),
        "a query is [name, class, predicate]: 3 parts, and this has 2"),
    Case(
        "a query whose name is no name", "S2 /rules/0/3/0/0",
        rule(queries='[[«"x y"», "acct", true]]'),
        "a query's name can't have a space in it",
        "a name is 1 to 32 bytes: an ASCII letter, then ASCII letters, digits or _"),
    Case(
        "a doubled query", "S4 /rules/0/3/1/0",
        rule(queries='[["x", "acct", true],\n    [«"x"», "acct", true]]'),
        "a query `x` is there already", "the first one is here:"),
    Case(
        "an unknown class in a query", "S4 /rules/0/3/0/1",
        rule(queries='[["x", «"Acct"», true]]'),
        "there is no class `Acct`", "did you mean `acct`?"),
    Case(
        "a query that comes later", "S4 /rules/0/3/0/2/1",
        rule(queries='[["x", "acct", ["key", «"y"»]], ["y", "acct", true]]'),
        "no row is called `y` here",
        "that query comes later: a predicate knows its own row and the queries before it"),
    Case(
        "an unknown row in a predicate", "S4 /rules/0/3/0/2/1/1",
        rule(queries='[["row", "acct", ["<", ["of", «"rwo"», "bal"], 0]]]'),
        "no row is called `rwo` here", "did you mean `row`?"),
    Case(
        "a class in place of a row", "S4 /rules/0/3/0/2/1/1",
        rule(queries='[["x", "acct", ["<", ["of", «"acct"», "bal"], 0]]]'),
        "no row is called `acct` here", "`acct` is a class, and the name of a row is expected here"),

    # ---- expressions
    Case(
        "null", "S2 /items/0/1/0/1",
        body('["emit", «null»]'),
        "an expression is a number, a truth value, a text or a list [word, ..], and this is null"),
    Case(
        "an object", "S2 /items/0/1/0/1",
        body('["emit", «{}»]'),
        "an expression is a number, a truth value, a text or a list [word, ..], and this is an object"),
    Case(
        "an empty list", "S2 /items/0/1/0/1",
        body('["emit", «[]»]'),
        "an expression is a list [word, ..], and this list is empty",
        "an expression begins with +, -, *, /, %, and, or, =, !=, <, <=, >, >=, neg, not, of, key, new, old, "
        "id, arg, time or count"),
    Case(
        "a list of numbers", "S2 /items/0/1/0/1",
        body('["emit", «[1, 2]»]'),
        "an expression begins with its word, and this begins with a number",
        "an expression begins with +, -, *, /, %, and, or, =, !=, <, <=, >, >=, neg, not, of, key, new, old, "
        "id, arg, time or count"),
    Case(
        "an unknown operation", "S2 /items/0/1/0/1",
        body('["emit", «["pow", 1, 2]»]'),
        '"pow" begins no expression',
        "an expression begins with +, -, *, /, %, and, or, =, !=, <, <=, >, >=, neg, not, of, key, new, old, "
        "id, arg, time or count"),
    Case(
        "an operation of another language", "S2 /items/0/1/0/1",
        body('["emit", «["==", 1, 2]»]'),
        '"==" begins no expression', "did you mean `=`?"),
    Case(
        "an operation without its second operand", "S2 /items/0/1/0/1",
        body('["emit", «["+", 1]»]'),
        '["+", a, b] has 2 parts after its word, and this has 1'),
    Case(
        "a minus with one operand", "S2 /items/0/1/0/1",
        body('["emit", «["-", 1]»]'),
        '["-", a, b] has 2 parts after its word, and this has 1', 'the number with the other sign is ["neg", a]'),
    Case(
        "an and of three", "S2 /items/0/1/0/1",
        body('["emit", «["and", true, true, true]»]'),
        '["and", a, b] has 2 parts after its word, and this has 3',
        'it takes two: put one into the other, as ["and", a, ["and", b, c]]'),
    Case(
        "a count with a part", "S2 /rules/0/5/0/1",
        action('["emit", «["count", 0]»]'),
        '["count"] has no parts after its word, and this has 1'),
    Case(
        "a fraction", "S3 /items/0/1/0/1",
        body('["emit", «1.5»]'),
        "a number must be whole, and this has a fraction"),
    Case(
        "a whole number with a point", "S3 /items/0/1/0/1",
        body('["emit", «1.0»]'),
        "a whole number is written without a point and an exponent", "write 1"),
    Case(
        "a whole number with an exponent", "S3 /items/0/1/0/1",
        body('["emit", «1e3»]'),
        "a whole number is written without a point and an exponent", "write 1000"),
    Case(
        "-0", "S3 /items/0/1/0/1/1",
        body('["emit", ["neg", «-0»]]'),
        "-0 isn't taken for a whole number", "write 0"),
    Case(
        "a number above the largest", "S3 /items/0/1/0/1",
        body('["emit", «9223372036854775808»]'),
        "the number doesn't fit 64 bits with sign: -9223372036854775808 to 9223372036854775807"),
    Case(
        "a number below the least", "S3 /items/0/1/0/1",
        body('["emit", «-9223372036854775809»]'),
        "the number doesn't fit 64 bits with sign: -9223372036854775808 to 9223372036854775807"),
    Case(
        "a number above all", "S3 /items/0/1/0/1",
        body('["emit", «123456789012345678901234567890»]'),
        "the number doesn't fit 64 bits with sign: -9223372036854775808 to 9223372036854775807"),
    Case(
        "a text of 1,025 bytes", "S5 text",
        body('["emit", «"' + 'a' * 1_025 + '"»]'),
        "a text has at most 1,024 bytes, and this has 1,025"),
    Case(
        "a text of 513 letters of two bytes", "S5 text",
        body('["emit", «"' + '\u00e9' * 513 + '"»]'),
        "a text has at most 1,024 bytes, and this has 1,026"),
    Case(
        "a value at level 17", "S5 expr",
        body('["emit", ' + '["neg", ' * 16 + '«1»' + ']' * 17),
        "an expression has at most 16 levels, and this is the first value at level 17"),
    Case(
        "an operation at level 17", "S5 expr",
        body('["emit", ' + '["not", ' * 16 + '«["of", "nobody", 1]»' + ']' * 17),
        "an expression has at most 16 levels, and this is the first value at level 17"),
    Case(
        "a level before the length of a text", "S5 expr",
        body('["emit", ' + '["not", ' * 16 + '«"' + 'a' * 1_025 + '"»' + ']' * 17),
        "an expression has at most 16 levels, and this is the first value at level 17"),
    Case(
        "a fraction before its level", "S3 /items/0/1/0" + "/1" * 17,
        body('["emit", ' + '["neg", ' * 16 + '«1.5»' + ']' * 17),
        "a number must be whole, and this has a fraction"),
    Case(
        "the time, as other languages call it", "S2 /rules/0/5/0/1",
        action('["emit", «["now"]»]'),
        '"now" begins no expression', "did you mean `time`?", "`now` is of version 4"),
    Case(
        "a value of the event without its part", "S2 /rules/0/5/0/1",
        action('["emit", «["new", "bal"]»]'),
        '["new", i, field] has 2 parts after its word, and this has 1',
        'the number of the part comes first, mostly 0: ["new", 0, field]'),
    Case(
        "a key of the event without its part", "S2 /rules/0/5/0/1",
        action('["emit", «["id"]»]'),
        '["id", i] has 1 part after its word, and this has none',
        'the number of the part is written, mostly 0: ["id", 0]'),
    Case(
        "a part that is a text", "S2 /rules/0/5/0/1/1",
        action('["emit", ["new", «"0"», "bal"]]'),
        "the number of a part is a whole number, and this is a text", "write 0 without quotes"),
    Case(
        "a part above 65,535", "S2 /rules/0/5/0/1/1",
        action('["emit", ["time", «65536»]]'),
        "the number of a part is 0 to 65,535, and this is 65536"),
    Case(
        "an argument below 0", "S2 /rules/0/5/0/1/2",
        action('["emit", ["arg", 0, «-1»]]'),
        "the number of an argument is 0 to 65,535, and this is -1"),
    Case(
        "a part with a point", "S3 /rules/0/5/0/1/1",
        action('["emit", ["id", «0.0»]]'),
        "a whole number is written without a point and an exponent", "write 0"),
    Case(
        "a field of new that is no name", "S2 /rules/0/5/0/1/2",
        action('["emit", ["new", 0, «"the bal"»]]'),
        "a field's name can't have a space in it",
        "a name is 1 to 32 bytes: an ASCII letter, then ASCII letters, digits or _"),
    Case(
        "a field of old that is a number", "S2 /rules/0/5/0/1/2",
        action('["emit", ["old", 0, «1»]]'),
        "a field's name is a text, and this is a number"),
    Case(
        "an unknown row, before its field", "S4 /items/0/1/0/1/1",
        body('["emit", ["of", «"x"», 1]]'),
        "no row is called `x` here", "no row has a name here"),
    Case(
        "a row that is a number", "S2 /items/0/1/0/1/1",
        body('["emit", ["key", «1»]]'),
        "the name of a row is a text, and this is a number"),
    Case(
        "a field of a row that is a list", "S2 /rules/0/5/0/1/2",
        action('["emit", ["of", "x", «[]»]]', queries='[["x", "acct", true]]'),
        "a field's name is a text, and this is a list"),
    Case(
        "the left operand before the right", "S4 /items/0/1/0/1/1/1",
        body('["emit", ["and", ["key", «"x"»], null]]'),
        "no row is called `x` here", "no row has a name here"),

    # ---- bodies and statements
    Case(
        "an action that is a text", "S2 /rules/0/5",
        rule(action='«"abort"»'),
        "the action of a rule must be a list of statements, and this is a text"),
    Case(
        "a statement in place of a body", "S2 /rules/0/5/0",
        rule(action='[«"emit"», 1]'),
        "a body is a list of statements, and this is a statement's word",
        "put the statement into a list of its own: [[word, ..]]"),
    Case(
        "a body that is an object", "S2 /items/0/1",
        script(items='["tx", «{}»]'),
        "the body of a transaction must be a list of statements, and this is an object"),
    Case(
        "a statement that is a number", "S2 /items/0/1/0",
        body('«1»'),
        "a statement is a list [word, ..], and this is a number"),
    Case(
        "a statement's word by itself", "S2 /items/0/1/1",
        body('["emit", 1], «"abort"»'),
        "a statement is a list [word, ..], and this is a text", 'write ["abort"]'),
    Case(
        "a statement misspelt", "S2 /items/0/1/0",
        body('«["isntall", "r"]»'),
        '"isntall" begins no statement', "did you mean `install`?"),
    Case(
        "a statement of another language", "S2 /items/0/1/0",
        body('«["print", 1]»'),
        '"print" begins no statement', "did you mean `emit`?"),
    Case(
        "an expression in place of a statement", "S2 /items/0/1/0",
        body('«["+", 1, 2]»'),
        '"+" begins no statement', "it begins an expression, and a statement is expected here",
        "a statement begins with create, update, delete, signal, emit, if, each, for, with, sub, abort, "
        "veto, install, enable, disable, remove or fire"),
    Case(
        "a body in place of a statement", "S2 /items/0/1/0",
        body('«[["abort"]]»'),
        "a statement begins with its word, and this begins with a list",
        "these are two lists, one in the other: one pair of brackets is too many"),
    Case(
        "an abort with a part", "S2 /items/0/1/0",
        body('«["abort", 1]»'),
        '["abort"] has no parts after its word, and this has 1'),
    Case(
        "a signal without arguments", "S2 /items/0/1/0",
        body('«["signal", "go"]»'),
        '["signal", name, args] has 2 parts after its word, and this has 1',
        "the arguments are written too: [] if there are none"),
    Case(
        "an if without a second body", "S2 /items/0/1/0",
        body('«["if", true, []]»'),
        '["if", expression, body, body] has 3 parts after its word, and this has 2',
        "both bodies are written: the second may be []"),
    Case(
        "a sub without otherwise", "S2 /items/0/1/0",
        body('«["sub", []]»'),
        '["sub", body, otherwise] has 2 parts after its word, and this has 1', "`otherwise` is written: it may be []"),
    Case(
        "a veto in a script's body", "S2 /items/0/1/0",
        body('«["veto"]»'),
        "[\"veto\"] stands only in a rule's action", "a transaction's own body ends itself with [\"abort\"]"),
    Case(
        "a veto in a sub of a script's body", "S2 /items/0/1/0/1/0",
        body('["sub", [«["veto"]»], []]'),
        "[\"veto\"] stands only in a rule's action", "a transaction's own body ends itself with [\"abort\"]"),
    Case(
        "an unknown class in a create", "S4 /items/0/1/0/1",
        body('["create", «"accct"», null, []]'),
        "there is no class `accct`", "did you mean `acct`?"),
    Case(
        "a wrong key before the pairs", "S2 /items/0/1/0/2",
        body('["create", "acct", «null», 1]'),
        "an expression is a number, a truth value, a text or a list [word, ..], and this is null"),
    Case(
        "pairs that are an object", "S2 /items/0/1/0/3",
        body('["create", "acct", 1, «{"bal": 1}»]'),
        "the pairs must be a list of pairs [field, expression], and this is an object"),
    Case(
        "a pair that is a text", "S2 /items/0/1/0/3/0",
        body('["update", "acct", 1, [«"bal"», 1]]'),
        "a pair is [field, expression], and this is a text",
        "put the pair into a list of its own: [[field, expression]]"),
    Case(
        "a pair that is a number", "S2 /items/0/1/0/3/0",
        body('["update", "acct", 1, [«1»]]'),
        "a pair is [field, expression], and this is a number"),
    Case(
        "a pair of one", "S2 /items/0/1/0/3/0",
        body('["create", "acct", 1, [«["bal"]»]]'),
        "a pair is [field, expression]: 2 parts, and this has 1"),
    Case(
        "a field that is no name", "S2 /items/0/1/0/3/0/0",
        body('["update", "acct", 1, [[«""», 1]]]'),
        "a field's name can't be empty", "a name is 1 to 32 bytes: an ASCII letter, then ASCII letters, digits or _"),
    Case(
        "an unknown field", "S4 /items/0/1/0/3/0/0",
        body('["update", "acct", 1, [[«"bla"», 1]]]'),
        "the class `acct` has no field `bla`", "did you mean `bal`?", "the class is here:"),
    Case(
        "a field of a class that has none", "S4 /items/0/1/0/3/0/0",
        body('["update", "mark", 1, [[«"bal"», 1]]]'),
        "the class `mark` has no field `bal`", "it has no fields", "the class is here:"),
    Case(
        "a field named twice", "S4 /items/0/1/0/3/1/0",
        body('["update", "acct", 1, [["bal", 1], [«"bal"», 2]]]'),
        "a pair for the field `bal` is there already", "the first one is here:"),
    Case(
        "a field left out of a create", "S4 /items/0/1/0/3",
        body('["create", "acct", 1, «[["bal", 5]]»]'),
        "`create` names each field; `owner` is missing", "the class is here:"),
    Case(
        "all fields left out of a create", "S4 /items/0/1/0/3",
        body('["create", "acct", 1, «[]»]'),
        "`create` names each field; `bal` and `owner` are missing", "the class is here:"),
    Case(
        "a wrong value before a field left out", "S2 /items/0/1/0/3/0/1",
        body('["create", "acct", 1, [["bal", «null»]]]'),
        "an expression is a number, a truth value, a text or a list [word, ..], and this is null"),
    Case(
        "an unknown class in a delete", "S4 /items/0/1/0/1",
        body('["delete", «"act"», 1]'),
        "there is no class `act`", "did you mean `acct`?"),
    Case(
        "a signal's name that is a list", "S2 /items/0/1/0/1",
        body('["signal", «[]», []]'),
        "a signal's name is a text, and this is a list"),
    Case(
        "arguments that are a number", "S2 /items/0/1/0/2",
        body('["signal", "go", «1»]'),
        "the arguments must be a list of expressions, and this is a number"),
    Case(
        "33 arguments", "S5 args",
        body('["signal", "go", «[' + 'null, ' * 32 + 'null]»]'),
        "a signal has at most 32 arguments, and here are 33", "number 33 is here:"),
    Case(
        "a wrong argument", "S2 /items/0/1/0/2/1",
        body('["signal", "go", [1, «null»]]'),
        "an expression is a number, a truth value, a text or a list [word, ..], and this is null"),
    Case(
        "a wrong test", "S2 /items/0/1/0/1",
        body('["if", «null», [], []]'),
        "an expression is a number, a truth value, a text or a list [word, ..], and this is null"),
    Case(
        "a second body that is null", "S2 /items/0/1/0/3",
        body('["if", true, [], «null»]'),
        "a body must be a list of statements, and this is null"),
    Case(
        "an otherwise that is a text", "S2 /items/0/1/0/2",
        body('["sub", [], «"none"»]'),
        "`otherwise` must be a list of statements, and this is a text"),
    Case(
        "an unknown rule", "S4 /rules/0/5/0/1",
        action('["install", «"q"»]'),
        "there is no rule `q`", "known here: r"),
    Case(
        "a rule misspelt", "S4 /items/0/1/0/1",
        body('["fire", «"ceck"»]', rules=RULE.replace('"r"', '"check"')),
        "there is no rule `ceck`", "did you mean `check`?"),
    Case(
        "a rule in a script that has none", "S4 /items/0/1/0/1",
        body('["remove", «"r"»]'),
        "there is no rule `r`", "the script has no rule"),
    Case(
        "a rule that is a number", "S2 /items/0/1/0/1",
        body('["enable", «1»]'),
        "a rule's name is a text, and this is a number"),
    Case(
        "a variable that is no name", "S2 /items/0/1/0/1",
        body('["each", «"1"», "acct", true, []]'),
        "a variable's name can't begin with `1`",
        "a name is 1 to 32 bytes: an ASCII letter, then ASCII letters, digits or _"),
    Case(
        "a variable before the class", "S4 /items/0/1/0/4/0/1",
        body('["each", "x", "acct", true, [["with", «"x"», "nobody", 1, []]]]'),
        "a row `x` is there already", "a variable's name is new among the names that are known",
        "the first one is here:"),
    Case(
        "a variable named like a query", "S4 /rules/0/5/0/1",
        action('["with", «"x"», "acct", 1, []]', queries='[["x", "acct", true]]'),
        "a row `x` is there already", "a variable's name is new among the names that are known",
        "the first one is here:"),
    Case(
        "an unknown class in an each", "S4 /items/0/1/0/2",
        body('["each", "x", «"nobody"», true, []]'),
        "there is no class `nobody`", "known here: acct, mark"),
    Case(
        "a key that names its own row", "S4 /items/0/1/0/3/1",
        body('["with", "x", "acct", ["key", «"x"»], []]'),
        "no row is called `x` here", "it names the row that this key finds, and is known after it"),
    Case(
        "a variable after its statement", "S4 /items/0/1/1/1/1",
        body('["each", "x", "acct", ["=", ["key", "x"], 1], []],\n    ["emit", ["key", «"x"»]]'),
        "no row is called `x` here", "no row has a name here"),
    Case(
        "a for in a script's body", "S4 /items/0/1/0/1",
        body('["for", «"x"», []]'),
        "a transaction's own body has no queries",
        "`for` stands in a rule's action; here [\"each\", name, class, predicate, body] finds rows"),
    Case(
        "a for over a variable in a script's body", "S4 /items/0/1/0/4/0/1",
        body('["with", "x", "acct", 1, [["for", «"x"», []]]]'),
        "a transaction's own body has no queries",
        "`x` is a variable, which is one row; `for` goes over a query's answer"),
    Case(
        "a for over a variable in an action", "S4 /rules/0/5/0/4/0/1",
        action('["with", "x", "acct", 1, [["for", «"x"», []]]]'),
        "this rule has no query `x`", "`x` is a variable, which is one row; `for` goes over a query's answer"),
    Case(
        "a for over an unknown query", "S4 /rules/0/5/0/1",
        action('["for", «"lat"», []]', queries='[["late", "acct", true]]'),
        "this rule has no query `lat`", "did you mean `late`?"),
    Case(
        "a for in a rule without queries", "S4 /rules/0/5/0/1",
        action('["for", «"late"», []]'),
        "this rule has no query `late`", "its condition has no queries"),
    Case(
        "a for whose query is a number", "S2 /rules/0/5/0/1",
        action('["for", «0», []]'),
        "a query's name is a text, and this is a number"),
    Case(
        "a statement at level 17", "S5 nesting",
        body('["sub", [' * 16 + '«["emit", null]»' + '], []]' * 16),
        "statements nest at most 16 levels, and this is the first one at level 17"),
    Case(
        "a veto before its level", "S2 /items/0" + "/1/0" * 17,
        body('["sub", [' * 16 + '«["veto"]»' + '], []]' * 16),
        "[\"veto\"] stands only in a rule's action", "a transaction's own body ends itself with [\"abort\"]"),
    Case(
        "a wrong form before the level of statements", "S2 /items/0" + "/1/0" * 17,
        body('["sub", [' * 16 + '«["emit"]»' + '], []]' * 16),
        '["emit", expression] has 1 part after its word, and this has none'),

    # ---- items
    Case(
        "items that are null", "S2 /items",
        '{"version": 1, "classes": [], "rules": [], "items": «null»}',
        '`items` must be a list of items ["tx", body] and ["clock", t], and this is null'),
    Case(
        "an item that is a text", "S2 /items/0",
        script(items='«"tx"»'),
        "an item is a list [word, ..], and this is a text", 'write ["tx", body]'),
    Case(
        "an item that is empty", "S2 /items/0",
        script(items='«[]»'),
        "an item is a list [word, ..], and this list is empty", "an item begins with tx or clock"),
    Case(
        "an unknown item", "S2 /items/0",
        script(items='«["transaction", []]»'),
        '"transaction" begins no item', "did you mean `tx`?"),
    Case(
        "a statement in place of an item", "S2 /items/0",
        script(items='«["emit", 1]»'),
        '"emit" begins no item', "it begins a statement, and an item is expected here",
        "an item begins with tx or clock"),
    Case(
        "a transaction without a body", "S2 /items/0",
        script(items='«["tx"]»'),
        '["tx", body] has 1 part after its word, and this has none'),
    Case(
        "a transaction of two bodies", "S2 /items/0",
        script(items='«["tx", [], []]»'),
        '["tx", body] has 1 part after its word, and this has 2'),
    Case(
        "a time that is a text", "S2 /items/0/1",
        script(items='["clock", «"5"»]'),
        "the clock's time is a whole number, and this is a text", "write 5 without quotes"),
    Case(
        "a time with a point", "S3 /items/0/1",
        script(items='["clock", «5.0»]'),
        "a whole number is written without a point and an exponent", "write 5"),
    Case(
        "a time below 0", "S2 /items/0/1",
        script(items='["clock", «-1»]'),
        "the clock begins at 0 and doesn't go back to -1"),
    Case(
        "a clock that goes back", "S2 /items/1/1",
        script(items='["clock", 5],\n    ["clock", «4»]'),
        "the clock stands at 5 and doesn't go back to 4", "it was moved there here:"),
    Case(
        "1,001 due moments", "S5 moments",
        rule(event='["every", 0, 1]', items='["clock", «1001»]'),
        "this move of the clock from 0 to 1001 has more than 1,000 due moments",
        "the moments are those that `at` and `every` name in any rule of the script"),
    Case(
        "due moments of a rule within others", "S5 moments",
        rule(
            event='["or", ["commit"], ["seq", ["every", 5, 2], ["every", 6, 2]]]',
            items='["clock", 4], ["clock", «1005»]'),
        "this move of the clock from 4 to 1005 has more than 1,000 due moments",
        "the moments are those that `at` and `every` name in any rule of the script"),
    Case(
        "a clock that goes far", "S5 moments",
        rule(event='["every", 0, 1]', items='["clock", «9223372036854775807»]'),
        "this move of the clock from 0 to 9223372036854775807 has more than 1,000 due moments",
        "the moments are those that `at` and `every` name in any rule of the script"),
]
