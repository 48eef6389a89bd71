"""Random scripts from a seed, for tests that compare the tools with the program."""

import random

KINDS = ("int", "bool", "text")
TEXTS = ("", "a", "two words", "x=1 y=2", "</script>", "<img src=x onerror=alert(1)>", "quote\" back\\ tab\t",
         "\u00e9\u2028\x7f\x01")
CLASSES = [["acct", [["bal", "int"], ["open", "bool"]]], ["item", [["name", "text"], ["count", "int"]]], ["bare", []]]
NUMBERS = {"acct": "bal", "item": "count", "bare": "none"}


class ScriptMaker:
    """Makes one script, which the program accepts."""

    def __init__(self, seed):
        self.random = random.Random(seed)
        self.rule_names = ["r{}".format(number) for number in range(self.random.randint(1, 7))]
        self.in_rule = False
        self.modes = ["immediate"] * 4 + ["deferred"] * 2 + ["separate", "dependent", "exclusive"]

    def script(self):
        rules = [self.rule(name) for name in self.rule_names]
        objects = [["create", "acct", key, [["bal", key], ["open", True]]] for key in (1, 2, 3)]
        objects += [["create", "item", key, [["name", self.text()], ["count", key]]] for key in (1, 2)]
        items = [["tx", [["install", name] for name in self.rule_names if self.chance(0.8)] + objects]]
        clock = 0
        for _ in range(self.random.randint(2, 9)):
            if self.chance(0.2):
                clock += self.random.randint(0, 12)
                items.append(["clock", clock])
            else:
                items.append(["tx", self.body({}, {}, 0)])
        depth = self.random.randint(2, 5)
        return {"version": 2, "depth": depth, "classes": CLASSES, "rules": rules, "items": items}

    def chance(self, of):
        return self.random.random() < of

    def pick(self, *things):
        return self.random.choice(things)

    def rule(self, name):
        self.in_rule = True
        queries, known = [], {}
        for number in range(self.pick(0, 0, 1, 1, 2, 3)):
            query, of = "q{}".format(number), self.pick("acct", "item", "bare")
            queries.append([query, of, self.predicate(dict(known, **{query: of}))])
            known[query] = of
        action = self.body(known, known, 0, in_action=True)
        self.in_rule = False
        return [name, self.event(0), self.random.choice(self.modes), queries, self.random.choice(self.modes), action]

    def event(self, level):
        word = self.random.choice(["create", "update", "update", "delete", "signal", "signal", "commit", "at", "every"]
                                  + (["or", "or", "seq", "seq", "closure", "closure"] if level < 3 else []))
        if word in ("create", "update", "delete"):
            return [word, self.pick("acct", "item", "bare")]
        if word == "signal":
            return [word, self.pick("go", "stop")]
        if word == "commit":
            return [word] if self.chance(0.4) else ["signal", "go"]
        if word == "at":
            return [word, self.random.randint(0, 30)]
        if word == "every":
            return [word, self.random.randint(0, 5), self.random.randint(1, 9)]
        return [word, self.event(level + 1), self.event(level + 1)]

    def predicate(self, known):
        name = list(known)[-1]
        return self.random.choice([
            True, [">", ["key", name], self.random.randint(0, 4)],
            ["and", ["<", ["key", name], 4], self.test(known)],
            ["<", ["of", name, NUMBERS[known[name]]], 3] if known[name] != "bare" else False,
            self.test(known),
        ])

    def test(self, known):
        return self.random.choice([
            ["<", self.number(known, 0), self.number(known, 0)], ["=", self.number(known, 0), self.number(known, 0)],
            ["not", ["=", self.number(known, 0), 3]], ["or", True, ["=", ["/", 1, 0], 1]],
            ["<", self.text(), self.text()],
        ])

    def number(self, known, level):
        forms = [self.random.randint(-3, 6), self.random.randint(0, 4), 9223372036854775807]
        if self.in_rule:
            forms += [["count"], ["id", 0], ["arg", 0, 0], ["new", 0, "bal"], ["old", 0, "count"], ["time", 0]]
        for name in known:
            forms += [["key", name]] * 3 + [["of", name, NUMBERS[known[name]]]] * 3
        if level < 3 and self.chance(0.4):
            word = self.pick("+", "-", "*", "/", "%")
            return [word, self.number(known, level + 1), self.number(known, level + 1)]
        return self.random.choice(forms[:2] * 5 + forms)

    def text(self):
        return self.random.choice(TEXTS)

    def body(self, known, queries, level, in_action=False):
        count = self.random.randint(0 if level else 1, 4)
        return [self.statement(known, queries, level, in_action) for _ in range(count)]

    def statement(self, known, queries, level, in_action):
        words = ["create", "create", "update", "update", "update", "delete", "signal", "emit", "emit", "rule"]
        if level < 3:
            words += ["if", "each", "with", "sub", "sub"]
            words += ["for"] if queries else []
        words += ["abort"] if self.chance(0.3) else []
        words += ["veto"] if in_action and self.chance(0.6) else []
        return getattr(self, "make_" + self.random.choice(words))(known, queries, level, in_action)

    def fields(self, name, known):
        return {"acct": [["bal", self.number(known, 0)], ["open", self.pick(True, False, self.test(known))]],
                "item": [["name", self.text()], ["count", self.number(known, 1)]], "bare": []}[name]

    def make_create(self, known, queries, level, in_action):
        name = self.pick("acct", "item", "bare")
        return ["create", name, self.random.choice([4, 5, 6, 7, 8, 9, self.number(known, 1)]), self.fields(name, known)]

    def make_update(self, known, queries, level, in_action):
        name = self.pick("acct", "acct", "item")
        pairs = self.fields(name, known)
        key = self.random.choice([1, 2, 1, 2, 3, self.number(known, 1)])
        return ["update", name, key, pairs[:self.random.randint(0, len(pairs))]]

    def make_delete(self, known, queries, level, in_action):
        return ["delete", self.pick("acct", "item", "bare"), self.random.randint(1, 4)]

    def make_signal(self, known, queries, level, in_action):
        return ["signal", self.pick("go", "stop"), [self.number(known, 1) for _ in range(self.random.randint(0, 2))]]

    def make_emit(self, known, queries, level, in_action):
        return ["emit", self.random.choice([self.text(), self.number(known, 0)])]

    def make_rule(self, known, queries, level, in_action):
        verb = self.pick("install", "install", "enable", "disable", "remove", "fire", "fire")
        return [verb, self.random.choice(self.rule_names)]

    def make_if(self, known, queries, level, in_action):
        bodies = [self.body(known, queries, level + 1, in_action) for _ in range(2)]
        return ["if", self.test(known)] + bodies

    def make_each(self, known, queries, level, in_action):
        name, of = "e{}".format(len(known)), self.pick("acct", "item", "bare")
        inner = dict(known, **{name: of})
        return ["each", name, of, self.predicate(inner), self.body(inner, queries, level + 1, in_action)]

    def make_for(self, known, queries, level, in_action):
        return ["for", self.random.choice(list(queries)), self.body(known, queries, level + 1, in_action)]

    def make_with(self, known, queries, level, in_action):
        name, of = "w{}".format(len(known)), self.pick("acct", "item", "bare")
        inner = dict(known, **{name: of})
        return ["with", name, of, self.number(known, 1), self.body(inner, queries, level + 1, in_action)]

    def make_sub(self, known, queries, level, in_action):
        return ["sub", self.body(known, queries, level + 1, in_action), self.body(known, queries, level + 1, in_action)]

    def make_abort(self, known, queries, level, in_action):
        return ["abort"]

    def make_veto(self, known, queries, level, in_action):
        return ["veto"]


def made_script(seed):
    return ScriptMaker(seed).script()
