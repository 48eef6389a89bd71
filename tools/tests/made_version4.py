"""Random scripts of version 4 from a seed: all forms, faults of each cause, closed rules inside each other, and
siblings that write what aggregates read."""

from .made_scripts import CLASSES, NUMBERS, ScriptMaker

AGGREGATES = ("count", "count", "sum", "sum", "least", "greatest", "next", "plain", "plain")
LEAST, GREATEST = -(2 ** 63), 2 ** 63 - 1
LONGEST_NAME = 32

# What `known` says of the name of a `let`, where it has the class of a row.
VALUE = "a value"


def rows_in(known):
    """The names of rows, each with its class."""
    return {name: of for name, of in known.items() if of != VALUE}


class Version4Maker(ScriptMaker):
    """Makes one script of version 4, which the program accepts."""

    def script(self):
        whole = super().script()
        return {**whole, "version": 4, "depth": self.random.randint(2, 4), "classes": CLASSES}

    def name(self, begins, known):
        """A name that isn't known; some are as long as names may be."""
        name = f"{begins}{len(known)}"
        return name.ljust(LONGEST_NAME, "_") if self.chance(0.05) else name

    # ---- rules

    def rule(self, name):
        self.in_rule = True
        entries, known = [], {}
        for _ in range(self.pick(0, 1, 1, 1, 2, 3)):
            entry, known = self.entry(known)
            entries.append(entry)
        queries = {entry[0]: entry[1] for entry in entries if entry[0] not in ("no", "let")}
        action = self.body(known, queries, 0, in_action=True)
        self.in_rule = False
        rule = [name, self.event(0), self.random.choice(self.modes), entries, self.random.choice(self.modes), action]
        return rule + ["closed"] * self.chance(0.4)

    def entry(self, known):
        """An entry of a condition, and the names that are known after it."""
        form = self.pick("query", "query", "no", "let", "let")
        if form == "let":
            name = self.name("v", known)
            return ["let", name, self.aggregate(known, name)], {**known, name: VALUE}
        name, of = self.name("q" if form == "query" else "x", known), self.pick("acct", "acct", "item", "bare")
        query = [name, of, self.predicate({**known, name: of})]
        if form == "no":
            return ["no", *query], known
        return query, {**known, name: of}

    def event(self, level):
        return ["signal", "go"] if level == 0 and self.chance(0.5) else super().event(level)

    # ---- aggregates

    def aggregate(self, known, name):
        """An aggregate of the `let` of this name. Its variable may have the same name."""
        word, of = self.random.choice(AGGREGATES), self.pick("acct", "acct", "acct", "item", "item", "bare")
        if word == "next":
            return ["next", of]
        if word == "plain":
            return self.random.choice([self.number(known, 0), self.test(known), self.text(), ["count"]])
        row = name if self.chance(0.2) else self.name("x", known)
        inner = {**known, row: of}
        over = [word, row, of, self.looking(inner)]
        return over if word == "count" else over + [self.term(inner, row, of)]

    def looking(self, known):
        """The predicate of an aggregate."""
        return self.pick(True, True, self.predicate(known))

    def term(self, known, row, of):
        """What is summed up or compared: mostly a field of the row or its key."""
        field = ["of", row, NUMBERS[of]] if of != "bare" else ["key", row]
        others = [["key", row], self.number(known, 0), ["*", field, self.pick(GREATEST, 2 ** 61, 3)],
                  ["/", 12, ["-", ["key", row], self.random.randint(1, 9)]]]
        others += [["of", row, "name"]] * 3 if of == "item" else []
        others += [["of", row, "open"], self.text()] if self.chance(0.15) else []
        return self.random.choice([field] * 5 + others)

    # ---- expressions

    def predicate(self, known):
        name, others = list(known)[-1], {other: of for other, of in list(known.items())[:-1]}
        if self.chance(0.3):
            field = self.random.choice([["key", name]] + [["of", name, NUMBERS[known[name]]]] * (known[name] != "bare"))
            sides = [field, self.number(others, 1)]
            return [self.pick("=", "=", "<", "<=", ">", ">="), *self.pick(sides, sides[::-1])]
        return super().predicate(known)

    def test(self, known):
        values = [name for name, of in known.items() if of == VALUE]
        if values and self.chance(0.4):
            value = ["value", self.random.choice(values)]
            return self.random.choice([["<", value, self.number(known, 1)], ["=", value, self.number(known, 1)],
                                       ["!=", value, self.text()], value])
        return super().test(known)

    def number(self, known, level):
        if self.chance(0.12):
            return super().number(rows_in(known), level)
        if level < 2 and self.chance(0.25):
            return [self.pick("+", "+", "-", "*", "/"), self.number(known, level + 1), self.number(known, level + 1)]
        forms = [self.random.randint(0, 5)] * 2 + [["now"]] * self.chance(0.3) + [["arg", 0, 0]] * self.in_rule
        forms += [["value", name] for name, of in known.items() if of == VALUE] * 3
        forms += [["key", name] for name in rows_in(known)]
        forms += [["of", name, NUMBERS[of]] for name, of in rows_in(known).items() if of != "bare"] * 2
        return self.random.choice(forms)

    # ---- statements

    def statement(self, known, queries, level, in_action):
        if level < 3 and self.chance(0.12):
            name = self.name("v", known)
            inner = {**known, name: VALUE}
            return ["let", name, self.aggregate(known, name), self.body(inner, queries, level + 1, in_action)]
        if self.chance(0.2 if level == 0 and not in_action else 0.1):
            heard = ["signal", "go", [self.number(known, 2)] * self.pick(0, 1, 1, 1)]
            return self.pick(heard, ["sub", [heard], [["emit", "otherwise"]]])
        if self.chance(0.25):
            of, row = self.pick(("acct", 1), ("acct", 2), ("acct", 3), ("item", 1), ("item", 2))
            return ["update", of, row, [[NUMBERS[of], self.number(known, 0)]]]
        if self.chance(0.05):
            made = ["create", "bare", ["value", "made"], []]
            return ["let", "made", ["next", "bare"], [made]] if "made" not in known and level < 3 else ["emit", 1]
        return super().statement(known, queries, level, in_action)

    def make_each(self, known, queries, level, in_action):
        name, of = self.name("e", known), self.pick("acct", "item", "bare")
        inner = {**known, name: of}
        return ["each", name, of, self.predicate(inner), self.body(inner, queries, level + 1, in_action)]

    def make_with(self, known, queries, level, in_action):
        name, of = self.name("w", known), self.pick("acct", "item", "bare")
        inner = {**known, name: of}
        return ["with", name, of, self.number(known, 1), self.body(inner, queries, level + 1, in_action)]

    def make_for(self, known, queries, level, in_action):
        return super().make_for(known, queries, level, in_action) if queries else ["emit", ["now"]]

    def make_emit(self, known, queries, level, in_action):
        return ["emit", self.random.choice([self.text(), self.number(known, 0), self.number(known, 0)])]

    def make_veto(self, known, queries, level, in_action):
        if self.chance(0.4):
            return ["veto"]
        return ["veto", self.random.choice([self.text(), self.number(known, 1), self.test(known)])]
