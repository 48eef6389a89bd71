"""Workloads of many firings: firings per second, and the gain of more workers."""

from scripts import ACCOUNT, GO, Sql, add, create, immediate, installs, on_go, script


def richest(objects):
    """Whether an account is one of the last two: three operators."""
    return [">", ["*", ["of", "rich", "bal"], 3], ["-", 3 * objects, 9]]


def scored(objects):
    """The same after four tests, which every account passes: 47 operators."""
    whole = richest(objects)
    for first in range(4):
        score = ["of", "rich", "bal"]
        for step in range(3):
            score = ["%", ["+", ["*", score, 31], first + step], 1009]
        whole = ["and", [">=", score, 0], whole]
    return whole


def wide_scans(predicate=richest, siblings=64, objects=400, rounds=60):
    """Siblings that each scan a class and write one object of their own."""
    classes = [ACCOUNT, ["seen", [["count", "int"]]]]
    condition = [["rich", "acct", predicate(objects)]]
    rules = [on_go(f"r{n}", condition, [add("seen", "count", n, 1)]) for n in range(siblings)]
    begin = installs(rules) + [create(k, k) for k in range(objects)]
    begin += [["create", "seen", n, [["count", 0]]] for n in range(siblings)]
    items = [["tx", begin]] + [["tx", [GO]] for _ in range(rounds)]
    return script(classes, rules, items), siblings * rounds


def wide_scores():
    return wide_scans(scored, rounds=12)


def wide_long_scans():
    return wide_scans(objects=4000, rounds=24)


def long_siblings(siblings):
    """A few siblings, each of which takes a millisecond and more."""
    return wide_scans(scored, siblings=siblings, objects=1000, rounds=40)


def conflict(siblings=64, rounds=60):
    """Siblings that all read and write one object."""
    rules = [on_go(f"r{n}", [], [add("acct", "bal", 1, 1)]) for n in range(siblings)]
    items = [["tx", installs(rules) + [create(1, 0)]]] + [["tx", [GO]] for _ in range(rounds)]
    return script([ACCOUNT], rules, items), siblings * rounds


def conflict_of_scans(siblings=64, objects=400, rounds=12):
    """Siblings that each scan a class, and then all read and write one object of it."""
    condition = [["rich", "acct", richest(objects)]]
    rules = [on_go(f"r{n}", condition, [add("acct", "bal", 1, 1)]) for n in range(siblings)]
    begin = installs(rules) + [create(k, k) for k in range(objects)]
    items = [["tx", begin]] + [["tx", [GO]] for _ in range(rounds)]
    return script([ACCOUNT], rules, items), siblings * rounds


def behind_false(body):
    """The same statements where none runs."""
    return [["if", False, body, []]]


def single_firings(updates=16000, is_idle=False):
    """A long list of updates, each of which triggers one rule that writes another object."""
    change = ["-", ["new", 0, "bal"], ["old", 0, "bal"]]
    rule = immediate("note", ["update", "acct"], [], [add("seen", "sum", 1, change)])
    classes = [ACCOUNT, ["seen", [["sum", "int"]]]]
    begin = installs([rule]) + [create(1, 0), ["create", "seen", 1, [["sum", 0]]]]
    body = [["update", "acct", 1, [["bal", n]]] for n in range(updates)]
    items = [["tx", begin], ["tx", behind_false(body) if is_idle else body]]
    return script(classes, [rule], items), updates


def single_firings_sql(updates=16000):
    begin = ["create table acct(id integer primary key, bal integer);",
             "create table seen(id integer primary key, sum integer);",
             "create trigger note after update on acct begin "
             "update seen set sum = sum + new.bal - old.bal where id = 1; end;",
             "insert into acct values(1, 0);", "insert into seen values(1, 0);"]
    update = "update acct set bal = ? where id = {};"
    return Sql(begin, update.format(1), [(n,) for n in range(updates)],
               ["select id, bal from acct;", "select id, sum from seen;"], True, update.format(-1))


def deep_chains(depth=15, chains=2000, is_idle=False):
    """Updates each of which sets off a chain of firings, one inside the other."""
    next_up = ["update", "acct", 1, [["bal", ["+", ["new", 0, "bal"], 1]]]]
    rule = immediate("up", ["update", "acct"], [], [["if", ["<", ["new", 0, "bal"], depth], [next_up], []]])
    body = [["update", "acct", 1, [["bal", 1]]] for _ in range(chains)]
    items = [["tx", installs([rule]) + [create(1, 0)]], ["tx", behind_false(body) if is_idle else body]]
    return script([ACCOUNT], [rule], items, depth=16), depth * chains


def deep_chains_sql(depth=15, chains=2000):
    begin = ["pragma recursive_triggers = on;",
             "create table acct(id integer primary key, bal integer);",
             f"create trigger up after update on acct when new.bal < {depth} begin "
             "update acct set bal = new.bal + 1 where id = 1; end;",
             "insert into acct values(1, 0);"]
    update = "update acct set bal = ? where id = {};"
    return Sql(begin, update.format(1), [(1,)] * chains, ["select id, bal from acct;"], True, update.format(-1))


WORKLOADS = [
    ("a", "64 disjoint siblings, each scanning 400 objects", wide_scans, None),
    ("b", "64 siblings in full conflict", conflict, None),
    ("c", "a long list of single firings", single_firings, single_firings_sql),
    ("d", "chains of 15 firings, each inside the other", deep_chains, deep_chains_sql),
    ("e", "(a) with 47 operators an object in place of 3", wide_scores, None),
    ("f", "(b) where each scans 400 objects first", conflict_of_scans, None),
    ("g", "(a) with 4,000 objects in place of 400", wide_long_scans, None),
    ("h", "(e) with 2 siblings a group and 1,000 objects", lambda: long_siblings(2), None),
    ("i", "(h) with 4 siblings", lambda: long_siblings(4), None),
]
