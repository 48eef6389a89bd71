"""The cost of one firing as something grows: the store, the rules on an event, waiting occurrences.

A case is a script with its firings and the same without: the difference of their times is the cost of the firings.
"""

from dataclasses import dataclass
from typing import Optional

import desk
from scripts import ACCOUNT, GO, Sql, add, create, deferred, has_key, immediate, installs, on_go, script
from workloads import behind_false, richest


@dataclass
class Case:
    """Both scripts, and the whole in SQL if sqlite3 has something like it."""

    size: int
    firings: int
    without: str
    whole: str
    sql: Optional[Sql] = None


# ---- an order desk

CUSTOMERS = ["customer", [["most", "int"], ["owed", "int"]]]
ITEMS = ["item", [["stock", "int"], ["price", "int"]]]
ORDERS = ["orders", [["customer", "int"], ["item", "int"], ["qty", "int"]]]


def desk_rules():
    """Two rules that keep the books of an order, two that veto it at the end, one that raises an alarm."""
    ordered, of_order = ["create", "orders"], lambda field: ["new", 0, field]
    item, customer = has_key("i", of_order("item")), has_key("c", of_order("customer"))
    left = ["-", ["of", "i", "stock"], of_order("qty")]
    owed = ["+", ["of", "c", "owed"], ["*", ["of", "i", "price"], of_order("qty")]]
    too_few = ["and", has_key("i", ["id", 0]), ["<", ["of", "i", "stock"], 0]]
    too_much = ["and", has_key("c", ["id", 0]), [">", ["of", "c", "owed"], ["of", "c", "most"]]]
    few = ["and", has_key("i", ["id", 0]), ["<", ["of", "i", "stock"], 3]]
    return [
        immediate("reserve", ordered, [["i", "item", item]], [["update", "item", ["key", "i"], [["stock", left]]]]),
        deferred("oversell", ["update", "item"], [["i", "item", too_few]], [["veto"]]),
        immediate("owe", ordered, [["i", "item", item], ["c", "customer", customer]],
                  [["update", "customer", ["key", "c"], [["owed", owed]]]]),
        deferred("credit", ["update", "customer"], [["c", "customer", too_much]], [["veto"]]),
        immediate("low", ["update", "item"], [["i", "item", few]], [["emit", ["key", "i"]]]),
    ]


def desk_orders(size, orders):
    """The customer, the item and the quantity of each order."""
    return [(n, n * 104729 % size, n * 7919 % size, n % 4 + 1) for n in range(orders)]


def desk_script(size, orders, is_idle=False):
    begin = installs(desk_rules())
    begin += [["create", "customer", k, [["most", 3000], ["owed", 0]]] for k in range(size)]
    begin += [["create", "item", k, [["stock", 40], ["price", k % 50 + 1]]] for k in range(size)]
    given = [["create", "orders", n, [["customer", c], ["item", i], ["qty", q]]]
             for n, c, i, q in desk_orders(size, orders)]
    bodies = [behind_false([each]) if is_idle else [each] for each in given]
    return script([CUSTOMERS, ITEMS, ORDERS], desk_rules(), [["tx", begin]] + [["tx", body] for body in bodies])


DESK_SQL = """create table customer(k integer primary key, most integer, owed integer);
create table item(k integer primary key, stock integer, price integer);
create table orders(k integer primary key, customer integer, item integer, qty integer);
create table report(v integer);
pragma recursive_triggers=on;
create trigger reserve after insert on orders begin update item set stock=stock-new.qty where k=new.item; end;
create trigger owe after insert on orders begin update customer set
 owed=owed+(select price from item where k=new.item)*new.qty where k=new.customer; end;
create trigger oversell after update on item when new.stock<0 begin select raise(rollback,'oversell'); end;
create trigger credit after update on customer when new.owed>new.most begin select raise(rollback,'credit'); end;
create trigger low after update on item when new.stock<3 begin insert into report values(new.k); end;""".split("\n")


DESK_RESULT = ["select 'emit '||v from report;", "select * from customer;", "select * from item;",
               "select count(*) from orders where k>=0;"]


def desk_sql(size, orders):
    rows = [f"insert into customer values({k},3000,0);" for k in range(size)]
    rows += [f"insert into item values({k},40,{k % 50 + 1});" for k in range(size)]
    # The order -1, on which no rule does anything, is there for the idle statement to meet.
    begin = [*DESK_SQL, "begin;", *rows, "insert into orders values(-1,-1,-1,0);", "commit;"]
    return Sql(begin, "insert into orders values(?,?,?,?);", desk_orders(size, orders), DESK_RESULT, False,
               "insert or ignore into orders values(?*0-1,?,?,?);")


def order_desk(size, orders=1000):
    return Case(size, orders, desk_script(size, 0), desk_script(size, orders), desk_sql(size, orders))


def order_desk_of_version_4(size, orders=1000):
    return Case(size, orders, desk.desk_script(size, 0), desk.desk_script(size, orders), desk.desk_sql(size, orders))


# ---- conditions on one key, or on one value of a field

OWNED = ["acct", [["bal", "int"], ["own", "int"]]]
BY_KEY = has_key("x", ["arg", 0, 0])
BY_FIELD = ["=", ["of", "x", "own"], ["/", ["arg", 0, 0], 5]]
PLUS = ["update", "acct", ["key", "x"], [["bal", ["+", ["of", "x", "bal"], 1]]]]
SHOW = ["emit", ["of", "x", "bal"]]
OWNED_SQL = ["create table acct(k integer primary key, bal integer, own integer);", "create index ow on acct(own);",
             "create table go(a integer);", "create table report(v integer);"]
FIRST_OWNED = "select {} from acct where own=new.a/5 order by k limit 1"
PLUS_OWNED = f"update acct set bal=bal+1 where k=({FIRST_OWNED.format('k')})"
TRIGGER = "create trigger r after insert on go begin {}; end;"
CONDITIONS = {
    "by key, emits": (BY_KEY, SHOW, "insert into report select bal from acct where k=new.a", 2000),
    "by key, writes the class": (BY_KEY, PLUS, "update acct set bal=bal+1 where k=new.a", 2000),
    "by key, each firing a transaction": (BY_KEY, PLUS, "update acct set bal=bal+1 where k=new.a", 1),
    "by field, emits": (BY_FIELD, SHOW, f"insert into report {FIRST_OWNED.format('bal')}", 2000),
    "by field, writes the class": (BY_FIELD, PLUS, PLUS_OWNED, 2000),
    "by field, each firing a transaction": (BY_FIELD, PLUS, PLUS_OWNED, 1),
}


def condition(name, size, firings=2000):
    predicate, action, trigger, at_once = CONDITIONS[name]
    keys = [n * 7919 % size for n in range(firings)]
    rule = on_go("r", [["x", "acct", predicate]], [action])
    rows = [["create", "acct", k, [["bal", k % 97 + 1], ["own", k // 5]]] for k in range(size)]
    begin = [["tx", [["install", "r"]] + rows]]
    signals = [["signal", "go", [key]] for key in keys]
    body = [["tx", signals[n : n + at_once]] for n in range(0, firings, at_once)]
    first = OWNED_SQL + [TRIGGER.format(trigger), "begin;"]
    first += [f"insert into acct values({k},{k % 97 + 1},{k // 5});" for k in range(size)] + ["commit;"]
    end = ["select 'emit '||v from report;", "select * from acct;"]
    sql = Sql(first, "insert into go values(?);", [(key,) for key in keys], end, at_once > 1)
    return Case(size, firings, script([OWNED], [rule], begin), script([OWNED], [rule], begin + body), sql)


# ---- a sequence of which many first parts wait

def backlog(size, signals=2000, before=1000):
    """Each further signal is both a first part that waits and the second part of one that has waited.

    Some further signals are in both scripts: in the first ones the allocator sorts what the transaction before freed.
    """
    event = ["seq", ["signal", "a"], ["signal", "b"]]
    rule = immediate("pair", event, [], [["emit", ["arg", 0, 0]]])
    waiting = [["signal", "a", [n]] for n in range(size)]
    begin = [["tx", installs([rule]) + waiting]]
    begin += [["tx", [["signal", "a", [0]], ["signal", "b", [0]]]]] * (before // 2)
    body = [["tx", [["signal", "a", [0]], ["signal", "b", [0]]]]] * (signals // 2)
    return Case(size, signals, script([], [rule], begin), script([], [rule], begin + body))


# ---- rules whose detectors a signal steps

def stepping(size, signals=20000, before=1000):
    """Rules on one sequence: each signal steps all of their detectors, and each second one triggers all of them."""
    event = ["seq", ["signal", "a"], ["signal", "b"]]
    rules = [immediate(f"r{n}", event, [], [["emit", ["arg", 0, 0]]]) for n in range(size)]
    both = ["tx", [["signal", "a", [0]], ["signal", "b", [0]]]]
    begin = [["tx", installs(rules)]] + [both] * (before // 2)
    return Case(size, signals, script([], rules, begin), script([], rules, begin + [both] * (signals // 2)))


# ---- a handful of rules on one event

def short_group(size, updates=2000):
    """Short rules on one event, each of which writes an object of its own."""
    rules = [immediate(f"r{n}", ["update", "acct"], [], [add("seen", "sum", n, 1)]) for n in range(size)]
    classes = [ACCOUNT, ["seen", [["sum", "int"]]]]
    begin = installs(rules) + [create(1, 0)] + [["create", "seen", n, [["sum", 0]]] for n in range(size)]
    body = [["update", "acct", 1, [["bal", n]]] for n in range(updates)]
    return Case(size, updates, script(classes, rules, [["tx", begin], ["tx", []]]),
                script(classes, rules, [["tx", begin], ["tx", body]]))


# ---- a class that each transaction scans and changes

def scan_and_write(objects, rounds=100):
    """One rule that scans a class by a predicate which no index serves, and writes one of its objects."""
    rules = [on_go("r", [["rich", "acct", richest(objects)]], [add("acct", "bal", 1, 1)])]
    items = [["tx", installs(rules) + [create(k, k) for k in range(objects)]]]
    with_rounds = script([ACCOUNT], rules, items + [["tx", [GO]]] * rounds)
    return Case(objects, rounds, script([ACCOUNT], rules, items), with_rounds)


# ---- objects that a condition tests

TESTS = {
    "one comparison": (["<", ["of", "i", "stock"], ["of", "i", "least"]], "stock < least"),
    "three operators": (["<", ["*", ["of", "i", "stock"], 3], ["-", ["of", "i", "least"], 9]],
                        "stock * 3 < least - 9"),
}


def tested_objects(name, objects=4000, rounds=100):
    """A rule whose query tests each object of a class, since no index serves its predicate. No object passes."""
    test, sql_test = TESTS[name]
    classes = [["item", [["stock", "int"], ["least", "int"]]]]
    rules = [on_go("low", [["i", "item", test]], [["emit", 1]])]
    begin = installs(rules) + [["create", "item", k, [["stock", k + 10], ["least", k]]] for k in range(objects)]
    sql = Sql(["create table item(id integer primary key, stock integer, least integer);", "begin;",
               *[f"insert into item values({k}, {k + 10}, {k});" for k in range(objects)], "commit;"],
              f"update item set stock = 0 where {sql_test};", [[]] * rounds, ["select sum(stock) from item;"], False)
    return Case(objects, rounds * objects // 1000, script(classes, rules, [["tx", begin]]),
                script(classes, rules, [["tx", begin]] + [["tx", [GO]]] * rounds), sql)


# Each table: its title, what is counted, and its cases, made when they are run.
TABLES = {
    "orders": ("an order desk of five rules, items and customers", "order",
               [lambda n=n: ("orders", order_desk(n)) for n in (10, 100, 1000, 4000)]),
    "version4": ("an order desk in version 4, items and customers", "order",
                 [lambda n=n: ("orders", order_desk_of_version_4(n)) for n in (10, 100, 1000, 4000)]),
    "conditions": ("conditions that look for one object, objects of the class", "firing",
                   [lambda n=n, name=name: (name, condition(name, n))
                for name in CONDITIONS for n in (50, 5000, 15000)]),
    "backlog": ("a sequence, first parts that wait", "signal",
                [lambda n=n: ("sequence", backlog(n)) for n in (500, 16000)]),
    "steps": ("rules on one sequence, whose detectors each signal steps", "signal",
              [lambda n=n: ("sequences", stepping(n)) for n in (1, 2, 4, 8)]),
    "groups": ("rules on one event", "update",
               [lambda n=n: ("short rules", short_group(n)) for n in (1, 2, 3, 4, 8, 9, 16)]),
    "scans": ("a class that each transaction scans, and one object of which it writes", "transaction",
              [lambda n=n: ("objects", scan_and_write(n)) for n in (1000, 4000)]),
    "tests": ("objects that a condition tests, and no index serves", "thousand objects",
              [lambda name=name: (name, tested_objects(name)) for name in TESTS]),
}
