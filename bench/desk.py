"""An order desk in version 4: what it asks of the orders so far it asks of them, and keeps no sums. In SQL the same is
in triggers with `not exists`, `count(*)`, `sum()` and `raise(rollback, message)`.
"""

import json

from scripts import Sql, has_key, installs

CUSTOMERS = ["customer", [["most", "int"]]]
ITEMS = ["item", [["stock", "int"], ["price", "int"]]]
ORDERS = ["orders", [["customer", "int"], ["item", "int"], ["qty", "int"], ["amount", "int"], ["at", "int"]]]
MOST_ORDERS, MOST_OWED, STOCK = 80, 900, 200


def guard(name, condition, message, test=None):
    """A closed rule on each new order, which vetoes with a message where its condition and its test say so."""
    veto = ["veto", message]
    action = [veto] if test is None else [["if", test, [veto], []]]
    return [name, ["create", "orders"], "immediate", condition, "immediate", action, "closed"]


def of_orders(field):
    """The predicate of the orders so far with the new order's value of a field."""
    return ["=", ["of", "o", field], ["new", 0, field]]


def desk_rules():
    """Four guards, and an alarm."""
    item, customer = has_key("i", ["new", 0, "item"]), has_key("c", ["new", 0, "customer"])
    sold = ["let", "sold", ["sum", "o", "orders", of_orders("item"), ["of", "o", "qty"]]]
    owed = ["let", "owed", ["sum", "o", "orders", of_orders("customer"), ["of", "o", "amount"]]]
    count = ["let", "n", ["count", "o", "orders", of_orders("customer")]]
    left = ["let", "left", ["-", ["of", "i", "stock"], ["value", "sold"]]]
    return [
        guard("known", [["no", "i", "item", item]], "no such item"),
        guard("many", [count], "too many orders", [">", ["value", "n"], MOST_ORDERS]),
        guard("credit", [["c", "customer", customer], owed], ["value", "owed"],
              [">", ["value", "owed"], ["of", "c", "most"]]),
        guard("oversell", [["i", "item", item], sold], "not so many in stock",
              [">", ["value", "sold"], ["of", "i", "stock"]]),
        ["low", ["create", "orders"], "immediate", [["i", "item", item], sold, left], "immediate",
         [["if", ["<", ["value", "left"], 3], [["emit", ["key", "i"]]], []]]],
    ]


def desk_orders(size, orders):
    """The customer, the item, the quantity and the amount of each order; one in a hundred asks for no item there is."""
    found = []
    for n in range(orders):
        item, count = (size if n % 100 == 50 else n * 7919 % size), n % 4 + 1
        found.append((n * 104729 % size, item, count, (item % 50 + 1) * count))
    return found


def desk_script(size, orders):
    begin = installs(desk_rules())
    begin += [["create", "customer", k, [["most", MOST_OWED]]] for k in range(size)]
    begin += [["create", "item", k, [["stock", STOCK], ["price", k % 50 + 1]]] for k in range(size)]
    items = [["tx", begin]]
    for c, i, q, a in desk_orders(size, orders):
        row = [["customer", c], ["item", i], ["qty", q], ["amount", a], ["at", ["now"]]]
        items.append(["tx", [["let", "k", ["next", "orders"], [["create", "orders", ["value", "k"], row]]]]])
    whole = {"version": 4, "classes": [CUSTOMERS, ITEMS, ORDERS], "rules": desk_rules(), "items": items}
    return json.dumps(whole, separators=(",", ":"))


def trigger(name, test, message):
    return f"create trigger {name} after insert on orders when {test} begin select raise(rollback,{message}); end;"


SOLD = "(select sum(qty) from orders where item=new.item)"
IN_STOCK = "(select stock from item where k=new.item)"
# A message of `raise` is a text that is written out.
DESK_SQL = [
    "create table customer(k integer primary key, most integer);",
    "create table item(k integer primary key, stock integer, price integer);",
    "create table orders(k integer primary key, customer integer, item integer, qty integer, amount integer,"
    " at integer);",
    "create index of_customer on orders(customer);", "create index of_item on orders(item);",
    "create table report(v integer);",
    f"create trigger low after insert on orders when {IN_STOCK}-{SOLD}<3 "
    "begin insert into report values(new.item); end;",
    trigger("oversell", f"{SOLD}>{IN_STOCK}", "'not so many in stock'"),
    trigger("credit", "(select sum(amount) from orders where customer=new.customer)"
            ">(select most from customer where k=new.customer)", "'over the limit'"),
    trigger("many", f"(select count(*) from orders where customer=new.customer)>{MOST_ORDERS}", "'too many orders'"),
    trigger("known", "not exists(select 1 from item where k=new.item)", "'no such item'"),
]
DESK_RESULT = ["select 'emit '||v from report;", "select * from customer;", "select * from item;",
               "select count(*) from orders;"]


def desk_sql(size, orders):
    rows = [f"insert into customer values({k},{MOST_OWED});" for k in range(size)]
    rows += [f"insert into item values({k},{STOCK},{k % 50 + 1});" for k in range(size)]
    return Sql([*DESK_SQL, "begin;", *rows, "commit;"],
               "insert into orders(customer,item,qty,amount,at) values(?,?,?,?,0);", desk_orders(size, orders),
               DESK_RESULT, False)
