"""A script of 2,000 units whose trees have about 30,000 nodes, below the limit of a script's size."""

UNITS = 2_000
ITEMS = 40


def large_script(units=UNITS):
    """A shop: an order reserves items, a rule vetoes overselling, and sales are billed and counted."""
    items = [["tx", [["install", name] for name in ("reserve", "oversell", "tell", "count", "bill", "refill", "audit")]
              + [["create", "item", key, [["stock", 12]]] for key in range(1, ITEMS + 1)]
              + [["create", "tally", 1, [["sold", 0], ["note", "first </script><img src=x onerror=alert(1)>"]]]]]]
    time = 0
    while len(items) < units:
        number = len(items)
        if number % 40 == 0:
            time += 10
            items.append(["clock", time])
        else:
            items.append(["tx", order(number)])
    return {"version": 2, "classes": [["item", [["stock", "int"]]], ["tally", [["sold", "int"], ["note", "text"]]],
                                      ["bill", [["amount", "int"]]]], "rules": rules(), "items": items}


def order(number):
    first, second = number % ITEMS + 1, number * 7 % ITEMS + 1
    body = [["signal", "order", [first, 1 + number % 3]], ["emit", number]]
    if number % 3 == 0:
        body.append(["sub", [["update", "item", second, [["stock", 3 - number % 7]]]], [["emit", "refused"]]])
    return body + ([["abort"]] if number % 97 == 0 else [])


def rules():
    """In rule order: the vetoing rule comes before those that report and count."""
    item = ["with", "i", "item", ["arg", 0, 0],
            [["update", "item", ["arg", 0, 0], [["stock", ["-", ["of", "i", "stock"], ["arg", 0, 1]]]]]]]
    low = ["and", ["=", ["key", "low"], ["id", 0]], ["<", ["of", "low", "stock"], 0]]
    tally = ["update", "tally", 1, [["sold", ["+", ["of", "t", "sold"], 1]]]]
    return [
        ["reserve", ["signal", "order"], "immediate", [], "immediate", [item]],
        ["oversell", ["update", "item"], "immediate", [["low", "item", low]], "immediate", [["veto"]]],
        ["tell", ["update", "item"], "immediate", [], "immediate", [["emit", ["new", 0, "stock"]]]],
        ["count", ["update", "item"], "deferred", [["t", "tally", True]], "immediate", [tally]],
        ["bill", ["seq", ["signal", "order"], ["update", "tally"]], "dependent", [], "immediate",
         [["sub", [["create", "bill", ["arg", 0, 0], [["amount", ["arg", 0, 1]]]]],
           [["update", "bill", ["arg", 0, 0], [["amount", ["arg", 0, 1]]]]]]]],
        ["refill", ["every", 10, 10], "immediate", [["low", "item", ["<", ["of", "low", "stock"], 6]]], "immediate",
         [["for", "low", [["update", "item", ["key", "low"], [["stock", 40]]]]]]],
        ["audit", ["closure", ["update", "bill"], ["every", 100, 100]], "separate", [], "immediate",
         [["emit", ["count"]]]],
    ]
