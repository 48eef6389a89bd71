"""Scripts at many limits of the language at once, with their reports. `checks/programs.py` runs them."""

# The most bytes of a script.
MOST_BYTES = 1_048_576

GREATEST = 9223372036854775807

# The longest names, without their three digits.
NAME = "a" * 29

# A move of the clock to the largest number has 1,000 of these periods, which is the limit of moments.
PERIOD = 9_223_372_036_854_775


def nested(before, after, levels, inside):
    """The inner value, inside this number of levels."""
    return before * levels + inside + after * levels


# An expression of 16 levels that is true, and one whose value is the least integer plus 1.
TRUTH = nested('["not",', "]", 15, "false")
LEAST = nested('["neg",', "]", 15, str(GREATEST))


def padded(script):
    """The script, padded with spaces to the limit of its size."""
    return script.ljust(MOST_BYTES)


def deepest(before, after):
    """Two siblings that each begin a chain of firings down to the deepest level. The 16th level of each action's
    statements emits and signals an expression of 16 levels, and each condition has such an expression too."""
    action = nested(before, after, 15, f'["emit",{LEAST}],["signal","go",[{LEAST}]]')
    body = nested('["sub",[', "],[]]", 15, '["signal","start",[]]')
    rest = f'"immediate",[["q","acct",{TRUTH}]],"immediate",[{action}]]'
    events = (("r", "go"), ("s", "start"), ("t", "start"))
    rules = ",".join(f'["{name}",["signal","{event}"],{rest}' for name, event in events)
    installs = '["install","r"],["install","s"],["install","t"]'
    return (
        '{"version":2,"depth":16,"classes":[["acct",[["bal","int"]]]],"rules":[' + rules + '],"items":['
        '["tx",[["create","acct",1,[["bal",1]]],' + installs + ']],["tx",[' + body + "]]]}"
    )


DEEPEST_REPORT = (
    "unit 1 committed\nunit 2 committed\n"
    + f"emit {-GREATEST}\n" * 30
    + "final\nobject acct 1 bal=1\nrule r enabled\nrule s enabled\nrule t enabled\nend\n"
)


def values(letters, form):
    """A value for each field: the largest integer, a boolean, and the text, each written by the function."""
    fields = [(f"{NAME}{number:03}", str(GREATEST)) for number in range(30)]
    return [form(name, value) for name, value in [*fields, (f"{NAME}030", "true"), (f"{NAME}031", f'"{letters}"')]]


def most_rules():
    """The most rules; all but one have the deepest event, query and action."""
    event = nested('["or",', ',["signal","other"]]', 15, '["signal","go"]')
    action = nested('["sub",[', "],[]]", 15, f'["emit",{LEAST}]')
    first = f'["{NAME}000",["every",0,{PERIOD}],"deferred",[],"deferred",[["emit",["time",0]]]]'
    rest = f'{event},"immediate",[["q","{NAME}000",{TRUTH}]],"immediate",[{action}]]'
    return ",".join([first, *(f'["{NAME}{number:03}",{rest}' for number in range(1, 256))])


def all_at_once():
    """A script of the most bytes, with the most classes, fields, rules, arguments and moments, the deepest events,
    expressions and statements, the largest integers, and the longest names and texts; and its report."""
    letters = "a" * 1024
    kinds = ["int"] * 30 + ["bool", "text"]
    fields = ",".join(f'["{NAME}{number:03}","{kind}"]' for number, kind in enumerate(kinds))
    classes = ",".join(f'["{NAME}{number:03}",[{fields}]]' for number in range(64))
    installs = "".join(f'["install","{NAME}{number:03}"],' for number in range(256))
    row = ",".join(values(letters, lambda name, value: f'["{name}",{value}]'))
    arguments = ",".join([str(GREATEST)] * 32)
    script = (
        '{"version":2,"depth":16,"classes":[' + classes + '],"rules":[' + most_rules() + '],"items":['
        f'["tx",[{installs}["create","{NAME}000",{GREATEST},[{row}]],["signal","go",[{arguments}]]]],'
        f'["clock",{GREATEST}],["tx",[["abort"]]],["tx",[["emit",1]'
    )
    emit = f',["emit","{letters}"]'
    texts = (MOST_BYTES - len(script) - 8) // len(emit)
    moments = (f"unit {number + 1} time {number * PERIOD} committed\nemit {number * PERIOD}\n"
               for number in range(1, 1001))
    row_text = "".join(values(letters, lambda name, value: f" {name}={value}"))
    report = (
        "unit 1 committed\n" + f"emit {-GREATEST}\n" * 255 + "".join(moments)
        + "unit 1002 aborted A8\nunit 1003 committed\nemit 1\n" + f'emit "{letters}"\n' * texts
        + f"final\nobject {NAME}000 {GREATEST}{row_text}\n"
        + "".join(f"rule {NAME}{number:03} enabled\n" for number in range(256)) + "end\n"
    )
    return padded(script + emit * texts + "]]]}"), report


def queued_and_detached():
    """512 queued and 512 detached tasks, each of which queues or detaches the next, down to the deepest level, with
    a long text. Each chain has 16 tasks. The last one exceeds the depth: its action aborts, with what it emitted."""
    letters = "a" * 990
    rules = (
        '["q",["signal","later"],"deferred",[],"immediate",[["emit",1],["signal","later",[["arg",0,0]]]]],'
        '["s",["signal","apart"],"separate",[],"immediate",[["emit",2],["signal","apart",[["arg",0,0]]]]]'
    )
    signals = f',["signal","later",["{letters}"]],["signal","apart",["{letters}"]]' * 512
    installs = '["install","q"],["install","s"]'
    script = '{"version":1,"depth":16,"classes":[],"rules":[' + rules + '],"items":[["tx",[' + installs + signals
    report = (
        "unit 1 committed\n" + "emit 1\n" * (15 * 512) + "separate s committed\nemit 2\n" * (15 * 512)
        + "separate s committed\n" * 512 + "final\nrule q enabled\nrule s enabled\nend\n"
    )
    return padded(script + "]]]}"), report


def scripts():
    """The name, the script and the report of each script at a limit."""
    forms = {"sub": ('["sub",[', "],[]]"), "for": ('["for","q",[', "]]"), "if": ('["if",true,[', "],[]]"),
             "abort": ('["sub",[["abort"]],[', "]]")}
    for name, (before, after) in forms.items():
        yield f"the deepest levels inside each other, by {name}", deepest(before, after), DEEPEST_REPORT
    yield "all limits at once", *all_at_once()
    yield "tasks queued and detached to the deepest level", *queued_and_detached()
    yield "lists as deep as JSON is read", nested("[", "]", 127, ""), "refused S2 /\n"
    yield "lists one level deeper", nested("[", "]", 128, ""), "refused S1\n"
    yield "lists much deeper", nested("[", "]", 500_000, ""), "refused S1\n"
    yield "the longest input", " " * MOST_BYTES, "refused S1\n"
    yield "one byte more", " " * (MOST_BYTES + 1), "refused S5 size\n"
