//! Texts and their values, as the notation's reader in Python gives them.

use hp_text::{read_line, read_text, script_value, value_of};
use serde_json::Value;
use std::alloc::Global;
use std::process::Abort;
use std::test::Fail;

/// The text of a script has this value in JSON.
fn expect(rt: &impl Abort, alloc: Global, text: &str, json: &str) -> Result<(), Fail> {
    let script = read_text(alloc, text.as_bytes())?;
    let value = script_value(alloc, script)?;
    assert!(*rt; value == Value::from_str(alloc, json)?);
    Ok(())
}

/// The text of a line has this value in JSON.
fn expect_line(rt: &impl Abort, alloc: Global, text: &str, json: &str) -> Result<(), Fail> {
    let line = read_line(alloc, text.as_bytes())?;
    let value = value_of(alloc, line)?;
    assert!(*rt; value == Value::from_str(alloc, json)?);
    Ok(())
}

#[test]
fn reads_an_empty_script(rt: HostRuntime) -> Result<(), Fail> {
    expect(
        &rt,
        rt.alloc(),
        "version 4",
        r#"{"version": 4, "classes": [], "rules": [], "items": []}"#,
    )
}

#[test]
fn reads_a_depth(rt: HostRuntime) -> Result<(), Fail> {
    expect(
        &rt,
        rt.alloc(),
        "version 2 depth 12",
        r#"{"version": 2, "depth": 12, "classes": [], "rules": [], "items": []}"#,
    )
}

#[test]
fn reads_classes(rt: HostRuntime) -> Result<(), Fail> {
    expect(
        &rt,
        rt.alloc(),
        "version 1\nclass a {}\nclass `if` { x: int, count: bool, `on`: text }",
        r#"{"version": 1, "classes": [["a", []], ["if", [["x", "int"], ["count", "bool"], ["on",
"text"]]]], "rules": [], "items": []}"#,
    )
}

#[test]
fn reads_modes_that_are_left_out(rt: HostRuntime) -> Result<(), Fail> {
    expect(
        &rt,
        rt.alloc(),
        "version 1\nrule r on create a do {}",
        r#"{"version": 1, "classes": [], "rules": [["r", ["create", "a"], "immediate", [], "immediate",
[]]], "items": []}"#,
    )
}

#[test]
fn reads_events(rt: HostRuntime) -> Result<(), Fail> {
    expect(
        &rt,
        rt.alloc(),
        "version 1\nrule r on (update a or delete `do`)\n then signal s exclusive do dependent {}",
        r#"{"version": 1, "classes": [], "rules": [["r", ["seq", ["or", ["update", "a"], ["delete",
"do"]], ["signal", "s"]], "exclusive", [], "dependent", []]], "items": []}"#,
    )
}

#[test]
fn reads_closures(rt: HostRuntime) -> Result<(), Fail> {
    expect(
        &rt,
        rt.alloc(),
        "version 1\nrule r on closure(commit until every 5 from 10) immediate do deferred {}",
        r#"{"version": 1, "classes": [], "rules": [["r", ["closure", ["commit"], ["every", 10, 5]],
"immediate", [], "deferred", []]], "items": []}"#,
    )
}

#[test]
fn reads_conditions(rt: HostRuntime) -> Result<(), Fail> {
    expect(
        &rt,
        rt.alloc(),
        r#"version 1
rule r on moment 7 then moment 8 then moment 9
  if some a x where x.n = 1
  if some b let
  do separate { for x { } }"#,
        r#"{"version": 1, "classes": [], "rules": [["r", ["seq", ["seq", ["at", 7], ["at", 8]], ["at",
9]], "immediate", [["x", "a", ["=", ["of", "x", "n"], 1]], ["let", "b", true]], "separate",
[["for", "x", []]]]], "items": []}"#,
    )
}

#[test]
fn reads_aggregates(rt: HostRuntime) -> Result<(), Fail> {
    expect(
        &rt,
        rt.alloc(),
        r#"version 4
rule r closed on commit
 if no a x where not x.b
 if let n = count a x
 if let s = greatest x.n + 1 over a x where true
 if let k = next a
 if let v = `sum`.price * 2
 do {}"#,
        r#"{"version": 4, "classes": [], "rules": [["r", ["commit"], "immediate", [["no", "x", "a",
["not", ["of", "x", "b"]]], ["let", "n", ["count", "x", "a", true]], ["let", "s",
["greatest", "x", "a", true, ["+", ["of", "x", "n"], 1]]], ["let", "k", ["next", "a"]],
["let", "v", ["*", ["of", "sum", "price"], 2]]], "immediate", [], "closed"]], "items": []}"#,
    )
}

#[test]
fn reads_statements(rt: HostRuntime) -> Result<(), Fail> {
    expect(
        &rt,
        rt.alloc(),
        r#"version 1
transaction { create c(1) set a = 1 + 2 * 3 - 4 % 5, b = (x.a = 1);
 update c(-2) delete c(3) signal s signal t() signal u(1, "a", true) }"#,
        r#"{"version": 1, "classes": [], "rules": [], "items": [["tx", [["create", "c", 1, [["a", ["-",
["+", 1, ["*", 2, 3]], ["%", 4, 5]]], ["b", ["=", ["of", "x", "a"], 1]]]], ["update", "c",
-2, []], ["delete", "c", 3], ["signal", "s", []], ["signal", "t", []], ["signal", "u", [1,
"a", true]]]]]}"#,
    )
}

#[test]
fn reads_branches(rt: HostRuntime) -> Result<(), Fail> {
    expect(
        &rt,
        rt.alloc(),
        r#"version 1
transaction { if a.b < 1 and not c.d or e.f { abort } else if true { veto }
 else { sub { emit 1 } otherwise { } } }"#,
        r#"{"version": 1, "classes": [], "rules": [], "items": [["tx", [["if", ["or", ["and", ["<",
["of", "a", "b"], 1], ["not", ["of", "c", "d"]]], ["of", "e", "f"]], [["abort"]], [["if",
true, [["veto"]], [["sub", [["emit", 1]], []]]]]]]]]}"#,
    )
}

#[test]
fn reads_rows(rt: HostRuntime) -> Result<(), Fail> {
    expect(
        &rt,
        rt.alloc(),
        r#"version 1
transaction { each c x where x.key != 3 
 { with c(x.key) as y { emit y.`key` emit -y.n emit -(5) emit -5 emit - 9223372036854775808 } } }"#,
        r#"{"version": 1, "classes": [], "rules": [], "items": [["tx", [["each", "x", "c", ["!=",
["key", "x"], 3], [["with", "y", "c", ["key", "x"], [["emit", ["of", "y", "key"]], ["emit",
["neg", ["of", "y", "n"]]], ["emit", ["neg", 5]], ["emit", -5], ["emit",
-9223372036854775808]]]]]]]]}"#,
    )
}

#[test]
fn reads_parts_of_events(rt: HostRuntime) -> Result<(), Fail> {
    expect(
        &rt,
        rt.alloc(),
        r#"version 1
transaction { emit new.a emit old[2].b emit event.key
 emit event[1].time emit event[3].arg(4) emit event.count emit event.arg(0) }"#,
        r#"{"version": 1, "classes": [], "rules": [], "items": [["tx", [["emit", ["new", 0, "a"]],
["emit", ["old", 2, "b"]], ["emit", ["id", 0]], ["emit", ["time", 1]], ["emit", ["arg", 3,
4]], ["emit", ["count"]], ["emit", ["arg", 0, 0]]]]]}"#,
    )
}

#[test]
fn reads_messages_and_values(rt: HostRuntime) -> Result<(), Fail> {
    expect(
        &rt,
        rt.alloc(),
        r#"version 4
transaction { veto "no" veto let n = 1 { emit n emit now emit `now` emit now.a veto (let) }
 veto -n install a enable b disable c remove d fire e }"#,
        r#"{"version": 4, "classes": [], "rules": [], "items": [["tx", [["veto", "no"], ["veto"],
["let", "n", 1, [["emit", ["value", "n"]], ["emit", ["now"]], ["emit", ["value", "now"]],
["emit", ["of", "now", "a"]], ["veto", ["value", "let"]]]], ["veto", ["neg", ["value",
"n"]]], ["install", "a"], ["enable", "b"], ["disable", "c"], ["remove", "d"], ["fire",
"e"]]]]}"#,
    )
}

#[test]
fn reads_escapes(rt: HostRuntime) -> Result<(), Fail> {
    expect(
        &rt,
        rt.alloc(),
        r#"version 1
transaction { emit "\u0041\ud83d\ude00\n\/é\\" }"#,
        r#"{"version": 1, "classes": [], "rules": [], "items": [["tx", [["emit", "A😀\n/é\\"]]]]}"#,
    )
}

#[test]
fn reads_white_space(rt: HostRuntime) -> Result<(), Fail> {
    expect(
        &rt,
        rt.alloc(),
        "version 1 # a comment\n\tclock 0\r\nclock 9223372036854775807 # the last",
        r#"{"version": 1, "classes": [], "rules": [], "items": [["clock", 0], ["clock",
9223372036854775807]]}"#,
    )
}

#[test]
fn reads_grouping(rt: HostRuntime) -> Result<(), Fail> {
    expect(
        &rt,
        rt.alloc(),
        r#"version 1 transaction { emit 1 - 2 - 3 emit 1 - (2 - 3) emit a.a or b.b or c.c
 emit (a.a or b.b) and c.c emit not (a.a and b.b) }"#,
        r#"{"version": 1, "classes": [], "rules": [], "items": [["tx", [["emit", ["-", ["-", 1, 2],
3]], ["emit", ["-", 1, ["-", 2, 3]]], ["emit", ["or", ["of", "a", "a"], ["or", ["of", "b",
"b"], ["of", "c", "c"]]]], ["emit", ["and", ["or", ["of", "a", "a"], ["of", "b", "b"]],
["of", "c", "c"]]], ["emit", ["not", ["and", ["of", "a", "a"], ["of", "b", "b"]]]]]]]}"#,
    )
}

#[test]
fn reads_shows(rt: HostRuntime) -> Result<(), Fail> {
    expect_line(&rt, rt.alloc(), "show", r#"["show"]"#)
}

#[test]
fn reads_moves_of_the_clock(rt: HostRuntime) -> Result<(), Fail> {
    expect_line(&rt, rt.alloc(), "clock 5 # now", r#"["clock", 5]"#)
}

#[test]
fn reads_transactions(rt: HostRuntime) -> Result<(), Fail> {
    expect_line(
        &rt,
        rt.alloc(),
        "transaction { emit 1 }",
        r#"["tx", [["emit", 1]]]"#,
    )
}
