//! Values and their texts, as the notation's printer in Python gives them.

use hp_print::{PrintError, print_line, print_text};
use serde_json::Value;
use std::alloc::Global;
use std::process::Abort;
use std::test::Fail;

/// The value of a script has this text.
fn expect(rt: &impl Abort, alloc: Global, json: &str, text: &str) -> Result<(), Fail> {
    let value = Value::from_str(alloc, json)?;
    let printed = print_text(alloc, &value)?;
    assert!(*rt; printed.as_str() == text);
    Ok(())
}

/// The value is no script that a text can stand for.
fn expect_none(rt: &impl Abort, alloc: Global, json: &str) -> Result<(), Fail> {
    let value = Value::from_str(alloc, json)?;
    assert!(*rt; matches!(print_text(alloc, &value), Err(PrintError::NoForm)));
    Ok(())
}

/// The value of an item has this line.
fn expect_line(rt: &impl Abort, alloc: Global, json: &str, line: &str) -> Result<(), Fail> {
    let value = Value::from_str(alloc, json)?;
    let printed = print_line(alloc, &value)?;
    assert!(*rt; printed.as_str() == line);
    Ok(())
}

#[test]
fn prints_an_empty_script(rt: HostRuntime) -> Result<(), Fail> {
    expect(
        &rt,
        rt.alloc(),
        r#"{"version": 4, "classes": [], "rules": [], "items": []}"#,
        r#"version 4
"#,
    )
}

#[test]
fn prints_a_depth_and_classes(rt: HostRuntime) -> Result<(), Fail> {
    expect(
        &rt,
        rt.alloc(),
        r#"{"version": 2, "depth": 12, "classes": [["a", []], ["if", [["x", "int"], ["count", "bool"], ["on",
"text"]]]], "rules": [], "items": [["clock", 0], ["tx", []]]}"#,
        r#"version 2
depth 12

class a {}
class `if` { x: int, count: bool, `on`: text }

clock 0

transaction {}
"#,
    )
}

#[test]
fn prints_parentheses_where_levels_need_them(rt: HostRuntime) -> Result<(), Fail> {
    expect(
        &rt,
        rt.alloc(),
        r#"{"version": 4, "classes": [], "rules": [], "items": [["tx", [["emit", ["-", 1, ["-", 2, 3]]],
["emit", ["-", ["-", 1, 2], 3]], ["emit", ["*", ["+", 1, 2], ["neg", ["value", "x"]]]], ["emit", ["or", ["and", true,
false], ["not", ["or", true, false]]]], ["emit", ["=", ["<", 1, 2], ["+", 1, 2]]], ["emit", ["and", ["and", true,
false], true]], ["emit", ["%", ["/", 7, 2], ["*", 2, 3]]]]]]}"#,
        r#"version 4

transaction {
  emit 1 - (2 - 3)
  emit 1 - 2 - 3
  emit (1 + 2) * -x
  emit true and false or not (true or false)
  emit (1 < 2) = 1 + 2
  emit (true and false) and true
  emit 7 / 2 % (2 * 3)
}
"#,
    )
}

#[test]
fn prints_negative_numbers(rt: HostRuntime) -> Result<(), Fail> {
    expect(
        &rt,
        rt.alloc(),
        r#"{"version": 4, "classes": [], "rules": [], "items": [["tx", [["emit", -7], ["emit", ["neg", 7]],
["emit", ["neg", -7]], ["emit", ["neg", ["neg", ["value", "x"]]]], ["emit", ["-", 1, -2]], ["emit", ["*", -1,
-9223372036854775808]]]]]}"#,
        r#"version 4

transaction {
  emit -7
  emit -(7)
  emit -(-7)
  emit -(-x)
  emit 1 - -2
  emit -1 * -9223372036854775808
}
"#,
    )
}

#[test]
fn prints_names_in_backquotes(rt: HostRuntime) -> Result<(), Fail> {
    expect(
        &rt,
        rt.alloc(),
        r#"{"version": 4, "classes": [], "rules": [], "items": [["tx", [["emit", ["value", "now"]], ["emit",
["now"]], ["emit", ["of", "event", "key"]], ["emit", ["key", "x"]], ["emit", ["value", "then"]], ["veto", ["value",
"let"]], ["veto", ["of", "lets", "let"]], ["veto"], ["veto", "no"]]]]}"#,
        r#"version 4

transaction {
  emit `now`
  emit now
  emit `event`.`key`
  emit x.key
  emit `then`
  veto (let)
  veto lets.let
  veto
  veto "no"
}
"#,
    )
}

#[test]
fn prints_the_parts_of_an_event(rt: HostRuntime) -> Result<(), Fail> {
    expect(
        &rt,
        rt.alloc(),
        r#"{"version": 4, "classes": [], "rules": [], "items": [["tx", [["emit", ["new", 0, "x"]], ["emit",
["old", 2, "if"]], ["emit", ["id", 0]], ["emit", ["time", 1]], ["emit", ["arg", 0, 3]], ["emit", ["arg", 2, 0]],
["emit", ["count"]]]]]}"#,
        r#"version 4

transaction {
  emit new.x
  emit old[2].`if`
  emit event.key
  emit event[1].time
  emit event.arg(3)
  emit event[2].arg(0)
  emit event.count
}
"#,
    )
}

#[test]
fn prints_texts(rt: HostRuntime) -> Result<(), Fail> {
    expect(
        &rt,
        rt.alloc(),
        r#"{"version": 4, "classes": [], "rules": [], "items": [["tx", [["emit",
"a \"b\" \\ \n\t\u0001 \u00e9\ud83d\ude00"], ["emit", ""]]]]}"#,
        r#"version 4

transaction {
  emit "a \"b\" \\ \n\t\u0001 é😀"
  emit ""
}
"#,
    )
}

#[test]
fn prints_operations(rt: HostRuntime) -> Result<(), Fail> {
    expect(
        &rt,
        rt.alloc(),
        r#"{"version": 4, "classes": [], "rules": [], "items": [["tx", [["create", "item", 7, [["stock", 3],
["note", ["=", 1, 2]]]], ["update", "item", ["+", 1, 2], []], ["delete", "item", -7], ["signal", "go", []], ["signal",
"go", [1, ["or", true, false]]], ["abort"], ["install", "r"], ["enable", "r"], ["disable", "r"], ["remove", "r"],
["fire", "r"]]]]}"#,
        r#"version 4

transaction {
  create item(7) set stock = 3, note = (1 = 2)
  update item(1 + 2)
  delete item(-7)
  signal go
  signal go(1, true or false)
  abort
  install r
  enable r
  disable r
  remove r
  fire r
}
"#,
    )
}

#[test]
fn prints_bodies(rt: HostRuntime) -> Result<(), Fail> {
    expect(
        &rt,
        rt.alloc(),
        r#"{"version": 4, "classes": [], "rules": [], "items": [["tx", [["if", true, [["abort"]], []], ["if",
["=", 1, 1], [], [["emit", 1]]], ["each", "i", "item", true, []], ["each", "i", "item", ["<", ["of", "i", "n"], 3],
[["for", "q", [["sub", [["abort"]], [["emit", 2]]]]]]], ["with", "o", "item", 3, [["emit", ["key", "o"]]]], ["sub",
[], []]]]]}"#,
        r#"version 4

transaction {
  if true {
    abort
  }
  if 1 = 1 {} else {
    emit 1
  }
  each item i {}
  each item i where i.n < 3 {
    for q {
      sub {
        abort
      } otherwise {
        emit 2
      }
    }
  }
  with item(3) as o {
    emit o.key
  }
  sub {}
}
"#,
    )
}

#[test]
fn prints_aggregates(rt: HostRuntime) -> Result<(), Fail> {
    expect(
        &rt,
        rt.alloc(),
        r#"{"version": 4, "classes": [], "rules": [], "items": [["tx", [["let", "n", ["count", "o", "item",
true], []], ["let", "n", ["sum", "o", "item", ["=", 1, 1], ["of", "o", "n"]], []], ["let", "n", ["least", "o", "item",
true, 1], []], ["let", "n", ["greatest", "o", "item", true, 1], []], ["let", "n", ["next", "item"], []], ["let",
"now", ["+", 1, 2], []], ["let", "n", ["value", "count"], []], ["let", "n", ["-", ["of", "sum", "x"], 1], []], ["let",
"n", ["*", ["+", ["value", "next"], 1], 2], []]]]]}"#,
        r#"version 4

transaction {
  let n = count item o {}
  let n = sum o.n over item o where 1 = 1 {}
  let n = least 1 over item o {}
  let n = greatest 1 over item o {}
  let n = next item {}
  let `now` = 1 + 2 {}
  let n = (count) {}
  let n = (sum.x - 1) {}
  let n = (next + 1) * 2 {}
}
"#,
    )
}

#[test]
fn prints_a_rule(rt: HostRuntime) -> Result<(), Fail> {
    expect(
        &rt,
        rt.alloc(),
        r#"{"version": 4, "classes": [], "rules": [["r", ["or", ["seq", ["create", "item"], ["signal", "go"]],
["closure", ["at", 5], ["every", 1, 10]]], "deferred", [["i", "item", true], ["no", "j", "item", ["=", ["key", "i"],
["key", "j"]]], ["let", "n", ["count", "k", "item", true]]], "separate", [["veto"]], "closed"], ["s", ["seq", ["or",
["update", "item"], ["delete", "item"]], ["seq", ["commit"], ["commit"]]], "immediate", [], "dependent", []]],
"items": []}"#,
        r#"version 4

rule r closed on (create item then signal go) or closure(moment 5 until every 10 from 1) deferred
  if some item i
  if no item j where i.key = j.key
  if let n = count item k
  do separate {
    veto
  }

rule s on (update item or delete item) then (commit then commit)
  do dependent {}
"#,
    )
}

#[test]
fn prints_a_row_that_is_called_let(rt: HostRuntime) -> Result<(), Fail> {
    expect(
        &rt,
        rt.alloc(),
        r#"{"version": 1, "classes": [], "rules": [["r", ["commit"], "exclusive", [["let", "item", true]],
"immediate", []]], "items": []}"#,
        r#"version 1

rule r on commit exclusive
  if some item let
  do {}
"#,
    )
}

#[test]
fn refuses_a_name_of_33_bytes(rt: HostRuntime) -> Result<(), Fail> {
    expect_none(
        &rt,
        rt.alloc(),
        r#"{"version": 4, "classes": [["aaaaaaaaaaaaaaaaaaaaaaaaaaaaaaaaa", []]], "rules": [], "items": []}"#,
    )
}

#[test]
fn refuses_another_member(rt: HostRuntime) -> Result<(), Fail> {
    expect_none(
        &rt,
        rt.alloc(),
        r#"{"version": 4, "classes": [], "rules": [], "items": [], "x": 1}"#,
    )
}

#[test]
fn refuses_a_float(rt: HostRuntime) -> Result<(), Fail> {
    expect_none(
        &rt,
        rt.alloc(),
        r#"{"version": 4, "classes": [], "rules": [], "items": [["tx", [["emit", 1.5]]]]}"#,
    )
}

#[test]
fn refuses_a_number_outside_64_bits(rt: HostRuntime) -> Result<(), Fail> {
    expect_none(
        &rt,
        rt.alloc(),
        r#"{"version": 4, "classes": [], "rules": [], "items": [["tx", [["emit", 9223372036854775808]]]]}"#,
    )
}

#[test]
fn refuses_a_negative_part(rt: HostRuntime) -> Result<(), Fail> {
    expect_none(
        &rt,
        rt.alloc(),
        r#"{"version": 4, "classes": [], "rules": [], "items": [["tx", [["emit", ["id", -1]]]]]}"#,
    )
}

#[test]
fn refuses_an_unknown_word(rt: HostRuntime) -> Result<(), Fail> {
    expect_none(
        &rt,
        rt.alloc(),
        r#"{"version": 4, "classes": [], "rules": [], "items": [["tx", [["leave"]]]]}"#,
    )
}

#[test]
fn refuses_too_many_parts(rt: HostRuntime) -> Result<(), Fail> {
    expect_none(
        &rt,
        rt.alloc(),
        r#"{"version": 4, "classes": [], "rules": [], "items": [["tx", [["abort", 1]]]]}"#,
    )
}

#[test]
fn refuses_a_let_in_a_condition_of_version_2(rt: HostRuntime) -> Result<(), Fail> {
    expect_none(
        &rt,
        rt.alloc(),
        r#"{"version": 2, "classes": [], "rules": [["r", ["commit"], "immediate", [["let", "n", ["count", "k",
"item", true]]], "immediate", []]], "items": []}"#,
    )
}

#[test]
fn prints_a_line(rt: HostRuntime) -> Result<(), Fail> {
    expect_line(
        &rt,
        rt.alloc(),
        r#"["tx", [["if", true, [["emit", 1]], [["abort"]]], ["sub", [], []]]]"#,
        r#"transaction { if true { emit 1 } else { abort } sub {} }"#,
    )
}
