//! Scripts that are read. Refused scripts are in `checks/refusals.py` and in the tests of the tools, which run the
//! program.

use hp_rule::{Stmt, Unit};
use hp_script::{DecodeError, Limit, Refusal, Script, decode, refusal_text};
use std::alloc::Global;
use std::process::Abort;
use std::test::Fail;

/// The line for a refused script, without its line feed, or else `read`.
fn answer(alloc: Global, bytes: &[u8]) -> Result<String, Fail> {
    match decode(alloc, bytes) {
        Ok(_) => Ok(String::from_str(alloc, "read")?),
        Err(DecodeError::Refused(refusal)) => {
            let text = refusal_text(alloc, &refusal)?;
            Ok(String::from_str(alloc, text.as_str().trim_end())?)
        }
        Err(DecodeError::Memory) => Err(Fail::from("memory")),
    }
}

/// The script is read.
fn expect_read<R: Abort + AllocGlobal>(rt: &R, text: &str) -> Result<(), Fail> {
    let answer = answer(rt.alloc(), text.as_bytes())?;
    assert!(*rt; answer.as_str() == "read", "{text} gives {answer}");
    Ok(())
}

#[test]
fn reads_the_empty_script(rt: HostRuntime) -> Result<(), Fail> {
    expect_read(
        &rt,
        r#"{"version": 1, "classes": [], "rules": [], "items": []}"#,
    )
}

#[test]
fn reads_moves_of_a_clock_that_stands_still(rt: HostRuntime) -> Result<(), Fail> {
    expect_read(
        &rt,
        r#"{"version": 1, "classes": [], "rules": [], "items": [["clock", 5], ["clock", 5]]}"#,
    )
}

#[test]
fn reads_moments_that_an_event_names_twice(rt: HostRuntime) -> Result<(), Fail> {
    expect_read(
        &rt,
        r#"{
          "version": 1,
          "classes": [],
          "rules": [
            ["t", ["seq", ["at", 3], ["or", ["at", 3], ["at", 0]]], "immediate", [], "immediate", []]
          ],
          "items": [["clock", 4], ["clock", 9]]
        }"#,
    )
}

/// Each form of the grammar's second version.
const EACH_FORM: &str = r#"{
  "version": 2,
  "classes": [["acct", [["bal", "int"], ["open", "bool"], ["owner", "text"]]]],
  "rules": [
    ["a", ["or", ["create", "acct"], ["seq", ["update", "acct"], ["delete", "acct"]]], "immediate",
      [["x", "acct", ["and", [">=", ["of", "x", "bal"], 0], ["not", ["!=", ["key", "x"], ["id", 0]]]]],
        ["y", "acct", ["or", ["<", ["of", "x", "bal"], ["of", "y", "bal"]], ["=", ["new", 0, "owner"], "é\n"]]]],
      "exclusive",
      [["for", "x", [["for", "x", [["emit", ["of", "x", "bal"]]]]]],
        ["each", "z", "acct", ["<=", ["old", 0, "bal"], ["of", "z", "bal"]],
          [["update", "acct", ["key", "z"], [["open", false]]], ["delete", "acct", ["neg", 1]]]],
        ["with", "w", "acct", ["arg", 0, 1], [["if", ["of", "w", "open"], [["veto"]], [["abort"]]]]],
        ["sub", [["fire", "b"]], [["signal", "s", [1, true, "t", ["count"], ["time", 0]]]]]]],
    ["b", ["closure", ["at", 3], ["or", ["every", 2, 5], ["or", ["signal", "s"], ["commit"]]]],
      "separate", [], "dependent", []]
  ],
  "items": [
    ["clock", 0],
    ["tx", [
      ["install", "a"],
      ["enable", "a"],
      ["disable", "b"],
      ["remove", "b"],
      ["create", "acct", 1,
        [["owner", "o"], ["bal", ["%", ["*", 2, 3], ["/", 4, ["+", 1, ["-", 2, 3]]]]], ["open", true]]]]],
    ["clock", 7],
    ["clock", 7]
  ],
  "depth": 16
}"#;

#[test]
fn reads_each_form(rt: HostRuntime) -> Result<(), Fail> {
    expect_read(&rt, EACH_FORM)
}

/// Each form of version 4 alone.
const EACH_NEW_FORM: &str = r#"{
  "version": 4,
  "classes": [["acct", [["bal", "int"], ["owner", "text"]]]],
  "rules": [
    ["a", ["signal", "go"], "immediate",
      [["x", "acct", true],
        ["no", "y", "acct", ["<", ["of", "y", "bal"], ["of", "x", "bal"]]],
        ["no", "y", "acct", ["=", ["of", "y", "owner"], ["arg", 0, 0]]],
        ["let", "n", ["count", "n2", "acct", ["=", ["key", "n2"], ["key", "x"]]]],
        ["let", "s", ["sum", "s", "acct", [">", ["of", "s", "bal"], ["value", "n"]], ["of", "s", "bal"]]],
        ["let", "c", ["count"]]],
      "deferred",
      [["let", "l", ["least", "k", "acct", true, ["of", "k", "owner"]],
          [["let", "g", ["greatest", "k", "acct", true, ["+", ["of", "k", "bal"], ["value", "s"]]],
            [["if", [">", ["value", "g"], ["now"]], [["veto", ["value", "l"]]], [["veto"]]]]]]],
        ["let", "l", ["next", "acct"], [["create", "acct", ["value", "l"], [["bal", 0], ["owner", ""]]]]]],
      "closed"],
    ["b", ["commit"], "exclusive", [], "immediate", []]
  ],
  "items": [["tx", [["let", "n", ["now"], [["emit", ["value", "n"]]]]]]]
}"#;

#[test]
fn reads_each_form_of_version_4(rt: HostRuntime) -> Result<(), Fail> {
    expect_read(&rt, EACH_NEW_FORM)
}

#[test]
fn refuses_each_beginning_of_a_script_of_version_4(rt: HostRuntime) -> Result<(), Fail> {
    let alloc = rt.alloc();
    let script = EACH_NEW_FORM.as_bytes();
    for length in 0..script.len() {
        assert!(rt;
            answer(alloc, &script[..length])?.as_str() == "refused S1",
            "{length}"
        );
    }
    Ok(())
}

/// The line for a script of this version with a class `acct` and one rule, which has these entries and this end.
fn with_rule(alloc: Global, version: u8, entries: &str, end: &str) -> Result<String, Fail> {
    let script = format!(in alloc;
        r#"{{
      "version": {version},
      "classes": [["acct", [["bal", "int"]]]],
      "rules": [["r", ["commit"], "immediate", {entries}, "immediate", {end}]],
      "items": []
    }}"#
    )?;
    answer(alloc, script.as_bytes())
}

#[test]
fn refuses_new_entries_in_version_2(rt: HostRuntime) -> Result<(), Fail> {
    let alloc = rt.alloc();
    let no = r#"[["no", "x", "acct", true]]"#;
    assert!(rt; with_rule(alloc, 4, no, "[]")?.as_str() == "read");
    assert!(rt; with_rule(alloc, 2, no, "[]")?.as_str() == "refused S2 /rules/0/3/0");
    let named = r#"[["let", "acct", true]]"#;
    assert!(rt; with_rule(alloc, 4, named, "[]")?.as_str() == "read");
    assert!(rt; with_rule(alloc, 2, named, "[]")?.as_str() == "read");
    let value = r#"[["let", "n", ["now"]]]"#;
    assert!(rt; with_rule(alloc, 4, value, "[]")?.as_str() == "read");
    assert!(rt; with_rule(alloc, 2, value, "[]")?.as_str() == "refused S4 /rules/0/3/0/1");
    Ok(())
}

#[test]
fn reads_a_seventh_part_in_version_4(rt: HostRuntime) -> Result<(), Fail> {
    let alloc = rt.alloc();
    assert!(rt; with_rule(alloc, 4, "[]", r#"[], "closed""#)?.as_str() == "read");
    assert!(rt; with_rule(alloc, 2, "[]", r#"[], "closed""#)?.as_str() == "refused S2 /rules/0");
    assert!(rt; with_rule(alloc, 4, "[]", r#"[], "open""#)?.as_str() == "refused S2 /rules/0/6");
    assert!(rt; with_rule(alloc, 4, "[]", r#"[], "closed", 0"#)?.as_str() == "refused S2 /rules/0");
    Ok(())
}

#[test]
fn forgets_the_variable_of_an_aggregate(rt: HostRuntime) -> Result<(), Fail> {
    let alloc = rt.alloc();
    let after =
        r#"[["let", "n", ["count", "x", "acct", true]], ["no", "y", "acct", [">", ["key", "x"], 0]]]"#;
    assert!(rt; with_rule(alloc, 4, after, "[]")?.as_str() == "refused S4 /rules/0/3/1/3/1/1");
    let again =
        r#"[["let", "n", ["count", "x", "acct", true]], ["let", "m", ["count", "x", "acct", true]]]"#;
    assert!(rt; with_rule(alloc, 4, again, "[]")?.as_str() == "read");
    let taken = r#"[["let", "n", ["now"]], ["let", "m", ["count", "n", "acct", true]]]"#;
    assert!(rt; with_rule(alloc, 4, taken, "[]")?.as_str() == "refused S4 /rules/0/3/1/2/1");
    Ok(())
}

#[test]
fn runs_transactions_at_the_time_of_the_clock(rt: HostRuntime) -> Result<(), Fail> {
    let text = r#"{
      "version": 4,
      "classes": [],
      "rules": [["e", ["at", 3], "immediate", [], "immediate", []]],
      "items": [["tx", []], ["clock", 7], ["tx", []]]
    }"#;
    let Ok(Script { items, .. }) = decode(rt.alloc(), text.as_bytes()) else {
        return Err(Fail::from("refused"));
    };
    let [
        Unit::Transaction { time: 0, .. },
        Unit::Moment(3),
        Unit::Transaction { time: 7, .. },
    ] = items.as_slice()
    else {
        return Err(Fail::from("other items"));
    };
    Ok(())
}

/// A script in which the answers of a condition are kept for a deferred action.
const KEPT_ANSWERS: &str = r#"{
  "version": 1,
  "classes": [["acct", [["bal", "int"]]]],
  "rules": [
    ["m", ["signal", "go"], "separate", [["x", "acct", [">", ["of", "x", "bal"], 0]]], "deferred",
      [["emit", ["of", "x", "bal"]]]],
    ["z", ["commit"], "immediate", [], "immediate",
      [["with", "x", "acct", 1, [["update", "acct", 1, [["bal", ["+", ["of", "x", "bal"], 1]]]]]]]]
  ],
  "items": [["tx", [["install", "m"], ["install", "z"], ["create", "acct", 1, [["bal", 5]]], ["signal", "go", []]]]]
}"#;

#[test]
fn refuses_each_beginning(rt: HostRuntime) -> Result<(), Fail> {
    let alloc = rt.alloc();
    let script = KEPT_ANSWERS.as_bytes();
    for length in 0..script.len() {
        assert!(rt;
            answer(alloc, &script[..length])?.as_str() == "refused S1",
            "{length}"
        );
    }
    expect_read(&rt, KEPT_ANSWERS)
}

#[test]
fn gives_a_unit_for_each_moment(rt: HostRuntime) -> Result<(), Fail> {
    let text = r#"{
      "version": 1,
      "classes": [],
      "rules": [["e", ["every", 0, 1], "immediate", [], "immediate", []]],
      "items": [["clock", 1000]]
    }"#;
    let Ok(Script { items, .. }) = decode(rt.alloc(), text.as_bytes()) else {
        return Err(Fail::from("refused"));
    };
    assert!(rt; items.len() == 1_000);
    assert!(rt; matches!(items[0], Unit::Moment(1)) && matches!(items[999], Unit::Moment(1_000)));
    Ok(())
}

#[test]
fn gives_the_parts_of_a_script(rt: HostRuntime) -> Result<(), Fail> {
    let text = r#"{
      "version": 1,
      "depth": 3,
      "classes": [["acct", [["bal", "int"]]]],
      "rules": [["r", ["signal", "go"], "immediate", [], "immediate", []]],
      "items": [["tx", [["abort"]]]]
    }"#;
    let Ok(Script { library, items, .. }) = decode(rt.alloc(), text.as_bytes()) else {
        return Err(Fail::from("refused"));
    };
    assert!(rt; library.depth_limit() == 3);
    assert!(rt; library.classes().len() == 1 && library.rules().len() == 1);
    let [Unit::Transaction { time: 0, body }] = items.as_slice() else {
        return Err(Fail::from("other items"));
    };
    assert!(rt; matches!(body.statements(), [Stmt::Abort]));
    Ok(())
}

#[test]
fn writes_refusals(rt: HostRuntime) -> Result<(), Fail> {
    let text = refusal_text(rt.alloc(), &Refusal::S5(Limit::Moments))?;
    assert!(rt; text.as_str() == "refused S5 moments\n");
    Ok(())
}
