//! What links two rules: the place of what signals or fires, and that of what it ends.

use super::fixtures::{add_path, script_of};
use hp_analysis::Graph;
use std::alloc::Global;
use std::process::Abort;
use std::test::Fail;

/// A rule of a name on an event, with modes and an action.
fn rule(
    alloc: Global,
    name: &str,
    event: &str,
    modes: [&str; 2],
    action: &str,
) -> Result<String, Fail> {
    let [condition, acting] = modes;
    Ok(format!(in alloc; r#"["{name}", {event}, "{condition}", [], "{acting}", [{action}]]"#)?)
}

/// What links the first of two rules to the second one, or `nothing`.
fn expect<R: Abort + AllocGlobal>(
    rt: &R,
    modes: [&str; 2],
    action: &str,
    event: &str,
    expected: &str,
) -> Result<(), Fail> {
    let alloc = rt.alloc();
    let first = rule(alloc, "first", r#"["signal", "go"]"#, modes, action)?;
    let second = rule(alloc, "second", event, ["immediate", "immediate"], "")?;
    let rules = format!(in alloc; "{first}, {second}")?;
    let read = script_of(alloc, 4, rules.as_str(), "")?;
    let graph = Graph::of(alloc, &read.library)?;
    let mut said = String::from_str(alloc, "nothing")?;
    if let Some(link) = graph.link(alloc, 0, 1)? {
        said = String::new(alloc);
        add_path(alloc, &mut said, &link.by)?;
        said.push_str(" ")?;
        add_path(alloc, &mut said, &link.event)?;
    }
    assert!(*rt; said.as_str() == expected, "{action} gives {said}");
    Ok(())
}

const IMMEDIATE: [&str; 2] = ["immediate", "immediate"];

#[test]
fn finds_the_first_statement(rt: HostRuntime) -> Result<(), Fail> {
    let updated = r#"["update", "item"]"#;
    let update = r#"["update", "item", 1, [["stock", 1]]]"#;
    let twice = format!(in rt.alloc(); r#"["emit", 1], ["if", true, [], [{update}]], {update}"#)?;
    expect(
        &rt,
        IMMEDIATE,
        twice.as_str(),
        updated,
        "/rules/0/5/1/3/0 /rules/1/1",
    )?;
    let inside = format!(in rt.alloc();
        r#"["sub", [["each", "i", "item", true, [{update}]]], []]"#
    )?;
    expect(
        &rt,
        IMMEDIATE,
        inside.as_str(),
        updated,
        "/rules/0/5/0/1/0/4/0 /rules/1/1",
    )?;
    expect(&rt, IMMEDIATE, update, r#"["delete", "item"]"#, "nothing")
}

#[test]
fn finds_the_part_that_ends_an_event(rt: HostRuntime) -> Result<(), Fail> {
    let signal = r#"["signal", "b", []]"#;
    let either = r#"["or", ["signal", "a"], ["signal", "b"]]"#;
    expect(&rt, IMMEDIATE, signal, either, "/rules/0/5/0 /rules/1/1/2")?;
    let ended = r#"["seq", ["signal", "a"], ["or", ["signal", "b"], ["commit"]]]"#;
    expect(&rt, IMMEDIATE, signal, ended, "/rules/0/5/0 /rules/1/1/2/1")?;
    let begun = r#"["seq", ["signal", "b"], ["signal", "a"]]"#;
    expect(&rt, IMMEDIATE, signal, begun, "nothing")
}

#[test]
fn finds_what_is_fired_and_what_commits(rt: HostRuntime) -> Result<(), Fail> {
    let other = r#"["signal", "a"]"#;
    expect(
        &rt,
        IMMEDIATE,
        r#"["fire", "second"]"#,
        other,
        "/rules/0/5/0 /rules/1",
    )?;
    let commit = r#"["commit"]"#;
    expect(
        &rt,
        ["separate", "immediate"],
        "",
        commit,
        "/rules/0/2 /rules/1/1",
    )?;
    expect(
        &rt,
        ["immediate", "dependent"],
        "",
        commit,
        "/rules/0/4 /rules/1/1",
    )?;
    expect(&rt, IMMEDIATE, "", commit, "nothing")
}
