//! The sorts of values: of aggregates, in conditions and in bodies.

use super::fixtures::{script_of, verdict};
use std::process::Abort;
use std::test::Fail;

/// The verdict on a script of one rule on a signal, with an entry of its condition, an action and some items.
fn expect<R: Abort + AllocGlobal>(
    rt: &R,
    entry: &str,
    action: &str,
    items: &str,
    expected: &str,
) -> Result<(), Fail> {
    let alloc = rt.alloc();
    let rules = format!(in alloc;
        r#"["r", ["signal", "go"], "immediate", [{entry}], "immediate", [{action}]]"#
    )?;
    let read = script_of(alloc, 4, rules.as_str(), items)?;
    let said = verdict(alloc, &read)?;
    assert!(*rt;
        said.as_str() == expected,
        "{entry} and {action} give {said}"
    );
    Ok(())
}

const SUM: &str = r#"["let", "t", ["sum", "s", "item", true, ["of", "s", "stock"]]]"#;

const LEAST: &str = r#"["let", "n", ["least", "s", "item", true, ["of", "s", "name"]]]"#;

#[test]
fn a_value_has_the_sort_of_its_aggregate(rt: HostRuntime) -> Result<(), Fail> {
    let adds = r#"["veto", ["+", ["value", "t"], ["now"]]]"#;
    expect(&rt, SUM, adds, "", "kinded")?;
    expect(
        &rt,
        LEAST,
        r#"["emit", ["+", ["value", "n"], 1]]"#,
        "",
        "/rules/0/5/0/1/1 int wanted, is text",
    )?;
    expect(
        &rt,
        "",
        r#"["let", "k", ["next", "item"], [["delete", "item", ["value", "k"]]]]"#,
        "",
        "kinded",
    )
}

#[test]
fn an_aggregate_is_checked_part_by_part(rt: HostRuntime) -> Result<(), Fail> {
    expect(
        &rt,
        r#"["let", "t", ["sum", "s", "item", 1, ["of", "s", "stock"]]]"#,
        "",
        "",
        "/rules/0/3/0/2/3 bool wanted, is int",
    )?;
    expect(
        &rt,
        r#"["let", "t", ["sum", "s", "item", true, ["of", "s", "name"]]]"#,
        "",
        "",
        "/rules/0/3/0/2/4 int wanted, is text",
    )?;
    expect(
        &rt,
        r#"["let", "t", ["greatest", "s", "item", true, true]]"#,
        "",
        "",
        "/rules/0/3/0/2/4 int or text wanted, is bool",
    )?;
    expect(
        &rt,
        r#"["no", "s", "item", ["of", "s", "stock"]]"#,
        "",
        "",
        "/rules/0/3/0/3 bool wanted, is int",
    )
}

#[test]
fn a_value_that_is_used_says_what_a_signal_carries(rt: HostRuntime) -> Result<(), Fail> {
    let given = r#"["let", "t", ["arg", 0, 0]]"#;
    let adds = r#"["emit", ["+", ["value", "t"], 1]]"#;
    expect(
        &rt,
        given,
        adds,
        r#"["tx", [["signal", "go", [1]]]]"#,
        "kinded",
    )?;
    expect(
        &rt,
        given,
        adds,
        r#"["tx", [["signal", "go", ["one"]]]]"#,
        "unit 1 /0/2/0 int wanted, is text",
    )
}
