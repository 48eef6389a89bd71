//! Kinds: what is accepted, what is refused and where, and what is inferred.

use super::fixtures::{script, sort_name, verdict};
use hp_analysis::{
    Declaration, Sort, infer, infer_with, kind_findings, library_findings, unit_findings,
};
use hp_value::Kind;
use std::alloc::Global;
use std::process::Abort;
use std::test::Fail;

/// A rule on an event, with an action.
fn rule(alloc: Global, event: &str, action: &str) -> Result<String, Fail> {
    Ok(format!(in alloc; r#"["r", {event}, "immediate", [], "immediate", [{action}]]"#)?)
}

/// The verdict on a script of one rule and some items.
fn expect<R: Abort + AllocGlobal>(
    rt: &R,
    event: &str,
    action: &str,
    items: &str,
    expected: &str,
) -> Result<(), Fail> {
    let alloc = rt.alloc();
    let rules = rule(alloc, event, action)?;
    let read = script(alloc, rules.as_str(), items)?;
    let said = verdict(alloc, &read)?;
    assert!(*rt; said.as_str() == expected, "{action} gives {said}");
    Ok(())
}

#[test]
fn knows_what_each_part_has(rt: HostRuntime) -> Result<(), Fail> {
    let updated = r#"["update", "item"]"#;
    expect(
        &rt,
        updated,
        r#"["emit", ["-", ["new", 0, "stock"], ["old", 0, "stock"]]]"#,
        "",
        "kinded",
    )?;
    let deleted = r#"["delete", "item"]"#;
    expect(
        &rt,
        deleted,
        r#"["emit", ["new", 0, "stock"]]"#,
        "",
        "/rules/0/5/0/1 OtherForm",
    )?;
    expect(
        &rt,
        deleted,
        r#"["emit", ["old", 0, "price"]]"#,
        "",
        "/rules/0/5/0/1 NoSuchField",
    )?;
    expect(
        &rt,
        r#"["commit"]"#,
        r#"["emit", ["id", 0]]"#,
        "",
        "/rules/0/5/0/1 OtherForm",
    )?;
    expect(
        &rt,
        r#"["every", 5, 10]"#,
        r#"["emit", ["+", ["time", 0], 1]]"#,
        "",
        "kinded",
    )
}

#[test]
fn knows_the_parts_of_composite_events(rt: HostRuntime) -> Result<(), Fail> {
    let action = r#"["emit", ["+", ["id", 1], 1]]"#;
    let both = r#"["seq", ["create", "item"], ["update", "item"]]"#;
    expect(&rt, both, action, "", "kinded")?;
    let one = r#"["or", ["create", "item"], ["update", "item"]]"#;
    expect(&rt, one, action, "", "/rules/0/5/0/1/1 NoSuchPart")?;
    let unequal =
        r#"["seq", ["or", ["create", "item"], ["seq", ["commit"], ["commit"]]], ["update", "item"]]"#;
    expect(&rt, unequal, action, "", "/rules/0/5/0/1/1 NoSuchPart")?;
    let mixed = r#"["or", ["create", "item"], ["delete", "item"]]"#;
    expect(
        &rt,
        mixed,
        r#"["emit", ["new", 0, "stock"]]"#,
        "",
        "/rules/0/5/0/1 OtherForm",
    )
}

/// An event that ends where one of these does.
fn any_of(alloc: Global, events: &[&str]) -> Result<String, Fail> {
    let mut any = String::from_str(alloc, r#"["commit"]"#)?;
    for (i, event) in events.iter().enumerate() {
        any = if i == 0 {
            String::from_str(alloc, event)?
        } else {
            format!(in alloc; r#"["or", {any}, {event}]"#)?
        };
    }
    Ok(any)
}

#[test]
fn knows_a_part_of_many_patterns(rt: HostRuntime) -> Result<(), Fail> {
    let (created, updated) = (r#"["create", "item"]"#, r#"["update", "item"]"#);
    let six = [created, updated, created, updated, created, updated];
    let changed = any_of(rt.alloc(), &six)?;
    let changed = changed.as_str();
    let stock = r#"["emit", ["+", ["new", 0, "stock"], ["id", 0]]]"#;
    expect(&rt, changed, stock, "", "kinded")?;
    for (part, reason) in [
        (r#"["old", 0, "stock"]"#, "OtherForm"),
        (r#"["new", 0, "price"]"#, "NoSuchField"),
        (r#"["time", 0]"#, "OtherForm"),
        (r#"["id", 1]"#, "NoSuchPart"),
    ] {
        let action = format!(in rt.alloc(); r#"["emit", {part}]"#)?;
        let expected = format!(in rt.alloc(); "/rules/0/5/0/1 {reason}")?;
        expect(&rt, changed, action.as_str(), "", expected.as_str())?;
    }
    let six = [
        created,
        updated,
        created,
        updated,
        created,
        r#"["delete", "item"]"#,
    ];
    let mixed = any_of(rt.alloc(), &six)?;
    expect(&rt, mixed.as_str(), stock, "", "/rules/0/5/0/1/1 OtherForm")
}

#[test]
fn infers_what_one_of_many_signals_carries(rt: HostRuntime) -> Result<(), Fail> {
    let signals = [
        r#"["signal", "a"]"#,
        r#"["signal", "b"]"#,
        r#"["signal", "c"]"#,
        r#"["signal", "d"]"#,
        r#"["signal", "e"]"#,
    ];
    let event = any_of(rt.alloc(), &signals)?;
    expect(
        &rt,
        event.as_str(),
        r#"["emit", ["+", ["arg", 0, 0], 1]], ["signal", "a", [["arg", 0, 0]]]"#,
        r#"["tx", [["signal", "e", ["x"]], ["signal", "d", [1]]]]"#,
        "unit 1 /0/2/0 int wanted, is text",
    )
}

#[test]
fn tells_what_is_wanted_and_what_is_there(rt: HostRuntime) -> Result<(), Fail> {
    let created = r#"["create", "item"]"#;
    expect(
        &rt,
        created,
        r#"["if", ["<", ["new", 0, "name"], 5], [], []]"#,
        "",
        "/rules/0/5/0/1/2 text wanted, is int",
    )?;
    expect(
        &rt,
        created,
        r#"["if", ["new", 0, "stock"], [], []]"#,
        "",
        "/rules/0/5/0/1 bool wanted, is int",
    )?;
    expect(
        &rt,
        created,
        r#"["if", ["<", true, false], [], []]"#,
        "",
        "/rules/0/5/0/1/1 int or text wanted, is bool",
    )?;
    expect(
        &rt,
        created,
        r#"["update", "item", 1, [["name", 5]]]"#,
        "",
        "/rules/0/5/0/3/0/1 text wanted, is int",
    )?;
    expect(
        &rt,
        created,
        r#"["each", "i", "item", ["of", "i", "stock"], []]"#,
        "",
        "/rules/0/5/0/3 bool wanted, is int",
    )?;
    expect(
        &rt,
        created,
        "",
        r#"["tx", [["emit", ["count"]]]]"#,
        "unit 1 /0/1 NoOccurrence",
    )
}

#[test]
fn infers_what_signals_carry(rt: HostRuntime) -> Result<(), Fail> {
    let alloc = rt.alloc();
    let rules = rule(
        alloc,
        r#"["signal", "paid"]"#,
        r#"["update", "item", ["arg", 0, 0], [["name", ["arg", 0, 2]]]], ["emit", ["arg", 0, 1]]"#,
    )?;
    let read = script(alloc, rules.as_str(), "")?;
    let found = infer(alloc, &read.library, &read.items)?;
    let mut sorts = String::new(alloc);
    for sort in found.declaration.signature("paid") {
        sorts.push_str(sort_name(*sort))?;
        sorts.push_str(" ")?;
    }
    assert!(rt; sorts.as_str() == "int any text ", "{sorts}");
    assert!(rt; found.declaration.signature("sent").is_empty());
    assert!(rt; found.unknown.is_empty());
    Ok(())
}

/// The verdict on a transaction that gives a signal, of which a rule adds 1 to the second argument.
fn expect_given<R: Abort + AllocGlobal>(
    rt: &R,
    arguments: &str,
    expected: &str,
) -> Result<(), Fail> {
    let items = format!(in rt.alloc(); r#"["tx", [["signal", "paid", [{arguments}]]]]"#)?;
    expect(
        rt,
        r#"["signal", "paid"]"#,
        r#"["emit", ["+", ["arg", 0, 1], 1]]"#,
        items.as_str(),
        expected,
    )
}

#[test]
fn demands_what_rules_use(rt: HostRuntime) -> Result<(), Fail> {
    expect_given(&rt, "true, 2", "kinded")?;
    expect_given(&rt, r#"true, 2, "more""#, "kinded")?;
    expect_given(&rt, "true", "unit 1 /0 TooFewArguments")?;
    expect_given(&rt, r#"true, "2""#, "unit 1 /0/2/1 int wanted, is text")
}

#[test]
fn lets_statements_fire_what_reads_no_part(rt: HostRuntime) -> Result<(), Fail> {
    let created = r#"["create", "item"]"#;
    let fired = r#"["tx", [["install", "r"], ["fire", "r"]]]"#;
    expect(&rt, created, r#"["emit", ["count"]]"#, fired, "kinded")?;
    expect(
        &rt,
        created,
        r#"["emit", ["id", 0]]"#,
        fired,
        "unit 1 /1 NotFired",
    )
}

#[test]
fn says_which_kinds_nothing_gives(rt: HostRuntime) -> Result<(), Fail> {
    let alloc = rt.alloc();
    let rules = rule(
        alloc,
        r#"["signal", "pair"]"#,
        r#"["emit", ["=", ["arg", 0, 0], ["arg", 0, 1]]]"#,
    )?;
    let read = script(alloc, rules.as_str(), "")?;
    let found = infer(alloc, &read.library, &read.items)?;
    assert!(rt; found.unknown.len() == 2);
    Ok(())
}

/// A declaration of one signal.
fn given(alloc: Global, name: &str, kinds: &[Kind]) -> Result<Declaration, Fail> {
    let mut sorts = Vec::new(alloc);
    for kind in kinds {
        sorts.push(Sort::Only(*kind))?;
    }
    let mut declaration = Declaration::new(alloc);
    declaration.declare(String::from_str(alloc, name)?, sorts)?;
    Ok(declaration)
}

/// What is passed on to a signal that is given has the kind that is given.
#[test]
fn begins_with_what_is_given(rt: HostRuntime) -> Result<(), Fail> {
    let alloc = rt.alloc();
    let passing = r#"["signal", "paid", [["arg", 0, 0], ["arg", 0, 1]]]"#;
    let rules = rule(alloc, r#"["signal", "asked"]"#, passing)?;
    let read = script(alloc, rules.as_str(), "")?;
    let paid = given(alloc, "paid", &[Kind::Text])?;
    let found = infer_with(alloc, &read.library, &read.items, paid)?;
    let asked = found.declaration.signature("asked");
    assert!(rt; asked.len() == 2 && asked[0] == Sort::Only(Kind::Text) && asked[1] == Sort::Any);
    assert!(rt; found.declaration.signature("paid").len() == 1);
    Ok(())
}

/// A signal that is given without arguments has none, whatever rules read.
#[test]
fn keeps_what_is_given(rt: HostRuntime) -> Result<(), Fail> {
    let alloc = rt.alloc();
    let rules = rule(alloc, r#"["signal", "tick"]"#, r#"["emit", ["arg", 0, 0]]"#)?;
    let read = script(alloc, rules.as_str(), "")?;
    let tick = given(alloc, "tick", &[])?;
    let found = infer_with(alloc, &read.library, &read.items, tick)?;
    assert!(rt; found.declaration.is_declared("tick"));
    assert!(rt; library_findings(alloc, &read.library, &found.declaration)?.len() == 1);
    Ok(())
}

#[test]
fn checks_against_what_is_declared(rt: HostRuntime) -> Result<(), Fail> {
    let alloc = rt.alloc();
    let rules = rule(
        alloc,
        r#"["signal", "paid"]"#,
        r#"["emit", ["+", ["arg", 0, 0], 1]]"#,
    )?;
    let read = script(alloc, rules.as_str(), "")?;
    let mut declared = Declaration::new(alloc);
    assert!(rt; library_findings(alloc, &read.library, &declared)?.len() == 1);
    let sorts = vec![in alloc; Sort::Only(Kind::Int)]?;
    declared.declare(String::from_str(alloc, "paid")?, sorts)?;
    assert!(rt; library_findings(alloc, &read.library, &declared)?.is_empty());
    assert!(rt; kind_findings(alloc, &read.library, &declared, &read.items)?.is_empty());
    let sorts = vec![in alloc; Sort::Any]?;
    declared.declare(String::from_str(alloc, "paid")?, sorts)?;
    assert!(rt; !kind_findings(alloc, &read.library, &declared, &read.items)?.is_empty());
    Ok(())
}

#[test]
fn checks_a_later_unit(rt: HostRuntime) -> Result<(), Fail> {
    let alloc = rt.alloc();
    let read = script(
        alloc,
        "",
        r#"["tx", [["emit", ["count"]], ["emit", 1], ["emit", ["count"]]]]"#,
    )?;
    let declared = Declaration::new(alloc);
    for unit in &read.items {
        assert!(rt; unit_findings(alloc, &read.library, &declared, unit)?.len() == 2);
    }
    Ok(())
}

#[test]
fn finds_all_of_a_statement(rt: HostRuntime) -> Result<(), Fail> {
    let updated = r#"["update", "item"]"#;
    expect(
        &rt,
        updated,
        r#"["create", "item", true, [["stock", "a"], ["name", ["neg", false]]]], ["emit", ["arg", 0, 0]]"#,
        "",
        "/rules/0/5/0/2 int wanted, is bool, /rules/0/5/0/3/0/1 int wanted, is text, \
         /rules/0/5/0/3/1/1/1 int wanted, is bool, /rules/0/5/1/1 OtherForm",
    )?;
    expect(
        &rt,
        r#"["signal", "paid"]"#,
        r#"["emit", ["+", ["arg", 0, 0], ["arg", 0, 2]]]"#,
        r#"["tx", [["signal", "paid", ["a"]], ["update", "item", 1, [["stock", ""]]]]]"#,
        "unit 1 /0/2/0 int wanted, is text, unit 1 /0 TooFewArguments, unit 1 /1/3/0/1 int wanted, is text",
    )
}

#[test]
fn finds_all_inside_a_statement(rt: HostRuntime) -> Result<(), Fail> {
    expect(
        &rt,
        r#"["update", "item"]"#,
        r#"["if", 1, [["emit", ["time", 0]]], [["emit", ["+", ["old", 0, "name"], "a"]]]]"#,
        r#"["tx", []], ["tx", [["sub", [["emit", ["count"]]], [["emit", ["count"]]]]]]"#,
        "/rules/0/5/0/1 bool wanted, is int, /rules/0/5/0/2/0/1 OtherForm, \
         /rules/0/5/0/3/0/1/1 int wanted, is text, unit 2 /0/1/0/1 NoOccurrence, unit 2 /0/2/0/1 NoOccurrence",
    )
}
