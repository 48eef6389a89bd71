//! Scripts, and the text of what a check of kinds finds in them.

use hp_analysis::{KindFinding, Reason, Sort, Wanted, infer, kind_findings};
use hp_rule::{Member, PathStep};
use hp_script::{DecodeError, Script, decode};
use hp_value::Kind;
use std::alloc::{AllocError, Global};
use std::test::Fail;

const CLASS: &str = r#"["item", [["stock", "int"], ["name", "text"]]]"#;

/// A script of one class, `item`, with these rules and these items.
pub fn script(alloc: Global, rules: &str, items: &str) -> Result<Script, Fail> {
    script_of(alloc, 1, rules, items)
}

/// The same in a version of the language.
pub fn script_of(alloc: Global, version: u8, rules: &str, items: &str) -> Result<Script, Fail> {
    let text = format!(in alloc;
        r#"{{"version": {version}, "classes": [{CLASS}], "rules": [{rules}], "items": [{items}]}}"#
    )?;
    match decode(alloc, text.as_str().as_bytes()) {
        Ok(script) => Ok(script),
        Err(DecodeError::Refused(_)) => Err(Fail::from("refused")),
        Err(DecodeError::Memory) => Err(Fail::from("memory")),
    }
}

fn kind_name(kind: Kind) -> &'static str {
    match kind {
        Kind::Int => "int",
        Kind::Bool => "bool",
        Kind::Text => "text",
    }
}

/// The name of a sort.
pub fn sort_name(sort: Sort) -> &'static str {
    match sort {
        Sort::Only(kind) => kind_name(kind),
        Sort::Any => "any",
    }
}

fn wanted_name(wanted: Wanted) -> &'static str {
    match wanted {
        Wanted::Kind(kind) => kind_name(kind),
        Wanted::KnownKind => "a known kind",
        Wanted::OrderedKind => "int or text",
    }
}

fn add_step(alloc: Global, text: &mut String, step: &PathStep) -> Result<(), AllocError> {
    match step {
        PathStep::Member(Member::Rules) => text.push_str("/rules")?,
        PathStep::Member(_) => text.push_str("/?")?,
        PathStep::Item(index) => {
            let part = format!(in alloc; "/{index}")?;
            text.push_str(part.as_str())?;
        }
    }
    Ok(())
}

/// Adds a path.
pub fn add_path(alloc: Global, text: &mut String, path: &[PathStep]) -> Result<(), AllocError> {
    for step in path {
        add_step(alloc, text, step)?;
    }
    Ok(())
}

fn reason_text(alloc: Global, reason: Reason) -> Result<String, AllocError> {
    if let Reason::Unsuited { wanted, given } = reason {
        let (wanted, given) = (wanted_name(wanted), sort_name(given));
        return format!(in alloc; "{wanted} wanted, is {given}");
    }
    format!(in alloc; "{reason:?}")
}

/// The path and the reason of a finding, and the number of its unit if it is in one.
fn add_finding(alloc: Global, text: &mut String, found: &KindFinding) -> Result<(), AllocError> {
    if !text.is_empty() {
        text.push_str(", ")?;
    }
    if let Some(number) = found.unit {
        let unit = format!(in alloc; "unit {number} ")?;
        text.push_str(unit.as_str())?;
    }
    add_path(alloc, text, &found.finding.path)?;
    let why = reason_text(alloc, found.finding.reason)?;
    text.push_str(" ")?;
    text.push_str(why.as_str())
}

/// `kinded`, or all findings in the rules and in the transactions.
pub fn verdict(alloc: Global, script: &Script) -> Result<String, AllocError> {
    let found = infer(alloc, &script.library, &script.items)?;
    let all = kind_findings(alloc, &script.library, &found.declaration, &script.items)?;
    if all.is_empty() {
        return String::from_str(alloc, "kinded");
    }
    let mut text = String::new(alloc);
    for one in &all {
        add_finding(alloc, &mut text, one)?;
    }
    Ok(text)
}
