//! Libraries of rules without an action.

use hp_detect::EventExpr;
use hp_event::Pattern;
use hp_rule::{CheckError, Library, Rule};
use hp_value::{ClassDef, Coupling};
use std::alloc::{AllocError, Global};
use std::sync::Arc;

fn rule(alloc: Global, name: &str) -> Result<Rule, AllocError> {
    Ok(Rule {
        name: String::from_str(alloc, name)?,
        event: Arc::new(alloc, EventExpr::One(Pattern::Commit))?,
        ec: Coupling::Immediate,
        condition: Vec::new(alloc),
        ca: Coupling::Immediate,
        action: Vec::new(alloc),
        closed: false,
    })
}

/// A library with a rule of each name.
pub fn library(
    alloc: Global,
    classes: Vec<ClassDef>,
    names: &[&str],
) -> Result<Library, CheckError> {
    let mut rules = Vec::new(alloc);
    for name in names {
        rules.push(rule(alloc, *name)?)?;
    }
    Library::check(alloc, classes, rules, 8)
}
