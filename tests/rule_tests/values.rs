//! Values in conditions and bodies: `no`, `let` and messages of vetoes, with their names and first faults.

use super::fixtures::{class, each, field_is, number, rule, text};
use hp_event::Pattern;
use hp_rule::{
    Aggregate, CheckError, CheckFault, Entry, EventExpr, Library, PathStep, Query, Rule, Stmt,
};
use hp_value::{Comparison, Expr};
use std::alloc::{AllocError, Global};
use std::test::Fail;

// The rows of accounts whose balance is below 0, under a variable.
fn poor(alloc: Global, variable: &str) -> Result<Query, AllocError> {
    Ok(Query {
        name: text(alloc, variable)?,
        class: 0,
        predicate: field_is(alloc, variable, "bal", Comparison::Less)?,
    })
}

// The sum of the balances of a row that has a name.
fn sum(alloc: Global, variable: &str, row: &str) -> Result<Aggregate, AllocError> {
    let term = Expr::FieldOf {
        variable: text(alloc, row)?,
        field: text(alloc, "bal")?,
    };
    Ok(Aggregate::Sum {
        rows: poor(alloc, variable)?,
        term: Box::new(alloc, term)?,
    })
}

fn value(alloc: Global, name: &str) -> Result<Box<Expr>, AllocError> {
    let name = text(alloc, name)?;
    Ok(Box::new(alloc, Expr::ValueOf { name })?)
}

fn let_entry(alloc: Global, name: &str, aggregate: Aggregate) -> Result<Entry, AllocError> {
    let name = text(alloc, name)?;
    Ok(Entry::Let { name, aggregate })
}

// The library of a rule with this condition and this action.
fn library(alloc: Global, condition: Vec<Entry>, action: Vec<Stmt>) -> Result<Library, CheckError> {
    let mut only: Rule = rule(alloc, "r", EventExpr::One(Pattern::Commit))?;
    only.condition = condition;
    only.action = action;
    let mut classes = Vec::new(alloc);
    classes.push(class(alloc, "account", &["bal"])?)?;
    let mut rules = Vec::new(alloc);
    rules.push(only)?;
    Library::check(alloc, classes, rules, 4)
}

// The path below the rule at which a name is refused; `None` if none is.
fn refused(checked: Result<Library, CheckError>) -> Option<Vec<PathStep>> {
    match checked {
        Err(CheckError::Fault(CheckFault::Name(path))) => Some(path),
        _ => None,
    }
}

// Whether a name is refused at this path below the rule.
fn is_refused_at(checked: Result<Library, CheckError>, wanted: &[usize]) -> bool {
    let Some(path) = refused(checked) else {
        return false;
    };
    let Some(below) = path.get(2..) else {
        return false;
    };
    let mut steps = wanted.iter();
    below.len() == wanted.len()
        && below.iter().all(|step| match (step, steps.next()) {
            (PathStep::Item(i), Some(j)) => i == j,
            _ => false,
        })
}

#[test]
fn a_condition_may_count_and_name(rt: HostRuntime) -> Result<(), Fail> {
    let alloc = rt.alloc();
    let mut condition = Vec::new(alloc);
    condition.push(Entry::No(poor(alloc, "k")?))?;
    condition.push(Entry::No(poor(alloc, "k")?))?;
    condition.push(let_entry(alloc, "t", sum(alloc, "t", "t")?)?)?;
    condition.push(Entry::Query(poor(alloc, "q")?))?;
    let veto = Stmt::Veto(Some(value(alloc, "t")?));
    let checked = library(alloc, condition, vec![in alloc; veto]?)?;
    let asked = checked.asked_fields();
    assert_eq!(rt; asked.len(), 1);
    Ok(())
}

// A condition with a query `q`, and one more entry.
fn after_query(alloc: Global, entry: Entry) -> Result<Vec<Entry>, AllocError> {
    let mut condition = Vec::new(alloc);
    condition.push(Entry::Query(poor(alloc, "q")?))?;
    condition.push(entry)?;
    Ok(condition)
}

#[test]
fn names_of_rows_and_values_are_one_set(rt: HostRuntime) -> Result<(), Fail> {
    let alloc = rt.alloc();
    let none = Vec::new(alloc);
    let taken = after_query(alloc, let_entry(alloc, "q", Aggregate::Next(0))?)?;
    assert!(rt; is_refused_at(library(alloc, taken, none), &[3, 1, 1]));
    let none = Vec::new(alloc);
    let variable = after_query(alloc, Entry::No(poor(alloc, "q")?))?;
    assert!(rt; is_refused_at(library(alloc, variable, none), &[3, 1, 1]));
    let each = each(alloc, "t", 0, number(alloc, 1)?, Vec::new(alloc))?;
    let named = after_query(alloc, let_entry(alloc, "t", Aggregate::Next(0))?)?;
    assert!(rt; is_refused_at(library(alloc, named, each), &[5, 0, 1]));
    Ok(())
}

#[test]
fn a_value_is_known_after_its_entry_alone(rt: HostRuntime) -> Result<(), Fail> {
    let alloc = rt.alloc();
    let own = Aggregate::Single(value(alloc, "t")?);
    let itself = after_query(alloc, let_entry(alloc, "t", own)?)?;
    assert!(rt; is_refused_at(library(alloc, itself, Vec::new(alloc)), &[3, 1, 2, 1]));
    let row = Aggregate::Single(value(alloc, "q")?);
    let of_row = after_query(alloc, let_entry(alloc, "t", row)?)?;
    assert!(rt; is_refused_at(library(alloc, of_row, Vec::new(alloc)), &[3, 1, 2, 1]));
    let outside = after_query(alloc, let_entry(alloc, "t", sum(alloc, "x", "y")?)?)?;
    assert!(rt; is_refused_at(library(alloc, outside, Vec::new(alloc)), &[3, 1, 2, 4, 1]));
    Ok(())
}

#[test]
fn a_let_is_known_in_its_body_alone(rt: HostRuntime) -> Result<(), Fail> {
    let alloc = rt.alloc();
    let emit = Stmt::Emit(value(alloc, "k")?);
    let inner = Stmt::Let {
        name: text(alloc, "k")?,
        aggregate: Aggregate::Next(0),
        body: vec![in alloc; emit]?,
    };
    let mut action = vec![in alloc; inner]?;
    action.push(Stmt::Veto(Some(value(alloc, "k")?)))?;
    assert!(rt; is_refused_at(library(alloc, Vec::new(alloc), action), &[5, 1, 1, 1]));
    Ok(())
}
