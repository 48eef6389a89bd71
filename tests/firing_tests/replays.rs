//! The replay of a unit's tree, with a rule that triggers itself to the depth limit, and values worked out by hand.

use super::fixtures::{alone, checked_to, make, number, set, text};
use hp_event::Pattern;
use hp_fire::ByThreads;
use hp_rule::{Assignment, CheckError, EventExpr, Library, Rule, RuleOperation, Stmt, Unit};
use hp_store::{CellValue, Store};
use hp_top::run_unit;
use hp_tree::{Ending, Item, Objects, UnitReport, replay};
use hp_value::{Arithmetic, Cell, Coupling, Expr, Row};
use std::alloc::{AllocError, Global};
use std::process::Abort;
use std::sync::Arc;
use std::test::Fail;
use std::thread::Threads;

// The balance that the triggering update left, and one more.
fn one_more(alloc: Global) -> Result<Vec<Assignment>, AllocError> {
    let balance = Expr::NewField {
        part: 0,
        field: text(alloc, "bal")?,
    };
    let sum = Expr::Arithmetic(
        Arithmetic::Plus,
        Box::new(alloc, balance)?,
        number(alloc, 1)?,
    );
    let mut pairs = Vec::new(alloc);
    pairs.push(Assignment {
        field: text(alloc, "bal")?,
        value: sum,
    })?;
    Ok(pairs)
}

// Sets the account 1 to that.
fn raise(alloc: Global) -> Result<Stmt, AllocError> {
    Ok(Stmt::Update {
        class: 0,
        key: number(alloc, 1)?,
        pairs: one_more(alloc)?,
    })
}

// A rule that answers each update of an account by one more.
fn up(alloc: Global) -> Result<Rule, AllocError> {
    Ok(Rule {
        name: text(alloc, "up")?,
        event: Arc::new(alloc, EventExpr::One(Pattern::Update(0)))?,
        ec: Coupling::Immediate,
        condition: Vec::new(alloc),
        ca: Coupling::Immediate,
        action: alone(alloc, raise(alloc)?)?,
        closed: false,
    })
}

fn rules(alloc: Global) -> Result<Vec<Rule>, AllocError> {
    let mut rules = Vec::new(alloc);
    rules.push(up(alloc)?)?;
    Ok(rules)
}

// The rule, and firings at most three deep.
fn library(alloc: Global) -> Result<Arc<Library>, CheckError> {
    let library = checked_to(alloc, rules(alloc)?, 3)?;
    Ok(Arc::new(alloc, library)?)
}

// Installs the rule, makes the account 1 and updates it.
fn body(alloc: Global) -> Result<Vec<Stmt>, AllocError> {
    let installs = Stmt::OnRule {
        operation: RuleOperation::Install,
        rule: 0,
    };
    let mut body = alone(alloc, installs)?;
    body.push(make(alloc, 1, 0)?)?;
    body.push(set(alloc, 1, 1)?)?;
    Ok(body)
}

fn run(
    rt: &(impl Threads + Sync),
    alloc: Global,
    store: &mut Store,
) -> Result<UnitReport, CheckError> {
    let lib = library(alloc)?;
    let body = Library::body(&lib, alloc, body(alloc)?)?;
    let unit = Unit::Transaction { time: 0, body };
    Ok(run_unit(&ByThreads::new(rt), alloc, &lib, store, &unit, 1)?)
}

fn balance(row: &Row) -> Option<i64> {
    row.field("bal").ok()?.as_int().ok()
}

// The firing that is too deep aborts, and what it did is not replayed.
fn assert_replayed(rt: &impl Abort, alloc: Global, tree: &[Item]) -> Result<(), AllocError> {
    let objects = replay(Objects::new(alloc), tree)?;
    assert_eq!(rt; objects.len(), 1);
    assert_eq!(rt; objects.get(0, 1).and_then(balance), Some(3));
    Ok(())
}

fn assert_stored(rt: &impl Abort, store: &Store) {
    let Some(CellValue::Row(row)) = store.get(Cell::Object(0, 1)) else {
        panic!(rt; "the account is missing");
    };
    assert_eq!(rt; balance(row), Some(3));
}

#[test]
fn a_units_tree_replays_to_what_it_stored(rt: HostRuntime) -> Result<(), Fail> {
    let alloc = rt.alloc();
    let mut store = Store::empty(alloc)?;
    let report = run(&rt, alloc, &mut store)?;
    assert_eq!(rt; report.tops.len(), 1);
    for top in &report.tops {
        assert!(rt; top.end == Ending::Committed);
        assert_eq!(rt; top.tree.len(), 4);
        assert_replayed(&rt, alloc, &top.tree)?;
    }
    assert_stored(&rt, &store);
    Ok(())
}
