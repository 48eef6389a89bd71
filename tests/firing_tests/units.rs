//! Lists that a unit leaves in the store.

use super::fixtures::{alone, bank, going, idles, library, on_go, set, text};
use hp_fire::ByThreads;
use hp_rule::{CheckError, Entry, Library, Query, Rule, Stmt, Unit};
use hp_store::Store;
use hp_top::run_unit;
use hp_value::{Coupling, Expr, Halt, Value};
use std::alloc::{AllocError, Global};
use std::sync::Arc;
use std::test::Fail;
use std::thread::Threads;

// A rule whose condition asks for all accounts. No index serves it, so that it reads the class as a whole.
fn on_all(alloc: Global) -> Result<Rule, AllocError> {
    let mut rule = on_go(alloc, "first", Coupling::Immediate, Vec::new(alloc))?;
    rule.condition.push(Entry::Query(Query {
        name: text(alloc, "all")?,
        class: 0,
        predicate: Box::new(alloc, Expr::literal(Value::Bool(true)))?,
    }))?;
    Ok(rule)
}

// Such a rule, and one without a query.
fn asking(alloc: Global) -> Result<Arc<Library>, CheckError> {
    let first = on_all(alloc);
    let lib = library(alloc, first, idles(alloc, "second", Coupling::Immediate))?;
    Ok(Arc::new(alloc, lib)?)
}

// A store with the bank's accounts and rules.
fn stocked(alloc: Global, lib: &Library) -> Result<Store, Halt> {
    let (_, layer) = bank(alloc, lib)?.into_parts();
    let mut store = Store::empty(alloc)?;
    store.apply(alloc, layer)?;
    Ok(store)
}

// Runs a transaction, and says whether the store then lists the accounts.
fn are_listed_after(
    rt: &(impl Threads + Sync),
    alloc: Global,
    lib: &Arc<Library>,
    store: &mut Store,
    body: Result<Vec<Stmt>, AllocError>,
) -> Result<bool, CheckError> {
    let body = Library::body(lib, alloc, body?)?;
    let unit = Unit::Transaction { time: 0, body };
    drop(run_unit(&ByThreads::new(rt), alloc, lib, store, &unit, 1)?);
    Ok(store.snapshot()?.kept_objects(0).is_some())
}

// The list goes on under the first change, and not under the second, before which nobody asked for it.
#[test]
fn a_class_that_was_read_whole_is_listed_until_it_changes_twice(
    rt: HostRuntime,
) -> Result<(), Fail> {
    let alloc = rt.alloc();
    let lib = asking(alloc)?;
    let mut store = stocked(alloc, &lib)?;
    let goes = going(alloc);
    assert!(rt; are_listed_after(&rt, alloc, &lib, &mut store, goes)?);
    let sets = alone(alloc, set(alloc, 1, 5)?);
    assert!(rt; are_listed_after(&rt, alloc, &lib, &mut store, sets)?);
    let sets = alone(alloc, set(alloc, 1, 6)?);
    assert!(rt; !are_listed_after(&rt, alloc, &lib, &mut store, sets)?);
    Ok(())
}
