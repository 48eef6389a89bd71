//! Operations on a view over a small library. The expected values are worked out by hand.
//!
//! A test makes its library and its view, and passes them by reference to a function beside it. Operations give plain
//! numbers. This is because a function that owns many values and has many `?` takes minutes to prove.

use super::fixtures::{class, rule, text};
use hp_event::Pattern;
use hp_ops::{
    Given, GivenValues, create, delete, find_object, find_status, fire, given_values, new_object,
    set_rule, trigger, update,
};
use hp_rule::{Assignment, CheckError, Coupling, EventExpr, Library, Rule, RuleOperation, Task};
use hp_store::{Snapshot, Status};
use hp_value::{Cause, Cell, ClassNo, Env, Expr, Halt, Key, Prim, Row, RuleNo, Value};
use hp_view::View;
use std::alloc::{AllocError, Global};
use std::process::Abort;
use std::sync::Arc;
use std::test::Fail;

/// A rule on the signal `go`, and one on the signal `first` followed by `second`.
const ON_GO: RuleNo = 0;

const ON_BOTH: RuleNo = 1;

fn on_signal(alloc: Global, name: &str) -> Result<EventExpr, AllocError> {
    Ok(EventExpr::One(Pattern::Signal(text(alloc, name)?)))
}

fn rules(alloc: Global) -> Result<Vec<Rule>, AllocError> {
    let mut all = Vec::new(alloc);
    let go = on_signal(alloc, "go")?;
    let mut goes = rule(alloc, "goes", go)?;
    goes.ec = Coupling::Deferred;
    all.push(goes)?;
    let first = Box::new(alloc, on_signal(alloc, "first")?)?;
    let second = Box::new(alloc, on_signal(alloc, "second")?)?;
    let both = EventExpr::Seq(first, second);
    all.push(rule(alloc, "pairs", both)?)?;
    Ok(all)
}

// One class of accounts, the two rules, and firings at most two deep.
fn library(alloc: Global) -> Result<Arc<Library>, CheckError> {
    let classes = vec![in alloc; class(alloc, "account", &["bal"])?]?;
    let library = Library::check(alloc, classes, rules(alloc)?, 2)?;
    Ok(Arc::new(alloc, library)?)
}

fn empty_view(alloc: Global) -> Result<View, AllocError> {
    View::new(alloc, Snapshot::empty(alloc)?)
}

fn account(alloc: Global, balance: i64) -> Result<Row, AllocError> {
    let class = class(alloc, "account", &["bal"])?;
    let values = vec![in alloc; Value::Int(balance)]?;
    Row::new(alloc, &class.fields, values.into())
}

fn balance(row: &Row) -> Option<i64> {
    match row.field("bal") {
        Ok(Value::Int(n)) => Some(*n),
        _ => None,
    }
}

fn balance_of(alloc: Global, view: &mut View, key: Key) -> Result<Option<i64>, AllocError> {
    match find_object(alloc, view, 0, key)? {
        Some(row) => Ok(balance(&row)),
        None => Ok(None),
    }
}

// The cause of an operation's failure, if there was one. Running out of memory ends the test.
fn cause<T: Copy>(ended: Result<T, Halt>) -> Result<Option<Cause>, AllocError> {
    match ended {
        Err(Halt::Cause(cause)) => Ok(Some(cause)),
        Err(Halt::Memory) => Err(AllocError),
        Ok(_) => Ok(None),
    }
}

// An occurrence of an object: its class, its key, and its balances before and after.
type Change = (ClassNo, Key, Option<i64>, Option<i64>);

fn change(prim: &Prim) -> Option<Change> {
    match prim {
        Prim::Create { class, key, new } => Some((*class, *key, None, balance(new))),
        Prim::Update {
            class,
            key,
            old,
            new,
        } => Some((*class, *key, balance(old), balance(new))),
        Prim::Delete { class, key, old } => Some((*class, *key, balance(old), None)),
        _ => None,
    }
}

fn made(alloc: Global, view: &mut View, key: Key, balance: i64) -> Result<Option<Change>, Halt> {
    let row = account(alloc, balance)?;
    let prim = create(alloc, view, 0, key, row)?;
    Ok(change(&prim))
}

fn updated(alloc: Global, view: &mut View, key: Key, balance: i64) -> Result<Option<Change>, Halt> {
    let given = [Given {
        field: "bal",
        value: Value::Int(balance),
    }];
    let prim = update(alloc, view, 0, key, &given)?;
    Ok(change(&prim))
}

fn deleted(alloc: Global, view: &mut View, key: Key) -> Result<Option<Change>, Halt> {
    let prim = delete(alloc, view, 0, key)?;
    Ok(change(&prim))
}

// A task's rule, mode and depth, how many parts its occurrence has, and its count.
type Facts = (RuleNo, Coupling, u8, usize, u64);

fn facts(task: &Task) -> Facts {
    let occurrence = &task.occurrence;
    let parts = occurrence.parts.len();
    (task.rule, task.place, task.depth, parts, occurrence.count)
}

fn signalled(
    alloc: Global,
    view: &mut View,
    lib: &Library,
    name: &str,
    depth: u8,
) -> Result<Vec<Task>, Halt> {
    let prim = Prim::Signal {
        name: text(alloc, name)?,
        args: Vec::new(alloc),
    };
    trigger(alloc, view, lib, &prim, depth, 0)
}

// How many tasks a signal triggers.
fn count(
    alloc: Global,
    view: &mut View,
    lib: &Library,
    name: &str,
    depth: u8,
) -> Result<usize, Halt> {
    let tasks = signalled(alloc, view, lib, name, depth)?;
    Ok(tasks.len())
}

// The only task that a signal triggers.
fn only(
    alloc: Global,
    view: &mut View,
    lib: &Library,
    name: &str,
    depth: u8,
) -> Result<Option<Facts>, Halt> {
    let tasks = signalled(alloc, view, lib, name, depth)?;
    if tasks.len() != 1 {
        return Ok(None);
    }
    Ok(tasks.first().map(facts))
}

// The task of a statement that fires a rule.
fn fired(
    alloc: Global,
    view: &mut View,
    lib: &Library,
    rule: RuleNo,
    depth: u8,
) -> Result<Facts, Halt> {
    let task = fire(alloc, view, lib, rule, depth, 0)?;
    Ok(facts(&task))
}

fn make_twice(rt: &impl Abort, alloc: Global, view: &mut View) -> Result<(), Fail> {
    assert_eq!(rt; made(alloc, view, 7, 5)?, Some((0, 7, None, Some(5))));
    assert_eq!(rt; balance_of(alloc, view, 7)?, Some(5));
    assert_eq!(rt; cause(made(alloc, view, 7, 6))?, Some(Cause::Exists));
    assert_eq!(rt; balance_of(alloc, view, 7)?, Some(5));
    assert_eq!(rt; balance_of(alloc, view, 8)?, None);
    Ok(())
}

#[test]
fn an_object_is_made_and_not_twice(rt: HostRuntime) -> Result<(), Fail> {
    let mut view = empty_view(rt.alloc())?;
    make_twice(&rt, rt.alloc(), &mut view)
}

fn make_and_update(rt: &impl Abort, alloc: Global, view: &mut View) -> Result<(), Fail> {
    let _ = made(alloc, view, 7, 5)?;
    assert_eq!(rt;
        updated(alloc, view, 7, -8)?,
        Some((0, 7, Some(5), Some(-8)))
    );
    assert_eq!(rt; balance_of(alloc, view, 7)?, Some(-8));
    assert_eq!(rt; cause(updated(alloc, view, 8, -8))?, Some(Cause::Missing));
    Ok(())
}

#[test]
fn an_object_that_is_there_is_updated(rt: HostRuntime) -> Result<(), Fail> {
    let mut view = empty_view(rt.alloc())?;
    make_and_update(&rt, rt.alloc(), &mut view)
}

fn delete_twice(rt: &impl Abort, alloc: Global, view: &mut View) -> Result<(), Fail> {
    let _ = made(alloc, view, 7, 5)?;
    assert_eq!(rt; deleted(alloc, view, 7)?, Some((0, 7, Some(5), None)));
    assert_eq!(rt; balance_of(alloc, view, 7)?, None);
    assert_eq!(rt; cause(deleted(alloc, view, 7))?, Some(Cause::Missing));
    Ok(())
}

#[test]
fn an_object_is_deleted_once(rt: HostRuntime) -> Result<(), Fail> {
    let mut view = empty_view(rt.alloc())?;
    delete_twice(&rt, rt.alloc(), &mut view)
}

// An assignment of the value 4 or `true` to a field.
fn assignments(alloc: Global, field: &str, number: bool) -> Result<Vec<Assignment>, AllocError> {
    let value = if number {
        Value::Int(4)
    } else {
        Value::Bool(true)
    };
    let mut pairs = Vec::new(alloc);
    pairs.push(Assignment {
        field: text(alloc, field)?,
        value: Expr::literal(value),
    })?;
    Ok(pairs)
}

// The key and the balance of the object 9 that a `create` with this assignment makes.
fn made_row(
    alloc: Global,
    lib: &Library,
    field: &str,
    number: bool,
) -> Result<(Key, Option<i64>), Halt> {
    let pairs = assignments(alloc, field, number)?;
    let key = Expr::literal(Value::Int(9));
    let made = new_object(alloc, lib, 0, &Env::new(None, &[], &[], 0), &key, &pairs)?;
    Ok((made.key, balance(&made.row)))
}

// The key and the number of values that an `update` of it gives.
fn given(alloc: Global, lib: &Library, field: &str, number: bool) -> Result<(Key, usize), Halt> {
    let pairs = assignments(alloc, field, number)?;
    let key = Expr::literal(Value::Int(9));
    let env = Env::new(None, &[], &[], 0);
    let mut given = GivenValues::new(alloc);
    let key = given_values(alloc, lib, 0, &env, &key, &pairs, &mut given)?;
    Ok((key, given.len()))
}

fn give(rt: &impl Abort, alloc: Global, lib: &Library) -> Result<(), Fail> {
    assert_eq!(rt; made_row(alloc, lib, "bal", true)?, (9, Some(4)));
    assert_eq!(rt; given(alloc, lib, "bal", true)?, (9, 1));
    assert_eq!(rt;
        cause(made_row(alloc, lib, "bal", false))?,
        Some(Cause::Kind)
    );
    assert_eq!(rt; cause(given(alloc, lib, "name", true))?, Some(Cause::Kind));
    Ok(())
}

#[test]
fn statements_give_rows_and_values(rt: HostRuntime) -> Result<(), Fail> {
    let library = library(rt.alloc())?;
    give(&rt, rt.alloc(), &library)
}

fn install_and_go(
    rt: &impl Abort,
    alloc: Global,
    view: &mut View,
    lib: &Library,
) -> Result<(), Fail> {
    assert_eq!(rt; count(alloc, view, lib, "go", 0)?, 0);
    set_rule(alloc, view, lib, RuleOperation::Install, ON_GO)?;
    let task = (ON_GO, Coupling::Deferred, 2, 1, 1);
    assert_eq!(rt; only(alloc, view, lib, "go", 1)?, Some(task));
    assert_eq!(rt; count(alloc, view, lib, "stop", 0)?, 0);
    assert!(rt; view.peek(Cell::Detector(ON_GO)).is_none());
    Ok(())
}

#[test]
fn an_installed_rule_is_triggered(rt: HostRuntime) -> Result<(), Fail> {
    let library = library(rt.alloc())?;
    let mut view = empty_view(rt.alloc())?;
    install_and_go(&rt, rt.alloc(), &mut view, &library)
}

fn give_both(rt: &impl Abort, alloc: Global, view: &mut View, lib: &Library) -> Result<(), Fail> {
    set_rule(alloc, view, lib, RuleOperation::Install, ON_BOTH)?;
    assert_eq!(rt; count(alloc, view, lib, "second", 0)?, 0);
    assert_eq!(rt; count(alloc, view, lib, "first", 0)?, 0);
    let task = (ON_BOTH, Coupling::Immediate, 1, 2, 2);
    assert_eq!(rt; only(alloc, view, lib, "second", 0)?, Some(task));
    // The sequence has taken its first part.
    assert_eq!(rt; count(alloc, view, lib, "second", 0)?, 0);
    Ok(())
}

#[test]
fn a_sequence_needs_both_signals(rt: HostRuntime) -> Result<(), Fail> {
    let library = library(rt.alloc())?;
    let mut view = empty_view(rt.alloc())?;
    give_both(&rt, rt.alloc(), &mut view, &library)
}

fn disable_between(
    rt: &impl Abort,
    alloc: Global,
    view: &mut View,
    lib: &Library,
) -> Result<(), Fail> {
    set_rule(alloc, view, lib, RuleOperation::Install, ON_BOTH)?;
    assert_eq!(rt; count(alloc, view, lib, "first", 0)?, 0);
    set_rule(alloc, view, lib, RuleOperation::Disable, ON_BOTH)?;
    assert_eq!(rt; find_status(view, ON_BOTH)?, Some(Status::Disabled));
    assert!(rt; view.peek(Cell::Detector(ON_BOTH)).is_none());
    assert_eq!(rt; count(alloc, view, lib, "first", 0)?, 0);
    set_rule(alloc, view, lib, RuleOperation::Enable, ON_BOTH)?;
    assert_eq!(rt; find_status(view, ON_BOTH)?, Some(Status::Enabled));
    assert_eq!(rt; count(alloc, view, lib, "second", 0)?, 0);
    assert_eq!(rt; count(alloc, view, lib, "first", 0)?, 0);
    assert_eq!(rt; count(alloc, view, lib, "second", 0)?, 1);
    Ok(())
}

#[test]
fn a_disabled_rule_forgets(rt: HostRuntime) -> Result<(), Fail> {
    let library = library(rt.alloc())?;
    let mut view = empty_view(rt.alloc())?;
    disable_between(&rt, rt.alloc(), &mut view, &library)
}

fn go_deeper(rt: &impl Abort, alloc: Global, view: &mut View, lib: &Library) -> Result<(), Fail> {
    set_rule(alloc, view, lib, RuleOperation::Install, ON_GO)?;
    set_rule(alloc, view, lib, RuleOperation::Install, ON_BOTH)?;
    for depth in [2, 3, 255] {
        let deep = count(alloc, view, lib, "go", depth);
        assert_eq!(rt; cause(deep)?, Some(Cause::Depth));
        assert_eq!(rt; count(alloc, view, lib, "first", depth)?, 0);
        let deep = fired(alloc, view, lib, ON_GO, depth);
        assert_eq!(rt; cause(deep)?, Some(Cause::Depth));
    }
    Ok(())
}

#[test]
fn at_the_limit_a_triggered_rule_is_too_deep(rt: HostRuntime) -> Result<(), Fail> {
    let library = library(rt.alloc())?;
    let mut view = empty_view(rt.alloc())?;
    go_deeper(&rt, rt.alloc(), &mut view, &library)
}

fn fire_there(rt: &impl Abort, alloc: Global, view: &mut View, lib: &Library) -> Result<(), Fail> {
    for (rule, depth) in [(ON_GO, 0), (ON_BOTH, 2), (9, 0)] {
        let missing = fired(alloc, view, lib, rule, depth);
        assert_eq!(rt; cause(missing)?, Some(Cause::Missing));
    }
    set_rule(alloc, view, lib, RuleOperation::Install, ON_GO)?;
    set_rule(alloc, view, lib, RuleOperation::Disable, ON_GO)?;
    let task = (ON_GO, Coupling::Deferred, 2, 0, 0);
    assert_eq!(rt; fired(alloc, view, lib, ON_GO, 1)?, task);
    Ok(())
}

#[test]
fn a_rule_that_is_there_is_fired(rt: HostRuntime) -> Result<(), Fail> {
    let library = library(rt.alloc())?;
    let mut view = empty_view(rt.alloc())?;
    fire_there(&rt, rt.alloc(), &mut view, &library)
}

fn remove_absent(
    rt: &impl Abort,
    alloc: Global,
    view: &mut View,
    lib: &Library,
) -> Result<(), Fail> {
    for rule in [ON_BOTH, 9] {
        for operation in [RuleOperation::Enable, RuleOperation::Disable] {
            let missing = set_rule(alloc, view, lib, operation, rule);
            assert_eq!(rt; cause(missing)?, Some(Cause::Missing));
        }
        set_rule(alloc, view, lib, RuleOperation::Remove, rule)?;
    }
    set_rule(alloc, view, lib, RuleOperation::Install, 9)?;
    set_rule(alloc, view, lib, RuleOperation::Install, ON_BOTH)?;
    assert!(rt; view.peek(Cell::Detector(ON_BOTH)).is_some());
    set_rule(alloc, view, lib, RuleOperation::Remove, ON_BOTH)?;
    for rule in [ON_BOTH, 9] {
        assert!(rt; view.peek(Cell::Rule(rule)).is_none());
        assert!(rt; view.peek(Cell::Detector(rule)).is_none());
    }
    Ok(())
}

#[test]
fn an_absent_rule_has_no_cells(rt: HostRuntime) -> Result<(), Fail> {
    let library = library(rt.alloc())?;
    let mut view = empty_view(rt.alloc())?;
    remove_absent(&rt, rt.alloc(), &mut view, &library)
}

// Which of a rule's cells have values: its status, its detector.
fn cells(view: &View, rule: RuleNo) -> (bool, bool) {
    let status = view.peek(Cell::Rule(rule)).is_some();
    (status, view.peek(Cell::Detector(rule)).is_some())
}

fn operate(rt: &impl Abort, alloc: Global, view: &mut View, lib: &Library) {
    let mut refused = 0u8;
    for operation in [
        RuleOperation::Install,
        RuleOperation::Disable,
        RuleOperation::Enable,
        RuleOperation::Remove,
    ] {
        let before = cells(view, ON_BOTH);
        if set_rule(alloc, view, lib, operation, ON_BOTH) == Err(Halt::Memory) {
            refused = refused.saturating_add(1);
            assert_eq!(rt; cells(view, ON_BOTH), before);
        }
    }
    assert!(rt; refused < 2);
}

/// Runs with each allocation refused in turn, by `rt try --test --fail-alloc N`: a refused operation changes neither of
/// a rule's cells.
#[test]
fn a_refused_operation_changes_no_cell(rt: HostRuntime) -> Result<(), Fail> {
    let library = library(rt.alloc())?;
    let mut view = empty_view(rt.alloc())?;
    operate(&rt, rt.alloc(), &mut view, &library);
    Ok(())
}
