//! Top-level transactions: how they end, what they detach, and which of it is due. The expected values are worked out
//! by hand.

use super::fixtures::{alone, checked, give, install, on_signal};
use hp_fire::ByThreads;
use hp_rule::{CheckError, Library, Rule, RuleOperation, Stmt, Unit};
use hp_store::{CellValue, Snapshot, Status};
use hp_top::{attempt_unit, opening, run_top};
use hp_tree::{Ending, TopReport};
use hp_value::{Arithmetic, Cause, Cell, Coupling, Expr, Halt, RuleNo, Value, Veto};
use hp_view::View;
use std::alloc::{AllocError, Global};
use std::process::Abort;
use std::sync::Arc;
use std::test::Fail;
use std::thread::Threads;

// A rule of each detached mode, one of which waits for an earlier signal, and one that vetoes.
fn rules(alloc: Global) -> Result<Vec<Rule>, AllocError> {
    let mut rules = Vec::new(alloc);
    for (name, signal, mode) in [
        ("unheard", "never", Coupling::Immediate),
        ("separate", "go", Coupling::Separate),
        ("dependent", "go", Coupling::Dependent),
        ("exclusive", "go", Coupling::Exclusive),
        ("released", "try", Coupling::Exclusive),
    ] {
        rules.push(on_signal(alloc, name, signal, mode, Vec::new(alloc))?)?;
    }
    let veto = alone(alloc, Stmt::Veto(None))?;
    rules.push(on_signal(alloc, "vetoes", "stop", Coupling::Immediate, veto)?)?;
    Ok(rules)
}

fn library(alloc: Global) -> Result<Arc<Library>, CheckError> {
    let library = checked(alloc, rules(alloc)?)?;
    Ok(Arc::new(alloc, library)?)
}

// A sum outside the range of `i64`.
fn overflow(alloc: Global) -> Result<Stmt, AllocError> {
    let largest = Box::new(alloc, Expr::literal(Value::Int(i64::MAX)))?;
    let one = Box::new(alloc, Expr::literal(Value::Int(1)))?;
    let sum = Expr::Arithmetic(Arithmetic::Plus, largest, one);
    Ok(Stmt::Emit(Box::new(alloc, sum)?))
}

// A signal in a subtransaction that aborts: the exclusive task of its rule is released.
fn tried(alloc: Global) -> Result<Stmt, AllocError> {
    let mut body = alone(alloc, give(alloc, "try")?)?;
    body.push(Stmt::Abort)?;
    let otherwise = Vec::new(alloc);
    Ok(Stmt::Sub { body, otherwise })
}

// How a transaction should end.
#[derive(Clone, Copy)]
enum Wanted {
    Commit,
    Abort,
    Veto,
}

// Disables rule 0, detaches a task of each mode, each of another rule, and then ends so. Of the two exclusive tasks the
// last is released.
fn body(alloc: Global, wanted: Wanted) -> Result<Vec<Stmt>, AllocError> {
    let disables = Stmt::OnRule {
        operation: RuleOperation::Disable,
        rule: 0,
    };
    let mut body = alone(alloc, disables)?;
    body.push(give(alloc, "go")?)?;
    body.push(tried(alloc)?)?;
    match wanted {
        Wanted::Commit => {}
        Wanted::Abort => body.push(overflow(alloc)?)?,
        Wanted::Veto => body.push(give(alloc, "stop")?)?,
    }
    Ok(body)
}

// A view in which all rules are installed.
fn installed(alloc: Global, library: &Library) -> Result<View, Halt> {
    let mut view = View::new(alloc, Snapshot::empty(alloc)?)?;
    install(alloc, &mut view, library, 6)?;
    Ok(view)
}

fn is_enabled(view: &View) -> bool {
    matches!(
        view.peek(Cell::Rule(0)),
        Some(CellValue::Status(Status::Enabled))
    )
}

// What such a transaction leaves.
#[derive(Drop)]
struct Remains {
    end: Ending,
    items: usize,
    detached: usize,
    is_enabled: bool,
}

fn what_remains(
    rt: &(impl Threads + Sync),
    alloc: Global,
    library: &Library,
    unit: &Unit,
) -> Result<Remains, Halt> {
    let view = installed(alloc, library)?;
    let (top, view) = run_top(&ByThreads::new(rt), alloc, library, view, unit, 1)?;
    Ok(Remains {
        end: top.end,
        items: top.tree.len(),
        detached: top.detached.len(),
        is_enabled: is_enabled(&view),
    })
}

// The unit's own transaction is followed by those of the due tasks, each of another rule.
fn assert_rules(rt: &impl Abort, tops: &[TopReport], wanted: &[RuleNo]) {
    assert_eq!(rt; tops.len().saturating_sub(1), wanted.len());
    for (top, rule) in tops.iter().skip(1).zip(wanted) {
        assert_eq!(rt; top.task.map(|task| task.0), Some(*rule));
    }
}

fn assert_due(
    rt: &(impl Threads + Abort + Sync),
    alloc: Global,
    library: &Library,
    unit: &Unit,
    wanted: &[RuleNo],
) -> Result<(), Halt> {
    let snapshot = installed(alloc, library)?.freeze(alloc)?;
    let tried = attempt_unit(&ByThreads::new(rt), alloc, library, snapshot, unit, 1)?;
    assert_rules(rt, &tried.report.tops, wanted);
    Ok(())
}

// The unit of a transaction with this end.
fn unit(alloc: Global, library: &Arc<Library>, end: Wanted) -> Result<Unit, CheckError> {
    let body = Library::body(library, alloc, body(alloc, end)?)?;
    Ok(Unit::Transaction { time: 0, body })
}

// Runs a transaction with this end, and then again with its cascade: tasks of the expected rules are due.
fn left(
    rt: &(impl Threads + Abort + Sync),
    alloc: Global,
    end: Wanted,
    wanted: &[RuleNo],
) -> Result<Remains, Fail> {
    let library = library(alloc)?;
    let unit = unit(alloc, &library, end)?;
    assert_due(rt, alloc, &library, &unit, wanted)?;
    Ok(what_remains(rt, alloc, &library, &unit)?)
}

#[test]
fn a_commit_keeps_what_was_written_and_detached(rt: HostRuntime) -> Result<(), Fail> {
    let left = left(&rt, rt.alloc(), Wanted::Commit, &[1, 2, 4])?;
    assert!(rt; left.end == Ending::Committed);
    assert_eq!(rt; left.items, 2);
    assert!(rt; !left.is_enabled);
    assert_eq!(rt; left.detached, 4);
    Ok(())
}

#[test]
fn an_abort_keeps_the_separate_and_releases_the_exclusive(rt: HostRuntime) -> Result<(), Fail> {
    let left = left(&rt, rt.alloc(), Wanted::Abort, &[1, 3, 4])?;
    assert!(rt; left.end == Ending::Aborted(Cause::Overflow));
    assert_eq!(rt; left.items, 2);
    assert!(rt; left.is_enabled);
    assert_eq!(rt; left.detached, 3);
    Ok(())
}

#[test]
fn a_veto_aborts(rt: HostRuntime) -> Result<(), Fail> {
    let left = left(&rt, rt.alloc(), Wanted::Veto, &[1, 3, 4])?;
    let veto = Veto::new(rt.alloc(), 5, None)?;
    assert!(rt; left.end == Ending::Vetoed(veto));
    assert!(rt; left.is_enabled);
    Ok(())
}

#[test]
fn the_opening_is_empty(rt: HostRuntime) -> Result<(), Fail> {
    let alloc = rt.alloc();
    let store = opening(alloc)?;
    assert!(rt; store.get(Cell::Rule(0)).is_none());
    assert!(rt; store.get(Cell::Detector(0)).is_none());
    assert_eq!(rt; store.keys(alloc, 0)?.len(), 0);
    Ok(())
}
