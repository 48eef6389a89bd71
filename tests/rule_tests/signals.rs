//! Signals that step the detectors of several rules: all of them, or none where memory runs out.

use super::fixtures::{rule, text};
use hp_event::Pattern;
use hp_ops::{set_rule, trigger};
use hp_rule::{CheckError, EventExpr, Library, Rule, RuleOperation};
use hp_store::Snapshot;
use hp_value::{Halt, Prim, RuleNo};
use hp_view::View;
use std::alloc::{AllocError, Global};
use std::process::Abort;
use std::test::Fail;

// How many rules the library has. Each waits for the signal `first` followed by `second`.
const RULES: RuleNo = 3;

fn on_signal(alloc: Global, name: &str) -> Result<Box<EventExpr>, AllocError> {
    let signal = EventExpr::One(Pattern::Signal(text(alloc, name)?));
    Ok(Box::new(alloc, signal)?)
}

fn rules(alloc: Global) -> Result<Vec<Rule>, AllocError> {
    let mut all = Vec::new(alloc);
    for name in ["one", "two", "three"] {
        let both = EventExpr::Seq(on_signal(alloc, "first")?, on_signal(alloc, "second")?);
        all.push(rule(alloc, name, both)?)?;
    }
    Ok(all)
}

fn library(alloc: Global) -> Result<Library, CheckError> {
    Library::check(alloc, Vec::new(alloc), rules(alloc)?, 2)
}

// How many rules a signal triggers.
fn triggered(alloc: Global, view: &mut View, lib: &Library, name: &str) -> Result<usize, Halt> {
    let prim = Prim::Signal {
        name: text(alloc, name)?,
        args: Vec::new(alloc),
    };
    let tasks = trigger(alloc, view, lib, &prim, 0, 0)?;
    Ok(tasks.len())
}

// The same of a signal that is given again if it is refused.
fn at_last(alloc: Global, view: &mut View, lib: &Library, name: &str) -> Result<usize, Halt> {
    match triggered(alloc, view, lib, name) {
        Err(Halt::Memory) => triggered(alloc, view, lib, name),
        answer => answer,
    }
}

fn give_both(
    rt: &impl Abort,
    alloc: Global,
    view: &mut View,
    lib: &Library,
    installed: RuleNo,
) -> Result<(), Fail> {
    for number in 0..installed {
        set_rule(alloc, view, lib, RuleOperation::Install, number)?;
    }
    let all = installed as usize;
    let first = triggered(alloc, view, lib, "first");
    let waiting = if first.is_ok() { all } else { 0 };
    assert_eq!(rt; at_last(alloc, view, lib, "second")?, waiting);
    assert_eq!(rt; at_last(alloc, view, lib, "second")?, 0);
    Ok(())
}

/// Runs with each allocation refused in turn, by `rt try --test --fail-alloc N`: a refused signal steps no detector.
#[test]
fn a_signal_steps_all_detectors_or_none(rt: HostRuntime) -> Result<(), Fail> {
    let library = library(rt.alloc())?;
    for installed in 1..=RULES {
        let mut view = View::new(rt.alloc(), Snapshot::empty(rt.alloc())?)?;
        give_both(&rt, rt.alloc(), &mut view, &library, installed)?;
    }
    Ok(())
}
