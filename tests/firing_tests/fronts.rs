//! Fronts of attempts that `run_task` made on one snapshot, over a small bank.

use super::fixtures::{alone, bank, enriching, library, on_go, set, tasks};
use super::seen::{Balances, all_shown};
use hp_attempt::{Attempt, settle_front};
use hp_fire::{ByThreads, run_task};
use hp_rule::{CheckError, Library, Rule, Task};
use hp_value::{Coupling, Key};
use hp_view::View;
use std::alloc::{AllocError, Global};
use std::collections::VecDeque;
use std::test::Fail;
use std::thread::Threads;

// A rule that sets an account's balance.
fn sets(alloc: Global, name: &str, key: Key, balance: i64) -> Result<Rule, AllocError> {
    let action = alone(alloc, set(alloc, key, balance)?)?;
    on_go(alloc, name, Coupling::Immediate, action)
}

// Two rules, each of which sets an account of its own.
fn disjoint(alloc: Global) -> Result<Library, CheckError> {
    let first = sets(alloc, "first", 1, 11);
    library(alloc, first, sets(alloc, "second", 2, 22))
}

// An attempt at a task on the view's cells as they are, if there is to be one.
fn tried(
    rt: &(impl Threads + Sync),
    alloc: Global,
    lib: &Library,
    view: &View,
    task: &Task,
    is_tried: bool,
) -> Result<Option<Attempt>, AllocError> {
    if !is_tried {
        return Ok(None);
    }
    let attempt = run_task(
        &ByThreads::new(rt),
        alloc,
        lib,
        view.freeze(alloc)?,
        task,
        1,
    )?;
    Ok(Some(attempt))
}

// How many attempts were accepted, how many places are left, whether an attempt stands in the first of these, and the
// balances.
type Settled = (usize, usize, bool, Balances);

// Tries some tasks on the view's cells, and settles the front of the attempts.
fn settle_on(
    rt: &(impl Threads + Sync),
    alloc: Global,
    lib: &Library,
    view: &mut View,
    tasks: &[Task],
    are_tried: &[bool],
) -> Result<Settled, AllocError> {
    let mut attempts = VecDeque::new(alloc);
    for (task, is_tried) in tasks.iter().zip(are_tried) {
        attempts.push_back(tried(rt, alloc, lib, view, task, *is_tried)?)?;
    }
    let (outcomes, left) = settle_front(alloc, view, tasks, attempts, true)?;
    let stands = matches!(left.front(), Some(Some(_)));
    Ok((outcomes.len(), left.len(), stands, all_shown(view)))
}

// The same of the tasks of both rules, in the bank. What isn't accepted is then tried again alone.
fn settle_twice(
    rt: &(impl Threads + Sync),
    alloc: Global,
    lib: Result<Library, CheckError>,
    are_tried: &[bool],
) -> Result<(Settled, Settled), Fail> {
    let lib = lib?;
    let mut view = bank(alloc, &lib)?;
    let tasks = tasks(alloc, 2)?;
    let first = settle_on(rt, alloc, &lib, &mut view, &tasks, are_tried)?;
    let rest = tasks.get(first.0..).unwrap_or_default();
    let second = settle_on(rt, alloc, &lib, &mut view, rest, &[true, true])?;
    Ok((first, second))
}

#[test]
fn attempts_that_touch_different_objects_are_all_accepted(rt: HostRuntime) -> Result<(), Fail> {
    let alloc = rt.alloc();
    let (first, second) = settle_twice(&rt, alloc, disjoint(alloc), &[true, true])?;
    let balances = (Some(11), Some(22), None, None, None);
    assert_eq!(rt; first, (2, 0, false, balances));
    assert_eq!(rt; second, (0, 0, false, balances));
    Ok(())
}

// The second asks for rich accounts, and the first makes one: its attempt stays until it is made again.
#[test]
fn an_attempt_that_missed_a_predecessors_effect_stays(rt: HostRuntime) -> Result<(), Fail> {
    let alloc = rt.alloc();
    let (first, second) = settle_twice(&rt, alloc, enriching(alloc, true), &[true, true])?;
    let enriched = (Some(10), Some(200), None, None, None);
    assert_eq!(rt; first, (1, 1, true, enriched));
    let made = (Some(10), Some(200), Some(30), None, None);
    assert_eq!(rt; second, (1, 0, false, made));
    Ok(())
}

#[test]
fn nothing_is_accepted_where_the_first_attempt_is_missing(rt: HostRuntime) -> Result<(), Fail> {
    let alloc = rt.alloc();
    let (first, second) = settle_twice(&rt, alloc, disjoint(alloc), &[false, true])?;
    assert_eq!(rt;
        first,
        (0, 2, false, (Some(10), Some(20), None, None, None))
    );
    assert_eq!(rt;
        second,
        (2, 0, false, (Some(11), Some(22), None, None, None))
    );
    Ok(())
}
