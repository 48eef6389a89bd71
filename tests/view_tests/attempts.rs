//! Attempts at firings over a small bank, with values worked out by hand.
//!
//! A function that owns views or attempts has few `?`, and hands them on by reference: with many its proof takes
//! minutes.

use super::fixtures::{bank, set, shown};
use hp_attempt::{Attempt, Outcome, Settled, first_failed, holds, settle, settle_front};
use hp_rule::{Step, Task};
use hp_value::{Cell, Coupling, Key, Occurrence, RuleNo, Veto};
use hp_view::{Reads, Seen, View};
use std::alloc::{AllocError, Global};
use std::collections::VecDeque;
use std::process::Abort;
use std::sync::Arc;
use std::test::Fail;

fn task(alloc: Global, rule: RuleNo, depth: u8) -> Result<Task, AllocError> {
    let occurrence = Occurrence {
        parts: Vec::new(alloc).into(),
        count: 1,
    };
    Ok(Task {
        rule,
        step: Step::Condition,
        place: Coupling::Immediate,
        depth,
        time: 0,
        occurrence: Arc::new(alloc, occurrence)?,
    })
}

// A view over another's cells, which has read a balance and set one.
fn used(
    alloc: Global,
    start: &View,
    read: Key,
    written: Key,
    value: i64,
) -> Result<View, AllocError> {
    let mut view = View::new(alloc, start.freeze(alloc)?)?;
    view.read(Cell::Object(0, read))?;
    set(alloc, &mut view, written, value)?;
    Ok(view)
}

// An attempt at the task of a rule, which reads a balance and sets one to the rule's number.
fn attempt(
    alloc: Global,
    start: &View,
    rule: RuleNo,
    read: Key,
    written: Key,
) -> Result<Attempt, AllocError> {
    let task = task(alloc, rule, 1)?;
    let view = used(alloc, start, read, written, i64::from(rule))?;
    let (reads, layer) = view.into_parts();
    Ok(Attempt {
        task,
        reads,
        layer,
        outcome: no_outcome(alloc),
    })
}

fn no_outcome(alloc: Global) -> Outcome {
    Outcome {
        end: None,
        queued: Vec::new(alloc),
        detached: Vec::new(alloc),
        tree: Vec::new(alloc),
    }
}

// Settles the task of a rule at a depth by an attempt.
fn settled(
    alloc: Global,
    view: &mut View,
    rule: RuleNo,
    depth: u8,
    tried: &Attempt,
) -> Result<Settled, AllocError> {
    let wanted = task(alloc, rule, depth)?;
    settle(alloc, view, &wanted, tried)
}

fn look(alloc: Global, view: &mut View) -> Result<(), AllocError> {
    view.read(Cell::Object(0, -3))?;
    view.read(Cell::Object(0, 11))?;
    drop(view.keys(alloc, 0)?);
    Ok(())
}

// What a look at two objects and at the keys of their class reads.
fn reads_of_the_bank(alloc: Global) -> Result<Reads, AllocError> {
    let mut view = bank(alloc)?;
    look(alloc, &mut view)?;
    let (reads, _) = view.into_parts();
    Ok(reads)
}

fn change(rt: &impl Abort, alloc: Global, view: &mut View, reads: &Reads) -> Result<(), Fail> {
    assert!(rt; holds(reads, view));
    assert!(rt; first_failed(reads, view).is_none());

    // It wasn't looked at.
    set(alloc, view, 2, 5)?;
    assert!(rt; holds(reads, view));

    // Both the cell and the keys have changed, and the cell was read first.
    set(alloc, view, 11, 5)?;
    assert!(rt; !holds(reads, view));
    let failed = first_failed(reads, view);
    assert!(rt; matches!(failed, Some(Seen::Cell(Cell::Object(0, 11)))));

    // The same value once more is no change.
    view.cut(Cell::Object(0, 11))?;
    set(alloc, view, -3, 97)?;
    assert!(rt; holds(reads, view));

    view.cut(Cell::Object(0, 10))?;
    let failed = first_failed(reads, view);
    assert!(rt; matches!(failed, Some(Seen::Keys(0))));
    Ok(())
}

#[test]
fn reads_hold_until_what_they_saw_changes(rt: HostRuntime) -> Result<(), Fail> {
    let reads = reads_of_the_bank(rt.alloc())?;
    let mut view = bank(rt.alloc())?;
    change(&rt, rt.alloc(), &mut view, &reads)
}

// What a look at a whole class reads.
fn reads_of_all(alloc: Global) -> Result<Reads, AllocError> {
    let mut view = bank(alloc)?;
    drop(view.objects(alloc, 0)?);
    let (reads, _) = view.into_parts();
    Ok(reads)
}

fn change_a_row(
    rt: &impl Abort,
    alloc: Global,
    view: &mut View,
    reads: &Reads,
) -> Result<(), Fail> {
    assert!(rt; holds(reads, view));
    set(alloc, view, 2, 5)?;
    let failed = first_failed(reads, view);
    assert!(rt; matches!(failed, Some(Seen::Keys(0))));
    set(alloc, view, 2, 102)?;
    assert!(rt; holds(reads, view));
    Ok(())
}

#[test]
fn a_class_read_as_a_whole_holds_while_its_rows_are_the_same(rt: HostRuntime) -> Result<(), Fail> {
    let reads = reads_of_all(rt.alloc())?;
    let mut view = bank(rt.alloc())?;
    change_a_row(&rt, rt.alloc(), &mut view, &reads)
}

// What a look at the greatest key of a class reads.
fn reads_of_the_greatest(alloc: Global) -> Result<Reads, AllocError> {
    let mut view = bank(alloc)?;
    view.read_greatest_key(alloc, 0)?;
    let (reads, _) = view.into_parts();
    Ok(reads)
}

fn change_the_greatest(
    rt: &impl Abort,
    alloc: Global,
    view: &mut View,
    reads: &Reads,
) -> Result<(), Fail> {
    assert!(rt; holds(reads, view));

    // Objects below it come and go, and its own row changes.
    set(alloc, view, 10, 1)?;
    set(alloc, view, 5, 1)?;
    view.cut(Cell::Object(0, 2))?;
    assert!(rt; holds(reads, view));

    set(alloc, view, 11, 1)?;
    let failed = first_failed(reads, view);
    assert!(rt; matches!(failed, Some(Seen::Greatest(0))));
    view.cut(Cell::Object(0, 11))?;
    assert!(rt; holds(reads, view));

    view.cut(Cell::Object(0, 10))?;
    assert!(rt; !holds(reads, view));
    Ok(())
}

#[test]
fn the_greatest_key_holds_while_it_is_the_greatest(rt: HostRuntime) -> Result<(), Fail> {
    let reads = reads_of_the_greatest(rt.alloc())?;
    let mut view = bank(rt.alloc())?;
    change_the_greatest(&rt, rt.alloc(), &mut view, &reads)
}

fn take_in(rt: &impl Abort, alloc: Global, view: &mut View) -> Result<(), Fail> {
    let tried = attempt(alloc, view, 7, 2, 10)?;
    assert_eq!(rt; settled(alloc, view, 7, 1, &tried)?, Settled::Accepted);
    assert_eq!(rt; shown(view, 10), Some(7));
    assert_eq!(rt; shown(view, 2), Some(102));
    Ok(())
}

// What the attempt read is read: it fails where that has changed.
fn assert_read(rt: &impl Abort, alloc: Global, reads: &Reads) -> Result<(), Fail> {
    let mut changed = bank(alloc)?;
    set(alloc, &mut changed, 2, 1)?;
    let failed = first_failed(reads, &changed);
    assert!(rt; matches!(failed, Some(Seen::Cell(Cell::Object(0, 2)))));
    assert_eq!(rt; reads.len(), 1);
    Ok(())
}

#[test]
fn an_attempt_that_holds_is_accepted(rt: HostRuntime) -> Result<(), Fail> {
    let mut view = bank(rt.alloc())?;
    take_in(&rt, rt.alloc(), &mut view)?;
    let (reads, layer) = view.into_parts();
    assert_eq!(rt; layer.len(), 1);
    assert_read(&rt, rt.alloc(), &reads)
}

fn try_for_others(rt: &impl Abort, alloc: Global, view: &mut View) -> Result<(), Fail> {
    let tried = attempt(alloc, view, 7, 2, 10)?;
    for (rule, depth) in [(8, 1), (7, 2)] {
        assert_eq!(rt;
            settled(alloc, view, rule, depth, &tried)?,
            Settled::Rejected
        );
    }
    let mut later = task(alloc, 7, 1)?;
    later.time = 9;
    assert_eq!(rt; settle(alloc, view, &later, &tried)?, Settled::Rejected);
    assert_eq!(rt; shown(view, 10), Some(110));
    Ok(())
}

#[test]
fn an_attempt_at_another_task_is_rejected(rt: HostRuntime) -> Result<(), Fail> {
    let mut view = bank(rt.alloc())?;
    try_for_others(&rt, rt.alloc(), &mut view)?;
    let (reads, layer) = view.into_parts();
    assert!(rt; reads.is_empty() && layer.is_empty());
    Ok(())
}

fn try_after_a_change(rt: &impl Abort, alloc: Global, view: &mut View) -> Result<(), Fail> {
    let tried = attempt(alloc, view, 7, 2, 10)?;
    set(alloc, view, 2, 103)?;
    assert_eq!(rt; settled(alloc, view, 7, 1, &tried)?, Settled::Rejected);
    assert_eq!(rt; shown(view, 10), Some(110));
    assert_eq!(rt; shown(view, 2), Some(103));
    Ok(())
}

#[test]
fn an_attempt_that_read_what_changed_is_rejected(rt: HostRuntime) -> Result<(), Fail> {
    let mut view = bank(rt.alloc())?;
    try_after_a_change(&rt, rt.alloc(), &mut view)
}

fn settle_both(
    rt: &impl Abort,
    alloc: Global,
    view: &mut View,
    tried: [&Attempt; 2],
    order: [RuleNo; 2],
) -> Result<(), Fail> {
    for rule in order {
        for one in tried {
            let settled = settled(alloc, view, rule, 1, one)?;
            assert_eq!(rt; settled == Settled::Accepted, one.task.rule == rule);
        }
    }
    assert_eq!(rt; shown(view, -3), Some(97));
    assert_eq!(rt; shown(view, 2), Some(1));
    assert_eq!(rt; shown(view, 10), Some(2));
    Ok(())
}

fn try_both(
    rt: &impl Abort,
    alloc: Global,
    view: &mut View,
    order: [RuleNo; 2],
) -> Result<(), Fail> {
    let one = attempt(alloc, view, 1, -3, 2)?;
    let two = attempt(alloc, view, 2, 11, 10)?;
    settle_both(rt, alloc, view, [&one, &two], order)
}

#[test]
fn two_attempts_apart_are_accepted_in_both_orders(rt: HostRuntime) -> Result<(), Fail> {
    for order in [[1, 2], [2, 1]] {
        let mut view = bank(rt.alloc())?;
        try_both(&rt, rt.alloc(), &mut view, order)?;
    }
    Ok(())
}

// The tasks of three rules, one each.
fn tasks(alloc: Global) -> Result<Vec<Task>, AllocError> {
    let mut tasks = Vec::new(alloc);
    for rule in 1..4 {
        tasks.push(task(alloc, rule, 1)?)?;
    }
    Ok(tasks)
}

// A place of a front: the rule whose task was tried, the key that was read, and whose veto ended the attempt.
type Place = Option<(RuleNo, Key, Option<RuleNo>)>;

// Attempts that read a key that none of them sets.
const ONE: Place = Some((1, 10, None));

const TWO: Place = Some((2, 10, None));

const THREE: Place = Some((3, 10, None));

// An attempt sets the balance of its rule's number.
fn tried(alloc: Global, start: &View, place: Place) -> Result<Option<Attempt>, AllocError> {
    let Some((rule, read, end)) = place else {
        return Ok(None);
    };
    let mut tried = attempt(alloc, start, rule, read, i64::from(rule))?;
    tried.outcome.end = match end {
        Some(rule) => Some(Veto::new(alloc, rule, None)?),
        None => None,
    };
    Ok(Some(tried))
}

type Attempts = VecDeque<Option<Attempt>>;

fn attempts(alloc: Global, start: &View, places: &[Place]) -> Result<Attempts, AllocError> {
    let mut attempts = VecDeque::new(alloc);
    for place in places {
        attempts.push_back(tried(alloc, start, *place)?)?;
    }
    Ok(attempts)
}

// How many outcomes there are and how many places are left, and the rule of the first of these.
type Counts = (usize, usize, Option<Option<RuleNo>>);

fn settled_front(
    alloc: Global,
    view: &mut View,
    places: &[Place],
    stop_at_veto: bool,
) -> Result<Counts, AllocError> {
    let tasks = tasks(alloc)?;
    let tried = attempts(alloc, view, places)?;
    let (outcomes, left) = settle_front(alloc, view, &tasks, tried, stop_at_veto)?;
    Ok((outcomes.len(), left.len(), first_rule(&left)))
}

fn first_rule(left: &Attempts) -> Option<Option<RuleNo>> {
    match left.front() {
        Some(Some(attempt)) => Some(Some(attempt.task.rule)),
        Some(None) => Some(None),
        None => None,
    }
}

// Settles the front of a bank: the counts, and the balances that three attempts set.
fn front(
    alloc: Global,
    places: &[Place],
    stop_at_veto: bool,
) -> Result<(Counts, [Option<i64>; 3]), AllocError> {
    let mut view = bank(alloc)?;
    let counts = settled_front(alloc, &mut view, places, stop_at_veto)?;
    Ok((counts, [shown(&view, 1), shown(&view, 2), shown(&view, 3)]))
}

#[test]
fn a_whole_front_is_accepted(rt: HostRuntime) -> Result<(), Fail> {
    let (counts, balances) = front(rt.alloc(), &[ONE, TWO, THREE], true)?;
    assert_eq!(rt; counts, (3, 0, None));
    assert!(rt; balances == [Some(1), Some(2), Some(3)]);
    Ok(())
}

#[test]
fn a_front_ends_where_an_attempt_is_rejected(rt: HostRuntime) -> Result<(), Fail> {
    // The second reads what the first sets.
    let second = Some((2, 1, None));
    let (counts, balances) = front(rt.alloc(), &[ONE, second, THREE], true)?;
    assert_eq!(rt; counts, (1, 2, Some(Some(2))));
    assert!(rt; balances == [Some(1), Some(102), None]);
    Ok(())
}

#[test]
fn a_front_ends_where_there_is_no_attempt(rt: HostRuntime) -> Result<(), Fail> {
    let (counts, balances) = front(rt.alloc(), &[None, ONE, TWO, THREE], true)?;
    assert_eq!(rt; counts, (0, 4, Some(None)));
    assert!(rt; balances == [None, Some(102), None]);
    Ok(())
}

#[test]
fn a_front_goes_past_no_gap(rt: HostRuntime) -> Result<(), Fail> {
    let (counts, balances) = front(rt.alloc(), &[ONE, None, THREE], true)?;
    assert_eq!(rt; counts, (1, 2, Some(None)));
    assert!(rt; balances == [Some(1), Some(102), None]);
    Ok(())
}

// The first attempt ended with a veto.
const VETOED: Place = Some((1, 10, Some(1)));

#[test]
fn a_veto_ends_a_front_where_it_is_to(rt: HostRuntime) -> Result<(), Fail> {
    let (counts, balances) = front(rt.alloc(), &[VETOED, TWO, THREE], true)?;
    assert_eq!(rt; counts, (1, 2, Some(Some(2))));
    assert!(rt; balances == [Some(1), Some(102), None]);
    Ok(())
}

#[test]
fn veto_ignored_without_stop_at_veto(rt: HostRuntime) -> Result<(), Fail> {
    let (counts, balances) = front(rt.alloc(), &[VETOED, TWO, THREE], false)?;
    assert_eq!(rt; counts, (3, 0, None));
    assert!(rt; balances == [Some(1), Some(2), Some(3)]);
    Ok(())
}

fn settle_or_not(rt: &impl Abort, alloc: Global, view: &mut View, wanted: &Task, tried: &Attempt) {
    match settle(alloc, view, wanted, tried) {
        Ok(settled) => {
            assert_eq!(rt; settled, Settled::Accepted);
            assert_eq!(rt; shown(view, 10), Some(7));
        }
        Err(_) => assert_eq!(rt; shown(view, 10), Some(110)),
    }
}

// Run with each allocation refused in turn: where the call returns the error, the cells are as before.
#[test]
fn a_refused_allocation_is_reported(rt: HostRuntime) {
    let alloc = rt.alloc();
    let Ok(wanted) = task(alloc, 7, 1) else {
        return;
    };
    let Ok(mut view) = bank(alloc) else {
        return;
    };
    let Ok(tried) = attempt(alloc, &view, 7, 2, 10) else {
        return;
    };
    settle_or_not(&rt, alloc, &mut view, &wanted, &tried);
}
