//! Parts of the class of a small bank, by their keys, with values worked out by hand.

use super::fixtures::{bank, have_keys, object, set};
use hp_attempt::{first_failed, holds};
use hp_query::{Query, answer};
use hp_value::{Attribute, Bounds, ClassPart, Comparison, Env, Expr, Key, Value};
use hp_view::{Found, Reads, Seen, View};
use std::alloc::{AllocError, Global};
use std::process::Abort;
use std::test::Fail;

const BY_KEYS: ClassPart<'static> = ClassPart {
    attribute: Attribute::Key,
    bounds: Bounds::Numbers(Some(0), Some(5)),
};

// The objects from a key on.
fn from_key(low: Key) -> ClassPart<'static> {
    ClassPart {
        attribute: Attribute::Key,
        bounds: Bounds::Numbers(Some(low), None),
    }
}

fn assert_part(
    rt: &impl Abort,
    alloc: Global,
    view: &mut View,
    part: &ClassPart<'_>,
    wanted: &[Key],
) -> Result<(), Fail> {
    let rows = view.part(alloc, 0, part)?.ok_or("a part is found")?;
    assert!(rt; have_keys(&rows, wanted));
    Ok(())
}

// The objects that each read found, which are all of parts of class 0.
fn assert_found(rt: &impl Abort, reads: &Reads, wanted: &[&[Key]]) {
    assert_eq!(rt; reads.len(), wanted.len());
    for ((seen, found), keys) in reads.iter().zip(wanted) {
        assert!(rt; matches!((seen, found), (Seen::Part(0, _), Found::Part(_))));
        assert!(rt; have_keys(found.objects(), keys));
    }
}

fn ask_thrice(rt: &impl Abort, alloc: Global, view: &mut View) -> Result<(), Fail> {
    assert_part(rt, alloc, view, &BY_KEYS, &[2])?;
    assert_part(rt, alloc, view, &BY_KEYS, &[2])?;
    assert_part(rt, alloc, view, &from_key(2), &[2, 10])
}

#[test]
fn a_part_is_read_once(rt: HostRuntime) -> Result<(), Fail> {
    let mut view = bank(rt.alloc())?;
    ask_thrice(&rt, rt.alloc(), &mut view)?;
    let (reads, _) = view.into_parts();
    assert_found(&rt, &reads, &[&[2], &[2, 10]]);
    Ok(())
}

fn ask_over_writes(rt: &impl Abort, alloc: Global, view: &mut View) -> Result<(), Fail> {
    set(alloc, view, 3, 103)?;
    view.cut(object(2))?;
    assert_part(rt, alloc, view, &BY_KEYS, &[3])
}

// The view shows its own writes, and what it reads is what the snapshot holds beneath them.
#[test]
fn a_part_is_read_beneath_own_writes(rt: HostRuntime) -> Result<(), Fail> {
    let mut view = bank(rt.alloc())?;
    ask_over_writes(&rt, rt.alloc(), &mut view)?;
    let (reads, _) = view.into_parts();
    assert_found(&rt, &reads, &[&[2]]);
    Ok(())
}

fn ask_inside(rt: &impl Abort, alloc: Global, view: &mut View) -> Result<(), Fail> {
    let mark = view.enter();
    set(alloc, view, 3, 103)?;
    assert_part(rt, alloc, view, &BY_KEYS, &[2, 3])?;
    view.abort(mark)?;
    assert_part(rt, alloc, view, &BY_KEYS, &[2])
}

#[test]
fn a_part_stays_read_after_an_abort(rt: HostRuntime) -> Result<(), Fail> {
    let mut view = bank(rt.alloc())?;
    ask_inside(&rt, rt.alloc(), &mut view)?;
    let (reads, _) = view.into_parts();
    assert_found(&rt, &reads, &[&[2]]);
    Ok(())
}

// What a look at a part reads.
fn reads_of(alloc: Global, part: &ClassPart<'_>) -> Result<Reads, AllocError> {
    let mut view = bank(alloc)?;
    drop(view.part(alloc, 0, part)?);
    let (reads, _) = view.into_parts();
    Ok(reads)
}

fn assert_fails(rt: &impl Abort, view: &View, reads: &Reads) {
    assert!(rt; !holds(reads, view));
    assert!(rt; matches!(first_failed(reads, view), Some(Seen::Part(0, _))));
}

fn change_rows(rt: &impl Abort, alloc: Global, view: &mut View, reads: &Reads) -> Result<(), Fail> {
    assert!(rt; holds(reads, view));

    // Objects of the class that aren't in the part.
    set(alloc, view, -3, 5)?;
    set(alloc, view, 6, 5)?;
    view.cut(object(10))?;
    assert!(rt; holds(reads, view));

    set(alloc, view, 2, 5)?;
    assert_fails(rt, view, reads);
    set(alloc, view, 2, 102)?;
    assert!(rt; holds(reads, view));
    Ok(())
}

#[test]
fn a_part_holds_while_its_rows_are_the_same(rt: HostRuntime) -> Result<(), Fail> {
    let reads = reads_of(rt.alloc(), &BY_KEYS)?;
    let mut view = bank(rt.alloc())?;
    change_rows(&rt, rt.alloc(), &mut view, &reads)
}

fn come_and_leave(
    rt: &impl Abort,
    alloc: Global,
    view: &mut View,
    reads: &Reads,
) -> Result<(), Fail> {
    set(alloc, view, 3, 103)?;
    assert_fails(rt, view, reads);
    view.cut(object(3))?;
    assert!(rt; holds(reads, view));
    view.cut(object(2))?;
    assert_fails(rt, view, reads);
    Ok(())
}

#[test]
fn a_part_fails_where_an_object_comes_or_leaves(rt: HostRuntime) -> Result<(), Fail> {
    let reads = reads_of(rt.alloc(), &BY_KEYS)?;
    let mut view = bank(rt.alloc())?;
    come_and_leave(&rt, rt.alloc(), &mut view, &reads)
}

fn change_the_other_part(
    rt: &impl Abort,
    alloc: Global,
    first: &Reads,
    second: &Reads,
) -> Result<(), Fail> {
    let mut view = bank(alloc)?;
    set(alloc, &mut view, 11, 5)?;
    assert!(rt; holds(first, &view));
    assert_fails(rt, &view, second);
    Ok(())
}

#[test]
fn different_parts_do_not_conflict(rt: HostRuntime) -> Result<(), Fail> {
    let first = reads_of(rt.alloc(), &BY_KEYS)?;
    let second = reads_of(rt.alloc(), &from_key(6))?;
    change_the_other_part(&rt, rt.alloc(), &first, &second)
}

// A query for the rows of class 0 whose keys are 2 or more.
fn keys_from_two(alloc: Global) -> Result<Query, AllocError> {
    let variable = String::from_str(alloc, "x")?;
    let own = Box::new(alloc, Expr::KeyOf { variable })?;
    let two = Box::new(alloc, Expr::literal(Value::Int(2)))?;
    let predicate = Expr::Comparison(Comparison::AtLeast, own, two);
    Ok(Query {
        name: String::from_str(alloc, "x")?,
        class: 0,
        predicate: Box::new(alloc, predicate)?,
    })
}

fn ask_from_two(rt: &impl Abort, alloc: Global, view: &mut View) -> Result<(), Fail> {
    let asked = keys_from_two(alloc)?;
    let rows = answer(alloc, &asked, &Env::new(None, &[], &[], 0), view)?;
    assert!(rt; have_keys(&rows, &[2, 10]));
    Ok(())
}

// It reads no key and no row beside the part.
#[test]
fn a_query_for_a_part_reads_the_part_alone(rt: HostRuntime) -> Result<(), Fail> {
    let mut view = bank(rt.alloc())?;
    ask_from_two(&rt, rt.alloc(), &mut view)?;
    let (reads, _) = view.into_parts();
    assert_found(&rt, &reads, &[&[2, 10]]);
    Ok(())
}
