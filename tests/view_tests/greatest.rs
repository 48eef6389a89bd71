//! The greatest key of the class of a small bank, with values worked out by hand. Its keys are -3, 2 and 10.

use super::fixtures::{CLASS, bank, changes, object, set, snapshot};
use hp_store::{Layer, Snapshot};
use hp_value::Key;
use hp_view::{Found, Reads, Seen, View};
use std::alloc::{AllocError, Global};
use std::process::Abort;
use std::sync::Arc;
use std::test::Fail;

// The snapshot with a layer more, which creates objects and removes others.
fn under(
    alloc: Global,
    snapshot: &Snapshot,
    made: &[(Key, i64)],
    removed: &[Key],
) -> Result<Snapshot, AllocError> {
    let layer = changes(alloc, made, removed)?;
    snapshot.with_layer(alloc, Arc::new(alloc, layer)?)
}

fn look_under_layers(rt: &impl Abort, alloc: Global, bank: &Snapshot) -> Result<(), Fail> {
    assert_eq!(rt; bank.greatest_key(CLASS), Some(10));
    assert_eq!(rt; bank.greatest_key(CLASS + 1), None);

    let without = under(alloc, bank, &[], &[10, 2])?;
    assert_eq!(rt; without.greatest_key(CLASS), Some(-3));

    // One that lies between removed ones, and one that comes back.
    let between = under(alloc, &without, &[(5, 105)], &[])?;
    assert_eq!(rt; between.greatest_key(CLASS), Some(5));
    let back = under(alloc, &between, &[(10, 110)], &[5])?;
    assert_eq!(rt; back.greatest_key(CLASS), Some(10));

    let empty = under(alloc, &back, &[], &[10, -3])?;
    assert_eq!(rt; empty.greatest_key(CLASS), None);
    Ok(())
}

#[test]
fn removed_keys_are_passed_over(rt: HostRuntime) -> Result<(), Fail> {
    let bank = snapshot(rt.alloc())?;
    look_under_layers(&rt, rt.alloc(), &bank)
}

fn look_at_the_ends(rt: &impl Abort, alloc: Global, bank: &Snapshot) -> Result<(), Fail> {
    let ends = under(alloc, bank, &[(Key::MIN, 1), (Key::MAX, 1)], &[])?;
    assert_eq!(rt; ends.greatest_key(CLASS), Some(Key::MAX));
    let writes: Layer = changes(alloc, &[], &[Key::MAX, 10, 2, -3])?;
    assert_eq!(rt; ends.greatest_key_over(&writes, CLASS), Some(Key::MIN));
    Ok(())
}

#[test]
fn the_ends_of_the_range_are_keys(rt: HostRuntime) -> Result<(), Fail> {
    let bank = snapshot(rt.alloc())?;
    look_at_the_ends(&rt, rt.alloc(), &bank)
}

// Whether a view shows this greatest key, once and again.
fn shows(alloc: Global, view: &mut View, greatest: Option<Key>) -> Result<bool, AllocError> {
    let first = view.greatest_key(alloc, CLASS)?;
    let second = view.greatest_key(alloc, CLASS)?;
    Ok(first == greatest && second == greatest && view.has_greatest_key(CLASS, greatest))
}

// Whether one read was made, of this greatest key.
fn is_alone(reads: &Reads, greatest: Option<Key>) -> bool {
    for (seen, found) in reads.iter() {
        if *seen != Seen::Greatest(CLASS) || found.greatest() != greatest {
            return false;
        }
    }
    reads.len() == 1
}

fn create_and_look(rt: &impl Abort, alloc: Global, view: &mut View) -> Result<(), Fail> {
    assert!(rt; shows(alloc, view, Some(10))?);
    set(alloc, view, 12, 112)?;
    set(alloc, view, 11, 111)?;
    view.cut(object(-3))?;
    assert!(rt; shows(alloc, view, Some(12))?);

    // What the view itself created it may delete.
    view.cut(object(12))?;
    assert!(rt; shows(alloc, view, Some(11))?);
    Ok(())
}

#[test]
fn own_writes_count(rt: HostRuntime) -> Result<(), Fail> {
    let mut view = bank(rt.alloc())?;
    create_and_look(&rt, rt.alloc(), &mut view)?;
    let (reads, _) = view.into_parts();
    assert!(&rt; is_alone(&reads, Some(10)));
    Ok(())
}

fn delete_and_look(rt: &impl Abort, alloc: Global, view: &mut View) -> Result<(), Fail> {
    view.cut(object(10))?;
    assert!(rt; shows(alloc, view, Some(2))?);
    view.cut(object(2))?;
    view.cut(object(-3))?;
    assert!(rt; shows(alloc, view, None)?);
    set(alloc, view, -5, 95)?;
    assert!(rt; shows(alloc, view, Some(-5))?);
    Ok(())
}

#[test]
fn where_the_view_deletes_the_greatest_the_keys_are_read(rt: HostRuntime) -> Result<(), Fail> {
    let mut view = bank(rt.alloc())?;
    delete_and_look(&rt, rt.alloc(), &mut view)?;
    let (reads, _) = view.into_parts();
    assert_eq!(&rt; reads.len(), 1);
    assert!(&rt; reads.iter().all(|(seen, _)| *seen == Seen::Keys(CLASS)));
    Ok(())
}

fn list_and_look(rt: &impl Abort, alloc: Global, view: &mut View) -> Result<(), Fail> {
    drop(view.keys(alloc, CLASS)?);
    assert!(rt; shows(alloc, view, Some(10))?);
    set(alloc, view, 11, 111)?;
    assert!(rt; shows(alloc, view, Some(11))?);
    Ok(())
}

#[test]
fn keys_that_were_read_tell_the_greatest(rt: HostRuntime) -> Result<(), Fail> {
    let mut view = bank(rt.alloc())?;
    list_and_look(&rt, rt.alloc(), &mut view)?;
    let (reads, _) = view.into_parts();
    assert_eq!(&rt; reads.len(), 1);
    assert!(&rt; matches!(reads.iter().next(), Some((_, Found::Keys(_)))));
    Ok(())
}
