//! Lists of a class's objects that go on under changes of these objects.

use super::fixtures::{CLASS, changes, many, snapshot};
use hp_store::{Layer, Snapshot, Store};
use hp_value::{Key, ObjectList};
use std::alloc::{AllocError, Global};
use std::process::Abort;
use std::sync::Arc;
use std::test::Fail;

fn layer(alloc: Global, made: &[(Key, i64)], removed: &[Key]) -> Result<Arc<Layer>, AllocError> {
    Ok(Arc::new(alloc, changes(alloc, made, removed)?)?)
}

fn are_same(kept: Option<&Arc<ObjectList>>, anew: Option<Arc<ObjectList>>) -> bool {
    match (kept, anew) {
        (Some(kept), Some(anew)) => **kept == *anew,
        _ => false,
    }
}

/// Whether the list that a snapshot keeps under a layer is the one that the same snapshot without a list makes there.
fn goes_on(
    alloc: Global,
    listed: &Snapshot,
    plain: &Snapshot,
    layer: Arc<Layer>,
) -> Result<bool, AllocError> {
    let anew = plain.with_layer(alloc, Arc::try_clone(&layer)?)?;
    let anew = anew.objects(alloc, CLASS)?;
    let changed = listed.with_layer(alloc, layer)?;
    Ok(are_same(changed.kept_objects(CLASS), anew))
}

/// Changes alone, then at the front, in the middle and at the end, and of all objects.
fn compare(
    rt: &impl Abort,
    alloc: Global,
    listed: &Snapshot,
    plain: &Snapshot,
) -> Result<(), Fail> {
    let changed = layer(alloc, &[(2, 7)], &[])?;
    assert!(rt; goes_on(alloc, listed, plain, changed)?);
    let made = layer(alloc, &[(-9, 1), (5, 2), (11, 3)], &[])?;
    assert!(rt; goes_on(alloc, listed, plain, made)?);
    let removed = layer(alloc, &[], &[-3, 10])?;
    assert!(rt; goes_on(alloc, listed, plain, removed)?);
    let mixed = layer(alloc, &[(-3, 1), (4, 4)], &[2, 99])?;
    assert!(rt; goes_on(alloc, listed, plain, mixed)?);
    let none_left = layer(alloc, &[], &[-3, 2, 10])?;
    assert!(rt; goes_on(alloc, listed, plain, none_left)?);
    Ok(())
}

#[test]
fn a_list_under_changes_is_that_of_the_cells(rt: HostRuntime) -> Result<(), Fail> {
    let mut listed = snapshot(rt.alloc())?;
    listed.keep_objects(rt.alloc(), CLASS)?;
    let plain = snapshot(rt.alloc())?;
    compare(&rt, rt.alloc(), &listed, &plain)
}

fn store_of_a_hundred(alloc: Global) -> Result<Store, AllocError> {
    let mut store = Store::empty(alloc)?;
    store.apply(alloc, Arc::new(alloc, many(alloc, 100)?)?)?;
    Ok(store)
}

/// As a unit that reads the class as a whole.
fn ask(alloc: Global, store: &mut Store) -> Result<(), AllocError> {
    let found = store.snapshot()?.objects(alloc, CLASS)?;
    match found {
        Some(objects) => store.keep_objects(CLASS, objects),
        None => Ok(()),
    }
}

/// Changes one object, and says whether the store keeps a list after it.
fn keeps_under_change(alloc: Global, store: &mut Store, key: Key) -> Result<bool, AllocError> {
    store.apply(alloc, layer(alloc, &[(key, 1000)], &[])?)?;
    Ok(store.snapshot()?.kept_objects(CLASS).is_some())
}

fn change_each_time(rt: &impl Abort, alloc: Global, store: &mut Store) -> Result<(), Fail> {
    for key in 0..3 {
        ask(alloc, store)?;
        assert!(rt; keeps_under_change(alloc, store, key)?);
    }
    assert!(rt; !keeps_under_change(alloc, store, 3)?);
    Ok(())
}

#[test]
fn a_list_goes_on_under_one_change_after_each_time_it_is_asked_for(
    rt: HostRuntime,
) -> Result<(), Fail> {
    let mut store = store_of_a_hundred(rt.alloc())?;
    change_each_time(&rt, rt.alloc(), &mut store)
}
