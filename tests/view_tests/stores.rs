//! The store at work, and what no clause says: each refused allocation leaves it as it was.
//!
//! A function that owns stores and snapshots has few `?` and hands them on by reference: with many it takes minutes to
//! prove.

use super::fixtures::{CLASS, object};
use hp_store::{CellValue, Layer, Snapshot, Status, Store};
use hp_value::{Cell, Key, Row};
use std::alloc::{AllocError, Global};
use std::process::Abort;
use std::sync::Arc;
use std::test::Fail;

fn row(alloc: Global) -> Result<CellValue, AllocError> {
    let fields = Arc::new(alloc, Vec::new(alloc))?;
    let row = Row::new(alloc, &fields, Vec::new(alloc).into())?;
    Ok(CellValue::Row(row))
}

/// A layer that makes objects of some keys, and removes those of others.
fn layer(alloc: Global, made: &[Key], removed: &[Key]) -> Result<Arc<Layer>, AllocError> {
    let mut layer = Layer::new(alloc);
    for key in made {
        let _ = layer.insert(object(*key), Some(row(alloc)?))?;
    }
    for key in removed {
        let _ = layer.insert(object(*key), None)?;
    }
    Ok(Arc::new(alloc, layer)?)
}

/// A layer that gives a rule a status.
fn status_layer(alloc: Global, status: Status) -> Result<Arc<Layer>, AllocError> {
    let mut layer = Layer::new(alloc);
    let _ = layer.insert(Cell::Rule(0), Some(CellValue::Status(status)))?;
    Ok(Arc::new(alloc, layer)?)
}

/// Keys above and below zero, which a layer names out of order.
fn store_of_three(alloc: Global) -> Result<Store, AllocError> {
    let mut store = Store::empty(alloc)?;
    store.apply(alloc, layer(alloc, &[5, -2, 3], &[])?)?;
    Ok(store)
}

/// Whether these keys were found.
fn are(found: Result<Vec<Key>, AllocError>, keys: &[Key]) -> Result<bool, AllocError> {
    Ok(found?.as_slice() == keys)
}

fn is_disabled(store: &Store) -> bool {
    let disabled = CellValue::Status(Status::Disabled);
    store
        .get(Cell::Rule(0))
        .is_some_and(|value| *value == disabled)
}

fn overwrite(rt: &impl Abort, alloc: Global, store: &mut Store) -> Result<(), Fail> {
    store.apply(alloc, status_layer(alloc, Status::Enabled)?)?;
    store.apply(alloc, status_layer(alloc, Status::Disabled)?)?;
    assert!(rt; is_disabled(store));
    store.apply(alloc, layer(alloc, &[4], &[3, 7])?)?;
    assert!(rt; are(store.keys(alloc, CLASS), &[-2, 4, 5])?);
    assert!(rt; store.get(object(3)).is_none());
    assert!(rt; are(store.keys(alloc, 4), &[])?);
    Ok(())
}

#[test]
fn a_layer_overwrites_and_removes(rt: HostRuntime) -> Result<(), Fail> {
    let mut store = store_of_three(rt.alloc())?;
    overwrite(&rt, rt.alloc(), &mut store)
}

/// Whether a snapshot lists the objects with these keys.
fn lists(alloc: Global, snapshot: &Snapshot, keys: &[Key]) -> Result<bool, AllocError> {
    let objects = snapshot.objects(alloc, CLASS)?;
    Ok(objects.is_some_and(|objects| objects.keys() == keys))
}

/// Whether it does so with a layer over it.
fn lists_under(
    alloc: Global,
    snapshot: &Snapshot,
    layer: Arc<Layer>,
    keys: &[Key],
) -> Result<bool, AllocError> {
    let next = snapshot.with_layer(alloc, layer)?;
    lists(alloc, &next, keys)
}

fn keep_a_list(rt: &impl Abort, alloc: Global, snapshot: &mut Snapshot) -> Result<(), Fail> {
    assert!(rt; lists(alloc, snapshot, &[-2, 3, 5])?);
    snapshot.keep_objects(alloc, CLASS)?;
    assert!(rt; lists(alloc, snapshot, &[-2, 3, 5])?);
    let other = status_layer(alloc, Status::Enabled)?;
    assert!(rt; lists_under(alloc, snapshot, other, &[-2, 3, 5])?);
    let changed = layer(alloc, &[4], &[3])?;
    assert!(rt; lists_under(alloc, snapshot, changed, &[-2, 4, 5])?);
    Ok(())
}

#[test]
fn a_kept_list_is_that_of_the_cells(rt: HostRuntime) -> Result<(), Fail> {
    let store = store_of_three(rt.alloc())?;
    let mut snapshot = store.snapshot()?;
    keep_a_list(&rt, rt.alloc(), &mut snapshot)
}

/// Whether snapshots of a store share a list of the class.
fn shares_a_list(store: &Store) -> Result<bool, AllocError> {
    Ok(store.snapshot()?.kept_objects(CLASS).is_some())
}

fn keep_its_list(alloc: Global, store: &mut Store) -> Result<(), AllocError> {
    let found = store.snapshot()?.objects(alloc, CLASS)?;
    match found {
        Some(objects) => store.keep_objects(CLASS, objects),
        None => Ok(()),
    }
}

fn keep_in_the_store(rt: &impl Abort, alloc: Global, store: &mut Store) -> Result<(), Fail> {
    assert!(rt; !shares_a_list(store)?);
    keep_its_list(alloc, store)?;
    assert!(rt; shares_a_list(store)?);
    store.apply(alloc, status_layer(alloc, Status::Enabled)?)?;
    assert!(rt; shares_a_list(store)?);
    store.apply(alloc, layer(alloc, &[4], &[3])?)?;
    assert!(rt; shares_a_list(store)?);
    store.apply(alloc, layer(alloc, &[5], &[4])?)?;
    assert!(rt; !shares_a_list(store)?);
    Ok(())
}

#[test]
fn a_store_keeps_a_list_under_one_change_that_nobody_asked_after(
    rt: HostRuntime,
) -> Result<(), Fail> {
    let mut store = store_of_three(rt.alloc())?;
    keep_in_the_store(&rt, rt.alloc(), &mut store)
}

fn layers(store: &Store) -> Result<usize, AllocError> {
    Ok(store.snapshot()?.layers())
}

fn change(rt: &impl Abort, alloc: Global, store: &mut Store, old: &Snapshot) -> Result<(), Fail> {
    store.apply(alloc, layer(alloc, &[4], &[3])?)?;
    assert!(rt; are(old.keys(alloc, CLASS), &[-2, 3, 5])?);
    assert!(rt; are(store.keys(alloc, CLASS), &[-2, 4, 5])?);
    assert_eq!(rt; layers(store)?, 1);
    Ok(())
}

/// Once nobody else holds the base, the layers go into it.
fn change_alone(rt: &impl Abort, alloc: Global, store: &mut Store) -> Result<(), Fail> {
    store.apply(alloc, layer(alloc, &[9], &[5])?)?;
    assert_eq!(rt; layers(store)?, 0);
    assert!(rt; are(store.keys(alloc, CLASS), &[-2, 4, 9])?);
    Ok(())
}

#[test]
fn a_snapshot_keeps_what_it_had(rt: HostRuntime) -> Result<(), Fail> {
    let mut store = store_of_three(rt.alloc())?;
    let before = store.snapshot()?;
    change(&rt, rt.alloc(), &mut store, &before)?;
    drop(before);
    change_alone(&rt, rt.alloc(), &mut store)
}

fn stack_twenty(rt: &impl Abort, alloc: Global, snapshot: &mut Snapshot) -> Result<(), Fail> {
    for key in 10..30 {
        let next = layer(alloc, &[key], &[key.saturating_sub(1)])?;
        *snapshot = snapshot.with_layer(alloc, next)?;
        assert!(rt; snapshot.layers() <= 8);
        assert!(rt;
            are(snapshot.keys(alloc, CLASS), &[-2, 3, 5, key])?,
            "{key}"
        );
    }
    let same = snapshot.with_layer(alloc, layer(alloc, &[], &[])?)?;
    assert_eq!(rt; same.layers(), snapshot.layers());
    Ok(())
}

#[test]
fn twenty_layers_are_folded_into_at_most_eight(rt: HostRuntime) -> Result<(), Fail> {
    let mut snapshot = store_of_three(rt.alloc())?.snapshot()?;
    stack_twenty(&rt, rt.alloc(), &mut snapshot)
}

/// Whether the snapshot has these keys, with and without writes over them.
fn expect_keys<R: Abort>(
    rt: &R,
    snapshot: &Snapshot,
    writes: &Layer,
    keys: &[Key],
    written: &[Key],
    wanted: bool,
) {
    assert_eq!(rt; snapshot.has_keys(CLASS, keys), wanted, "{keys:?}");
    assert_eq!(rt;
        snapshot.has_keys_over(writes, CLASS, written),
        wanted,
        "{written:?}"
    );
}

fn compare<R: Abort>(rt: &R, snapshot: &Snapshot, writes: &Layer) {
    expect_keys(rt, snapshot, writes, &[-2, 4, 5], &[-2, 1, 3, 4], true);
    expect_keys(rt, snapshot, writes, &[-2, 4], &[-2, 1, 4], false);
    expect_keys(rt, snapshot, writes, &[-2, 5], &[1, 3, 4], false);
    expect_keys(
        rt,
        snapshot,
        writes,
        &[-2, 3, 4, 5],
        &[-2, 1, 3, 4, 5],
        false,
    );
    expect_keys(rt, snapshot, writes, &[-2, 5, 4], &[-2, 1, 4, 3], false);
}

fn changed(alloc: Global, snapshot: &Snapshot) -> Result<Snapshot, AllocError> {
    let change = layer(alloc, &[4], &[3])?;
    snapshot.clone()?.with_layer(alloc, change)
}

#[test]
fn a_snapshot_is_compared_with_keys_that_were_read(rt: HostRuntime) -> Result<(), Fail> {
    let first = store_of_three(rt.alloc())?.snapshot()?;
    let snapshot = changed(rt.alloc(), &first)?;
    let writes = layer(rt.alloc(), &[1, 3], &[5])?;
    compare(&rt, &snapshot, &writes);
    Ok(())
}

fn add(alloc: Global, store: &mut Store, layer: &Arc<Layer>) -> Result<(), AllocError> {
    store.apply(alloc, Arc::try_clone(layer)?)
}

/// Applies a layer until no growth is refused. The answer is whether each refusal left the store as it was.
fn steadily(alloc: Global, store: &mut Store, layer: &Arc<Layer>) -> Result<bool, AllocError> {
    let before = store.keys(alloc, CLASS)?;
    if add(alloc, store, layer).is_ok() {
        return Ok(true);
    }
    let unchanged = are(store.keys(alloc, CLASS), before.as_slice())?;
    add(alloc, store, layer)?;
    Ok(unchanged)
}

fn expect_steady(
    rt: &impl Abort,
    alloc: Global,
    store: &mut Store,
    layer: &Arc<Layer>,
    keys: &[Key],
) -> Result<(), Fail> {
    assert!(rt; steadily(alloc, store, layer)?);
    assert!(rt; are(store.keys(alloc, CLASS), keys)?, "{keys:?}");
    Ok(())
}

fn stack_ten(rt: &impl Abort, alloc: Global, store: &mut Store) -> Result<(), Fail> {
    let _first = store.snapshot()?;
    for key in 10..20 {
        let next = layer(alloc, &[key], &[key.saturating_sub(1)])?;
        expect_steady(rt, alloc, store, &next, &[-2, 3, 5, key])?;
    }
    Ok(())
}

/// To be run with each allocation refused in turn, by `rt try --test --fail-alloc N`: a refused layer changes nothing,
/// and the test ends in `Err` only where its own work is refused.
#[test]
fn refused_layers_change_nothing(rt: HostRuntime) -> Result<(), Fail> {
    let mut store = store_of_three(rt.alloc())?;
    stack_ten(&rt, rt.alloc(), &mut store)?;
    let many = layer(rt.alloc(), &[1, 2, 40, 50, 60, 70, 80, 90], &[19, 3])?;
    let keys = [-2, 1, 2, 5, 40, 50, 60, 70, 80, 90];
    expect_steady(&rt, rt.alloc(), &mut store, &many, &keys)
}
