//! Parts of a class, as a snapshot finds them and compares them.

use super::fixtures::{CLASS, balance, changes, have_keys, many, name, object};
use hp_store::{Layer, Snapshot, Store};
use hp_value::{Attribute, Bounds, ClassPart, Key, KeyedRow};
use std::alloc::{AllocError, Global};
use std::process::Abort;
use std::sync::Arc;
use std::test::Fail;

fn write(
    alloc: Global,
    store: &mut Store,
    made: &[(Key, i64)],
    removed: &[Key],
) -> Result<(), AllocError> {
    let changes = changes(alloc, made, removed)?;
    store.apply(alloc, Arc::new(alloc, changes)?)
}

fn by_key(low: Option<Key>, high: Option<Key>) -> ClassPart<'static> {
    ClassPart {
        attribute: Attribute::Key,
        bounds: Bounds::Numbers(low, high),
    }
}

fn by_balance(low: i64, high: i64) -> ClassPart<'static> {
    ClassPart {
        attribute: Attribute::Field("bal"),
        bounds: Bounds::Numbers(Some(low), Some(high)),
    }
}

/// Whether the part under the writes has the objects with these keys, and is seen to have them.
fn finds(
    alloc: Global,
    snapshot: &Snapshot,
    writes: &Layer,
    part: &ClassPart<'_>,
    keys: &[Key],
) -> Result<bool, AllocError> {
    let Some(objects) = snapshot.part_over(alloc, writes, CLASS, part)? else {
        return Ok(false);
    };
    let is_there = snapshot.has_part_over(writes, CLASS, part, &objects);
    Ok(is_there && have_keys(&objects, keys))
}

/// Keys 0, 10, .. 90 with their tenths as balances.
fn store_of_ten(alloc: Global) -> Result<Store, AllocError> {
    let mut store = Store::empty(alloc)?;
    for tenth in 0..10i64 {
        write(alloc, &mut store, &[(tenth.wrapping_mul(10), tenth)], &[])?;
    }
    Ok(store)
}

fn expect(
    rt: &impl Abort,
    alloc: Global,
    store: &Store,
    part: &ClassPart<'_>,
    keys: &[Key],
) -> Result<(), Fail> {
    let nothing = Layer::new(alloc);
    assert!(rt;
        finds(alloc, &store.snapshot()?, &nothing, part, keys)?,
        "{keys:?}"
    );
    Ok(())
}

fn ask_by_key(rt: &impl Abort, alloc: Global, store: &Store) -> Result<(), Fail> {
    expect(rt, alloc, store, &by_key(Some(20), Some(45)), &[20, 30, 40])?;
    expect(rt, alloc, store, &by_key(Some(70), None), &[70, 80, 90])?;
    expect(rt, alloc, store, &by_key(None, Some(10)), &[0, 10])?;
    expect(rt, alloc, store, &by_key(Some(30), Some(30)), &[30])?;
    expect(rt, alloc, store, &by_key(Some(45), Some(20)), &[])?;
    Ok(())
}

#[test]
fn a_part_by_keys_is_found(rt: HostRuntime) -> Result<(), Fail> {
    let store = store_of_ten(rt.alloc())?;
    ask_by_key(&rt, rt.alloc(), &store)
}

/// Nine layers over a base that somebody else holds, so that the ninth is folded with the newest ones.
fn write_nine_layers(alloc: Global, store: &mut Store) -> Result<(), AllocError> {
    for tenth in 0..9i64 {
        let key = tenth.wrapping_mul(10);
        write(alloc, store, &[(key.wrapping_add(1), tenth)], &[key])?;
    }
    Ok(())
}

fn ask_through_layers(rt: &impl Abort, alloc: Global, store: &Store) -> Result<(), Fail> {
    expect(rt, alloc, store, &by_key(Some(20), Some(45)), &[21, 31, 41])?;
    expect(rt, alloc, store, &by_key(Some(80), None), &[81, 90])?;
    Ok(())
}

fn ask_after_folding(rt: &impl Abort, alloc: Global, store: &mut Store) -> Result<(), Fail> {
    write(alloc, store, &[], &[90])?;
    expect(rt, alloc, store, &by_key(Some(80), None), &[81])
}

fn ask_before_and_after_folding(
    rt: &impl Abort,
    alloc: Global,
    store: &mut Store,
) -> Result<(), Fail> {
    let before = store.snapshot()?;
    write_nine_layers(alloc, store)?;
    ask_through_layers(rt, alloc, store)?;
    drop(before);
    ask_after_folding(rt, alloc, store)
}

#[test]
fn a_part_by_keys_is_found_through_layers(rt: HostRuntime) -> Result<(), Fail> {
    let mut store = store_of_ten(rt.alloc())?;
    ask_before_and_after_folding(&rt, rt.alloc(), &mut store)
}

/// Whether objects are seen to be those of the part under some writes.
fn has_under(
    alloc: Global,
    snapshot: &Snapshot,
    part: &ClassPart<'_>,
    objects: &[KeyedRow],
    writes: (&[(Key, i64)], &[Key]),
) -> Result<bool, AllocError> {
    let (made, removed) = writes;
    let writes = changes(alloc, made, removed)?;
    Ok(snapshot.has_part_over(&writes, CLASS, part, objects))
}

/// The part has the keys 20, 30 and 40, whose balances are 2, 3 and 4.
fn compare(
    rt: &impl Abort,
    alloc: Global,
    snapshot: &Snapshot,
    part: &ClassPart<'_>,
    objects: &[KeyedRow],
) -> Result<(), Fail> {
    let apart: (&[(Key, i64)], &[Key]) = (&[(95, 9)], &[10, 90]);
    let same: (&[(Key, i64)], &[Key]) = (&[(20, 2)], &[]);
    let added: (&[(Key, i64)], &[Key]) = (&[(25, 3)], &[]);
    let changed: (&[(Key, i64)], &[Key]) = (&[(30, 4)], &[]);
    let removed: (&[(Key, i64)], &[Key]) = (&[], &[20]);
    assert!(rt; has_under(alloc, snapshot, part, objects, apart)?);
    assert!(rt; has_under(alloc, snapshot, part, objects, same)?);
    assert!(rt; !has_under(alloc, snapshot, part, objects, added)?);
    assert!(rt; !has_under(alloc, snapshot, part, objects, changed)?);
    assert!(rt; !has_under(alloc, snapshot, part, objects, removed)?);
    Ok(())
}

fn compare_parts(rt: &impl Abort, alloc: Global, snapshot: &Snapshot) -> Result<(), Fail> {
    let Some(objects) = snapshot.part(alloc, CLASS, &by_key(Some(20), Some(45)))? else {
        assert!(rt; false, "the part is found by its keys");
        return Ok(());
    };
    compare(rt, alloc, snapshot, &by_key(Some(20), Some(45)), &objects)?;
    compare(rt, alloc, snapshot, &by_balance(2, 4), &objects)
}

#[test]
fn a_part_is_compared_under_writes(rt: HostRuntime) -> Result<(), Fail> {
    let store = store_of_ten(rt.alloc())?;
    let snapshot = store.snapshot()?;
    compare_parts(&rt, rt.alloc(), &snapshot)
}

// ---- parts by a field

fn by_name<'a>(low: Option<&'a str>, high: Option<&'a str>) -> ClassPart<'a> {
    ClassPart {
        attribute: Attribute::Field("name"),
        bounds: Bounds::Texts(low, high),
    }
}

/// Objects made and changed into a part by their balances, and deleted and changed out of it.
fn change_balances(alloc: Global, store: &mut Store) -> Result<(), AllocError> {
    write(alloc, store, &[(25, 3), (70, 2), (20, 9)], &[40])?;
    write(alloc, store, &[(26, 4), (10, 1)], &[25])
}

/// The balances are those of the ten but 30 has 3, 26 has 4, 70 has 2, 20 has 9, and 40 is gone.
fn ask_by_balance(rt: &impl Abort, alloc: Global, store: &Store) -> Result<(), Fail> {
    expect(rt, alloc, store, &by_balance(2, 4), &[26, 30, 70])?;
    expect(rt, alloc, store, &by_balance(9, 9), &[20, 90])?;
    expect(rt, alloc, store, &by_balance(10, i64::MAX), &[])?;
    expect(rt, alloc, store, &by_balance(i64::MIN, 1), &[0, 10])?;
    expect(rt, alloc, store, &by_balance(4, 2), &[])
}

/// The store of ten, with an index of a field.
fn indexed_store(alloc: Global, field: &str) -> Result<Store, AllocError> {
    let mut store = store_of_ten(alloc)?;
    store.keep_index(alloc, CLASS, field)?;
    Ok(store)
}

fn change_and_ask(rt: &impl Abort, alloc: Global, store: &mut Store) -> Result<(), Fail> {
    change_balances(alloc, store)?;
    ask_by_balance(rt, alloc, store)
}

#[test]
fn a_part_by_a_field_is_found_in_the_base(rt: HostRuntime) -> Result<(), Fail> {
    let mut store = indexed_store(rt.alloc(), "bal")?;
    change_and_ask(&rt, rt.alloc(), &mut store)
}

fn index_later(rt: &impl Abort, alloc: Global, store: &mut Store) -> Result<(), Fail> {
    change_balances(alloc, store)?;
    store.keep_index(alloc, CLASS, "bal")?;
    store.keep_index(alloc, CLASS, "bal")?;
    ask_by_balance(rt, alloc, store)
}

/// The index is made of what the store has by then.
#[test]
fn an_index_is_made_later(rt: HostRuntime) -> Result<(), Fail> {
    let mut store = store_of_ten(rt.alloc())?;
    index_later(&rt, rt.alloc(), &mut store)
}

fn ask_without(rt: &impl Abort, alloc: Global, store: &Store) -> Result<(), Fail> {
    let found = store.snapshot()?.part(alloc, CLASS, &by_balance(2, 4))?;
    assert!(rt; found.is_none());
    Ok(())
}

#[test]
fn without_an_index_no_part_is_found(rt: HostRuntime) -> Result<(), Fail> {
    let store = indexed_store(rt.alloc(), "name")?;
    ask_without(&rt, rt.alloc(), &store)
}

fn index_while_shared(rt: &impl Abort, alloc: Global, store: &mut Store) -> Result<(), Fail> {
    let _before = store.snapshot()?;
    store.keep_index(alloc, CLASS, "bal")?;
    ask_without(rt, alloc, store)
}

fn index_alone(rt: &impl Abort, alloc: Global, store: &mut Store) -> Result<(), Fail> {
    store.keep_index(alloc, CLASS, "bal")?;
    expect(rt, alloc, store, &by_balance(2, 3), &[20, 30])
}

/// While somebody holds the base, no index of it is made.
#[test]
fn a_shared_base_gets_no_index(rt: HostRuntime) -> Result<(), Fail> {
    let mut store = store_of_ten(rt.alloc())?;
    index_while_shared(&rt, rt.alloc(), &mut store)?;
    index_alone(&rt, rt.alloc(), &mut store)
}

fn ask_balances_through_layers(
    rt: &impl Abort,
    alloc: Global,
    store: &mut Store,
) -> Result<(), Fail> {
    write_nine_layers(alloc, store)?;
    expect(rt, alloc, store, &by_balance(2, 4), &[21, 31, 41])?;
    change_balances(alloc, store)?;
    expect(rt, alloc, store, &by_balance(2, 4), &[21, 26, 31, 41, 70])
}

fn ask_balances_after_folding(
    rt: &impl Abort,
    alloc: Global,
    store: &mut Store,
) -> Result<(), Fail> {
    write(alloc, store, &[], &[31])?;
    expect(rt, alloc, store, &by_balance(2, 4), &[21, 26, 41, 70])
}

#[test]
fn a_part_by_a_field_is_found_through_layers(rt: HostRuntime) -> Result<(), Fail> {
    let mut store = indexed_store(rt.alloc(), "bal")?;
    let before = store.snapshot()?;
    ask_balances_through_layers(&rt, rt.alloc(), &mut store)?;
    drop(before);
    ask_balances_after_folding(&rt, rt.alloc(), &mut store)
}

fn set_in(alloc: Global, writes: &mut Layer, key: Key, value: i64) -> Result<(), AllocError> {
    drop(writes.insert(object(key), Some(balance(alloc, value)?))?);
    Ok(())
}

/// Changes a layer that has an index.
fn write_long(alloc: Global, writes: &mut Layer) -> Result<(), AllocError> {
    writes.keep_index(alloc, CLASS, "bal")?;
    set_in(alloc, writes, 7, 50)?;
    drop(writes.insert(object(49), None)?);
    drop(writes.insert(object(51), None)?);
    drop(writes.remove(object(51)));
    Ok(())
}

/// A layer of many changes has an index of its own, which its later changes go into.
fn ask_a_long_layer(
    rt: &impl Abort,
    alloc: Global,
    snapshot: &Snapshot,
    writes: &mut Layer,
) -> Result<(), Fail> {
    write_long(alloc, writes)?;
    assert!(rt; finds(alloc, snapshot, writes, &by_balance(49, 51), &[7, 50])?);
    set_in(alloc, writes, 7, 7)?;
    assert!(rt; finds(alloc, snapshot, writes, &by_balance(49, 51), &[50])?);
    Ok(())
}

#[test]
fn a_long_layer_is_asked_by_a_field(rt: HostRuntime) -> Result<(), Fail> {
    let snapshot = indexed_store(rt.alloc(), "bal")?.snapshot()?;
    let mut writes = many(rt.alloc(), 100)?;
    ask_a_long_layer(&rt, rt.alloc(), &snapshot, &mut writes)
}

/// Objects 1 to 5, which have names. Those of 3 and 4 begin with the same 40 bytes.
fn names(alloc: Global) -> Result<Layer, AllocError> {
    let mut layer = Layer::new(alloc);
    for (key, text) in [
        (1i64, "ann"),
        (2, "bob"),
        (3, "a name that is longer than forty bytes, one"),
        (4, "a name that is longer than forty bytes, two"),
        (5, ""),
    ] {
        drop(layer.insert(object(key), Some(name(alloc, text)?))?);
    }
    Ok(layer)
}

fn store_of_names(alloc: Global) -> Result<Store, AllocError> {
    let layer = names(alloc)?;
    let mut store = Store::empty(alloc)?;
    store.keep_index(alloc, CLASS, "name")?;
    store.apply(alloc, Arc::new(alloc, layer)?)?;
    Ok(store)
}

fn ask_by_name(rt: &impl Abort, alloc: Global, store: &Store) -> Result<(), Fail> {
    let one = "a name that is longer than forty bytes, one";
    expect(rt, alloc, store, &by_name(Some(one), Some(one)), &[3])?;
    expect(rt, alloc, store, &by_name(Some("an"), Some("b")), &[1])?;
    expect(rt, alloc, store, &by_name(Some("ann"), None), &[1, 2])?;
    expect(rt, alloc, store, &by_name(None, Some("a name")), &[5])?;
    expect(rt, alloc, store, &by_name(Some("b"), Some("a")), &[])
}

#[test]
fn a_part_by_texts_is_found(rt: HostRuntime) -> Result<(), Fail> {
    let store = store_of_names(rt.alloc())?;
    ask_by_name(&rt, rt.alloc(), &store)
}

/// A value of another kind than the bounds is a fault, so that the snapshot answers nothing about the part.
fn ask_of_two_kinds(rt: &impl Abort, alloc: Global, store: &mut Store) -> Result<(), Fail> {
    store.keep_index(alloc, CLASS, "bal")?;
    ask_without(rt, alloc, store)?;
    write(alloc, store, &[], &[1, 2, 3, 4, 5])?;
    write(alloc, store, &[(6, 3)], &[])?;
    expect(rt, alloc, store, &by_balance(2, 4), &[6])
}

#[test]
fn an_object_without_the_field_hides_the_part(rt: HostRuntime) -> Result<(), Fail> {
    let mut store = store_of_names(rt.alloc())?;
    ask_of_two_kinds(&rt, rt.alloc(), &mut store)
}
