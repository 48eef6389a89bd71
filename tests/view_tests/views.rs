//! Views over a small bank, with values worked out by hand.

use super::fixtures::{balance, balance_in, bank, changes, object, set, shown};
use hp_query::{Query, answer};
use hp_store::{Layer, Snapshot};
use hp_value::{Cell, Comparison, Env, Expr, Key, KeyedRow, ObjectList, Value};
use hp_view::{Found, Reads, Seen, View};
use std::alloc::{AllocError, Global};
use std::process::Abort;
use std::test::Fail;

// What was read, in order: each cell of class 0 by its key, the keys of a class by their number.
fn assert_reads(rt: &impl Abort, reads: &Reads, wanted: &[(Seen, Option<i64>, usize)]) {
    assert_eq!(rt; reads.len(), wanted.len());
    for ((seen, found), (place, value, keys)) in reads.iter().zip(wanted) {
        assert_eq!(rt; *seen, *place);
        assert_eq!(rt; balance_in(found.value()), *value);
        assert_eq!(rt; found.keys().len(), *keys);
        assert!(rt;
            matches!(
                (seen, found),
                (Seen::Cell(_), Found::Value(_))
                    | (Seen::Keys(_), Found::Keys(_) | Found::Objects(_))
            )
        );
    }
}

fn three_writes(alloc: Global, view: &mut View) -> Result<(), AllocError> {
    set(alloc, view, 2, 6)?;
    view.cut(object(10))?;
    set(alloc, view, 1, 7)
}

fn all_reads(alloc: Global, view: &mut View) -> Result<(), AllocError> {
    view.read(object(-3))?;
    view.read(object(10))?;
    view.read(object(11))?;
    view.read(object(-3))?;
    drop(view.keys(alloc, 0)?);
    drop(view.keys(alloc, 0)?);
    Ok(())
}

// The cell that the view emptied is no read, and the keys are read as the snapshot has them.
fn assert_all_reads(rt: &impl Abort, reads: &Reads) {
    let wanted = [
        (Seen::Cell(object(-3)), Some(97), 0),
        (Seen::Cell(object(11)), None, 0),
        (Seen::Keys(0), None, 3),
    ];
    assert_reads(rt, reads, &wanted);
}

fn write_and_abort(rt: &impl Abort, alloc: Global, view: &mut View) -> Result<(), AllocError> {
    let mark = view.enter();
    three_writes(alloc, view)?;
    all_reads(alloc, view)?;
    assert!(rt; view.has_keys(0, &[-3, 1, 2]));
    view.abort(mark)?;
    assert!(rt; view.has_keys(0, &[-3, 2, 10]));
    assert_eq!(rt; shown(view, 2), Some(102));
    Ok(())
}

#[test]
fn an_abort_takes_back_three_writes_and_no_read(rt: HostRuntime) -> Result<(), Fail> {
    let mut view = bank(rt.alloc())?;
    write_and_abort(&rt, rt.alloc(), &mut view)?;
    let (reads, layer) = view.into_parts();
    assert_all_reads(&rt, &reads);
    assert!(rt; !reads.is_empty() && layer.is_empty());
    Ok(())
}

fn write_and_get(rt: &impl Abort, alloc: Global, view: &mut View) -> Result<(), AllocError> {
    three_writes(alloc, view)?;
    for (key, wanted) in [
        (-3, Some(97)),
        (1, Some(7)),
        (2, Some(6)),
        (10, None),
        (11, None),
    ] {
        assert_eq!(rt; balance_in(view.get(object(key))?), wanted);
    }
    Ok(())
}

#[test]
fn what_is_got_is_what_the_view_wrote_or_the_snapshot_holds(rt: HostRuntime) -> Result<(), Fail> {
    let mut view = bank(rt.alloc())?;
    write_and_get(&rt, rt.alloc(), &mut view)?;
    Ok(())
}

fn commit_and_abort(rt: &impl Abort, alloc: Global, view: &mut View) -> Result<(), AllocError> {
    let outer = view.enter();
    let inner = view.enter();
    view.put(object(2), balance(alloc, 6)?)?;
    view.commit(inner);
    assert_eq!(rt; shown(view, 2), Some(6));
    view.abort(outer)?;
    assert_eq!(rt; shown(view, 2), Some(102));
    Ok(())
}

#[test]
fn a_commit_keeps_what_was_written(rt: HostRuntime) -> Result<(), Fail> {
    let mut view = bank(rt.alloc())?;
    commit_and_abort(&rt, rt.alloc(), &mut view)?;
    Ok(())
}

fn frozen_after_each_write(alloc: Global, view: &mut View) -> Result<Vec<Snapshot>, AllocError> {
    let mut frozen = Vec::new(alloc);
    for key in 20..40 {
        set(alloc, view, key, key)?;
        frozen.push(view.freeze(alloc)?)?;
    }
    Ok(frozen)
}

fn assert_frozen(rt: &impl Abort, alloc: Global, frozen: &[Snapshot]) -> Result<(), AllocError> {
    for (i, snapshot) in frozen.iter().enumerate() {
        assert_eq!(rt; snapshot.keys(alloc, 0)?.len(), i.saturating_add(4));
        assert!(rt; snapshot.layers() <= 8);
        assert_eq!(rt; balance_in(snapshot.get(object(20))), Some(20));
    }
    Ok(())
}

fn freeze_twenty_times(rt: &impl Abort, alloc: Global, view: &mut View) -> Result<(), AllocError> {
    let frozen = frozen_after_each_write(alloc, view)?;
    assert_frozen(rt, alloc, &frozen)?;
    assert_eq!(rt; view.keys(alloc, 0)?.len(), 23);
    Ok(())
}

#[test]
fn frozen_twenty_times_with_a_write_before_each(rt: HostRuntime) -> Result<(), Fail> {
    let mut view = bank(rt.alloc())?;
    freeze_twenty_times(&rt, rt.alloc(), &mut view)?;
    Ok(())
}

// A query for all rows of class 0.
fn all_rows(alloc: Global) -> Result<Query, AllocError> {
    Ok(Query {
        name: String::from_str(alloc, "x")?,
        class: 0,
        predicate: Box::new(alloc, Expr::literal(Value::Bool(true)))?,
    })
}

fn assert_rows(rt: &impl Abort, rows: &[KeyedRow], wanted: &[(Key, i64)]) {
    assert_eq!(rt; rows.len(), wanted.len());
    for (row, (key, value)) in rows.iter().zip(wanted) {
        assert_eq!(rt; row.key, *key);
        assert!(rt; matches!(row.row.field("bal"), Ok(Value::Int(n)) if n == value));
    }
}

// The rows of all objects, whose balances are these.
fn assert_all(
    rt: &impl Abort,
    alloc: Global,
    view: &mut View,
    wanted: &[(Key, i64)],
) -> Result<(), Fail> {
    let asked = all_rows(alloc)?;
    let rows = answer(alloc, &asked, &Env::new(None, &[], &[], 0), view)?;
    assert_rows(rt, &rows, wanted);
    Ok(())
}

fn ask_after_the_keys(rt: &impl Abort, alloc: Global, view: &mut View) -> Result<(), Fail> {
    view.read_keys(alloc, 0)?;
    set(alloc, view, 2, 6)?;
    assert_all(rt, alloc, view, &[(-3, 97), (2, 6), (10, 110)])
}

// Where the keys were read alone, each row is read by itself, and the row that the view wrote is no read.
#[test]
fn a_query_over_a_view(rt: HostRuntime) -> Result<(), Fail> {
    let mut view = bank(rt.alloc())?;
    ask_after_the_keys(&rt, rt.alloc(), &mut view)?;
    let (reads, _) = view.into_parts();
    let wanted = [
        (Seen::Keys(0), None, 3),
        (Seen::Cell(object(-3)), Some(97), 0),
        (Seen::Cell(object(10)), Some(110), 0),
    ];
    assert_reads(&rt, &reads, &wanted);
    Ok(())
}

// Changes an object, makes two and deletes one.
fn ask_after_four_writes(rt: &impl Abort, alloc: Global, view: &mut View) -> Result<(), Fail> {
    for key in [2, -9, 7] {
        set(alloc, view, key, 6)?;
    }
    view.cut(object(10))?;
    assert_all(rt, alloc, view, &[(-9, 6), (-3, 97), (2, 6), (7, 6)])
}

// The class is one read, as it stands beneath the writes.
#[test]
fn a_class_that_was_written_is_read_as_a_whole(rt: HostRuntime) -> Result<(), Fail> {
    let mut view = bank(rt.alloc())?;
    ask_after_four_writes(&rt, rt.alloc(), &mut view)?;
    let (reads, _) = view.into_parts();
    assert_reads(&rt, &reads, &[(Seen::Keys(0), None, 3)]);
    Ok(())
}

fn ask_twice(rt: &impl Abort, alloc: Global, view: &mut View) -> Result<(), Fail> {
    let all = [(-3, 97), (2, 102), (10, 110)];
    assert_all(rt, alloc, view, &all)?;
    view.put(Cell::Object(1, 2), balance(alloc, 6)?)?;
    assert_all(rt, alloc, view, &all)
}

// It is asked for twice, and what the view writes between is of another class.
#[test]
fn a_class_is_read_as_a_whole(rt: HostRuntime) -> Result<(), Fail> {
    let mut view = bank(rt.alloc())?;
    ask_twice(&rt, rt.alloc(), &mut view)?;
    let (reads, _) = view.into_parts();
    assert_reads(&rt, &reads, &[(Seen::Keys(0), None, 3)]);
    Ok(())
}

// The objects of a class that was read as a whole, and one that isn't there.
fn get_after_the_whole(rt: &impl Abort, alloc: Global, view: &mut View) -> Result<(), AllocError> {
    drop(view.objects(alloc, 0)?);
    for (key, wanted) in [(-3, Some(97)), (2, Some(102)), (10, Some(110)), (11, None)] {
        assert_eq!(rt; balance_in(view.get(object(key))?), wanted);
    }
    Ok(())
}

#[test]
fn get_after_whole_class_read_records_nothing(rt: HostRuntime) -> Result<(), Fail> {
    let mut view = bank(rt.alloc())?;
    get_after_the_whole(&rt, rt.alloc(), &mut view)?;
    let (reads, _) = view.into_parts();
    assert_reads(&rt, &reads, &[(Seen::Keys(0), None, 3)]);
    assert!(rt; reads.has_cell(object(2)) && reads.has_cell(object(11)));
    assert!(rt; !reads.has_cell(Cell::Object(1, 2)) && !reads.has_cell(Cell::Rule(0)));
    Ok(())
}

// Where the keys were read alone, each object is a read of its own.
fn get_after_the_keys(alloc: Global, view: &mut View) -> Result<(), AllocError> {
    view.read_keys(alloc, 0)?;
    drop(view.objects(alloc, 0)?);
    let _ = view.get(object(2))?;
    Ok(())
}

#[test]
fn what_is_got_after_the_keys_alone_is_read(rt: HostRuntime) -> Result<(), Fail> {
    let mut view = bank(rt.alloc())?;
    get_after_the_keys(rt.alloc(), &mut view)?;
    let (reads, _) = view.into_parts();
    let wanted = [
        (Seen::Keys(0), None, 3),
        (Seen::Cell(object(2)), Some(102), 0),
    ];
    assert_reads(&rt, &reads, &wanted);
    Ok(())
}

// The key of x is this one.
fn is_key(alloc: Global, key: Key) -> Result<Box<Expr>, AllocError> {
    let variable = String::from_str(alloc, "x")?;
    let own = Box::new(alloc, Expr::KeyOf { variable })?;
    let wanted = Box::new(alloc, Expr::literal(Value::Int(key)))?;
    Ok(Box::new(alloc, Expr::Comparison(Comparison::Equal, own, wanted))?)
}

// A query for the row of class 0 with a key.
fn of_key(alloc: Global, key: Key) -> Result<Query, AllocError> {
    let predicate = is_key(alloc, key)?;
    let name = String::from_str(alloc, "x")?;
    Ok(Query {
        name,
        class: 0,
        predicate,
    })
}

fn assert_of_key(
    rt: &impl Abort,
    alloc: Global,
    view: &mut View,
    key: Key,
    wanted: &[(Key, i64)],
) -> Result<(), Fail> {
    let asked = of_key(alloc, key)?;
    let rows = answer(alloc, &asked, &Env::new(None, &[], &[], 0), view)?;
    assert_rows(rt, &rows, wanted);
    Ok(())
}

fn look_at_two_keys(rt: &impl Abort, alloc: Global, view: &mut View) -> Result<(), Fail> {
    assert_of_key(rt, alloc, view, 2, &[(2, 102)])?;
    assert_of_key(rt, alloc, view, 3, &[])
}

#[test]
fn a_query_for_one_key_reads_one_cell(rt: HostRuntime) -> Result<(), Fail> {
    let mut view = bank(rt.alloc())?;
    look_at_two_keys(&rt, rt.alloc(), &mut view)?;
    let (reads, _) = view.into_parts();
    let wanted = [
        (Seen::Cell(object(2)), Some(102), 0),
        (Seen::Cell(object(3)), None, 0),
    ];
    assert_reads(&rt, &reads, &wanted);
    Ok(())
}

// The list is that of the view's class as the view stands.
fn assert_whole(
    rt: &impl Abort,
    alloc: Global,
    view: &mut View,
    all: &ObjectList,
) -> Result<(), AllocError> {
    assert!(rt; view.has_objects(0, all));
    set(alloc, view, 2, 6)?;
    assert!(rt; !view.has_objects(0, all));
    assert!(rt; view.objects(alloc, 0)?.is_none());
    set(alloc, view, 2, 102)?;
    assert!(rt; view.has_objects(0, all));
    view.cut(object(2))?;
    assert!(rt; !view.has_objects(0, all));
    Ok(())
}

#[test]
fn the_objects_of_a_class_are_compared_row_by_row(rt: HostRuntime) -> Result<(), Fail> {
    let mut view = bank(rt.alloc())?;
    let Some(all) = view.objects(rt.alloc(), 0)? else {
        return Err(Fail::from("no list of the class"));
    };
    assert_whole(&rt, rt.alloc(), &mut view, &all)?;
    Ok(())
}

/// A layer that writes two cells and empties one.
fn upper(alloc: Global) -> Result<Layer, AllocError> {
    changes(alloc, &[(1, 8), (2, 9)], &[10])
}

fn take_in_and_abort(rt: &impl Abort, view: &mut View, upper: &Layer) -> Result<(), AllocError> {
    let mark = view.enter();
    view.take_in(upper)?;
    assert!(rt; view.has_keys(0, &[-3, 1, 2]));
    assert_eq!(rt; shown(view, 2), Some(9));
    view.abort(mark)?;
    assert!(rt; view.has_keys(0, &[-3, 2, 10]));
    assert_eq!(rt; shown(view, 2), Some(6));
    Ok(())
}

#[test]
fn a_layer_taken_in_is_taken_back(rt: HostRuntime) -> Result<(), Fail> {
    let mut view = bank(rt.alloc())?;
    set(rt.alloc(), &mut view, 2, 6)?;
    let upper = upper(rt.alloc())?;
    take_in_and_abort(&rt, &mut view, &upper)?;
    Ok(())
}

// The calls of a view, by a number.
fn call(alloc: Global, view: &mut View, number: u8) -> Result<(), AllocError> {
    match number {
        0 => view.read(object(2))?,
        1 => drop(view.keys(alloc, 0)?),
        2 => set(alloc, view, 2, 6)?,
        3 => drop(view.freeze(alloc)?),
        4 => view.cut(object(10))?,
        5 => view.take_in(&upper(alloc)?)?,
        6 => view.read_objects(alloc, 0)?,
        _ => drop(view.get(object(-3))?.is_some()),
    }
    Ok(())
}

fn all_shown(view: &View) -> [Option<i64>; 4] {
    [
        shown(view, -3),
        shown(view, 2),
        shown(view, 10),
        shown(view, 11),
    ]
}

// Run with each allocation refused in turn: the call returns the error, and the cells are as before.
#[test]
fn a_refused_allocation_is_reported(rt: HostRuntime) {
    let alloc = rt.alloc();
    let Ok(mut view) = bank(alloc) else {
        return;
    };
    let mut refused = 0u8;
    for number in 0..8u8 {
        let before = all_shown(&view);
        if call(alloc, &mut view, number).is_err() {
            refused = refused.saturating_add(1);
            assert!(rt; all_shown(&view) == before);
        }
    }
    assert!(rt; refused < 2);
}
