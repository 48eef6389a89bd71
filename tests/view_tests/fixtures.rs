//! A small bank: class 0 with the keys -3, 2 and 10, whose balances are 100 more. Layers that change such objects.

use hp_store::{CellValue, Layer, Snapshot};
use hp_value::{Cell, ClassNo, Field, Key, KeyedRow, Kind, Row, Value};
use hp_view::View;
use std::alloc::{AllocError, Global};
use std::sync::Arc;

/// The class of the tests' objects.
pub const CLASS: ClassNo = 0;

pub fn object(key: Key) -> Cell {
    Cell::Object(CLASS, key)
}

/// A row of one field.
fn row(alloc: Global, field: &str, kind: Kind, value: Value) -> Result<CellValue, AllocError> {
    let name = String::from_str(alloc, field)?;
    let fields = Arc::new(alloc, vec![in alloc; Field { name, kind }]?)?;
    let row = Row::new(alloc, &fields, vec![in alloc; value]?.into())?;
    Ok(CellValue::Row(row))
}

pub fn balance(alloc: Global, value: i64) -> Result<CellValue, AllocError> {
    row(alloc, "bal", Kind::Int, Value::Int(value))
}

pub fn name(alloc: Global, text: &str) -> Result<CellValue, AllocError> {
    let text = String::from_str(alloc, text)?;
    row(
        alloc,
        "name",
        Kind::Text,
        Value::Text(Box::new(alloc, text)?),
    )
}

/// A layer that gives objects balances, and removes others.
pub fn changes(alloc: Global, made: &[(Key, i64)], removed: &[Key]) -> Result<Layer, AllocError> {
    let mut layer = Layer::new(alloc);
    for (key, value) in made {
        let _ = layer.insert(object(*key), Some(balance(alloc, *value)?))?;
    }
    for key in removed {
        let _ = layer.insert(object(*key), None)?;
    }
    Ok(layer)
}

/// A layer that creates a number of objects, from the key 0 on, with their keys as balances.
pub fn many(alloc: Global, count: i64) -> Result<Layer, AllocError> {
    let mut layer = Layer::new(alloc);
    for key in 0..count {
        let _ = layer.insert(object(key), Some(balance(alloc, key)?))?;
    }
    Ok(layer)
}

/// A snapshot of the bank.
pub fn snapshot(alloc: Global) -> Result<Snapshot, AllocError> {
    let accounts = changes(alloc, &[(10, 110), (-3, 97), (2, 102)], &[])?;
    Snapshot::empty(alloc)?.with_layer(alloc, Arc::new(alloc, accounts)?)
}

pub fn bank(alloc: Global) -> Result<View, AllocError> {
    View::new(alloc, snapshot(alloc)?)
}

/// Sets the balance of an object.
pub fn set(alloc: Global, view: &mut View, key: Key, value: i64) -> Result<(), AllocError> {
    view.put(object(key), balance(alloc, value)?)
}

/// The balance in a cell, if it has one.
pub fn balance_in(value: Option<&CellValue>) -> Option<i64> {
    if let Some(CellValue::Row(row)) = value {
        if let Ok(Value::Int(n)) = row.field("bal") {
            return Some(*n);
        }
    }
    None
}

/// The balance of an object, if the view shows it.
pub fn shown(view: &View, key: Key) -> Option<i64> {
    balance_in(view.peek(object(key)))
}

/// Whether these are the rows of the objects with some keys.
pub fn have_keys(rows: &[KeyedRow], keys: &[Key]) -> bool {
    if rows.len() != keys.len() {
        return false;
    }
    for i in 0..keys.len() {
        if rows[i].key != keys[i] {
            return false;
        }
    }
    true
}
