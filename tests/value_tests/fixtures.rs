//! Accounts in a plain map, queries for them, and what a query finds.

use super::postfix::expression;
use hp_query::{PlainObjects, Query};
use hp_value::{Cause, ClassNo, Field, Halt, Key, KeyedRow, Kind, Row, Value};
use std::alloc::{AllocError, Global};
use std::process::Abort;
use std::sync::Arc;

pub fn text(alloc: Global, s: &str) -> Result<String, AllocError> {
    String::from_str(alloc, s)
}

/// A text as a value.
pub fn text_value(alloc: Global, s: &str) -> Result<Value, AllocError> {
    let text = text(alloc, s)?;
    Ok(Value::Text(Box::new(alloc, text)?))
}

/// A row whose one field has a name and a value.
pub fn row(alloc: Global, name: &str, value: Value) -> Result<Row, AllocError> {
    let name = text(alloc, name)?;
    let kind = Kind::Int;
    let fields = Arc::new(alloc, vec![in alloc; Field { name, kind }]?)?;
    Row::new(alloc, &fields, vec![in alloc; value]?.into())
}

/// An account with a balance.
pub fn account(alloc: Global, balance: i64) -> Result<Row, AllocError> {
    row(alloc, "bal", Value::Int(balance))
}

pub fn query(
    alloc: Global,
    name: &str,
    class: ClassNo,
    predicate: &str,
) -> Result<Query, AllocError> {
    let predicate = expression(alloc, predicate)?;
    let name = text(alloc, name)?;
    Ok(Query {
        name,
        class,
        predicate,
    })
}

pub fn put(
    alloc: Global,
    objects: &mut PlainObjects,
    class: ClassNo,
    key: Key,
    balance: i64,
) -> Result<(), AllocError> {
    objects.insert(class, key, account(alloc, balance)?)
}

/// Class 0 with the keys -20, -3, 2 and 10, and class 1 with the keys 2 and 5.
pub fn accounts(alloc: Global) -> Result<PlainObjects, AllocError> {
    let mut objects = PlainObjects::new(alloc);
    put(alloc, &mut objects, 1, 5, 7)?;
    put(alloc, &mut objects, 0, 10, 4)?;
    put(alloc, &mut objects, 0, -3, 0)?;
    put(alloc, &mut objects, 0, 2, 3)?;
    put(alloc, &mut objects, 1, 2, 9)?;
    put(alloc, &mut objects, 0, -20, 5)?;
    Ok(objects)
}

pub fn assert_keys(rt: &impl Abort, rows: &[KeyedRow], wanted: &[Key]) {
    assert_eq!(rt; rows.len(), wanted.len());
    for (row, key) in rows.iter().zip(wanted) {
        assert_eq!(rt; row.key, *key);
    }
}

pub fn assert_fault(rt: &impl Abort, found: Result<Vec<KeyedRow>, Halt>, wanted: Cause) {
    match found {
        Err(halt) => assert_eq!(rt; halt, Halt::Cause(wanted)),
        Ok(_) => panic!(rt; "an answer in place of {wanted:?}"),
    }
}
