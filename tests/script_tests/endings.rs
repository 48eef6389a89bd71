//! The lines of a store's state.

use super::fixtures::library;
use hp_report::{class_text, object_text, state_text};
use hp_rule::Library;
use hp_store::{CellValue, Layer, Status, Store};
use hp_value::{Cell, ClassDef, ClassNo, Key, Row};
use std::alloc::Global;
use std::sync::Arc;
use std::test::Fail;

/// A library of three classes without fields and of three rules.
fn classes_and_rules(alloc: Global) -> Result<Library, Fail> {
    let mut classes = Vec::new(alloc);
    for name in ["acct", "bill", "cell"] {
        classes.push(ClassDef {
            name: String::from_str(alloc, name)?,
            fields: Arc::new(alloc, Vec::new(alloc))?,
        })?;
    }
    Ok(library(alloc, classes, &["first", "second", "third"])?)
}

/// A change that makes an object of a class without fields, or deletes it.
fn change(alloc: Global, is_made: bool) -> Result<Option<CellValue>, Fail> {
    if !is_made {
        return Ok(None);
    }
    let fields = Arc::new(alloc, Vec::new(alloc))?;
    Ok(Some(CellValue::Row(Row::new(alloc, &fields, Vec::new(alloc).into())?)))
}

/// A layer that makes and deletes these objects.
fn layer(alloc: Global, objects: &[(ClassNo, Key, bool)]) -> Result<Layer, Fail> {
    let mut layer = Layer::new(alloc);
    for (class, key, is_made) in objects {
        let _ = layer.insert(Cell::Object(*class, *key), change(alloc, *is_made)?)?;
    }
    Ok(layer)
}

/// A store with objects of the first and the last class, in which the first rule is disabled, the second absent, and
/// the third enabled.
fn store(alloc: Global) -> Result<Store, Fail> {
    let mut layer = layer(alloc, &[(2, 5, true), (0, 7, true), (0, -1, true)])?;
    for (rule, status) in [(0, Status::Disabled), (2, Status::Enabled)] {
        let _ = layer.insert(Cell::Rule(rule), Some(CellValue::Status(status)))?;
    }
    let mut store = Store::empty(alloc)?;
    store.apply(alloc, Arc::new(alloc, layer)?)?;
    Ok(store)
}

const RULES: &str = "rule first disabled
rule second absent
rule third enabled
";

#[test]
fn a_state_has_all_classes_in_order(rt: HostRuntime) -> Result<(), Fail> {
    let alloc = rt.alloc();
    let library = classes_and_rules(alloc)?;
    let text = state_text(alloc, &library, &store(alloc)?)?;
    let (objects, rules) = text.as_str().split_at(text.len() - RULES.len());
    assert_eq!(rt; objects, "object acct -1\nobject acct 7\nobject cell 5\n");
    assert_eq!(rt; rules, RULES);
    Ok(())
}

#[test]
fn changes_over_a_held_snapshot_are_in_the_state(rt: HostRuntime) -> Result<(), Fail> {
    let alloc = rt.alloc();
    let library = classes_and_rules(alloc)?;
    let mut store = store(alloc)?;
    let held = store.snapshot()?;
    let changes = layer(alloc, &[(1, 3, true), (0, 7, false), (2, 5, false)])?;
    store.apply(alloc, Arc::new(alloc, changes)?)?;
    assert_eq!(rt; held.layers(), 0);
    let text = state_text(alloc, &library, &store)?;
    let objects = text.as_str().split_at(text.len() - RULES.len()).0;
    assert_eq!(rt; objects, "object acct -1\nobject bill 3\n");
    assert_eq!(rt;
        class_text(alloc, &library, &store, 0)?.as_str(),
        "object acct -1\n"
    );
    assert_eq!(rt; object_text(alloc, &library, &store, 2, 5)?.as_str(), "");
    Ok(())
}
