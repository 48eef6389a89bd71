//! Whether a group inside a unit has workers, by the counted cost of its rules' firings.

use super::fixtures::{account, library, on_go, on_rich, task};
use hp_fire::{ByThreads, Engine, Past, Workers};
use hp_rule::{CheckError, Library, Task};
use hp_store::{CellValue, Snapshot};
use hp_value::{Cell, Coupling};
use hp_view::View;
use std::alloc::{AllocError, Global};
use std::test::Fail;

// The first rule looks for an account whose balance is above 20, the second does nothing.
fn rules(alloc: Global) -> Result<Library, CheckError> {
    let rich = on_rich(alloc, "rich", Vec::new(alloc));
    let idle = on_go(alloc, "idle", Coupling::Immediate, Vec::new(alloc));
    library(alloc, rich, idle)
}

// A number of accounts, none of which is rich.
fn accounts(alloc: Global, count: i64) -> Result<View, AllocError> {
    let mut view = View::new(alloc, Snapshot::empty(alloc)?)?;
    for key in 0..count {
        view.put(Cell::Object(0, key), CellValue::Row(account(alloc, 0)?))?;
    }
    Ok(view)
}

fn of_the_first(alloc: Global, count: usize) -> Result<Vec<Task>, AllocError> {
    let mut tasks = Vec::new(alloc);
    for _ in 0..count {
        tasks.push(task(alloc, 0, Coupling::Immediate)?)?;
    }
    Ok(tasks)
}

// The number of waves in a group of these firings.
fn waves<W: Workers>(
    engine: &Engine<W>,
    view: &mut View,
    count: usize,
) -> Result<usize, AllocError> {
    let tasks = of_the_first(engine.alloc, count)?;
    let siblings = engine.run_siblings(view, &tasks, true)?;
    Ok(siblings.waves)
}

// Starting threads takes longer than short firings do, however many they are.
#[test]
fn short_siblings_have_no_workers(rt: HostRuntime) -> Result<(), Fail> {
    let alloc = rt.alloc();
    let lib = rules(alloc)?;
    let past = Past::new(alloc, &lib, 4);
    let workers = ByThreads::new(&rt);
    let engine = Engine::new(&workers, alloc, &lib, 4, &past);
    let mut view = accounts(alloc, 20)?;
    for count in [2, 3, 4, 8, 9, 16] {
        assert_eq!(rt; waves(&engine, &mut view, count)?, 0, "of {count}");
    }
    Ok(())
}

// The cost of the first group's firings is unknown at first; after the first of its two tasks, nothing is left besides
// the longest.
#[test]
fn long_siblings_have_workers_once_one_has_fired(rt: HostRuntime) -> Result<(), Fail> {
    let alloc = rt.alloc();
    let lib = rules(alloc)?;
    let past = Past::new(alloc, &lib, 4);
    let workers = ByThreads::new(&rt);
    let engine = Engine::new(&workers, alloc, &lib, 4, &past);
    let mut view = accounts(alloc, 4_000)?;
    assert_eq!(rt; waves(&engine, &mut view, 2)?, 0);
    assert!(rt; waves(&engine, &mut view, 2)? > 0);
    Ok(())
}
