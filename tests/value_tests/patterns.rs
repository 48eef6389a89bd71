//! Each pattern against each kind of primitive occurrence.

use super::fixtures::{account, text};
use hp_event::{Pattern, Prim};
use hp_value::{ClassNo, Key};
use std::alloc::{AllocError, Global};
use std::process::Abort;
use std::test::Fail;

const CLASS: ClassNo = 2;

const KEY: Key = 7;

fn created(alloc: Global) -> Result<Prim, AllocError> {
    Ok(Prim::Create {
        class: CLASS,
        key: KEY,
        new: account(alloc, 1)?,
    })
}

fn updated(alloc: Global) -> Result<Prim, AllocError> {
    let old = account(alloc, 1)?;
    Ok(Prim::Update {
        class: CLASS,
        key: KEY,
        new: old.clone()?,
        old,
    })
}

fn deleted(alloc: Global) -> Result<Prim, AllocError> {
    Ok(Prim::Delete {
        class: CLASS,
        key: KEY,
        old: account(alloc, 1)?,
    })
}

fn signalled(alloc: Global) -> Result<Prim, AllocError> {
    Ok(Prim::Signal {
        name: text(alloc, "go")?,
        args: Vec::new(alloc),
    })
}

fn occurrences(alloc: Global) -> Result<Vec<Prim>, AllocError> {
    let mut all = Vec::new(alloc);
    all.push(created(alloc)?)?;
    all.push(updated(alloc)?)?;
    all.push(deleted(alloc)?)?;
    all.push(signalled(alloc)?)?;
    all.push(Prim::Commit)?;
    all.push(Prim::Time(25))?;
    Ok(all)
}

/// Which of the six occurrences the pattern matches, as a text of zeros and ones.
fn matched(alloc: Global, pattern: &Pattern, all: &[Prim]) -> Result<String, AllocError> {
    let mut found = String::new(alloc);
    for prim in all {
        found.push(if pattern.matches(prim) { '1' } else { '0' })?;
    }
    Ok(found)
}

fn expect(
    rt: &impl Abort,
    alloc: Global,
    all: &[Prim],
    pattern: Pattern,
    wanted: &str,
) -> Result<(), AllocError> {
    let found = matched(alloc, &pattern, all)?;
    assert_eq!(rt; found.as_str(), wanted, "{pattern:?}");
    let copy = pattern.clone()?;
    assert_eq!(rt; copy, pattern);
    Ok(())
}

#[test]
fn each_pattern_matches_its_own(rt: HostRuntime) -> Result<(), Fail> {
    let all = occurrences(rt.alloc())?;
    expect(&rt, rt.alloc(), &all, Pattern::Create(2), "100000")?;
    expect(&rt, rt.alloc(), &all, Pattern::Create(3), "000000")?;
    expect(&rt, rt.alloc(), &all, Pattern::Update(2), "010000")?;
    expect(&rt, rt.alloc(), &all, Pattern::Delete(2), "001000")?;
    let go = Pattern::Signal(text(rt.alloc(), "go")?);
    expect(&rt, rt.alloc(), &all, go, "000100")?;
    let stop = Pattern::Signal(text(rt.alloc(), "stop")?);
    expect(&rt, rt.alloc(), &all, stop, "000000")?;
    expect(&rt, rt.alloc(), &all, Pattern::Commit, "000010")?;
    expect(&rt, rt.alloc(), &all, Pattern::At(25), "000001")?;
    expect(&rt, rt.alloc(), &all, Pattern::At(24), "000000")?;
    Ok(())
}

#[test]
fn every_counts_from_its_first_moment(rt: HostRuntime) {
    // first, period, a moment, and whether it is one of first, first + period, ..
    let cases = [
        (5, 10, 5, true),
        (5, 10, 15, true),
        (5, 10, 25, true),
        (5, 10, 10, false),
        (5, 10, 4, false),
        (5, 0, 5, true),
        (5, 0, 10, false),
        (0, 1, 1000, true),
        (u64::MAX, 1, u64::MAX, true),
    ];
    for (first, period, time, wanted) in cases {
        let found = Pattern::Every { first, period }.matches(&Prim::Time(time));
        assert_eq!(rt; found, wanted, "every {first} {period} at {time}");
    }
}
