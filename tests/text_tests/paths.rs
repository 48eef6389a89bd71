//! The places of a script's values.

use hp_text::{Step, node_place, read_line, read_text, value_place};
use std::alloc::Global;
use std::process::Abort;
use std::test::Fail;

const TEXT: &str = "version 1\nrule r on create a do {}\n";

/// The place of the value to which these steps lead, or `none`.
fn expect(rt: &impl Abort, alloc: Global, steps: &[Step<'_>], place: &str) -> Result<(), Fail> {
    let text = TEXT.as_bytes();
    let script = read_text(alloc, text)?;
    let found = match value_place(text, &script, steps) {
        Some(place) => format!(in alloc; "{place}")?,
        None => String::from_str(alloc, "none")?,
    };
    assert!(*rt; found.as_str() == place, "{found} and not {place}");
    Ok(())
}

#[test]
fn places_of_members(rt: HostRuntime) -> Result<(), Fail> {
    let alloc = rt.alloc();
    expect(&rt, alloc, &[], "1:1")?;
    expect(&rt, alloc, &[Step::Member("version")], "1:9")?;
    expect(&rt, alloc, &[Step::Member("depth")], "none")?;
    expect(&rt, alloc, &[Step::Item(0)], "none")
}

/// A tag has its form's place, and a mode that is left out that of the token there.
#[test]
fn places_of_parts(rt: HostRuntime) -> Result<(), Fail> {
    let alloc = rt.alloc();
    let rule = Step::Member("rules");
    let first = Step::Item(0);
    expect(&rt, alloc, &[rule, first, first], "2:6")?;
    expect(&rt, alloc, &[rule, first, Step::Item(1), first], "2:11")?;
    expect(
        &rt,
        alloc,
        &[rule, first, Step::Item(1), Step::Item(1)],
        "2:18",
    )?;
    expect(&rt, alloc, &[rule, first, Step::Item(2)], "2:20")?;
    expect(&rt, alloc, &[rule, first, Step::Item(6)], "none")
}

#[test]
fn places_in_a_line(rt: HostRuntime) -> Result<(), Fail> {
    let alloc = rt.alloc();
    let text = " clock 7".as_bytes();
    let line = read_line(alloc, text)?;
    for (steps, place) in [(&[][..], "1:2"), (&[Step::Item(1)][..], "1:8")] {
        let found = match node_place(text, &line, steps) {
            Some(place) => format!(in alloc; "{place}")?,
            None => String::from_str(alloc, "none")?,
        };
        assert!(rt; found.as_str() == place, "{found} and not {place}");
    }
    Ok(())
}
