//! Groups that their owner runs alone.

use super::fixtures::{bank, enriching, tasks, vetoing};
use super::seen::{How, Said, Seen, look, said};
use hp_fire::{Gate, NoGate, group_course, run_group};
use hp_rule::{CheckError, Library, Task};
use hp_view::View;
use std::alloc::{AllocError, Global};
use std::test::Fail;
use std::thread::Threads;

// What a test observes of a group: how many tasks fired and which veto stopped it; how many were accepted from an
// attempt, how many were run by the owner, and the number of waves; and its course.
#[derive(Clone, Copy)]
pub struct Siblings {
    pub fired: usize,
    pub end: Option<Said>,
    pub counts: (usize, usize, usize),
    pub course: Seen,
}

// How siblings are fired: whether a veto stops them, by how many workers at most, and with which gate.
#[derive(Clone, Copy)]
pub struct Setup<'g, G> {
    pub stops: bool,
    pub width: usize,
    pub gate: &'g G,
}

pub fn fire_all_on<G: Gate + Sync>(
    rt: &(impl Threads + Sync),
    alloc: Global,
    lib: &Library,
    view: &mut View,
    tasks: &[Task],
    setup: Setup<'_, G>,
) -> Result<Siblings, AllocError> {
    let Setup { stops, width, gate } = setup;
    let group = run_group(rt, alloc, lib, view, tasks, stops, width, gate)?;
    let fired = group.outcomes.len();
    let end = group.end.as_ref().map(said);
    let counts = (group.accepted, group.reran, group.waves);
    let course = group_course(alloc, group)?;
    Ok(Siblings {
        fired,
        end,
        counts,
        course: look(view, &course),
    })
}

// Fires both of these rules as siblings in the bank.
fn fire_both(
    rt: &(impl Threads + Sync),
    alloc: Global,
    lib: Result<Library, CheckError>,
    stops: bool,
) -> Result<Siblings, Fail> {
    let lib = lib?;
    let mut view = bank(alloc, &lib)?;
    let tasks = tasks(alloc, 2)?;
    let setup = Setup {
        stops,
        width: 1,
        gate: &NoGate,
    };
    let siblings = fire_all_on(rt, alloc, &lib, &mut view, &tasks, setup)?;
    Ok(siblings)
}

#[test]
fn a_group_is_run_by_its_owner(rt: HostRuntime) -> Result<(), Fail> {
    let alloc = rt.alloc();
    let group = fire_both(&rt, alloc, enriching(alloc, true), true)?;
    assert_eq!(rt; (group.fired, group.end), (2, None));
    assert_eq!(rt; group.counts, (0, 2, 0));
    assert_eq!(rt;
        group.course.balances,
        (Some(10), Some(200), Some(30), None, None)
    );
    Ok(())
}

#[test]
fn a_veto_stops_a_group_only_where_it_is_to(rt: HostRuntime) -> Result<(), Fail> {
    let alloc = rt.alloc();
    for (stops, fired, after) in [(true, 1, None), (false, 2, Some(30))] {
        let group = fire_both(&rt, alloc, vetoing(alloc), stops)?;
        assert_eq!(rt; (group.fired, group.end.is_some()), (fired, stops));
        assert_eq!(rt;
            group.course.balances,
            (Some(10), Some(20), after, None, None)
        );
        assert_eq!(rt; group.course.end == How::Done, !stops);
        assert_eq!(rt; group.course.items, fired);
    }
    Ok(())
}
