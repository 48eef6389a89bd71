//! Statements, signals and firings of `hp_fire` over a small bank. The expected values are worked out by hand.

use super::fixtures::{
    account, alone, bank, both, emit_balance, enriching, go, going, idle, idles, is_above, library,
    make, number, on_go, on_rich, set, setting, task, text, vetoing,
};
use super::seen::{Balances, How, Said, Seen, all_shown, first_node, look, said, shown};
use hp_attempt::{Settled, settle};
use hp_fire::{ByThreads, End, Engine, Past, detached_after, end_transaction, ending, run_task};
use hp_rule::{CheckError, Detached, Library, Rule, Stmt, Task};
use hp_store::CellValue;
use hp_tree::{ConditionEnd, Ending, What};
use hp_value::{Cause, Cell, Coupling, Key, Prim, RuleNo, Veto};
use hp_view::View;
use std::alloc::{AllocError, Global};
use std::test::Fail;
use std::thread::Threads;

// The clock's moment in each test.
const MOMENT: u64 = 7;

fn run_on(
    rt: &(impl Threads + Sync),
    alloc: Global,
    lib: &Library,
    view: &mut View,
    body: Result<Vec<Stmt>, AllocError>,
    depth: u8,
) -> Result<Seen, AllocError> {
    let body = body?;
    let past = Past::new(alloc, lib, 1);
    let course = Engine::new(&ByThreads::new(rt), alloc, lib, 1, &past).run_body(
        view, &body, depth, MOMENT,
    )?;
    Ok(look(view, &course))
}

// Runs a body in the bank with these rules, in a transaction of a depth.
fn run(
    rt: &(impl Threads + Sync),
    alloc: Global,
    lib: Result<Library, CheckError>,
    body: Result<Vec<Stmt>, AllocError>,
    depth: u8,
) -> Result<Seen, Fail> {
    let lib = lib?;
    let mut view = bank(alloc, &lib)?;
    Ok(run_on(rt, alloc, &lib, &mut view, body, depth)?)
}

#[test]
fn a_predecessors_effect_is_seen_by_a_later_sibling(rt: HostRuntime) -> Result<(), Fail> {
    let alloc = rt.alloc();
    for (is_first, made) in [(true, Some(30)), (false, None)] {
        let seen = run(&rt, alloc, enriching(alloc, is_first), going(alloc), 0)?;
        assert_eq!(rt; seen.end, How::Done);
        assert_eq!(rt; seen.balances, (Some(10), Some(200), made, None, None));
    }
    Ok(())
}

fn signal_on(
    rt: &(impl Threads + Sync),
    alloc: Global,
    lib: &Library,
    view: &mut View,
) -> Result<Seen, AllocError> {
    let signal = Prim::Signal {
        name: text(alloc, "go")?,
        args: Vec::new(alloc),
    };
    let past = Past::new(alloc, lib, 1);
    let course = Engine::new(&ByThreads::new(rt), alloc, lib, 1, &past).run_signal(
        view, &signal, 0, MOMENT,
    )?;
    Ok(look(view, &course))
}

// Gives the signal in the bank with these rules, outside a body.
fn signalled(
    rt: &(impl Threads + Sync),
    alloc: Global,
    lib: Result<Library, CheckError>,
) -> Result<Seen, Fail> {
    let lib = lib?;
    let mut view = bank(alloc, &lib)?;
    Ok(signal_on(rt, alloc, &lib, &mut view)?)
}

#[test]
fn a_veto_stops_the_group(rt: HostRuntime) -> Result<(), Fail> {
    let alloc = rt.alloc();
    let seen = signalled(&rt, alloc, vetoing(alloc))?;
    assert_eq!(rt; seen.end, How::Vetoed((0, None)));
    assert_eq!(rt; seen.items, 1);
    assert_eq!(rt; seen.balances, (Some(10), Some(20), None, None, None));
    Ok(())
}

// Creates account 4 and gives the signal.
fn making(alloc: Global) -> Result<Vec<Stmt>, AllocError> {
    both(alloc, make(alloc, 4, 40)?, go(alloc)?)
}

// The same in a subtransaction. If that aborts, account 1 gets the balance 11.
fn trying(alloc: Global) -> Result<Vec<Stmt>, AllocError> {
    let body = making(alloc)?;
    let otherwise = alone(alloc, set(alloc, 1, 11)?)?;
    alone(alloc, Stmt::Sub { body, otherwise })
}

#[test]
fn a_veto_aborts_the_sub_round_it(rt: HostRuntime) -> Result<(), Fail> {
    let alloc = rt.alloc();
    let seen = run(&rt, alloc, vetoing(alloc), trying(alloc), 0)?;
    assert_eq!(rt; seen.end, How::Done);
    assert_eq!(rt; seen.balances, (Some(11), Some(20), None, None, None));
    let ended = How::Vetoed((0, None));
    assert_eq!(rt; seen.node, Some((What::Sub, ended)));
    Ok(())
}

#[test]
fn a_sub_that_is_done_stays(rt: HostRuntime) -> Result<(), Fail> {
    let alloc = rt.alloc();
    let lib = idle(alloc, Coupling::Immediate, Coupling::Immediate);
    let seen = run(&rt, alloc, lib, trying(alloc), 0)?;
    assert_eq!(rt; seen.end, How::Done);
    assert_eq!(rt; seen.balances, (Some(10), Some(20), None, Some(40), None));
    Ok(())
}

// Creates account 4, gives the signal and aborts, in a subtransaction.
fn aborting(alloc: Global) -> Result<Vec<Stmt>, AllocError> {
    let mut body = making(alloc)?;
    body.push(Stmt::Abort)?;
    let otherwise = Vec::new(alloc);
    alone(alloc, Stmt::Sub { body, otherwise })
}

#[test]
fn aborted_sub_keeps_only_separate_tasks(rt: HostRuntime) -> Result<(), Fail> {
    let alloc = rt.alloc();
    let lib = idle(alloc, Coupling::Dependent, Coupling::Separate);
    let seen = run(&rt, alloc, lib, aborting(alloc), 0)?;
    assert_eq!(rt; seen.end, How::Done);
    assert_eq!(rt; seen.balances, (Some(10), Some(20), None, None, None));
    assert_eq!(rt; seen.detached, Some((1, false)));
    Ok(())
}

#[test]
fn an_abort_releases_exclusive_tasks_and_drops_deferred_ones(rt: HostRuntime) -> Result<(), Fail> {
    let alloc = rt.alloc();
    let lib = idle(alloc, Coupling::Exclusive, Coupling::Deferred);
    let seen = run(&rt, alloc, lib, aborting(alloc), 0)?;
    assert_eq!(rt; seen.queued, 0);
    assert_eq!(rt; seen.detached, Some((0, true)));
    Ok(())
}

#[test]
fn deferred_and_detached_tasks_are_placed(rt: HostRuntime) -> Result<(), Fail> {
    let alloc = rt.alloc();
    let lib = idle(alloc, Coupling::Deferred, Coupling::Dependent);
    let seen = run(&rt, alloc, lib, going(alloc), 1)?;
    assert_eq!(rt; seen.end, How::Done);
    assert_eq!(rt; (seen.items, seen.queued), (0, 1));
    assert_eq!(rt; seen.first_queued, Some((0, 2, None)));
    assert_eq!(rt; seen.detached, Some((1, false)));
    Ok(())
}

#[test]
fn at_the_limit_a_signal_ends_by_depth(rt: HostRuntime) -> Result<(), Fail> {
    let alloc = rt.alloc();
    let lib = idle(alloc, Coupling::Deferred, Coupling::Immediate);
    let seen = run(&rt, alloc, lib, going(alloc), 2)?;
    assert_eq!(rt; seen.end, How::Abort(Cause::Depth));
    assert_eq!(rt; (seen.items, seen.queued), (0, 0));
    Ok(())
}

// A rule that creates account 3 and then gives its own signal.
fn again(alloc: Global) -> Result<Rule, AllocError> {
    let action = both(alloc, make(alloc, 3, 30)?, go(alloc)?)?;
    on_go(alloc, "again", Coupling::Immediate, action)
}

#[test]
fn a_rule_that_triggers_itself_ends(rt: HostRuntime) -> Result<(), Fail> {
    let alloc = rt.alloc();
    let idle = idles(alloc, "idle", Coupling::Deferred);
    let lib = library(alloc, again(alloc), idle);
    let seen = run(&rt, alloc, lib, going(alloc), 0)?;

    // The inner firing finds account 3, which aborts it alone.
    assert_eq!(rt; seen.end, How::Done);
    assert_eq!(rt; seen.balances, (Some(10), Some(20), Some(30), None, None));
    assert_eq!(rt; seen.queued, 2);
    Ok(())
}

// Emits the balance of each account with more than 5.
fn each(alloc: Global) -> Result<Vec<Stmt>, AllocError> {
    let each = Stmt::Each {
        variable: text(alloc, "row")?,
        class: 0,
        predicate: is_above(alloc, "row", 5)?,
        body: emit_balance(alloc, "row")?,
    };
    alone(alloc, each)
}

#[test]
fn each_binds_the_rows_that_it_finds(rt: HostRuntime) -> Result<(), Fail> {
    let alloc = rt.alloc();
    let lib = idle(alloc, Coupling::Deferred, Coupling::Deferred);
    let seen = run(&rt, alloc, lib, each(alloc), 0)?;
    assert_eq!(rt; seen.end, How::Done);
    assert_eq!(rt; seen.emitted, (Some(20), Some(10), None));
    Ok(())
}

// Emits the balance of an account under a name.
fn with(alloc: Global, key: Key) -> Result<Vec<Stmt>, AllocError> {
    let with = Stmt::With {
        variable: text(alloc, "row")?,
        class: 0,
        key: number(alloc, key)?,
        body: emit_balance(alloc, "row")?,
    };
    alone(alloc, with)
}

#[test]
fn with_binds_a_row_that_is_there(rt: HostRuntime) -> Result<(), Fail> {
    let alloc = rt.alloc();
    for (key, end, first) in [
        (2, How::Done, Some(20)),
        (7, How::Abort(Cause::Missing), None),
    ] {
        let lib = idle(alloc, Coupling::Deferred, Coupling::Deferred);
        let seen = run(&rt, alloc, lib, with(alloc, key), 0)?;
        assert_eq!(rt; seen.end, end);
        assert_eq!(rt; seen.emitted, (first, None, None));
    }
    Ok(())
}

// Sets the balance of account 2 to a low one, and then emits the balance of each account that the query found.
fn for_each(alloc: Global) -> Result<Vec<Stmt>, AllocError> {
    let each = Stmt::For {
        query: text(alloc, "rich")?,
        body: emit_balance(alloc, "rich")?,
    };
    both(alloc, set(alloc, 2, 0)?, each)
}

fn lists(alloc: Global) -> Result<Rule, AllocError> {
    on_rich(alloc, "lists", for_each(alloc)?)
}

fn library_that_lists(alloc: Global) -> Result<Library, CheckError> {
    let lists = lists(alloc);
    library(alloc, lists, idles(alloc, "idle", Coupling::Deferred))
}

#[test]
fn for_binds_the_kept_rows(rt: HostRuntime) -> Result<(), Fail> {
    let alloc = rt.alloc();
    let seen = run(
        &rt,
        alloc,
        library_that_lists(alloc),
        setting(alloc, 2, 25),
        0,
    )?;
    assert_eq!(rt; seen.balances, (Some(10), Some(0), None, None, None));
    assert_eq!(rt; seen.inside, (Some(25), None, None));
    Ok(())
}

// A rule whose action is deferred, and which lists the rich accounts.
fn lists_later(alloc: Global) -> Result<Rule, AllocError> {
    let mut lists = on_rich(alloc, "lists", Vec::new(alloc))?;
    lists.ca = Coupling::Deferred;
    Ok(lists)
}

#[test]
fn a_later_action_keeps_the_answers(rt: HostRuntime) -> Result<(), Fail> {
    let alloc = rt.alloc();
    let idle = idles(alloc, "idle", Coupling::Separate);
    let lib = library(alloc, lists_later(alloc), idle);
    let seen = run(&rt, alloc, lib, setting(alloc, 2, 25), 1)?;
    let keys = (Some(2), None, None);
    assert_eq!(rt; seen.first_queued, Some((0, 2, Some(keys))));
    Ok(())
}

// The veto of a firing, its node, and the balances after it.
type Fired = (Option<Said>, Option<(What, How)>, Balances);

fn fire_on(
    rt: &(impl Threads + Sync),
    alloc: Global,
    lib: &Library,
    view: &mut View,
) -> Result<Fired, AllocError> {
    let task = task(alloc, 0, Coupling::Deferred)?;
    let past = Past::new(alloc, lib, 1);
    let outcome = Engine::new(&ByThreads::new(rt), alloc, lib, 1, &past).run_firing(view, &task)?;
    let veto = outcome.end.as_ref().map(said);
    Ok((veto, first_node(&outcome.tree), all_shown(view)))
}

// Fires the first rule in the bank with these rules.
fn fire(
    rt: &(impl Threads + Sync),
    alloc: Global,
    lib: Result<Library, CheckError>,
) -> Result<Fired, Fail> {
    let lib = lib?;
    let mut view = bank(alloc, &lib)?;
    Ok(fire_on(rt, alloc, &lib, &mut view)?)
}

#[test]
fn an_unsatisfied_condition_has_no_action(rt: HostRuntime) -> Result<(), Fail> {
    let alloc = rt.alloc();
    let (end, node, balances) = fire(&rt, alloc, library_that_lists(alloc))?;
    assert_eq!(rt; end, None);
    assert_eq!(rt; balances, (Some(10), Some(20), None, None, None));
    let what = What::Fire {
        rule: 0,
        place: Coupling::Deferred,
        condition: ConditionEnd::WithoutAction,
    };
    assert_eq!(rt; node, Some((what, How::Done)));
    Ok(())
}

// Sets the balance of account 1.
fn put(alloc: Global, view: &mut View, balance: i64) -> Result<(), AllocError> {
    view.put(Cell::Object(0, 1), CellValue::Row(account(alloc, balance)?))
}

// Tries the firing of a rule, sets the balance of account 1 if one is given, and settles the attempt. Returns the
// balance of account 2 before that and after it.
fn settle_on(
    rt: &(impl Threads + Sync),
    alloc: Global,
    lib: &Library,
    view: &mut View,
    task: &Task,
    meanwhile: Option<i64>,
) -> Result<(Option<i64>, Settled, Option<i64>), AllocError> {
    let tried = run_task(
        &ByThreads::new(rt),
        alloc,
        lib,
        view.freeze(alloc)?,
        task,
        1,
    )?;
    if let Some(balance) = meanwhile {
        put(alloc, view, balance)?;
    }
    let before = shown(view, 2);
    let settled = settle(alloc, view, task, &tried)?;
    Ok((before, settled, shown(view, 2)))
}

// The same in the bank, where the second rule makes account 2 rich.
fn settled(
    rt: &(impl Threads + Sync),
    alloc: Global,
    rule: RuleNo,
    meanwhile: Option<i64>,
) -> Result<(Option<i64>, Settled, Option<i64>), Fail> {
    let lib = enriching(alloc, false)?;
    let mut view = bank(alloc, &lib)?;
    let task = task(alloc, rule, Coupling::Immediate)?;
    Ok(settle_on(rt, alloc, &lib, &mut view, &task, meanwhile)?)
}

#[test]
fn an_attempt_settles_where_it_was_tried(rt: HostRuntime) -> Result<(), Fail> {
    let (before, settled, after) = settled(&rt, rt.alloc(), 1, None)?;
    assert_eq!(rt; before, Some(20));
    assert_eq!(rt; settled, Settled::Accepted);
    assert_eq!(rt; after, Some(200));
    Ok(())
}

#[test]
fn an_attempt_is_rejected_after_its_read_changed(rt: HostRuntime) -> Result<(), Fail> {
    let (_, settled, _) = settled(&rt, rt.alloc(), 0, Some(100))?;
    assert_eq!(rt; settled, Settled::Rejected);
    Ok(())
}

// A veto without a message.
fn silent(alloc: Global, rule: RuleNo) -> Result<Veto, AllocError> {
    Veto::new(alloc, rule, None)
}

// The balance of account 1 after a transaction that set it to 7 and ended so.
fn balance_after(alloc: Global, view: &mut View, how: End) -> Result<Option<i64>, AllocError> {
    let mark = view.enter();
    view.put(Cell::Object(0, 1), CellValue::Row(account(alloc, 7)?))?;
    end_transaction(view, mark, &how)?;
    Ok(shown(view, 1))
}

fn ended(alloc: Global, how: End) -> Result<Option<i64>, Fail> {
    let lib = idle(alloc, Coupling::Deferred, Coupling::Deferred)?;
    let mut view = bank(alloc, &lib)?;
    Ok(balance_after(alloc, &mut view, how)?)
}

#[test]
fn a_transaction_ends_as_its_course_does(rt: HostRuntime) -> Result<(), Fail> {
    let alloc = rt.alloc();
    for (how, balance) in [
        (End::Done, Some(7)),
        (End::Abort(Cause::Asked), Some(10)),
        (End::Vetoed(silent(alloc, 3)?), Some(10)),
        (End::Veto(silent(alloc, 3)?), Some(10)),
    ] {
        assert_eq!(rt; ended(alloc, how)?, balance);
    }
    Ok(())
}

#[test]
fn endings_have_their_cause(rt: HostRuntime) -> Result<(), Fail> {
    let alloc = rt.alloc();
    assert_eq!(rt; ending(End::Done), Ending::Committed);
    assert_eq!(rt;
        ending(End::Abort(Cause::Depth)),
        Ending::Aborted(Cause::Depth)
    );
    let vetoed = Ending::Vetoed(silent(alloc, 3)?);
    assert_eq!(rt; ending(End::Vetoed(silent(alloc, 3)?)), vetoed);
    assert_eq!(rt; ending(End::Veto(silent(alloc, 3)?)), vetoed);
    Ok(())
}

// How many tasks are left of a dependent one, if the transaction ended so.
fn left(alloc: Global, how: End) -> Result<usize, AllocError> {
    let mut tasks = Vec::new(alloc);
    tasks.push(Detached {
        task: task(alloc, 0, Coupling::Dependent)?,
        released: false,
    })?;
    Ok(detached_after(alloc, &how, tasks)?.len())
}

#[test]
fn dependent_tasks_stay_detached_where_all_is_done(rt: HostRuntime) -> Result<(), Fail> {
    let alloc = rt.alloc();
    for (how, count) in [(End::Done, 1), (End::Veto(silent(alloc, 0)?), 0)] {
        assert_eq!(rt; left(alloc, how)?, count);
    }
    Ok(())
}
