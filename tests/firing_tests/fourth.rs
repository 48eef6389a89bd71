//! Version 4: values by name, messages of vetoes, closed rules and the clock's moment. The expected values are worked
//! out by hand.

use super::fixtures::{
    above, alone, balance_in, bank, both, give, go, going, library, make, number, on_go, on_signal,
    set, sum_above, task, text, value_of,
};
use super::seen::{How, Said, Seen, emitted_inside, first_node, look, said};
use hp_fire::{ByThreads, Engine, Past, group_course};
use hp_rule::{Aggregate, Entry, Rule, Stmt};
use hp_tree::{ConditionEnd, What};
use hp_value::{Arithmetic, Cause, Coupling, Expr};
use std::alloc::{AllocError, Global};
use std::test::Fail;
use std::thread::Threads;

// The clock's moment in each test.
const MOMENT: u64 = 7;

fn boxed(alloc: Global, expr: Expr) -> Result<Box<Expr>, AllocError> {
    Ok(Box::new(alloc, expr)?)
}

// A number divided by another.
fn quotient(alloc: Global, n: i64, by: i64) -> Result<Box<Expr>, AllocError> {
    let (n, by) = (number(alloc, n)?, number(alloc, by)?);
    boxed(alloc, Expr::Arithmetic(Arithmetic::Quotient, n, by))
}

// An expression that always faults.
fn faulty(alloc: Global) -> Result<Box<Expr>, AllocError> {
    quotient(alloc, 6, 0)
}

// A statement `let` that emits its value.
fn let_and_emit(alloc: Global, aggregate: Aggregate) -> Result<Stmt, AllocError> {
    Ok(Stmt::Let {
        name: text(alloc, "v")?,
        aggregate,
        body: alone(alloc, Stmt::Emit(value_of(alloc, "v")?))?,
    })
}

// A rule with an entry `let` named `v`.
fn with_let(alloc: Global, mut rule: Rule, aggregate: Aggregate) -> Result<Rule, AllocError> {
    rule.condition.push(Entry::Let {
        name: text(alloc, "v")?,
        aggregate,
    })?;
    Ok(rule)
}

// The same rule, closed.
fn closed(rule: Result<Rule, AllocError>) -> Result<Rule, AllocError> {
    let mut rule = rule?;
    rule.closed = true;
    Ok(rule)
}

// Runs a body in the bank with these two rules.
fn run(
    rt: &(impl Threads + Sync),
    alloc: Global,
    first: Result<Rule, AllocError>,
    second: Result<Rule, AllocError>,
    body: Result<Vec<Stmt>, AllocError>,
) -> Result<Seen, Fail> {
    let lib = library(alloc, first, second)?;
    let mut view = bank(alloc, &lib)?;
    let body = body?;
    let past = Past::new(alloc, &lib, 1);
    let workers = ByThreads::new(rt);
    let engine = Engine::new(&workers, alloc, &lib, 1, &past);
    let course = engine.run_body(&mut view, &body, 0, MOMENT)?;
    Ok(look(&view, &course))
}

// A rule that does nothing.
fn idle(alloc: Global) -> Result<Rule, AllocError> {
    on_go(alloc, "idle", Coupling::Deferred, Vec::new(alloc))
}

// A rule that creates account 3.
fn makes(alloc: Global) -> Result<Rule, AllocError> {
    let action = alone(alloc, make(alloc, 3, 30)?)?;
    on_go(alloc, "makes", Coupling::Immediate, action)
}

// A rule on the signal with this action.
fn acts(alloc: Global, action: Result<Vec<Stmt>, AllocError>) -> Result<Rule, AllocError> {
    on_go(alloc, "acts", Coupling::Immediate, action?)
}

// The signal in a subtransaction. If that aborts, account 1 gets the balance 11.
fn trying(alloc: Global) -> Result<Vec<Stmt>, AllocError> {
    let body = going(alloc)?;
    let otherwise = alone(alloc, set(alloc, 1, 11)?)?;
    alone(alloc, Stmt::Sub { body, otherwise })
}

// ---- values

// A statement `let` sees what the statements before it wrote.
fn next_twice(alloc: Global) -> Result<Vec<Stmt>, AllocError> {
    let creates = Stmt::Let {
        name: text(alloc, "k")?,
        aggregate: Aggregate::Next(0),
        body: both(
            alloc,
            Stmt::Emit(value_of(alloc, "k")?),
            make(alloc, 3, 30)?,
        )?,
    };
    both(alloc, creates, let_and_emit(alloc, Aggregate::Next(0))?)
}

#[test]
fn a_let_is_found_on_the_view_as_it_is_then(rt: HostRuntime) -> Result<(), Fail> {
    let alloc = rt.alloc();
    let seen = run(&rt, alloc, idle(alloc), makes(alloc), next_twice(alloc))?;
    assert_eq!(rt; seen.end, How::Done);
    assert_eq!(rt; seen.emitted, (Some(4), Some(3), None));
    Ok(())
}

// The least balance above 100, of no account.
fn least_of_none(alloc: Global) -> Result<Vec<Stmt>, AllocError> {
    let least = Aggregate::Least {
        rows: above(alloc, 100)?,
        term: balance_in(alloc, "row")?,
    };
    alone(alloc, let_and_emit(alloc, least)?)
}

#[test]
fn a_let_without_a_value_aborts(rt: HostRuntime) -> Result<(), Fail> {
    let alloc = rt.alloc();
    let seen = run(&rt, alloc, idle(alloc), makes(alloc), least_of_none(alloc))?;
    assert_eq!(rt; seen.end, How::Abort(Cause::Missing));
    assert_eq!(rt; seen.items, 0);
    Ok(())
}

// A rule whose deferred action emits the sum that its condition found.
fn sums_later(alloc: Global) -> Result<Rule, AllocError> {
    let action = alone(alloc, Stmt::Emit(value_of(alloc, "v")?))?;
    let rule = on_go(alloc, "sums", Coupling::Immediate, action)?;
    let mut rule = with_let(alloc, rule, sum_above(alloc, 0)?)?;
    rule.ca = Coupling::Deferred;
    Ok(rule)
}

#[test]
fn a_later_action_has_the_value_that_was_found(rt: HostRuntime) -> Result<(), Fail> {
    let alloc = rt.alloc();
    let lib = library(alloc, sums_later(alloc), makes(alloc))?;
    let mut view = bank(alloc, &lib)?;
    let past = Past::new(alloc, &lib, 1);
    let workers = ByThreads::new(&rt);
    let engine = Engine::new(&workers, alloc, &lib, 1, &past);
    let course = engine.run_body(&mut view, &going(alloc)?, 0, MOMENT)?;
    let emptied = alone(alloc, set(alloc, 2, 0)?)?;
    let _ = engine.run_body(&mut view, &emptied, 0, MOMENT)?;
    let group = engine.run_siblings(&mut view, &course.queued, true)?;
    let course = group_course(alloc, group)?;
    assert_eq!(rt; look(&view, &course).inside, (Some(30), None, None));
    Ok(())
}

#[test]
fn now_is_the_moment_of_the_body_and_of_its_tasks(rt: HostRuntime) -> Result<(), Fail> {
    let alloc = rt.alloc();
    let now = alone(alloc, Stmt::Emit(boxed(alloc, Expr::Now)?));
    let tells = acts(alloc, now);
    let body = both(alloc, go(alloc)?, Stmt::Emit(boxed(alloc, Expr::Now)?));
    let seen = run(&rt, alloc, tells, idle(alloc), body)?;
    assert_eq!(rt; seen.emitted, (Some(7), None, None));
    assert_eq!(rt; seen.inside, (Some(7), None, None));
    Ok(())
}

// A task has its own moment, whatever else runs.
#[test]
fn a_task_fires_at_its_own_moment(rt: HostRuntime) -> Result<(), Fail> {
    let alloc = rt.alloc();
    let now = alone(alloc, Stmt::Emit(boxed(alloc, Expr::Now)?));
    let lib = library(alloc, acts(alloc, now), idle(alloc))?;
    let mut view = bank(alloc, &lib)?;
    let mut task = task(alloc, 0, Coupling::Separate)?;
    task.time = 9;
    let past = Past::new(alloc, &lib, 1);
    let outcome = Engine::new(&ByThreads::new(&rt), alloc, &lib, 1, &past).run_firing(
        &mut view, &task,
    )?;
    let (_, how) = first_node(&outcome.tree).unwrap_or((What::Sub, How::Abort(Cause::Asked)));
    assert_eq!(rt; how, How::Done);
    assert_eq!(rt; emitted_inside(&outcome.tree), (Some(9), None, None));
    Ok(())
}

// ---- messages

// An action that creates account 5 and then vetoes with a message.
fn vetoes_with(alloc: Global, message: Box<Expr>) -> Result<Vec<Stmt>, AllocError> {
    both(alloc, make(alloc, 5, 50)?, Stmt::Veto(Some(message)))
}

#[test]
fn a_veto_carries_its_message(rt: HostRuntime) -> Result<(), Fail> {
    let alloc = rt.alloc();
    let vetoes = acts(alloc, vetoes_with(alloc, number(alloc, 39)?));
    let seen = run(&rt, alloc, vetoes, makes(alloc), trying(alloc))?;
    assert_eq!(rt; seen.end, How::Done);
    assert_eq!(rt; seen.node, Some((What::Sub, How::Vetoed((0, Some(39))))));
    assert_eq!(rt; seen.balances, (Some(11), Some(20), None, None, None));
    Ok(())
}

// A message that faults ends the statement, and nothing is vetoed; a closed rule then vetoes without a message.
#[test]
fn a_message_that_faults_vetoes_nothing(rt: HostRuntime) -> Result<(), Fail> {
    let alloc = rt.alloc();
    let vetoes = acts(alloc, vetoes_with(alloc, faulty(alloc)?));
    let seen = run(&rt, alloc, vetoes, makes(alloc), going(alloc))?;
    assert_eq!(rt; seen.end, How::Done);
    assert_eq!(rt; seen.balances, (Some(10), Some(20), Some(30), None, None));
    let vetoes = acts(alloc, vetoes_with(alloc, faulty(alloc)?));
    let seen = run(&rt, alloc, closed(vetoes), makes(alloc), going(alloc))?;
    assert_eq!(rt; seen.end, How::Vetoed((0, None)));
    Ok(())
}

// ---- closed rules

// A rule whose condition faults.
fn faults(alloc: Global) -> Result<Rule, AllocError> {
    let rule = on_go(alloc, "faults", Coupling::Immediate, Vec::new(alloc))?;
    with_let(alloc, rule, Aggregate::Single(faulty(alloc)?))
}

#[test]
fn a_closed_rule_vetoes_where_its_condition_faults(rt: HostRuntime) -> Result<(), Fail> {
    let alloc = rt.alloc();
    let seen = run(&rt, alloc, faults(alloc), makes(alloc), going(alloc))?;
    assert_eq!(rt; seen.end, How::Done);
    assert_eq!(rt; seen.balances.2, Some(30));
    let what = What::Fire {
        rule: 0,
        place: Coupling::Immediate,
        condition: ConditionEnd::WithFault(Cause::DivideByZero),
    };
    let seen = run(
        &rt,
        alloc,
        closed(faults(alloc)),
        makes(alloc),
        going(alloc),
    )?;
    assert_eq!(rt; seen.end, How::Vetoed((0, None)));
    assert_eq!(rt; seen.node, Some((what, How::Done)));
    assert_eq!(rt; (seen.items, seen.balances.2), (1, None));
    Ok(())
}

#[test]
fn a_closed_rule_vetoes_where_its_action_aborts(rt: HostRuntime) -> Result<(), Fail> {
    let alloc = rt.alloc();
    let aborts = acts(alloc, alone(alloc, Stmt::Abort));
    let seen = run(&rt, alloc, aborts, makes(alloc), trying(alloc))?;
    assert_eq!(rt; seen.balances, (Some(10), Some(20), Some(30), None, None));
    let aborts = acts(alloc, alone(alloc, Stmt::Abort));
    let seen = run(&rt, alloc, closed(aborts), makes(alloc), trying(alloc))?;
    assert_eq!(rt; seen.end, How::Done);
    assert_eq!(rt; seen.node, Some((What::Sub, How::Vetoed((0, None)))));
    assert_eq!(rt; seen.balances, (Some(11), Some(20), None, None, None));
    Ok(())
}

// What a `sub` inside its action settles is no failure of the action; neither is a condition that isn't satisfied.
#[test]
fn a_closed_rule_that_ends_well_does_not_veto(rt: HostRuntime) -> Result<(), Fail> {
    let alloc = rt.alloc();
    let sub = Stmt::Sub {
        body: alone(alloc, Stmt::Abort)?,
        otherwise: Vec::new(alloc),
    };
    let seen = run(
        &rt,
        alloc,
        closed(acts(alloc, alone(alloc, sub))),
        makes(alloc),
        going(alloc),
    )?;
    assert_eq!(rt; (seen.end, seen.balances.2), (How::Done, Some(30)));
    let mut unsatisfied = acts(alloc, alone(alloc, Stmt::Abort))?;
    unsatisfied.condition.push(Entry::No(above(alloc, 5)?))?;
    let seen = run(
        &rt,
        alloc,
        closed(Ok(unsatisfied)),
        makes(alloc),
        going(alloc),
    )?;
    assert_eq!(rt; (seen.end, seen.balances.2), (How::Done, Some(30)));
    Ok(())
}

// A rule that gives a signal of its own, on which another vetoes with a message.
fn outer(alloc: Global) -> Result<Rule, AllocError> {
    acts(alloc, alone(alloc, give(alloc, "inside")?))
}

fn inner(alloc: Global) -> Result<Rule, AllocError> {
    let action = vetoes_with(alloc, number(alloc, 39)?)?;
    on_signal(alloc, "inner", "inside", Coupling::Immediate, action)
}

#[test]
fn a_closed_rule_passes_an_inner_veto_on(rt: HostRuntime) -> Result<(), Fail> {
    let alloc = rt.alloc();
    let seen = run(&rt, alloc, outer(alloc), inner(alloc), going(alloc))?;
    assert_eq!(rt; seen.end, How::Done);
    let seen = run(&rt, alloc, closed(outer(alloc)), inner(alloc), going(alloc))?;
    assert_eq!(rt; seen.end, How::Vetoed((1, Some(39))));
    Ok(())
}

// A detached task of a closed rule hands its veto to its own transaction.
#[test]
fn a_closed_task_vetoes_its_own_transaction(rt: HostRuntime) -> Result<(), Fail> {
    let alloc = rt.alloc();
    let lib = library(alloc, closed(faults(alloc)), idle(alloc))?;
    let mut view = bank(alloc, &lib)?;
    let task = task(alloc, 0, Coupling::Separate)?;
    let past = Past::new(alloc, &lib, 1);
    let outcome = Engine::new(&ByThreads::new(&rt), alloc, &lib, 1, &past).run_firing(
        &mut view, &task,
    )?;
    let veto: Option<Said> = outcome.end.as_ref().map(said);
    assert_eq!(rt; veto, Some((0, None)));
    Ok(())
}
