//! Groups with workers. A gate holds one worker until another is as far as the test wants, for at most a million turns.

use super::fixtures;
use super::fixtures::{
    alone, balance_in, checked, make, number, on_go, on_rich, stock, sum_above, task, tasks, text,
    value_of,
};
use super::groups::{Setup, fire_all_on};
use super::seen::{Balances, How};
use hp_fire::{Gate, NoGate};
use hp_rule::{Aggregate, Assignment, CheckError, Entry, Library, Query, Rule, Stmt, Task};
use hp_store::{Snapshot, Store};
use hp_top::keep_indexes;
use hp_value::{Arithmetic, Comparison, Coupling, Expr, Halt, Key};
use hp_view::View;
use std::alloc::{AllocError, Global};
use std::process::Abort;
use std::sync::atomic::AtomicU64;
use std::sync::atomic::Ordering::SeqCst;
use std::test::Fail;
use std::thread;
use std::thread::Threads;

const TURNS: u32 = 1_000_000;

// Whether a count reaches a number.
fn comes_to(count: &AtomicU64, many: u64) -> bool {
    for _ in 0..TURNS {
        if count.load(SeqCst) >= many {
            return true;
        }
        thread::yield_now();
    }
    false
}

// What a gate waits for.
#[derive(Clone, Copy, PartialEq, Eq)]
enum Awaited {
    Start(usize),
    End(usize),
}

// Holds the start of one task until what it waits for.
#[derive(Drop)]
struct Hold {
    held: usize,
    until: Awaited,
    come: AtomicU64,
    late: AtomicU64,
}

impl Hold {
    fn of(held: usize, until: Awaited) -> Hold {
        Hold {
            held,
            until,
            come: AtomicU64::new(0),
            late: AtomicU64::new(0),
        }
    }

    fn was_late(&self) -> bool {
        self.late.load(SeqCst) != 0
    }

    fn comes(&self, what: Awaited) {
        if what == self.until {
            self.come.store(1, SeqCst);
        }
    }
}

impl Gate for Hold {
    fn started(&self, place: usize) {
        self.comes(Awaited::Start(place));
        if place == self.held && !comes_to(&self.come, 1) {
            self.late.store(1, SeqCst);
        }
    }

    fn ended(&self, place: usize) {
        self.comes(Awaited::End(place));
    }
}

// An action that sets the balance of one account from that of another.
#[derive(Clone, Copy)]
struct Deed {
    account: Key,
    by: Key,
    how: Arithmetic,
    number: i64,
}

// Adds 1 to the balance of an account.
fn plus(account: Key) -> Deed {
    Deed {
        account,
        by: account,
        how: Arithmetic::Plus,
        number: 1,
    }
}

// Doubles the balance of account 1.
const DOUBLES: Deed = Deed {
    account: 1,
    by: 1,
    how: Arithmetic::Times,
    number: 2,
};

// Sets the balance of an account to that of account 1.
fn copies_to(account: Key) -> Deed {
    Deed {
        account,
        by: 1,
        how: Arithmetic::Plus,
        number: 0,
    }
}

// The assignment of the sum or the product of the balance of `row` and a number.
fn computed(alloc: Global, deed: Deed) -> Result<Vec<Assignment>, AllocError> {
    let balance = balance_in(alloc, "row")?;
    let value = Expr::Arithmetic(deed.how, balance, number(alloc, deed.number)?);
    let mut pairs = Vec::new(alloc);
    pairs.push(Assignment {
        field: text(alloc, "bal")?,
        value,
    })?;
    Ok(pairs)
}

fn update(alloc: Global, deed: Deed) -> Result<Vec<Stmt>, AllocError> {
    let update = Stmt::Update {
        class: 0,
        key: number(alloc, deed.account)?,
        pairs: computed(alloc, deed)?,
    };
    alone(alloc, update)
}

fn action(alloc: Global, deed: Deed) -> Result<Vec<Stmt>, AllocError> {
    let with = Stmt::With {
        variable: text(alloc, "row")?,
        class: 0,
        key: number(alloc, deed.by)?,
        body: update(alloc, deed)?,
    };
    alone(alloc, with)
}

// The names of the rules, in rule order.
const NAMES: [&str; 5] = ["first", "second", "third", "fourth", "fifth"];

// A rule for each action.
fn library(alloc: Global, actions: Vec<Vec<Stmt>>) -> Result<Library, CheckError> {
    let mut rules: Vec<Rule> = Vec::new(alloc);
    for action in actions {
        let name = NAMES[rules.len() % NAMES.len()];
        rules.push(on_go(alloc, name, Coupling::Immediate, action)?)?;
    }
    checked(alloc, rules)
}

fn of_deeds(alloc: Global, deeds: &[Deed]) -> Result<Library, CheckError> {
    let mut actions = Vec::new(alloc);
    for deed in deeds {
        actions.push(action(alloc, *deed)?)?;
    }
    library(alloc, actions)
}

// Accounts with these keys and balances.
fn bank(alloc: Global, accounts: &[(Key, i64)]) -> Result<View, Halt> {
    let mut view = View::new(alloc, Snapshot::empty(alloc)?)?;
    stock(alloc, &mut view, accounts)?;
    Ok(view)
}

// The result of a group: how many firings were accepted from an attempt, how many were run by the owner or tried again,
// and the number of waves; and the balances after it.
type Gave = ((usize, usize, usize), Balances);

// With at most this many workers, and a gate.
fn by<G>(width: usize, gate: &G) -> Setup<'_, G> {
    Setup {
        stops: true,
        width,
        gate,
    }
}

fn fire_in<G: Gate + Sync>(
    rt: &(impl Threads + Sync),
    alloc: Global,
    lib: &Library,
    view: &mut View,
    tasks: Result<Vec<Task>, AllocError>,
    setup: Setup<'_, G>,
) -> Result<Gave, AllocError> {
    let tasks = tasks?;
    let siblings = fire_all_on(rt, alloc, lib, view, &tasks, setup)?;
    Ok((siblings.counts, siblings.course.balances))
}

// Fires tasks of these rules over these accounts.
fn fire<G: Gate + Sync>(
    rt: &(impl Threads + Sync),
    alloc: Global,
    lib: Result<Library, CheckError>,
    accounts: &[(Key, i64)],
    tasks: Result<Vec<Task>, AllocError>,
    setup: Setup<'_, G>,
) -> Result<Gave, Fail> {
    let lib = lib?;
    let mut view = bank(alloc, accounts)?;
    Ok(fire_in(rt, alloc, &lib, &mut view, tasks, setup)?)
}

#[test]
fn two_siblings_are_in_flight(rt: HostRuntime) -> Result<(), Fail> {
    let alloc = rt.alloc();
    let gate = Hold::of(0, Awaited::Start(1));
    let lib = of_deeds(alloc, &[plus(1), plus(2), plus(3), plus(4)]);
    let accounts = [(1, 0), (2, 0), (3, 0), (4, 0)];
    let (counts, balances) = fire(&rt, alloc, lib, &accounts, tasks(alloc, 4), by(2, &gate))?;
    assert!(rt; !gate.was_late());
    assert_eq!(rt; counts, (4, 0, 1));
    assert_eq!(rt; balances, (Some(1), Some(1), Some(1), Some(1), None));
    Ok(())
}

// Fires two tasks. The gate holds one of them until the other has ended.
fn fired(
    rt: &(impl Threads + Abort + Sync),
    alloc: Global,
    deeds: &[Deed],
    held: usize,
) -> Result<(i64, (usize, usize, usize)), Fail> {
    let gate = Hold::of(held, Awaited::End(1 - held % 2));
    let lib = of_deeds(alloc, deeds);
    let accounts = [(1, 10), (2, 20)];
    let (counts, balances) = fire(rt, alloc, lib, &accounts, tasks(alloc, 2), by(2, &gate))?;
    assert!(rt; !gate.was_late());
    Ok((balances.0.unwrap_or(0), counts))
}

#[test]
fn a_predecessor_is_seen(rt: HostRuntime) -> Result<(), Fail> {
    let alloc = rt.alloc();
    // The second task starts from what the first has posted.
    assert_eq!(rt; fired(&rt, alloc, &[plus(1), DOUBLES], 1)?, (22, (2, 0, 1)));
    // The second task has ended before the first starts: what it read no longer holds.
    assert_eq!(rt; fired(&rt, alloc, &[plus(1), DOUBLES], 0)?, (22, (1, 1, 1)));
    // The same where the second reads nothing that the first writes.
    assert_eq!(rt; fired(&rt, alloc, &[plus(1), plus(2)], 0)?, (11, (2, 0, 1)));
    Ok(())
}

#[test]
fn disjoint_siblings_are_accepted(rt: HostRuntime) -> Result<(), Fail> {
    let alloc = rt.alloc();
    let lib = of_deeds(alloc, &[plus(1), plus(2)]);
    let accounts = [(1, 10), (2, 20)];
    let (counts, balances) = fire(&rt, alloc, lib, &accounts, tasks(alloc, 2), by(8, &NoGate))?;
    assert_eq!(rt; counts, (2, 0, 1));
    assert_eq!(rt; balances, (Some(11), Some(21), None, None, None));
    Ok(())
}

// Two rules that each create an account.
fn creating(alloc: Global) -> Result<Library, CheckError> {
    let mut actions = Vec::new(alloc);
    for key in [1, 2] {
        actions.push(alone(alloc, make(alloc, key, 5)?)?)?;
    }
    library(alloc, actions)
}

// Two tasks that create objects of one class don't conflict: a creation doesn't read the class's keys.
#[test]
fn creations_do_not_collide(rt: HostRuntime) -> Result<(), Fail> {
    let alloc = rt.alloc();
    let (counts, balances) = fire(
        &rt,
        alloc,
        creating(alloc),
        &[],
        tasks(alloc, 2),
        by(2, &NoGate),
    )?;
    assert_eq!(rt; counts, (2, 0, 1));
    assert_eq!(rt; balances, (Some(5), Some(5), None, None, None));
    Ok(())
}

// Holds task 0 until the two others have ended, and in the second wave task 1 until task 2 has started again.
#[derive(Drop)]
struct TwoReruns {
    ends: AtomicU64,
    starts_of_1: AtomicU64,
    starts_of_2: AtomicU64,
    late: AtomicU64,
}

impl TwoReruns {
    fn hold(&self, count: &AtomicU64) {
        if !comes_to(count, 2) {
            self.late.store(1, SeqCst);
        }
    }
}

impl Gate for TwoReruns {
    fn started(&self, place: usize) {
        match place {
            0 => self.hold(&self.ends),
            1 => {
                if self.starts_of_1.fetch_add(1, SeqCst) == 1 {
                    self.hold(&self.starts_of_2);
                }
            }
            _ => drop(self.starts_of_2.fetch_add(1, SeqCst)),
        }
    }

    fn ended(&self, place: usize) {
        if place > 0 {
            let _ = self.ends.fetch_add(1, SeqCst);
        }
    }
}

#[test]
fn two_reruns_are_in_flight(rt: HostRuntime) -> Result<(), Fail> {
    let alloc = rt.alloc();
    let gate = TwoReruns {
        ends: AtomicU64::new(0),
        starts_of_1: AtomicU64::new(0),
        starts_of_2: AtomicU64::new(0),
        late: AtomicU64::new(0),
    };
    let lib = of_deeds(alloc, &[plus(1), copies_to(2), copies_to(3)]);
    let accounts = [(1, 10), (2, 0), (3, 0)];
    let (counts, balances) = fire(&rt, alloc, lib, &accounts, tasks(alloc, 3), by(3, &gate))?;
    assert_eq!(rt; gate.late.load(SeqCst), 0);
    assert_eq!(rt; counts, (1, 2, 2));
    assert_eq!(rt; balances, (Some(11), Some(11), Some(11), None, None));
    Ok(())
}

// Holds the start of the first task until the fourth has ended, and counts how often a task is started.
#[derive(Drop)]
struct Starts {
    hold: Hold,
    count: AtomicU64,
}

impl Gate for Starts {
    fn started(&self, place: usize) {
        let _ = self.count.fetch_add(1, SeqCst);
        self.hold.started(place);
    }

    fn ended(&self, place: usize) {
        self.hold.ended(place);
    }
}

// The first task starts late. Meanwhile one worker tries three of the others, two of which read what a predecessor
// wrote, and then tries no more. The late worker may get to the last task before the wave ends. One of five tasks is
// settled from its attempt: the owner runs the others, without a further wave.
#[test]
fn a_wave_that_does_not_pay_is_the_last(rt: HostRuntime) -> Result<(), Fail> {
    let alloc = rt.alloc();
    let gate = Starts {
        hold: Hold::of(0, Awaited::End(3)),
        count: AtomicU64::new(0),
    };
    let lib = of_deeds(alloc, &[plus(1), plus(1), plus(1), plus(1), plus(1)]);
    let (counts, balances) = fire(&rt, alloc, lib, &[(1, 10)], tasks(alloc, 5), by(2, &gate))?;
    assert!(rt; !gate.hold.was_late());
    let started = gate.count.load(SeqCst);
    assert!(rt; started == 4 || started == 5);
    assert_eq!(rt; counts, (1, 4, 1));
    assert_eq!(rt; balances.0, Some(15));
    Ok(())
}

// In full conflict each attempt but the first becomes stale, whatever the threads do; the counts add up, and the
// balance is that of one thread.
#[test]
fn siblings_in_conflict_give_the_same_at_any_width(rt: HostRuntime) -> Result<(), Fail> {
    let alloc = rt.alloc();
    for width in [1, 2, 3, 4, 64] {
        let lib = of_deeds(alloc, &[plus(1), DOUBLES, plus(1), DOUBLES]);
        let tasks = tasks(alloc, 4);
        let (counts, balances) = fire(&rt, alloc, lib, &[(1, 10)], tasks, by(width, &NoGate))?;
        let (accepted, reran, waves) = counts;
        assert_eq!(rt; balances.0, Some(46));
        assert_eq!(rt; accepted.saturating_add(reran), 4);
        assert!(rt; waves <= reran.saturating_add(1));
        assert_eq!(rt; waves == 0, width == 1);
    }
    Ok(())
}

// A number of tasks of the first rule.
fn of_the_first(alloc: Global, count: usize) -> Result<Vec<Task>, AllocError> {
    let mut tasks = Vec::new(alloc);
    for _ in 0..count {
        tasks.push(task(alloc, 0, Coupling::Immediate)?)?;
    }
    Ok(tasks)
}

// A rule whose condition has a query, and one without a query.
fn asking(alloc: Global) -> Result<Library, CheckError> {
    let asks = on_rich(alloc, "asks", Vec::new(alloc));
    let other = on_go(alloc, "other", Coupling::Immediate, Vec::new(alloc));
    fixtures::library(alloc, asks, other)
}

// A caller of `run_group` has workers, however short the tasks are.
#[test]
fn short_siblings_have_workers_too(rt: HostRuntime) -> Result<(), Fail> {
    let alloc = rt.alloc();
    let (short, nine) = (of_deeds(alloc, &[plus(1)]), of_the_first(alloc, 9));
    let (counts, balances) = fire(&rt, alloc, short, &[(1, 10)], nine, by(4, &NoGate))?;
    assert!(rt; counts.2 > 0);
    assert_eq!(rt; counts.0.checked_add(counts.1), Some(9));
    assert_eq!(rt; balances.0, Some(19));
    let nine = of_the_first(alloc, 9);
    let (counts, _) = fire(&rt, alloc, asking(alloc), &[(1, 19)], nine, by(4, &NoGate))?;
    assert_eq!(rt; counts, (9, 0, 1));
    Ok(())
}

// One of two threads is held at the first task until the other has tried all others. If the other one is the worker,
// its channel has no room for all attempts, and yet none is lost.
#[test]
fn full_channel_loses_no_attempt(rt: HostRuntime) -> Result<(), Fail> {
    let alloc = rt.alloc();
    let gate = Hold::of(0, Awaited::End(39));
    let forty = of_the_first(alloc, 40);
    let (counts, _) = fire(&rt, alloc, asking(alloc), &[(1, 19)], forty, by(2, &gate))?;
    assert!(rt; !gate.was_late());
    assert_eq!(rt; counts, (40, 0, 1));
    Ok(())
}

// A rule that adds 1 to the balance of each account that its condition finds.
fn adds_to_found(alloc: Global, name: &str, predicate: Box<Expr>) -> Result<Rule, AllocError> {
    let adds = Stmt::Update {
        class: 0,
        key: key_of(alloc, "row")?,
        pairs: computed(alloc, plus(0))?,
    };
    let each = Stmt::For {
        query: text(alloc, "row")?,
        body: alone(alloc, adds)?,
    };
    let mut rule = on_go(alloc, name, Coupling::Immediate, alone(alloc, each)?)?;
    rule.condition.push(Entry::Query(Query {
        name: text(alloc, "row")?,
        class: 0,
        predicate,
    }))?;
    Ok(rule)
}

fn key_of(alloc: Global, variable: &str) -> Result<Box<Expr>, AllocError> {
    let variable = text(alloc, variable)?;
    Ok(Box::new(alloc, Expr::KeyOf { variable })?)
}

// Two such rules, of which each finds one account: by its key, or by its balance.
fn finders(alloc: Global, by_key: bool) -> Result<Library, CheckError> {
    let mut rules = Vec::new(alloc);
    for (at, account) in [1, 2].iter().enumerate() {
        let (asked, wanted) = if by_key {
            (key_of(alloc, "row")?, number(alloc, *account)?)
        } else {
            (balance_in(alloc, "row")?, number(alloc, *account * 10)?)
        };
        let is_found = Expr::Comparison(Comparison::Equal, asked, wanted);
        rules.push(adds_to_found(alloc, NAMES[at], Box::new(alloc, is_found)?)?)?;
    }
    checked(alloc, rules)
}

// A view of a store with two accounts, and the indexes that the library's conditions ask for.
fn stored(alloc: Global, lib: &Library) -> Result<View, Fail> {
    let (_, layer) = bank(alloc, &[(1, 10), (2, 20)])?.into_parts();
    let mut store = Store::empty(alloc)?;
    store.apply(alloc, layer)?;
    keep_indexes(alloc, &mut store, lib)?;
    Ok(View::new(alloc, store.snapshot()?)?)
}

// Fires both rules over that store. The second task has ended before the first starts.
fn find_both(
    rt: &(impl Threads + Abort + Sync),
    alloc: Global,
    by_key: bool,
) -> Result<Gave, Fail> {
    let lib = finders(alloc, by_key)?;
    let mut view = stored(alloc, &lib)?;
    let gate = Hold::of(0, Awaited::End(1));
    let gave = fire_in(rt, alloc, &lib, &mut view, tasks(alloc, 2), by(2, &gate))?;
    assert!(rt; !gate.was_late());
    Ok(gave)
}

#[test]
fn siblings_that_look_for_different_parts_are_accepted(rt: HostRuntime) -> Result<(), Fail> {
    let both = ((2, 0, 1), (Some(11), Some(21), None, None, None));
    assert_eq!(rt; find_both(&rt, rt.alloc(), true)?, both);
    assert_eq!(rt; find_both(&rt, rt.alloc(), false)?, both);
    Ok(())
}

// Sets an account's balance to the sum of the balances.
fn sums_into(alloc: Global, account: Key) -> Result<Vec<Stmt>, AllocError> {
    let mut pairs = Vec::new(alloc);
    pairs.push(Assignment {
        field: text(alloc, "bal")?,
        value: Expr::ValueOf {
            name: text(alloc, "sum")?,
        },
    })?;
    let update = Stmt::Update {
        class: 0,
        key: number(alloc, account)?,
        pairs,
    };
    with_sum(alloc, update)
}

// A statement with the sum of the balances.
fn with_sum(alloc: Global, statement: Stmt) -> Result<Vec<Stmt>, AllocError> {
    let with_sum = Stmt::Let {
        name: text(alloc, "sum")?,
        aggregate: sum_above(alloc, 0)?,
        body: alone(alloc, statement)?,
    };
    alone(alloc, with_sum)
}

// Rules that each write what the sums of all read.
fn summing(alloc: Global) -> Result<Library, CheckError> {
    let mut actions = Vec::new(alloc);
    for account in 2..6 {
        actions.push(sums_into(alloc, account)?)?;
    }
    library(alloc, actions)
}

#[test]
fn sums_are_those_of_one_thread_at_any_width(rt: HostRuntime) -> Result<(), Fail> {
    let alloc = rt.alloc();
    let accounts = [(1, 1), (2, 0), (3, 0), (4, 0), (5, 0)];
    for width in [1, 2, 3, 4, 64] {
        let (lib, tasks) = (summing(alloc), tasks(alloc, 4));
        let (_, balances) = fire(&rt, alloc, lib, &accounts, tasks, by(width, &NoGate))?;
        assert_eq!(rt; balances, (Some(1), Some(1), Some(2), Some(4), Some(8)));
    }
    Ok(())
}

// A rule for each of these actions, which are the same: it creates an account with the class's next key.
fn numbering(alloc: Global) -> Result<Library, CheckError> {
    let mut actions = Vec::new(alloc);
    for _ in 0..4 {
        let mut pairs = Vec::new(alloc);
        pairs.push(Assignment {
            field: text(alloc, "bal")?,
            value: Expr::ValueOf {
                name: text(alloc, "key")?,
            },
        })?;
        let create = Stmt::Create {
            class: 0,
            key: value_of(alloc, "key")?,
            pairs,
        };
        let with_next = Stmt::Let {
            name: text(alloc, "key")?,
            aggregate: Aggregate::Next(0),
            body: alone(alloc, create)?,
        };
        actions.push(alone(alloc, with_next)?)?;
    }
    library(alloc, actions)
}

#[test]
fn next_keys_are_those_of_one_thread_at_any_width(rt: HostRuntime) -> Result<(), Fail> {
    let alloc = rt.alloc();
    for width in [1, 2, 3, 4, 64] {
        let (lib, tasks) = (numbering(alloc), tasks(alloc, 4));
        let (_, balances) = fire(&rt, alloc, lib, &[(1, 0)], tasks, by(width, &NoGate))?;
        assert_eq!(rt; balances, (Some(0), Some(2), Some(3), Some(4), Some(5)));
    }
    Ok(())
}

// The first rule adds 1 to account 1, the second vetoes with the sum of the balances.
fn summing_veto(alloc: Global) -> Result<Library, CheckError> {
    let mut actions = Vec::new(alloc);
    actions.push(action(alloc, plus(1))?)?;
    let veto = Stmt::Veto(Some(value_of(alloc, "sum")?));
    actions.push(with_sum(alloc, veto)?)?;
    library(alloc, actions)
}

// The second task has ended before the first starts. Its message is that of the rerun.
#[test]
fn a_rerun_has_its_own_message(rt: HostRuntime) -> Result<(), Fail> {
    let alloc = rt.alloc();
    let gate = Hold::of(0, Awaited::End(1));
    let lib = summing_veto(alloc)?;
    let mut view = bank(alloc, &[(1, 10), (2, 20)])?;
    let tasks = tasks(alloc, 2)?;
    let siblings = fire_all_on(&rt, alloc, &lib, &mut view, &tasks, by(2, &gate))?;
    assert!(rt; !gate.was_late());
    assert_eq!(rt; siblings.end, Some((1, Some(31))));
    assert_eq!(rt; siblings.course.end, How::Vetoed((1, Some(31))));
    Ok(())
}
