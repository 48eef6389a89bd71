//! One thread's calls on a book.

use super::bank::{Bank, balance, ended, has_ended, library};
use hp_rule::Body;
use hp_sessions::laws::apart;
use hp_sessions::{Blank, Book, BookName, Entry, History, NoGate, Receipt, Refusal, Session, Unit};
use hp_tree::{Ending, Item};
use hp_value::{Cause, Cell, Key};
use hp_view::Seen;
use std::alloc::Global;
use std::marker::Brand;
use std::process::Abort;
use std::sync::{Mutex, Wait};
use std::test::Fail;
use std::thread::Threads;

// A unit that adds 1 to the current balance of an account.
fn unit<K: BookName, R: Threads + Sync>(
    bank: &Bank<'_, R>,
    book: &Book<K>,
    key: Key,
) -> Result<Unit, Fail> {
    let body = bank.adding(key)?;
    Ok(Unit::make(bank.rt, bank.alloc, book.snapshot()?, 0, body, 1)?)
}

fn committed<K: BookName>(
    alloc: Global,
    book: &mut Book<K>,
    session: u8,
    unit: Unit,
) -> Result<Receipt<K>, Fail> {
    match book.commit(alloc, session, unit) {
        Ok(receipt) => Ok(receipt),
        Err(_) => Err(Fail::new("a receipt")),
    }
}

// Why a unit is refused, and whether its body committed.
fn refused<K: BookName>(alloc: Global, book: &mut Book<K>, unit: Unit) -> Option<(Refusal, bool)> {
    match book.commit(alloc, 2, unit) {
        Ok(_) => None,
        Err((refusal, unit)) => Some((refusal, has_ended(unit.reply(), &Ending::Committed))),
    }
}

// Of two units on the same cells, the second is committed first.
fn second_and_first<K: BookName, R: Threads + Abort + Sync>(
    bank: &Bank<'_, R>,
    book: &mut Book<K>,
) -> Result<(), Fail> {
    let first = unit(bank, book, 1)?;
    let second = unit(bank, book, 1)?;
    let number = committed(bank.alloc, book, 1, second)?.number();
    let refused = refused(bank.alloc, book, first);
    assert_eq!(bank.rt; number, 1);
    let (refusal, has_committed) = refused.ok_or("a stale unit")?;
    let cell = Seen::Cell(Cell::Object(0, 1));
    assert!(bank.rt;
        matches!(&refusal, Refusal::Stale { entries: 1, cell: found } if *found == cell)
    );
    assert!(bank.rt; has_committed);
    Ok(())
}

fn stale<K: BookName, R: Threads + Abort + Sync>(
    bank: &Bank<'_, R>,
    blank: Blank,
) -> Result<(), Fail> {
    let mut book = blank.open::<K>(bank.alloc);
    second_and_first(bank, &mut book)?;
    let (sum, units) = ended(book);
    assert_eq!(bank.rt; sum, 1);
    assert_eq!(bank.rt; units, 1);
    Ok(())
}

#[test]
fn a_unit_is_stale(rt: HostRuntime) -> Result<(), Fail> {
    let library = library(rt.alloc(), "acct")?;
    let bank = Bank::new(&rt, rt.alloc(), &library);
    stale::<Brand, _>(&bank, bank.begun(1)?)
}

// The number of a body's receipt, and whether the body ended so.
fn submitted<K: BookName, R: Threads + Wait + Sync>(
    bank: &Bank<'_, R>,
    session: &mut Session<K>,
    body: Body,
    end: &Ending,
) -> Result<(u64, bool), Refusal> {
    let receipt = session.submit(bank.rt, bank.alloc, 0, body, &NoGate)?;
    Ok((receipt.number(), has_ended(receipt.reply(), end)))
}

// One body that aborts, one that commits, and one of another bank's library.
fn thrice<K: BookName, R: Threads + Wait + Abort + Sync>(
    bank: &Bank<'_, R>,
    other: &Bank<'_, R>,
    session: &mut Session<K>,
) -> Result<(), Fail> {
    let asked = Ending::Aborted(Cause::Asked);
    let one = submitted(bank, session, bank.aborting()?, &asked);
    assert_eq!(bank.rt; one.ok(), Some((1, true)));
    let two = submitted(bank, session, bank.adding(1)?, &Ending::Committed);
    assert_eq!(bank.rt; two.ok(), Some((2, true)));
    let none = submitted(bank, session, other.adding(1)?, &asked);
    assert!(bank.rt; matches!(none.err(), Some(Refusal::OtherLibrary)));
    Ok(())
}

fn aborted<K: BookName, R: Threads + Wait + Abort + Sync>(
    bank: &Bank<'_, R>,
    other: &Bank<'_, R>,
    blank: Blank,
) -> Result<(), Fail> {
    let book = Mutex::new(blank.open::<K>(bank.alloc));
    thrice(bank, other, &mut Session::new(1, &book))?;
    let (sum, units) = ended(book.into_inner());
    assert_eq!(bank.rt; sum, 1);
    assert_eq!(bank.rt; units, 2);
    Ok(())
}

#[test]
fn an_aborted_body_has_a_receipt(rt: HostRuntime) -> Result<(), Fail> {
    let here = library(rt.alloc(), "acct")?;
    let there = library(rt.alloc(), "other")?;
    let bank = Bank::new(&rt, rt.alloc(), &here);
    let other = Bank::new(&rt, rt.alloc(), &there);
    aborted::<Brand, _>(&bank, &other, bank.begun(1)?)
}

// Two units on the same cells add to accounts 1 and 2, and both are committed.
fn both<K: BookName, R: Threads + Sync>(
    bank: &Bank<'_, R>,
    book: &mut Book<K>,
) -> Result<(Receipt<K>, Receipt<K>), Fail> {
    let one = unit(bank, book, 1)?;
    let two = unit(bank, book, 2)?;
    let one = committed(bank.alloc, book, 1, one)?;
    let two = committed(bank.alloc, book, 2, two)?;
    Ok((one, two))
}

// The receipts of sessions 1 and 2 have the numbers 1 and 2, and name distinct entries.
fn check_apart<K: BookName>(
    rt: &impl Abort,
    history: &mut History<K>,
    mut one: Receipt<K>,
    mut two: Receipt<K>,
) {
    assert!(rt; one.number() == 1 && two.number() == 2);
    apart(history, &mut one, &mut two);
}

fn disjoint<K: BookName, R: Threads + Abort + Sync>(
    bank: &Bank<'_, R>,
    blank: Blank,
) -> Result<(), Fail> {
    let mut book = blank.open::<K>(bank.alloc);
    let (one, two) = both(bank, &mut book)?;
    let mut history = book.end();
    check_apart(bank.rt, &mut history, one, two);
    assert_eq!(bank.rt; balance(history.store(), 1), 1);
    assert_eq!(bank.rt; balance(history.store(), 2), 1);
    Ok(())
}

#[test]
fn units_of_disjoint_objects_both_commit(rt: HostRuntime) -> Result<(), Fail> {
    let library = library(rt.alloc(), "acct")?;
    let bank = Bank::new(&rt, rt.alloc(), &library);
    disjoint::<Brand, _>(&bank, bank.begun(2)?)
}

// The number that the body of an entry emitted first.
fn told(entry: &Entry) -> Option<i64> {
    match entry.reply.tops.first()?.tree.first()? {
        Item::Emit(value) => value.as_int().ok(),
        _ => None,
    }
}

// A session's body and one on the current store, at moments of their own.
fn told_twice<K: BookName, R: Threads + Wait + Abort + Sync>(
    bank: &Bank<'_, R>,
    blank: Blank,
) -> Result<(), Fail> {
    let book = Mutex::new(blank.open::<K>(bank.alloc));
    let mut session = Session::new(1, &book);
    let first = session.submit(bank.rt, bank.alloc, 7, bank.telling()?, &NoGate);
    assert!(bank.rt; first.is_ok());
    let mut book = book.into_inner();
    let second = book.run_now(bank.rt, bank.alloc, 2, 3, bank.telling()?);
    assert!(bank.rt; second.is_ok());
    let history = book.end();
    for (entry, time) in history.entries().iter().zip([7, 3]) {
        assert_eq!(bank.rt; entry.time, time);
        assert_eq!(bank.rt; told(entry), Some(time as i64));
    }
    Ok(())
}

#[test]
fn a_body_runs_at_the_moment_that_its_caller_gives(rt: HostRuntime) -> Result<(), Fail> {
    let library = library(rt.alloc(), "acct")?;
    let bank = Bank::new(&rt, rt.alloc(), &library);
    told_twice::<Brand, _>(&bank, bank.begun(1)?)
}
