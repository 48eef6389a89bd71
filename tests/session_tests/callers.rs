//! Callers on threads of their own.

use super::bank::{Bank, balance, library};
use hp_fire::ByThreads;
use hp_rule::{Body, Unit as Item};
use hp_sessions::laws::{kept, legal};
use hp_sessions::{Blank, Book, BookName, History, NoGate, Receipt, Session};
use hp_store::Store;
use hp_top::run_unit;
use hp_value::Key;
use std::alloc::Global;
use std::marker::Brand;
use std::process::Abort;
use std::sync::{Mutex, Wait};
use std::test::Fail;
use std::thread;
use std::thread::Threads;

// Adds 1 to the balance of an account, and appends the receipt.
fn add_one<K: BookName, R: Threads + Wait + Sync>(
    bank: &Bank<'_, R>,
    session: &mut Session<K>,
    receipts: &mut Vec<Receipt<K>>,
    key: Key,
) -> Option<()> {
    let body = bank.adding(key).ok()?;
    let receipt = session.submit(bank.rt, bank.alloc, 0, body, &NoGate).ok()?;
    receipts.push(receipt).ok()
}

// The receipts of fifty bodies that add 1 to the balance of account 1.
fn fifty<K: BookName, R: Threads + Wait + Sync>(
    bank: &Bank<'_, R>,
    mut session: Session<K>,
) -> Option<Vec<Receipt<K>>> {
    let mut receipts = Vec::with_capacity(bank.alloc, 50).ok()?;
    for _ in 0..50 {
        add_one(bank, &mut session, &mut receipts, 1)?;
    }
    Some(receipts)
}

// The receipt's number, which is above the one before it and names its entry.
fn risen<K: BookName>(
    rt: &impl Abort,
    history: &mut History<K>,
    mut receipt: Receipt<K>,
    last: u64,
) -> u64 {
    kept(history, &mut receipt);
    let number = receipt.number();
    assert!(rt; last < number);
    number
}

// There are fifty receipts. Each number is above those before it, and names its entry.
fn check_rising<K: BookName>(
    rt: &impl Abort,
    history: &mut History<K>,
    receipts: Option<Vec<Receipt<K>>>,
) -> Result<(), Fail> {
    let receipts = receipts.ok_or("fifty receipts")?;
    assert_eq!(rt; receipts.len(), 50);
    let mut last = 0;
    for receipt in receipts {
        last = risen(rt, history, receipt, last);
    }
    Ok(())
}

fn entries_of<K: BookName>(history: &History<K>, session: u8) -> usize {
    history
        .entries()
        .iter()
        .filter(|e| e.session == session)
        .count()
}

fn check_hundred<K: BookName>(rt: &impl Abort, history: &History<K>) {
    legal(history);
    assert_eq!(rt; balance(history.store(), 1), 100);
    assert_eq!(rt; history.entries().len(), 100);
    assert_eq!(rt; entries_of(history, 1), 50);
    assert_eq!(rt; entries_of(history, 2), 50);
}

fn two_threads<K: BookName + Send + Sync, R: Threads + Wait + Abort + Sync>(
    bank: &Bank<'_, R>,
    blank: Blank,
) -> Result<(), Fail> {
    let book = Mutex::new(blank.open::<K>(bank.alloc));
    let lock = &book;
    let (rt, alloc, library) = (bank.rt, bank.alloc, bank.library);
    let (one, two) = thread::join(
        rt,
        move || fifty(&Bank::new(rt, alloc, library), Session::new(1, lock)),
        move || fifty(&Bank::new(rt, alloc, library), Session::new(2, lock)),
    );
    let mut history = book.into_inner().end();
    check_hundred(bank.rt, &history);
    check_rising(bank.rt, &mut history, one)?;
    check_rising(bank.rt, &mut history, two)
}

// Catches a session that commits twice for one call (`commits_twice`), one that commits and then refuses
// (`commits_then_refuses`), and calls that always return `NoMemory` (`always_refuses_for_memory`).
#[test]
fn two_sessions_of_fifty(rt: HostRuntime) -> Result<(), Fail> {
    let library = library(rt.alloc(), "acct")?;
    let bank = Bank::new(&rt, rt.alloc(), &library);
    two_threads::<Brand, _>(&bank, bank.begun(1)?)
}

// Two hundred bodies of a session, alternately on account 1, which all sessions share, and on an account of its own.
// Returns the number of receipts, or `None` if a body is refused.
fn two_hundred<K: BookName, R: Threads + Wait + Sync>(
    bank: &Bank<'_, R>,
    lock: &Mutex<Book<K>>,
    number: u8,
) -> Option<usize> {
    let mut session = Session::new(number + 1, lock);
    let mut receipts = Vec::new(bank.alloc);
    for _ in 0..100 {
        add_one(bank, &mut session, &mut receipts, 1)?;
        add_one(bank, &mut session, &mut receipts, number as Key + 2)?;
    }
    Some(receipts.len())
}

// One thread runs the bodies of a history, one after another, on a store as it was before them.
fn replayed<K: BookName, R: Threads + Sync>(
    bank: &Bank<'_, R>,
    history: History<K>,
) -> Result<Store, Fail> {
    let mut store = bank.accounts(17)?;
    for entry in history.into_entries() {
        replay(bank, &mut store, entry.body)?;
    }
    Ok(store)
}

fn replay<R: Threads + Sync>(
    bank: &Bank<'_, R>,
    store: &mut Store,
    body: Body,
) -> Result<(), Fail> {
    let unit = Item::Transaction { time: 0, body };
    run_unit(
        &ByThreads::new(bank.rt),
        bank.alloc,
        bank.library,
        store,
        &unit,
        1,
    )?;
    Ok(())
}

// The balances of the accounts 1 to 17.
fn balances(alloc: Global, store: &Store) -> Result<Vec<i64>, Fail> {
    let mut balances = Vec::new(alloc);
    for key in 1..18 {
        balances.push(balance(store, key))?;
    }
    Ok(balances)
}

fn check_balances(rt: &impl Abort, balances: &[i64], store: &Store) {
    for (i, sum) in balances.iter().enumerate() {
        assert_eq!(rt; *sum, balance(store, i as Key + 1));
        assert_eq!(rt; *sum, if i == 0 { 1_600 } else { 100 });
    }
}

// The history leaves the balances that its bodies leave one after another.
fn check_replayed<K: BookName, R: Threads + Abort + Sync>(
    bank: &Bank<'_, R>,
    history: History<K>,
) -> Result<(), Fail> {
    assert_eq!(bank.rt; history.entries().len(), 3_200);
    let balances = balances(bank.alloc, history.store())?;
    let store = replayed(bank, history)?;
    check_balances(bank.rt, balances.as_slice(), &store);
    Ok(())
}

fn sixteen<K: BookName + Send + Sync, R: Threads + Wait + Abort + Sync>(
    bank: &Bank<'_, R>,
    blank: Blank,
) -> Result<(), Fail> {
    let book = Mutex::new(blank.open::<K>(bank.alloc));
    let lock = &book;
    let (rt, alloc, library) = (bank.rt, bank.alloc, bank.library);
    let done = thread::map_indices(
        rt,
        alloc,
        16,
        &|i| { two_hundred(&Bank::new(rt, alloc, library), lock, (i % 16) as u8) },
    )?;
    for sum in done {
        assert_eq!(bank.rt; sum, Some(200));
    }
    check_replayed(bank, book.into_inner().end())
}

#[test]
fn sixteen_sessions_of_two_hundred(rt: HostRuntime) -> Result<(), Fail> {
    let library = library(rt.alloc(), "acct")?;
    let bank = Bank::new(&rt, rt.alloc(), &library);
    sixteen::<Brand, _>(&bank, bank.begun(17)?)
}
