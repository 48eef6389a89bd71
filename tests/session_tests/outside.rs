//! A unit is made outside the lock.

use super::bank::{Bank, ended, library};
use hp_sessions::{Blank, Book, BookName, Gate, Receipt, Session};
use std::marker::Brand;
use std::process::Abort;
use std::sync::atomic::AtomicU64;
use std::sync::atomic::Ordering::SeqCst;
use std::sync::{Mutex, Wait};
use std::test::Fail;
use std::thread;
use std::thread::Threads;

// How often a thread polls for what it waits for.
const TURNS: u32 = 1_000_000;

// What a gate was notified of, and what session 2 has done.
#[derive(Drop)]
struct Turns {
    begun: AtomicU64,
    answered: AtomicU64,
    late: AtomicU64,
}

impl Turns {
    fn wait_for(&self, flag: &AtomicU64) {
        for _ in 0..TURNS {
            if flag.load(SeqCst) == 1 {
                return;
            }
            thread::yield_now();
        }
        self.late.store(1, SeqCst);
    }
}

impl Gate for Turns {
    fn started(&self, session: usize) {
        if session == 1 {
            self.begun.store(1, SeqCst);
            self.wait_for(&self.answered);
        }
    }

    fn ended(&self, _session: usize) {}
}

type Answer<K> = Option<Receipt<K>>;

fn first<K: BookName, R: Threads + Wait + Sync>(
    bank: &Bank<'_, R>,
    lock: &Mutex<Book<K>>,
    turns: &Turns,
) -> Answer<K> {
    let body = bank.adding(1).ok()?;
    let mut session = Session::new(1, lock);
    session.submit(bank.rt, bank.alloc, 0, body, turns).ok()
}

fn second<K: BookName, R: Threads + Wait + Sync>(
    bank: &Bank<'_, R>,
    lock: &Mutex<Book<K>>,
    turns: &Turns,
) -> Answer<K> {
    turns.wait_for(&turns.begun);
    let body = bank.adding(1).ok()?;
    let mut session = Session::new(2, lock);
    let answer = session.submit(bank.rt, bank.alloc, 0, body, turns).ok();
    turns.answered.store(1, SeqCst);
    answer
}

fn first_and_second<K: BookName + Send + Sync, R: Threads + Wait + Sync>(
    bank: &Bank<'_, R>,
    lock: &Mutex<Book<K>>,
    turns: &Turns,
) -> (Answer<K>, Answer<K>) {
    let (rt, alloc, library) = (bank.rt, bank.alloc, bank.library);
    thread::join(
        rt,
        move || first(&Bank::new(rt, alloc, library), lock, turns),
        move || second(&Bank::new(rt, alloc, library), lock, turns),
    )
}

fn number_of<K: BookName>(answer: Answer<K>) -> Option<u64> {
    Some(answer?.number())
}

fn check_turns<K: BookName + Send + Sync, R: Threads + Wait + Abort + Sync>(
    bank: &Bank<'_, R>,
    lock: &Mutex<Book<K>>,
) -> Result<(), Fail> {
    let turns = Turns {
        begun: AtomicU64::new(0),
        answered: AtomicU64::new(0),
        late: AtomicU64::new(0),
    };
    let (one, two) = first_and_second(bank, lock, &turns);
    let (one, two) = (number_of(one), number_of(two));
    assert_eq!(bank.rt; turns.late.load(SeqCst), 0);
    let one = one.ok_or("a receipt")?;
    let two = two.ok_or("a receipt")?;
    assert!(bank.rt; two == 1 && one == 2);
    Ok(())
}

fn outside<K: BookName + Send + Sync, R: Threads + Wait + Abort + Sync>(
    bank: &Bank<'_, R>,
    blank: Blank,
) -> Result<(), Fail> {
    let book = Mutex::new(blank.open::<K>(bank.alloc));
    check_turns(bank, &book)?;
    let (sum, _) = ended(book.into_inner());
    assert_eq!(bank.rt; sum, 2);
    Ok(())
}

// Catches a lock that is held while a unit is made (`holds_lock_throughout`): session 2 then gets no answer in time.
#[test]
fn a_unit_is_made_outside_the_lock(rt: HostRuntime) -> Result<(), Fail> {
    let library = library(rt.alloc(), "acct")?;
    let bank = Bank::new(&rt, rt.alloc(), &library);
    outside::<Brand, _>(&bank, bank.begun(1)?)
}
