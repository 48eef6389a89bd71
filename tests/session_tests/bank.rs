//! A small bank: a library of one class, bodies that change balances, and books over it.

use hp_fire::ByThreads;
use hp_rule::{Assignment, Body, CheckError, Library, Stmt, Unit as Item};
use hp_sessions::{Blank, Book, BookName};
use hp_store::{CellValue, Store};
use hp_top::{opening, run_unit};
use hp_tree::{Ending, UnitReport};
use hp_value::{Arithmetic, Cell, ClassDef, Expr, Field, Key, Kind, Value};
use std::alloc::{AllocError, Global};
use std::sync::Arc;
use std::test::Fail;
use std::thread::Threads;

fn text(alloc: Global, s: &str) -> Result<String, AllocError> {
    String::from_str(alloc, s)
}

fn number(alloc: Global, n: i64) -> Result<Box<Expr>, AllocError> {
    Ok(Box::new(alloc, Expr::literal(Value::Int(n)))?)
}

// The assignment of a balance.
fn balance_is(alloc: Global, value: Expr) -> Result<Vec<Assignment>, AllocError> {
    let field = text(alloc, "bal")?;
    Ok(vec![in alloc; Assignment { field, value }]?)
}

// Creates an account with the balance 0.
fn make(alloc: Global, key: Key) -> Result<Stmt, AllocError> {
    let pairs = balance_is(alloc, Expr::literal(Value::Int(0)))?;
    Ok(Stmt::Create {
        class: 0,
        key: number(alloc, key)?,
        pairs,
    })
}

// The balance of x.
fn balance_of_x(alloc: Global) -> Result<Box<Expr>, AllocError> {
    let balance = Expr::FieldOf {
        variable: text(alloc, "x")?,
        field: text(alloc, "bal")?,
    };
    Ok(Box::new(alloc, balance)?)
}

// The balance of x plus 1.
fn sum(alloc: Global) -> Result<Expr, AllocError> {
    let balance = balance_of_x(alloc)?;
    Ok(Expr::Arithmetic(Arithmetic::Plus, balance, number(alloc, 1)?))
}

// Sets an account's balance to that of x plus 1.
fn update(alloc: Global, key: Key) -> Result<Stmt, AllocError> {
    let pairs = balance_is(alloc, sum(alloc)?)?;
    Ok(Stmt::Update {
        class: 0,
        key: number(alloc, key)?,
        pairs,
    })
}

// Adds 1 to an account's balance.
fn plus(alloc: Global, key: Key) -> Result<Stmt, AllocError> {
    let body = vec![in alloc; update(alloc, key)?]?;
    let key = number(alloc, key)?;
    Ok(Stmt::With {
        variable: text(alloc, "x")?,
        class: 0,
        key,
        body,
    })
}

// A class with a balance.
fn class(alloc: Global, name: &str) -> Result<ClassDef, AllocError> {
    let bal = Field {
        name: text(alloc, "bal")?,
        kind: Kind::Int,
    };
    let fields = Arc::new(alloc, vec![in alloc; bal]?)?;
    Ok(ClassDef {
        name: text(alloc, name)?,
        fields,
    })
}

// A library without rules, of one class with this name.
pub fn library(alloc: Global, name: &str) -> Result<Arc<Library>, CheckError> {
    let classes = vec![in alloc; class(alloc, name)?]?;
    let library = Library::check(alloc, classes, Vec::new(alloc), 16)?;
    Ok(Arc::new(alloc, library)?)
}

// Statements that create the accounts 1 to n, with the balance 0.
fn making(alloc: Global, n: u8) -> Result<Vec<Stmt>, AllocError> {
    let mut statements = Vec::new(alloc);
    for before in 0..n {
        statements.push(make(alloc, before as Key + 1)?)?;
    }
    Ok(statements)
}

// The balance of an account in a store; -1 if there is none.
pub fn balance(store: &Store, key: Key) -> i64 {
    if let Some(CellValue::Row(row)) = store.get(Cell::Object(0, key)) {
        if let Ok(Value::Int(n)) = row.field("bal") {
            return *n;
        }
    }
    -1
}

// Whether the body's own transaction ended so.
pub fn has_ended(report: &UnitReport, end: &Ending) -> bool {
    match report.tops.first() {
        Some(top) => top.end == *end,
        None => false,
    }
}

/// A bank, and what its callers run on. Threads are sent its parts, each of which is proved to cross.
#[derive_where(Clone, Copy)]
pub struct Bank<'a, R> {
    pub rt: &'a R,
    pub alloc: Global,
    pub library: &'a Arc<Library>,
}

impl<'a, R> Bank<'a, R> {
    pub fn new(rt: &'a R, alloc: Global, library: &'a Arc<Library>) -> Bank<'a, R> {
        Bank { rt, alloc, library }
    }

    // The body that adds 1 to an account's balance.
    pub fn adding(&self, key: Key) -> Result<Body, CheckError> {
        let statements = vec![in self.alloc; plus(self.alloc, key)?]?;
        Library::body(self.library, self.alloc, statements)
    }

    // The body that adds 1 to the balance of account 1, and aborts.
    pub fn aborting(&self) -> Result<Body, CheckError> {
        let statements = vec![in self.alloc; plus(self.alloc, 1)?, Stmt::Abort]?;
        Library::body(self.library, self.alloc, statements)
    }

    // The body that emits the clock's moment.
    pub fn telling(&self) -> Result<Body, CheckError> {
        let now = Box::new(self.alloc, Expr::Now)?;
        let statements = vec![in self.alloc; Stmt::Emit(now)]?;
        Library::body(self.library, self.alloc, statements)
    }
}

impl<R: Threads + Sync> Bank<'_, R> {
    // A store in which a unit has created the accounts 1 to n. A fit state of the library has its cells.
    pub fn accounts(&self, n: u8) -> Result<Store, Fail> {
        let mut store = opening(self.alloc)?;
        let body = Library::body(self.library, self.alloc, making(self.alloc, n)?)?;
        let unit = Item::Transaction { time: 0, body };
        run_unit(
            &ByThreads::new(self.rt),
            self.alloc,
            self.library,
            &mut store,
            &unit,
            1,
        )?;
        Ok(store)
    }

    // A book over these accounts, without an entry or a name.
    pub fn begun(&self, n: u8) -> Result<Blank, Fail> {
        let store = self.accounts(n)?;
        let library = Arc::try_clone(self.library)?;
        Ok(Book::begin(self.alloc, library, store)?)
    }
}

// The balance of account 1 and the number of entries when a book is closed.
pub fn ended<K: BookName>(book: Book<K>) -> (i64, usize) {
    let history = book.end();
    (balance(history.store(), 1), history.entries().len())
}
