//! A small bank: rules and bodies over one class of accounts, views of it, and tasks.

use hp_event::Pattern;
use hp_ops::{create, set_rule};
use hp_rule::{
    Aggregate, Assignment, CheckError, Entry, EventExpr, Library, Query, Rule, RuleOperation, Step,
    Stmt, Task,
};
use hp_store::Snapshot;
use hp_value::{
    ClassDef, Comparison, Coupling, Expr, Field, Halt, Key, Kind, Occurrence, Row, RuleNo, Value,
};
use hp_view::View;
use std::alloc::{AllocError, Global};
use std::sync::Arc;

pub fn text(alloc: Global, s: &str) -> Result<String, AllocError> {
    String::from_str(alloc, s)
}

pub fn number(alloc: Global, n: i64) -> Result<Box<Expr>, AllocError> {
    Ok(Box::new(alloc, Expr::literal(Value::Int(n)))?)
}

fn fields(alloc: Global) -> Result<Arc<Vec<Field>>, AllocError> {
    let mut all = Vec::new(alloc);
    all.push(Field {
        name: text(alloc, "bal")?,
        kind: Kind::Int,
    })?;
    Ok(Arc::new(alloc, all)?)
}

pub fn account(alloc: Global, balance: i64) -> Result<Row, AllocError> {
    let mut values = Vec::new(alloc);
    values.push(Value::Int(balance))?;
    Row::new(alloc, &fields(alloc)?, values.into())
}

// The assignment of a balance.
fn balance_is(alloc: Global, balance: i64) -> Result<Vec<Assignment>, AllocError> {
    let mut pairs = Vec::new(alloc);
    pairs.push(Assignment {
        field: text(alloc, "bal")?,
        value: Expr::literal(Value::Int(balance)),
    })?;
    Ok(pairs)
}

// Creates an account.
pub fn make(alloc: Global, key: Key, balance: i64) -> Result<Stmt, AllocError> {
    Ok(Stmt::Create {
        class: 0,
        key: number(alloc, key)?,
        pairs: balance_is(alloc, balance)?,
    })
}

// Sets an account's balance.
pub fn set(alloc: Global, key: Key, balance: i64) -> Result<Stmt, AllocError> {
    Ok(Stmt::Update {
        class: 0,
        key: number(alloc, key)?,
        pairs: balance_is(alloc, balance)?,
    })
}

// Gives a signal.
pub fn give(alloc: Global, signal: &str) -> Result<Stmt, AllocError> {
    Ok(Stmt::Signal {
        name: text(alloc, signal)?,
        arguments: Vec::new(alloc),
    })
}

// Gives the signal on which most rules here are triggered.
pub fn go(alloc: Global) -> Result<Stmt, AllocError> {
    give(alloc, "go")
}

// A body of one statement.
pub fn alone(alloc: Global, only: Stmt) -> Result<Vec<Stmt>, AllocError> {
    let mut body = Vec::new(alloc);
    body.push(only)?;
    Ok(body)
}

// A body of two statements.
pub fn both(alloc: Global, first: Stmt, second: Stmt) -> Result<Vec<Stmt>, AllocError> {
    let mut body = alone(alloc, first)?;
    body.push(second)?;
    Ok(body)
}

// The field of the balance of the row with a name.
pub fn balance_in(alloc: Global, variable: &str) -> Result<Box<Expr>, AllocError> {
    Ok(Box::new(
        alloc,
        Expr::FieldOf {
            variable: text(alloc, variable)?,
            field: text(alloc, "bal")?,
        },
    )?)
}

// Whether the balance of the row with a name is above a number.
pub fn is_above(alloc: Global, variable: &str, n: i64) -> Result<Box<Expr>, AllocError> {
    let balance = balance_in(alloc, variable)?;
    let above = Expr::Comparison(Comparison::Greater, balance, number(alloc, n)?);
    Ok(Box::new(alloc, above)?)
}

// The value of a `let`.
pub fn value_of(alloc: Global, name: &str) -> Result<Box<Expr>, AllocError> {
    let name = text(alloc, name)?;
    Ok(Box::new(alloc, Expr::ValueOf { name })?)
}

// The accounts with more than a number, each under the name `row`.
pub fn above(alloc: Global, n: i64) -> Result<Query, AllocError> {
    Ok(Query {
        name: text(alloc, "row")?,
        class: 0,
        predicate: is_above(alloc, "row", n)?,
    })
}

// The sum of the balances that are above a number.
pub fn sum_above(alloc: Global, n: i64) -> Result<Aggregate, AllocError> {
    Ok(Aggregate::Sum {
        rows: above(alloc, n)?,
        term: balance_in(alloc, "row")?,
    })
}

// Emits the balance of the row with a name.
pub fn emit_balance(alloc: Global, variable: &str) -> Result<Vec<Stmt>, AllocError> {
    alone(alloc, Stmt::Emit(balance_in(alloc, variable)?))
}

// A rule that is triggered by a signal and has no query.
pub fn on_signal(
    alloc: Global,
    name: &str,
    signal: &str,
    ec: Coupling,
    action: Vec<Stmt>,
) -> Result<Rule, AllocError> {
    let event = EventExpr::One(Pattern::Signal(text(alloc, signal)?));
    Ok(Rule {
        name: text(alloc, name)?,
        event: Arc::new(alloc, event)?,
        ec,
        condition: Vec::new(alloc),
        ca: Coupling::Immediate,
        action,
        closed: false,
    })
}

// A rule on the signal on which most rules here are triggered.
pub fn on_go(
    alloc: Global,
    name: &str,
    ec: Coupling,
    action: Vec<Stmt>,
) -> Result<Rule, AllocError> {
    on_signal(alloc, name, "go", ec, action)
}

// The same with the query `rich`, for the accounts with more than 20.
pub fn on_rich(alloc: Global, name: &str, action: Vec<Stmt>) -> Result<Rule, AllocError> {
    let mut rule = on_go(alloc, name, Coupling::Immediate, action)?;
    rule.condition.push(Entry::Query(Query {
        name: text(alloc, "rich")?,
        class: 0,
        predicate: is_above(alloc, "rich", 20)?,
    }))?;
    Ok(rule)
}

// One class of accounts.
fn classes(alloc: Global) -> Result<Vec<ClassDef>, AllocError> {
    let mut classes = Vec::new(alloc);
    classes.push(ClassDef {
        name: text(alloc, "account")?,
        fields: fields(alloc)?,
    })?;
    Ok(classes)
}

// A library of these rules, with a depth limit of 2.
pub fn checked(alloc: Global, rules: Vec<Rule>) -> Result<Library, CheckError> {
    checked_to(alloc, rules, 2)
}

// These rules, and firings at most so deep.
pub fn checked_to(alloc: Global, rules: Vec<Rule>, depth: u8) -> Result<Library, CheckError> {
    Library::check(alloc, classes(alloc)?, rules, depth)
}

// A library of two rules. Here and below, rules, bodies and libraries are passed on as results, with their errors, so
// that a caller owns few values.
pub fn library(
    alloc: Global,
    first: Result<Rule, AllocError>,
    second: Result<Rule, AllocError>,
) -> Result<Library, CheckError> {
    let mut rules = Vec::new(alloc);
    rules.push(first?)?;
    rules.push(second?)?;
    checked(alloc, rules)
}

// A rule without an action.
pub fn idles(alloc: Global, name: &str, ec: Coupling) -> Result<Rule, AllocError> {
    on_go(alloc, name, ec, Vec::new(alloc))
}

// Two rules of these modes, without an action.
pub fn idle(alloc: Global, first: Coupling, second: Coupling) -> Result<Library, CheckError> {
    let first = idles(alloc, "first", first);
    library(alloc, first, idles(alloc, "second", second))
}

// Creates accounts with these keys and balances.
pub fn stock(alloc: Global, view: &mut View, accounts: &[(Key, i64)]) -> Result<(), Halt> {
    for (key, balance) in accounts {
        let _ = create(alloc, view, 0, *key, account(alloc, *balance)?)?;
    }
    Ok(())
}

// Installs the rules up to a number.
pub fn install(alloc: Global, view: &mut View, lib: &Library, count: RuleNo) -> Result<(), Halt> {
    for rule in 0..count {
        set_rule(alloc, view, lib, RuleOperation::Install, rule)?;
    }
    Ok(())
}

// The accounts 1 and 2 with the balances 10 and 20, and both rules installed.
pub fn bank(alloc: Global, lib: &Library) -> Result<View, Halt> {
    let mut view = View::new(alloc, Snapshot::empty(alloc)?)?;
    stock(alloc, &mut view, &[(1, 10), (2, 20)])?;
    install(alloc, &mut view, lib, 2)?;
    Ok(view)
}

// The task of a rule's condition, as the signal makes it.
pub fn task(alloc: Global, rule: RuleNo, place: Coupling) -> Result<Task, AllocError> {
    let occurrence = Occurrence {
        parts: Vec::new(alloc).into(),
        count: 1,
    };
    Ok(Task {
        rule,
        step: Step::Condition,
        place,
        depth: 1,
        time: 0,
        occurrence: Arc::new(alloc, occurrence)?,
    })
}

// The tasks of the first `count` rules, in rule order.
pub fn tasks(alloc: Global, count: RuleNo) -> Result<Vec<Task>, AllocError> {
    let mut tasks = Vec::new(alloc);
    for rule in 0..count {
        tasks.push(task(alloc, rule, Coupling::Immediate)?)?;
    }
    Ok(tasks)
}

// A body that only gives the signal.
pub fn going(alloc: Global) -> Result<Vec<Stmt>, AllocError> {
    alone(alloc, go(alloc)?)
}

// A body that sets an account's balance and gives the signal.
pub fn setting(alloc: Global, key: Key, balance: i64) -> Result<Vec<Stmt>, AllocError> {
    both(alloc, set(alloc, key, balance)?, go(alloc)?)
}

// A rule that makes account 2 rich.
fn enriches(alloc: Global) -> Result<Rule, AllocError> {
    let action = alone(alloc, set(alloc, 2, 200)?)?;
    on_go(alloc, "enriches", Coupling::Immediate, action)
}

// A rule that creates account 3 if there is a rich one.
fn makes_if_rich(alloc: Global) -> Result<Rule, AllocError> {
    on_rich(alloc, "makes", alone(alloc, make(alloc, 3, 30)?)?)
}

pub fn enriching(alloc: Global, is_first: bool) -> Result<Library, CheckError> {
    let enriches = enriches(alloc);
    let makes = makes_if_rich(alloc);
    if is_first {
        library(alloc, enriches, makes)
    } else {
        library(alloc, makes, enriches)
    }
}

// A rule that creates account 5 and then vetoes.
fn vetoes(alloc: Global) -> Result<Rule, AllocError> {
    let action = both(alloc, make(alloc, 5, 50)?, Stmt::Veto(None))?;
    on_go(alloc, "vetoes", Coupling::Immediate, action)
}

// A rule that creates account 3.
fn makes(alloc: Global) -> Result<Rule, AllocError> {
    let action = alone(alloc, make(alloc, 3, 30)?)?;
    on_go(alloc, "makes", Coupling::Immediate, action)
}

pub fn vetoing(alloc: Global) -> Result<Library, CheckError> {
    let vetoes = vetoes(alloc);
    library(alloc, vetoes, makes(alloc))
}
