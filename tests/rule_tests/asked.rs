//! The fields that the rules of a library ask for.

use super::fixtures::{add_query, class, each, field_is, number, rule, text};
use hp_event::Pattern;
use hp_rule::{CheckError, EventExpr, Library, Rule, Stmt};
use hp_value::{ClassNo, Comparison, Expr, Value};
use std::alloc::{AllocError, Global};
use std::test::Fail;

// 0 is at most the row's key.
fn key_is(alloc: Global) -> Result<Box<Expr>, AllocError> {
    let own = Expr::KeyOf {
        variable: text(alloc, "q")?,
    };
    let own = Box::new(alloc, own)?;
    Ok(Box::new(
        alloc,
        Expr::Comparison(Comparison::AtMost, number(alloc, 0)?, own),
    )?)
}

fn asking(alloc: Global, class: ClassNo, predicate: Box<Expr>) -> Result<Rule, AllocError> {
    let mut asking = rule(alloc, "r", EventExpr::One(Pattern::Commit))?;
    add_query(alloc, &mut asking, "q", class, predicate)?;
    Ok(asking)
}

// A subtransaction that asks for `level`, and another body for `fee`.
fn inner(alloc: Global) -> Result<Vec<Stmt>, AllocError> {
    let level = field_is(alloc, "z", "level", Comparison::AtLeast)?;
    let fee = field_is(alloc, "z", "fee", Comparison::Greater)?;
    let sub = Stmt::Sub {
        body: each(alloc, "z", 1, level, Vec::new(alloc))?,
        otherwise: each(alloc, "z", 0, fee, Vec::new(alloc))?,
    };
    Ok(vec![in alloc; sub]?)
}

// Statements that ask for `limit`, for `level` and `fee` in an inner statement, and for no field.
fn action(alloc: Global) -> Result<Vec<Stmt>, AllocError> {
    let limit = field_is(alloc, "x", "limit", Comparison::Equal)?;
    let other = field_is(alloc, "x", "other", Comparison::Unequal)?;
    let with = Stmt::With {
        variable: text(alloc, "y")?,
        class: 0,
        key: number(alloc, 1)?,
        body: inner(alloc)?,
    };
    let chosen = Stmt::If {
        condition: Box::new(alloc, Expr::literal(Value::Bool(true)))?,
        then_body: each(alloc, "x", 0, limit, Vec::new(alloc))?,
        else_body: each(alloc, "x", 0, other, vec![in alloc; with]?)?,
    };
    Ok(vec![in alloc; chosen]?)
}

fn library(alloc: Global) -> Result<Library, CheckError> {
    let mut classes = Vec::new(alloc);
    classes.push(class(alloc, "account", &["bal", "limit", "other", "fee"])?)?;
    classes.push(class(alloc, "log", &["level"])?)?;
    let mut rules = Vec::new(alloc);
    rules.push(asking(alloc, 0, field_is(alloc, "q", "bal", Comparison::Less)?)?)?;
    let mut second = asking(alloc, 0, field_is(alloc, "q", "bal", Comparison::Equal)?)?;
    second.name = text(alloc, "s")?;
    rules.push(second)?;
    let mut third = asking(alloc, 1, key_is(alloc)?)?;
    third.name = text(alloc, "t")?;
    third.action = action(alloc)?;
    rules.push(third)?;
    Library::check(alloc, classes, rules, 4)
}

#[test]
fn each_field_that_is_asked_for_is_listed_once(rt: HostRuntime) -> Result<(), Fail> {
    let alloc = rt.alloc();
    let library = library(alloc)?;
    let wanted = [(0, "bal"), (0, "limit"), (1, "level"), (0, "fee")];
    assert_eq!(rt; library.asked_fields().len(), wanted.len());
    for (asked, (class, field)) in library.asked_fields().iter().zip(wanted) {
        assert_eq!(rt; asked.class, class);
        assert_eq!(rt; asked.field.as_str(), field);
    }
    Ok(())
}
