//! Parts of libraries: texts, comparisons with 0, classes whose fields are numbers, queries and rules.

use hp_rule::{Coupling, Entry, EventExpr, Query, Rule, Stmt};
use hp_value::{ClassDef, ClassNo, Comparison, Expr, Field, Kind, Value};
use std::alloc::{AllocError, Global};
use std::sync::Arc;

pub fn text(alloc: Global, s: &str) -> Result<String, AllocError> {
    String::from_str(alloc, s)
}

pub fn number(alloc: Global, z: i64) -> Result<Box<Expr>, AllocError> {
    Ok(Box::new(alloc, Expr::literal(Value::Int(z)))?)
}

/// A comparison of a row's field with 0.
pub fn field_is(
    alloc: Global,
    row: &str,
    field: &str,
    how: Comparison,
) -> Result<Box<Expr>, AllocError> {
    let own = Expr::FieldOf {
        variable: text(alloc, row)?,
        field: text(alloc, field)?,
    };
    let own = Box::new(alloc, own)?;
    let compared = Expr::Comparison(how, own, number(alloc, 0)?);
    Ok(Box::new(alloc, compared)?)
}

/// Adds a query to a rule's condition.
pub fn add_query(
    alloc: Global,
    rule: &mut Rule,
    name: &str,
    class: ClassNo,
    predicate: Box<Expr>,
) -> Result<(), AllocError> {
    let name = text(alloc, name)?;
    rule.condition.push(Entry::Query(Query {
        name,
        class,
        predicate,
    }))?;
    Ok(())
}

/// A body of one statement `each`.
pub fn each(
    alloc: Global,
    row: &str,
    class: ClassNo,
    predicate: Box<Expr>,
    body: Vec<Stmt>,
) -> Result<Vec<Stmt>, AllocError> {
    let each = Stmt::Each {
        variable: text(alloc, row)?,
        class,
        predicate,
        body,
    };
    Ok(vec![in alloc; each]?)
}

pub fn class(alloc: Global, name: &str, fields: &[&str]) -> Result<ClassDef, AllocError> {
    let mut all = Vec::new(alloc);
    for field in fields {
        let name = text(alloc, *field)?;
        all.push(Field {
            name,
            kind: Kind::Int,
        })?;
    }
    Ok(ClassDef {
        name: text(alloc, name)?,
        fields: Arc::new(alloc, all)?,
    })
}

/// A rule without a condition and an action.
pub fn rule(alloc: Global, name: &str, event: EventExpr) -> Result<Rule, AllocError> {
    Ok(Rule {
        name: text(alloc, name)?,
        event: Arc::new(alloc, event)?,
        ec: Coupling::Immediate,
        condition: Vec::new(alloc),
        ca: Coupling::Immediate,
        action: Vec::new(alloc),
        closed: false,
    })
}
