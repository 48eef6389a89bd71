//! Expressions in postfix notation: `x.bal 3 <` is `x.bal < 3`, and `x.bal 3 < x.key 2 = and` has two comparisons.

use hp_value::{Arithmetic, Comparison, Expr, Value};
use std::alloc::{AllocError, Global};

/// The expression of some words: each is an integer, `true`, `false`, a text such as `'low`, the key of a row as
/// `x.key`, another field of it as `x.bal`, the key of an occurrence's first operation as `key_in_0`, the value of a
/// `let` as `$n`, the clock's moment as `now`, or an operator.
pub fn expression(alloc: Global, postfix: &str) -> Result<Box<Expr>, AllocError> {
    let mut stack = Vec::new(alloc);
    for word in postfix.split_whitespace() {
        put_word(alloc, &mut stack, word)?;
    }
    popped(alloc, &mut stack)
}

fn put_word(alloc: Global, stack: &mut Vec<Expr>, word: &str) -> Result<(), AllocError> {
    let made = match word {
        "+" | "-" | "*" | "/" | "%" | "<" | "<=" | ">" | ">=" | "=" | "!=" | "and" | "or" => {
            let second = popped(alloc, stack)?;
            of_two(word, popped(alloc, stack)?, second)
        }
        "not" => Expr::Not(popped(alloc, stack)?),
        "negated" => Expr::Negated(popped(alloc, stack)?),
        _ => operand(alloc, word)?,
    };
    stack.push(made)?;
    Ok(())
}

fn popped(alloc: Global, stack: &mut Vec<Expr>) -> Result<Box<Expr>, AllocError> {
    Ok(Box::new(alloc, stack.pop().unwrap_or(Expr::Count))?)
}

fn of_two(word: &str, first: Box<Expr>, second: Box<Expr>) -> Expr {
    match word {
        "and" => Expr::And(first, second),
        "or" => Expr::Or(first, second),
        _ => match comparison(word) {
            Some(how) => Expr::Comparison(how, first, second),
            None => Expr::Arithmetic(arithmetic(word), first, second),
        },
    }
}

fn comparison(word: &str) -> Option<Comparison> {
    match word {
        "<" => Some(Comparison::Less),
        "<=" => Some(Comparison::AtMost),
        ">" => Some(Comparison::Greater),
        ">=" => Some(Comparison::AtLeast),
        "=" => Some(Comparison::Equal),
        "!=" => Some(Comparison::Unequal),
        _ => None,
    }
}

fn arithmetic(word: &str) -> Arithmetic {
    match word {
        "+" => Arithmetic::Plus,
        "-" => Arithmetic::Minus,
        "*" => Arithmetic::Times,
        "/" => Arithmetic::Quotient,
        _ => Arithmetic::Remainder,
    }
}

fn operand(alloc: Global, word: &str) -> Result<Expr, AllocError> {
    if word == "key_in_0" {
        return Ok(Expr::KeyIn { part: 0 });
    }
    if word == "now" {
        return Ok(Expr::Now);
    }
    if let Some(name) = word.strip_prefix('$') {
        let name = String::from_str(alloc, name)?;
        return Ok(Expr::ValueOf { name });
    }
    match word.split_once('.') {
        Some((variable, field)) => attribute(alloc, variable, field),
        None => Ok(Expr::literal(value(alloc, word)?)),
    }
}

fn attribute(alloc: Global, variable: &str, field: &str) -> Result<Expr, AllocError> {
    let variable = String::from_str(alloc, variable)?;
    if field == "key" {
        return Ok(Expr::KeyOf { variable });
    }
    let field = String::from_str(alloc, field)?;
    Ok(Expr::FieldOf { variable, field })
}

fn value(alloc: Global, word: &str) -> Result<Value, AllocError> {
    if let Ok(number) = word.parse::<i64>() {
        return Ok(Value::Int(number));
    }
    match word.strip_prefix('\'') {
        Some(text) => Ok(Value::Text(Box::new(alloc, String::from_str(alloc, text)?)?)),
        None => Ok(Value::Bool(word == "true")),
    }
}
