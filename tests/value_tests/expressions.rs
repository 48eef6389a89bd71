//! Values of expressions, worked out by hand, and the public functions without faults.

use super::fixtures::{account, row};
use super::postfix::expression;
use hp_value::{
    Answer, Arithmetic, Cause, Comparison, Env, Expr, Field, Halt, KeyedRow, Kind, ObjectList,
    Occurrence, Prim, Row, Value,
};
use std::alloc::{AllocError, Global};
use std::process::Abort;
use std::sync::Arc;
use std::test::Fail;

fn text(alloc: Global, s: &str) -> Result<Value, AllocError> {
    Ok(Value::Text(Box::new(alloc, String::from_str(alloc, s)?)?))
}

fn int(z: i64) -> Result<Value, Halt> {
    Ok(Value::Int(z))
}

fn truth(b: bool) -> Result<Value, Halt> {
    Ok(Value::Bool(b))
}

fn fault(cause: Cause) -> Result<Value, Halt> {
    Err(Halt::Cause(cause))
}

fn shows(rt: &impl Abort, alloc: Global, env: &Env<'_>, e: &Expr, want: Result<Value, Halt>) {
    match &want {
        Ok(value) => {
            assert_eq!(rt; e.boolean(env), value.as_bool());
            assert_eq!(rt; e.integer(env), value.as_int());
        }
        Err(Halt::Cause(cause)) => {
            assert_eq!(rt; e.boolean(env), Err(*cause));
            assert_eq!(rt; e.integer(env), Err(*cause));
        }
        Err(Halt::Memory) => {}
    }
    assert_eq!(rt; e.eval(alloc, env), want);
}

/// The expression, which is in postfix notation, has this value.
fn reads(
    rt: &impl Abort,
    alloc: Global,
    env: &Env<'_>,
    postfix: &str,
    want: Result<Value, Halt>,
) -> Result<(), AllocError> {
    let e = expression(alloc, postfix)?;
    shows(rt, alloc, env, &e, want);
    Ok(())
}

fn is_fault(rt: &impl Abort, alloc: Global, postfix: &str, cause: Cause) -> Result<(), AllocError> {
    reads(
        rt,
        alloc,
        &Env::new(None, &[], &[], 0),
        postfix,
        fault(cause),
    )
}

fn is_truth(rt: &impl Abort, alloc: Global, postfix: &str, b: bool) -> Result<(), AllocError> {
    reads(rt, alloc, &Env::new(None, &[], &[], 0), postfix, truth(b))
}

#[test]
fn arithmetic_overflows_outside_64_bits_and_divides_by_no_zero(rt: HostRuntime) {
    let (least, largest) = (i64::MIN, i64::MAX);
    let overflow = Err(Cause::Overflow);
    let rows = [
        (Arithmetic::Plus, largest, 1, overflow),
        (Arithmetic::Plus, largest, least, Ok(-1)),
        (Arithmetic::Minus, least, 1, overflow),
        (Arithmetic::Minus, 0, least, overflow),
        (Arithmetic::Minus, -1, least, Ok(largest)),
        (Arithmetic::Times, least, -1, overflow),
        (Arithmetic::Times, least, 1, Ok(least)),
        (Arithmetic::Times, 4_294_967_296, 2_147_483_648, overflow),
        (Arithmetic::Quotient, least, -1, overflow),
        (Arithmetic::Quotient, largest, -1, Ok(-largest)),
        (Arithmetic::Quotient, -7, 2, Ok(-3)),
        (Arithmetic::Quotient, 7, -2, Ok(-3)),
        (Arithmetic::Quotient, 0, 0, Err(Cause::DivideByZero)),
        (Arithmetic::Remainder, least, -1, overflow),
        (Arithmetic::Remainder, -7, 2, Ok(-1)),
        (Arithmetic::Remainder, 7, -2, Ok(1)),
        (Arithmetic::Remainder, least, 0, Err(Cause::DivideByZero)),
    ];
    for (op, x, y, want) in rows {
        assert_eq!(rt; op.calculate(x, y), want, "{op:?} of {x} and {y}");
    }
}

// Operands are evaluated before their kinds are tested, and kinds are tested before the result.
#[test]
fn operands_are_evaluated_before_their_kinds_are_tested(rt: HostRuntime) -> Result<(), Fail> {
    for (postfix, cause) in [
        ("true 1 0 / +", Cause::DivideByZero),
        ("true 0 /", Cause::Kind),
        ("true 1 0 / <", Cause::DivideByZero),
        ("false true <", Cause::Kind),
        ("-9223372036854775808 negated", Cause::Overflow),
        ("1 not", Cause::Kind),
    ] {
        is_fault(&rt, rt.alloc(), postfix, cause)?;
    }
    Ok(())
}

/// An evaluation that looked for the fault twice at each operator would take 2^60 steps.
#[test]
fn a_fault_beneath_many_operators_is_found_at_once(rt: HostRuntime) -> Result<(), Fail> {
    let mut nested = expression(rt.alloc(), "true")?;
    for _ in 0..60 {
        let one = Box::new(rt.alloc(), Expr::literal(Value::Int(1)))?;
        let sum = Expr::Arithmetic(Arithmetic::Plus, one, nested);
        nested = Box::new(rt.alloc(), Expr::Negated(Box::new(rt.alloc(), sum)?))?;
    }
    let env = Env::new(None, &[], &[], 0);
    shows(&rt, rt.alloc(), &env, &nested, fault(Cause::Kind));
    Ok(())
}

#[test]
fn and_and_or_evaluate_the_second_operand_only_if_it_matters(rt: HostRuntime) -> Result<(), Fail> {
    is_truth(&rt, rt.alloc(), "false 1 0 / and", false)?;
    is_fault(&rt, rt.alloc(), "true 1 0 / and", Cause::DivideByZero)?;
    is_truth(&rt, rt.alloc(), "true 1 0 / or", true)?;
    is_fault(&rt, rt.alloc(), "false 1 0 / or", Cause::DivideByZero)?;
    is_fault(&rt, rt.alloc(), "false 1 or", Cause::Kind)?;
    Ok(())
}

fn assert_less(rt: &impl Abort, alloc: Global, s: &str, t: &str) -> Result<(), AllocError> {
    let v = text(alloc, s)?;
    let w = text(alloc, t)?;
    assert_eq!(rt; Comparison::Less.compare(&v, &w), Ok(true), "{s} and {t}");
    assert_eq!(rt;
        Comparison::AtMost.compare(&w, &v),
        Ok(false),
        "{s} and {t}"
    );
    Ok(())
}

// In UTF-8 the first byte of é is above that of each letter, and a prefix precedes a longer text.
#[test]
fn texts_are_ordered_by_their_bytes(rt: HostRuntime) -> Result<(), Fail> {
    assert_less(&rt, rt.alloc(), "Z", "a")?;
    assert_less(&rt, rt.alloc(), "z", "é")?;
    assert_less(&rt, rt.alloc(), "", "a")?;
    assert_less(&rt, rt.alloc(), "ab", "abc")?;
    Ok(())
}

fn field(alloc: Global, name: &str, kind: Kind) -> Result<Field, AllocError> {
    let name = String::from_str(alloc, name)?;
    Ok(Field { name, kind })
}

// The fields `name` and `held`.
fn stock_fields(alloc: Global) -> Result<Arc<Vec<Field>>, AllocError> {
    let mut fields = Vec::new(alloc);
    fields.push(field(alloc, "name", Kind::Text)?)?;
    fields.push(field(alloc, "held", Kind::Int)?)?;
    Ok(Arc::new(alloc, fields)?)
}

fn stock_values(alloc: Global, name: &str, held: i64) -> Result<Vec<Value>, AllocError> {
    let mut values = Vec::new(alloc);
    values.push(text(alloc, name)?)?;
    values.push(Value::Int(held))?;
    Ok(values)
}

fn stock(alloc: Global, name: &str, held: i64) -> Result<Row, AllocError> {
    let fields = stock_fields(alloc)?;
    Row::new(alloc, &fields, stock_values(alloc, name, held)?.into())
}

fn alarm(alloc: Global) -> Result<Prim, AllocError> {
    let args = vec![in alloc; text(alloc, "low")?]?;
    let name = String::from_str(alloc, "alarm")?;
    Ok(Prim::Signal { name, args })
}

fn sale(alloc: Global) -> Result<Prim, AllocError> {
    let old = stock(alloc, "bolt", 7)?;
    let new = stock(alloc, "bolt", 5)?;
    Ok(Prim::Update {
        class: 0,
        key: -4,
        old,
        new,
    })
}

// A signal, a moment outside the range of `i64`, and an update; the count is out of range too.
fn three_parts(alloc: Global) -> Result<Occurrence, AllocError> {
    let mut parts = Vec::new(alloc);
    parts.push(alarm(alloc)?)?;
    parts.push(Prim::Time(9_223_372_036_854_775_808))?;
    parts.push(sale(alloc)?)?;
    Ok(Occurrence {
        parts: parts.into(),
        count: 9_223_372_036_854_775_808,
    })
}

fn new_field(alloc: Global, part: u16, field: &str) -> Result<Expr, AllocError> {
    let field = String::from_str(alloc, field)?;
    Ok(Expr::NewField { part, field })
}

fn old_field(alloc: Global, part: u16, field: &str) -> Result<Expr, AllocError> {
    let field = String::from_str(alloc, field)?;
    Ok(Expr::OldField { part, field })
}

fn new_is(
    rt: &impl Abort,
    alloc: Global,
    env: &Env<'_>,
    part: u16,
    field: &str,
    want: Result<Value, Halt>,
) -> Result<(), AllocError> {
    let e = new_field(alloc, part, field)?;
    shows(rt, alloc, env, &e, want);
    Ok(())
}

fn field_values(rt: &impl Abort, alloc: Global, env: &Env<'_>) -> Result<(), AllocError> {
    new_is(rt, alloc, env, 2, "held", int(5))?;
    new_is(rt, alloc, env, 2, "price", fault(Cause::Kind))?;
    new_is(rt, alloc, env, 0, "held", fault(Cause::NoParameter))?;
    new_is(rt, alloc, env, 3, "held", fault(Cause::NoParameter))?;
    let old = old_field(alloc, 2, "held")?;
    shows(rt, alloc, env, &old, int(7));
    Ok(())
}

fn other_values(rt: &impl Abort, alloc: Global, env: &Env<'_>) -> Result<(), AllocError> {
    let low = text(alloc, "low")?;
    let argument = Expr::Argument { part: 0, place: 0 };
    shows(rt, alloc, env, &argument, Ok(low));
    let argument = Expr::Argument { part: 0, place: 1 };
    shows(rt, alloc, env, &argument, fault(Cause::NoParameter));
    shows(rt, alloc, env, &Expr::KeyIn { part: 2 }, int(-4));
    let time = Expr::TimeOf { part: 1 };
    shows(rt, alloc, env, &time, fault(Cause::Overflow));
    shows(rt, alloc, env, &Expr::Count, fault(Cause::Overflow));
    Ok(())
}

#[test]
fn expressions_read_the_parts_of_an_occurrence(rt: HostRuntime) -> Result<(), Fail> {
    let occurrence = three_parts(rt.alloc())?;
    let env = Env::new(Some(&occurrence), &[], &[], 0);
    field_values(&rt, rt.alloc(), &env)?;
    other_values(&rt, rt.alloc(), &env)?;
    let env = Env::new(None, &[], &[], 0);
    shows(
        &rt,
        rt.alloc(),
        &env,
        &Expr::Count,
        fault(Cause::NoParameter),
    );
    assert!(rt; occurrence.clone()? == occurrence);
    Ok(())
}

// An answer named s, with a row for each of some keys.
fn answer(alloc: Global, keys: &[i64]) -> Result<Answer, AllocError> {
    let mut rows = Vec::new(alloc);
    for key in keys {
        let row = stock(alloc, "nut", *key)?;
        rows.push(KeyedRow { key: *key, row })?;
    }
    let name = String::from_str(alloc, "s")?;
    Ok(Answer { name, rows })
}

// The second answer hides the first, and the third is empty.
fn kept(alloc: Global) -> Result<Vec<Answer>, AllocError> {
    let mut kept = Vec::new(alloc);
    kept.push(answer(alloc, &[1])?)?;
    kept.push(answer(alloc, &[2])?)?;
    kept.push(answer(alloc, &[])?)?;
    Ok(kept)
}

fn named_values(
    rt: &impl Abort,
    alloc: Global,
    env: &Env<'_>,
    row: &Row,
) -> Result<(), AllocError> {
    reads(rt, alloc, env, "s.key", int(2))?;
    let inner = env.bound("s", 4, row);
    reads(rt, alloc, &inner, "s.key", int(4))?;
    let other = env.bound("t", 5, row);
    reads(rt, alloc, &other, "s.key", int(2))?;
    reads(rt, alloc, &other, "t.held", int(9))?;
    reads(rt, alloc, &other, "u.key", fault(Cause::Kind))
}

#[test]
fn a_name_means_its_innermost_row(rt: HostRuntime) -> Result<(), Fail> {
    let kept = kept(rt.alloc())?;
    let row = stock(rt.alloc(), "cog", 9)?;
    named_values(&rt, rt.alloc(), &Env::new(None, &kept, &[], 0), &row)?;
    Ok(())
}

fn change_held(rt: &impl Abort, alloc: Global, row: &Row) -> Result<(), AllocError> {
    let next = row.with_values(alloc, stock_values(alloc, "bolt", 5)?.into())?;
    assert!(rt; next != *row);
    let anew = stock(alloc, "bolt", 5)?;
    assert!(rt; next == anew, "another list of fields");
    Ok(())
}

fn assert_fields(rt: &impl Abort, row: &Row) {
    assert!(rt; row.len() == 2 && row.get(2).is_none());
    assert!(rt; matches!(row.get(1), Some(("held", Value::Int(7)))));
    assert!(rt; row.field("stock").is_err());
}

#[test]
fn a_row_has_the_fields_of_its_class(rt: HostRuntime) -> Result<(), Fail> {
    let row = stock(rt.alloc(), "bolt", 7)?;
    assert_fields(&rt, &row);
    change_held(&rt, rt.alloc(), &row)?;
    assert!(rt; row == row.clone()?);
    Ok(())
}

/// Two objects: one with the number 5 under the name `bal`, and one with the given value and name.
fn two_objects(alloc: Global, name: &str, value: i64) -> Result<ObjectList, AllocError> {
    let mut objects = ObjectList::new(alloc);
    objects.push(1, account(alloc, 5)?)?;
    objects.push(2, row(alloc, name, Value::Int(value))?)?;
    Ok(objects)
}

/// Whether these two objects are equal to those.
fn are_same(
    alloc: Global,
    objects: &ObjectList,
    name: &str,
    value: i64,
) -> Result<bool, AllocError> {
    let others = two_objects(alloc, name, value)?;
    Ok(*objects == others)
}

/// Compares two lists of two objects: those of `alike` have the same name, those of `mixed` different names.
fn compare(
    rt: &impl Abort,
    alloc: Global,
    alike: &ObjectList,
    mixed: &ObjectList,
) -> Result<(), AllocError> {
    assert!(rt; are_same(alloc, alike, "bal", 7)?);
    assert!(rt; !are_same(alloc, alike, "bal", 8)?);
    assert!(rt; !are_same(alloc, alike, "sum", 7)?);
    assert!(rt; are_same(alloc, mixed, "sum", 7)?);
    assert!(rt; !are_same(alloc, mixed, "sum", 8)?);
    Ok(())
}

fn three_objects(alloc: Global) -> Result<ObjectList, AllocError> {
    let mut objects = two_objects(alloc, "bal", 7)?;
    objects.push(3, account(alloc, 9)?)?;
    Ok(objects)
}

#[test]
fn lists_of_objects_are_equal_if_their_rows_are(rt: HostRuntime) -> Result<(), Fail> {
    let alike = two_objects(rt.alloc(), "bal", 7)?;
    let mixed = two_objects(rt.alloc(), "sum", 7)?;
    compare(&rt, rt.alloc(), &alike, &mixed)?;
    let more = three_objects(rt.alloc())?;
    assert!(rt; alike != more && more != alike);
    Ok(())
}

// If an allocation is refused, the value is the same or there is none; it is never another value or a cause.
#[test]
fn a_refused_allocation_gives_no_other_value(rt: HostRuntime) -> Result<(), Fail> {
    let row = stock(rt.alloc(), "bolt", 7)?;
    let same = expression(rt.alloc(), "s.name 'bolt =")?;
    let env = Env::new(None, &[], &[], 0);
    let found = same.eval(rt.alloc(), &env.bound("s", 1, &row));
    assert!(rt; found == Ok(Value::Bool(true)) || found == Err(Halt::Memory));
    Ok(())
}
