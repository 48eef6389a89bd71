//! Answers over a plain map. The expected values are worked out by hand.

use super::fixtures::{accounts, assert_fault, assert_keys, put, query, row, text_value};
use super::postfix::expression;
use hp_query::{Entry, PlainObjects, Verdict, answer, evaluate_condition, selected_rows};
use hp_value::{Answer, Cause, ClassNo, Env, Halt, Key, KeyedRow, Occurrence, Value};
use std::alloc::{AllocError, Global};
use std::process::Abort;
use std::test::Fail;

// The rows of a class for which a predicate on x is true.
fn selected(
    alloc: Global,
    objects: &mut PlainObjects,
    class: ClassNo,
    predicate: &str,
) -> Result<Vec<KeyedRow>, Halt> {
    let predicate = expression(alloc, predicate)?;
    selected_rows(
        alloc,
        "x",
        class,
        &predicate,
        &Env::new(None, &[], &[], 0),
        objects,
    )
}

fn assert_selected(
    rt: &impl Abort,
    alloc: Global,
    objects: &mut PlainObjects,
    class: ClassNo,
    predicate: &str,
    keys: &[Key],
) -> Result<(), Halt> {
    let rows = selected(alloc, objects, class, predicate)?;
    assert_keys(rt, &rows, keys);
    Ok(())
}

// The answer of a query for the rows of a class, named x, for which a predicate is true.
fn answered(
    alloc: Global,
    objects: &mut PlainObjects,
    class: ClassNo,
    predicate: &str,
) -> Result<Vec<KeyedRow>, Halt> {
    let asked = query(alloc, "x", class, predicate)?;
    answer(alloc, &asked, &Env::new(None, &[], &[], 0), objects)
}

fn assert_positive(rt: &impl Abort, alloc: Global, objects: &mut PlainObjects) -> Result<(), Halt> {
    let rows = answered(alloc, objects, 0, "x.bal 0 >")?;
    assert_keys(rt, &rows, &[-20, 2, 10]);
    for r in &rows {
        assert!(rt; objects.get(0, r.key) == Some(&r.row));
    }
    Ok(())
}

#[test]
fn an_answer_has_the_rows_of_one_class_by_rising_keys(rt: HostRuntime) -> Result<(), Fail> {
    let mut objects = accounts(rt.alloc())?;
    assert_positive(&rt, rt.alloc(), &mut objects)?;
    let cases: [(ClassNo, &[Key]); 3] = [(0, &[-20, -3, 2, 10]), (1, &[2, 5]), (2, &[])];
    for (class, keys) in cases {
        assert_selected(&rt, rt.alloc(), &mut objects, class, "x.bal -1 >", keys)?;
    }
    Ok(())
}

// The accounts, of which the one with the key 2 has a text in place of a balance.
fn accounts_and_a_text(alloc: Global) -> Result<PlainObjects, AllocError> {
    let mut objects = accounts(alloc)?;
    objects.insert(0, 2, row(alloc, "bal", text_value(alloc, "much")?)?)?;
    Ok(objects)
}

// It is true at -20, divides by zero at -3, and meets a text at 2.
const IS_A_HALF_OF_TEN: &str = "10 x.bal / 2 =";

fn assert_faults_in_turn(
    rt: &impl Abort,
    alloc: Global,
    objects: &mut PlainObjects,
) -> Result<(), Halt> {
    let found = answered(alloc, objects, 0, IS_A_HALF_OF_TEN);
    assert_fault(rt, found, Cause::DivideByZero);
    assert!(rt; objects.remove(0, -3).is_some());
    assert_fault(
        rt,
        answered(alloc, objects, 0, IS_A_HALF_OF_TEN),
        Cause::Kind,
    );
    assert!(rt; objects.remove(0, 2).is_some());
    assert_keys(
        rt,
        &answered(alloc, objects, 0, IS_A_HALF_OF_TEN)?,
        &[-20, 10],
    );
    Ok(())
}

#[test]
fn an_answer_is_the_first_fault_in_key_order(rt: HostRuntime) -> Result<(), Fail> {
    let mut objects = accounts_and_a_text(rt.alloc())?;
    assert_faults_in_turn(&rt, rt.alloc(), &mut objects)?;
    Ok(())
}

#[test]
fn a_predicate_that_is_no_boolean_is_a_fault(rt: HostRuntime) -> Result<(), Fail> {
    let mut objects = accounts(rt.alloc())?;
    assert_fault(
        &rt,
        answered(rt.alloc(), &mut objects, 1, "x.bal"),
        Cause::Kind,
    );
    assert_keys(&rt, &answered(rt.alloc(), &mut objects, 3, "x.bal")?, &[]);
    Ok(())
}

// Rows with a key, on either side, whose balance is positive.
const BY_KEY: [(&str, &[Key]); 6] = [
    ("x.key 10 = x.bal 0 > and", &[10]),
    ("10 x.key = x.bal 0 > and", &[10]),
    ("x.key -3 = x.bal 0 > and", &[]),
    ("-3 x.key = x.bal 0 > and", &[]),
    ("x.key 3 = x.bal 0 > and", &[]),
    ("3 x.key = x.bal 0 > and", &[]),
];

fn assert_one_key(rt: &impl Abort, alloc: Global, objects: &mut PlainObjects) -> Result<(), Halt> {
    for (predicate, keys) in &BY_KEY {
        assert_selected(rt, alloc, objects, 0, predicate, keys)?;
    }
    Ok(())
}

// What follows the key is evaluated for its row alone: the row at 2 has a text, above which nothing is.
#[test]
fn a_query_for_one_key_tests_its_row_alone(rt: HostRuntime) -> Result<(), Fail> {
    let mut objects = accounts_and_a_text(rt.alloc())?;
    assert_one_key(&rt, rt.alloc(), &mut objects)?;
    let found = selected(rt.alloc(), &mut objects, 0, "x.key 2 = x.bal 0 > and");
    assert_fault(&rt, found, Cause::Kind);
    let found = selected(rt.alloc(), &mut objects, 0, "2 x.key = x.bal 0 > and");
    assert_fault(&rt, found, Cause::Kind);
    Ok(())
}

// A fault of the value compared with the key is a fault of the first row, if there is one.
#[test]
fn a_fault_of_the_key_is_one_of_the_first_row(rt: HostRuntime) -> Result<(), Fail> {
    let mut objects = accounts(rt.alloc())?;
    let unknown = "x.key key_in_0 =";
    let found = selected(rt.alloc(), &mut objects, 0, unknown);
    assert_fault(&rt, found, Cause::NoParameter);
    assert_selected(&rt, rt.alloc(), &mut objects, 2, unknown, &[])?;
    // Each row's key equals its own key, so all rows are answers.
    let own = "x.key x.key =";
    assert_selected(&rt, rt.alloc(), &mut objects, 0, own, &[-20, -3, 2, 10])?;
    Ok(())
}

fn verdict(
    alloc: Global,
    queries: &[Entry],
    objects: &mut PlainObjects,
) -> Result<Verdict, AllocError> {
    let occurrence = Occurrence {
        parts: Vec::new(alloc).into(),
        count: 0,
    };
    evaluate_condition(alloc, queries, &occurrence, 0, objects)
}

fn assert_answer(rt: &impl Abort, answer: Option<&Answer>, name: &str, wanted: &[Key]) {
    match answer {
        Some(answer) => {
            assert_eq!(rt; answer.name.as_str(), name);
            assert_keys(rt, &answer.rows, wanted);
        }
        None => panic!(rt; "no answer of {name}"),
    }
}

// x: -20, 2 and 10, the first of which has the balance 5; y: those of class 1 above it.
fn two_queries(alloc: Global) -> Result<Vec<Entry>, AllocError> {
    let mut queries = Vec::new(alloc);
    queries.push(Entry::Query(query(alloc, "x", 0, "x.bal 0 >")?))?;
    queries.push(Entry::Query(query(alloc, "y", 1, "y.bal x.bal >")?))?;
    Ok(queries)
}

// Both queries have answers, with these keys.
fn assert_kept(
    rt: &impl Abort,
    alloc: Global,
    queries: &[Entry],
    objects: &mut PlainObjects,
    xs: &[Key],
    ys: &[Key],
) -> Result<(), AllocError> {
    match verdict(alloc, queries, objects)? {
        Verdict::Satisfied(found) => {
            assert_eq!(rt; found.answers.len(), 2);
            assert_answer(rt, found.answers.get(0), "x", xs);
            assert_answer(rt, found.answers.get(1), "y", ys);
        }
        other => panic!(rt; "not satisfied: {other:?}"),
    }
    Ok(())
}

#[test]
fn a_later_query_may_name_the_first_row_of_an_earlier_one(rt: HostRuntime) -> Result<(), Fail> {
    let alloc = rt.alloc();
    let queries = two_queries(alloc)?;
    let mut objects = accounts(alloc)?;
    assert_kept(&rt, alloc, &queries, &mut objects, &[-20, 2, 10], &[2, 5])?;
    put(alloc, &mut objects, 0, -21, 8)?;
    assert_kept(&rt, alloc, &queries, &mut objects, &[-21, -20, 2, 10], &[2])?;
    Ok(())
}

// The first has an empty answer while no balance is above 100, and the second has a fault.
fn empty_and_faulty(alloc: Global) -> Result<Vec<Entry>, AllocError> {
    let mut queries = Vec::new(alloc);
    queries.push(Entry::Query(query(alloc, "x", 0, "x.bal 100 >")?))?;
    queries.push(Entry::Query(query(alloc, "y", 1, "y.bal")?))?;
    Ok(queries)
}

fn assert_ends(
    rt: &impl Abort,
    alloc: Global,
    queries: &[Entry],
    objects: &mut PlainObjects,
) -> Result<(), AllocError> {
    assert!(rt; matches!(verdict(alloc, &[], objects)?, Verdict::Satisfied(_)));
    let found = verdict(alloc, queries, objects)?;
    assert!(rt; matches!(found, Verdict::Unsatisfied));
    put(alloc, objects, 0, 0, 101)?;
    let found = verdict(alloc, queries, objects)?;
    assert!(rt; matches!(found, Verdict::Faulty(Cause::Kind)));
    Ok(())
}

#[test]
fn a_condition_ends_at_its_first_empty_answer_or_fault(rt: HostRuntime) -> Result<(), Fail> {
    let queries = empty_and_faulty(rt.alloc())?;
    let mut objects = accounts(rt.alloc())?;
    assert_ends(&rt, rt.alloc(), &queries, &mut objects)?;
    Ok(())
}

// Runs with each allocation refused in turn: the call returns the error, and the next call answers as usual.
#[test]
fn a_refused_allocation_is_reported(rt: HostRuntime) {
    let alloc = rt.alloc();
    let env = Env::new(None, &[], &[], 0);
    let Ok(mut objects) = accounts(alloc) else {
        return;
    };
    let Ok(predicate) = expression(alloc, "x.bal 0 >") else {
        return;
    };
    let mut refused = 0u8;
    for _ in 0..2u8 {
        match selected_rows(alloc, "x", 0, &predicate, &env, &mut objects) {
            Ok(rows) => assert_keys(&rt, &rows, &[-20, 2, 10]),
            Err(halt) => {
                assert_eq!(rt; halt, Halt::Memory);
                refused = refused.saturating_add(1);
            }
        }
    }
    assert!(rt; refused < 2);
}
