//! Aggregates, and conditions with `no` and `let`, over a plain map. The expected values are worked out by hand.

use super::fixtures::{accounts, assert_keys, put, query, row, text, text_value};
use super::postfix::expression;
use hp_query::{
    Aggregate, Entry, Findings, PlainObjects, Verdict, aggregated, evaluate_condition, let_value,
};
use hp_value::{Cause, ClassNo, Env, Halt, Key, NamedValue, Occurrence, Value};
use std::alloc::{AllocError, Global};
use std::process::Abort;
use std::test::Fail;

// An aggregate over the rows x of class 0; a count has no term.
fn over(alloc: Global, word: &str, predicate: &str, term: &str) -> Result<Aggregate, AllocError> {
    let rows = query(alloc, "x", 0, predicate)?;
    let term = expression(alloc, term)?;
    Ok(match word {
        "sum" => Aggregate::Sum { rows, term },
        "least" => Aggregate::Least { rows, term },
        "greatest" => Aggregate::Greatest { rows, term },
        _ => Aggregate::Count(rows),
    })
}

fn found(
    alloc: Global,
    objects: &mut PlainObjects,
    aggregate: &Aggregate,
) -> Result<Option<Value>, Halt> {
    aggregated(alloc, aggregate, &Env::new(None, &[], &[], 0), objects)
}

// An aggregate, and its value, if it has one.
type Case = (&'static str, &'static str, &'static str, Option<i64>);

// The balances are 5, 0, 3 and 4, by the keys -20, -3, 2 and 10.
const VALUES: [Case; 11] = [
    ("count", "x.bal 2 >", "x.bal", Some(3)),
    ("count", "x.key 2 =", "x.bal", Some(1)),
    ("count", "x.bal 100 >", "x.bal", Some(0)),
    ("sum", "true", "x.bal", Some(12)),
    ("sum", "x.key 0 <", "x.key", Some(-23)),
    ("sum", "false", "x.bal", Some(0)),
    ("least", "true", "x.bal", Some(0)),
    ("least", "x.bal 0 >", "x.bal", Some(3)),
    ("least", "x.bal 100 >", "x.bal", None),
    ("greatest", "x.key 0 >", "x.bal", Some(4)),
    ("greatest", "x.bal 100 >", "x.bal", None),
];

fn assert_values(rt: &impl Abort, alloc: Global, objects: &mut PlainObjects) -> Result<(), Halt> {
    for (word, predicate, term, wanted) in &VALUES {
        let value = found(alloc, objects, &over(alloc, word, predicate, term)?)?;
        assert!(rt; value == wanted.map(Value::Int), "{word} {predicate}");
    }
    Ok(())
}

#[test]
fn each_aggregate_has_its_value(rt: HostRuntime) -> Result<(), Fail> {
    let mut objects = accounts(rt.alloc())?;
    assert_values(&rt, rt.alloc(), &mut objects)?;
    Ok(())
}

// For one row the predicate is first, then the term, then its merging, and the rows are taken in key order.
const FAULTS: [(&str, &str, &str, Cause); 8] = [
    ("count", "x.bal", "x.bal", Cause::Kind),
    ("sum", "true", "x.bal 0 >", Cause::Kind),
    ("sum", "true", "1 x.bal /", Cause::DivideByZero),
    ("sum", "1 x.bal / 0 >=", "true", Cause::Kind),
    ("sum", "1 x.key 20 + / 0 >", "true", Cause::DivideByZero),
    (
        "sum",
        "true",
        "x.key 9223372036854775807 +",
        Cause::Overflow,
    ),
    ("least", "true", "x.bal 0 >", Cause::Kind),
    ("greatest", "x.key 2 =", "true", Cause::Kind),
];

fn assert_faults(
    rt: &impl Abort,
    alloc: Global,
    objects: &mut PlainObjects,
) -> Result<(), AllocError> {
    for (word, predicate, term, cause) in &FAULTS {
        let value = found(alloc, objects, &over(alloc, word, predicate, term)?);
        assert!(rt;
            value == Err(Halt::Cause(*cause)),
            "{word} {predicate} {term}"
        );
    }
    Ok(())
}

#[test]
fn the_first_fault_on_the_way_counts(rt: HostRuntime) -> Result<(), Fail> {
    let mut objects = accounts(rt.alloc())?;
    assert_faults(&rt, rt.alloc(), &mut objects)?;
    Ok(())
}

// The balances -1, the largest integer, 1 and -9, by their keys: the sum of the first three is the largest integer.
fn large_accounts(alloc: Global) -> Result<PlainObjects, AllocError> {
    let mut objects = PlainObjects::new(alloc);
    put(alloc, &mut objects, 0, 1, -1)?;
    put(alloc, &mut objects, 0, 2, i64::MAX)?;
    put(alloc, &mut objects, 0, 3, 1)?;
    put(alloc, &mut objects, 0, 4, -9)?;
    Ok(objects)
}

fn assert_partial_sums(rt: &impl Abort, alloc: Global) -> Result<(), Halt> {
    let mut objects = large_accounts(alloc)?;
    let sum = over(alloc, "sum", "x.key 3 <=", "x.bal")?;
    let value = found(alloc, &mut objects, &sum)?;
    assert!(rt; value == Some(Value::Int(i64::MAX)));
    let sum = over(alloc, "sum", "x.key 2 >=", "x.bal")?;
    let value = found(alloc, &mut objects, &sum);
    assert!(rt;
        value == Err(Halt::Cause(Cause::Overflow)),
        "a later row brings it back"
    );
    Ok(())
}

#[test]
fn a_sum_faults_at_its_first_partial_sum_out_of_range(rt: HostRuntime) -> Result<(), Fail> {
    assert_partial_sums(&rt, rt.alloc())?;
    Ok(())
}

// Each account has a text, but for the last one, which keeps its number.
fn named_accounts(alloc: Global) -> Result<PlainObjects, AllocError> {
    let mut objects = accounts(alloc)?;
    for (key, name) in [(-20, "b"), (-3, "ab"), (2, "abc")] {
        objects.insert(0, key, row(alloc, "bal", text_value(alloc, name)?)?)?;
    }
    Ok(objects)
}

fn assert_texts(rt: &impl Abort, alloc: Global, objects: &mut PlainObjects) -> Result<(), Halt> {
    let least = found(
        alloc,
        objects,
        &over(alloc, "least", "x.key 2 <=", "x.bal")?,
    )?;
    assert!(rt; least == Some(text_value(alloc, "ab")?));
    let greatest = found(
        alloc,
        objects,
        &over(alloc, "greatest", "x.key 2 <=", "x.bal")?,
    )?;
    assert!(rt; greatest == Some(text_value(alloc, "b")?));
    let mixed = found(alloc, objects, &over(alloc, "least", "true", "x.bal")?);
    assert!(rt;
        mixed == Err(Halt::Cause(Cause::Kind)),
        "a number after texts"
    );
    Ok(())
}

#[test]
fn texts_are_ordered_by_their_bytes(rt: HostRuntime) -> Result<(), Fail> {
    let mut objects = named_accounts(rt.alloc())?;
    assert_texts(&rt, rt.alloc(), &mut objects)?;
    Ok(())
}

fn assert_next(
    rt: &impl Abort,
    alloc: Global,
    objects: &mut PlainObjects,
    class: ClassNo,
    wanted: Key,
) -> Result<(), Halt> {
    let next = found(alloc, objects, &Aggregate::Next(class))?;
    assert!(rt; next == Some(Value::Int(wanted)), "next of {class}");
    Ok(())
}

fn assert_next_keys(
    rt: &impl Abort,
    alloc: Global,
    objects: &mut PlainObjects,
) -> Result<(), Halt> {
    assert_next(rt, alloc, objects, 0, 11)?;
    assert_next(rt, alloc, objects, 1, 6)?;
    assert_next(rt, alloc, objects, 2, 1)?;
    assert!(rt; objects.remove(0, 10).is_some());
    assert!(rt; objects.remove(0, 2).is_some());
    assert_next(rt, alloc, objects, 0, -2)?;
    put(alloc, objects, 2, i64::MAX, 0)?;
    let next = found(alloc, objects, &Aggregate::Next(2));
    assert!(rt; next == Err(Halt::Cause(Cause::Overflow)));
    Ok(())
}

#[test]
fn the_next_key_is_one_more_than_the_greatest(rt: HostRuntime) -> Result<(), Fail> {
    let mut objects = accounts(rt.alloc())?;
    assert_next_keys(&rt, rt.alloc(), &mut objects)?;
    Ok(())
}

#[test]
fn a_statement_wants_a_value(rt: HostRuntime) -> Result<(), Fail> {
    let mut objects = accounts(rt.alloc())?;
    let least = over(rt.alloc(), "least", "x.bal 100 >", "x.bal")?;
    let value = let_value(
        rt.alloc(),
        &least,
        &Env::new(None, &[], &[], 0),
        &mut objects,
    );
    assert!(&rt; value == Err(Halt::Cause(Cause::Missing)));
    Ok(())
}

// The verdict on a condition at the moment 100.
fn verdict(
    alloc: Global,
    entries: &[Entry],
    objects: &mut PlainObjects,
) -> Result<Verdict, AllocError> {
    let occurrence = Occurrence {
        parts: Vec::new(alloc).into(),
        count: 0,
    };
    evaluate_condition(alloc, entries, &occurrence, 100, objects)
}

fn no(alloc: Global, predicate: &str) -> Result<[Entry; 1], AllocError> {
    Ok([Entry::No(query(alloc, "x", 0, predicate)?)])
}

// The fault comes after a row that meets the predicate: 10 / 5 is 2, and the next balance is 0.
fn assert_no(rt: &impl Abort, alloc: Global, objects: &mut PlainObjects) -> Result<(), AllocError> {
    match verdict(alloc, &no(alloc, "x.bal 100 >")?, objects)? {
        Verdict::Satisfied(found) => assert!(rt;
            found.answers.is_empty() && found.values.is_empty()
        ),
        other => panic!(rt; "not satisfied: {other:?}"),
    }
    let found = verdict(alloc, &no(alloc, "x.bal 4 >")?, objects)?;
    assert!(rt; matches!(found, Verdict::Unsatisfied));
    let found = verdict(alloc, &no(alloc, "10 x.bal / 2 =")?, objects)?;
    assert!(rt; matches!(found, Verdict::Faulty(Cause::DivideByZero)));
    Ok(())
}

#[test]
fn a_no_is_satisfied_by_an_empty_answer_alone(rt: HostRuntime) -> Result<(), Fail> {
    let mut objects = accounts(rt.alloc())?;
    assert_no(&rt, rt.alloc(), &mut objects)?;
    Ok(())
}

fn named(alloc: Global, name: &str, aggregate: Aggregate) -> Result<Entry, AllocError> {
    let name = text(alloc, name)?;
    Ok(Entry::Let { name, aggregate })
}

// n is 3; y has the rows of class 1 with a balance of at least 7; t is 103; k is 6.
fn four_entries(alloc: Global) -> Result<Vec<Entry>, AllocError> {
    let mut entries = Vec::new(alloc);
    entries.push(named(alloc, "n", over(alloc, "count", "x.bal 0 >", "0")?)?)?;
    entries.push(Entry::Query(query(alloc, "y", 1, "y.bal $n 4 + >=")?))?;
    entries.push(named(
        alloc,
        "t",
        Aggregate::Single(expression(alloc, "now $n +")?),
    )?)?;
    entries.push(named(alloc, "k", Aggregate::Next(1))?)?;
    Ok(entries)
}

fn assert_value(rt: &impl Abort, value: Option<&NamedValue>, name: &str, wanted: i64) {
    match value {
        Some(value) => {
            assert_eq!(rt; value.name.as_str(), name);
            assert!(rt; value.value == Value::Int(wanted), "{name}");
        }
        None => panic!(rt; "no value of {name}"),
    }
}

fn assert_findings(rt: &impl Abort, found: &Findings) {
    assert_eq!(rt; found.answers.len(), 1);
    assert_keys(rt, &found.answers[0].rows, &[2, 5]);
    assert_eq!(rt; found.values.len(), 3);
    assert_value(rt, found.values.get(0), "n", 3);
    assert_value(rt, found.values.get(1), "t", 103);
    assert_value(rt, found.values.get(2), "k", 6);
}

#[test]
fn later_entries_see_values_and_the_moment(rt: HostRuntime) -> Result<(), Fail> {
    let mut objects = accounts(rt.alloc())?;
    match verdict(rt.alloc(), &four_entries(rt.alloc())?, &mut objects)? {
        Verdict::Satisfied(found) => assert_findings(&rt, &found),
        other => panic!(&rt; "not satisfied: {other:?}"),
    }
    Ok(())
}

#[test]
fn the_least_of_no_row_is_no_fault_of_a_condition(rt: HostRuntime) -> Result<(), Fail> {
    let mut objects = accounts(rt.alloc())?;
    let least = over(rt.alloc(), "least", "x.bal 100 >", "x.bal")?;
    let entries = [named(rt.alloc(), "m", least)?];
    let found = verdict(rt.alloc(), &entries, &mut objects)?;
    assert!(&rt; matches!(found, Verdict::Unsatisfied));
    Ok(())
}
