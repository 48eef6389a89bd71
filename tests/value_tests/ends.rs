//! The least and the greatest key of a class or of a range of its keys, which are read at one end, and the number of a
//! class's objects. The look counts what it is asked. The expected values are worked out by hand.

use super::fixtures::{account, query};
use super::postfix::expression;
use hp_query::{Aggregate, Look, PlainObjects, aggregated};
use hp_value::{Cause, ClassNo, ClassPart, Env, Halt, Key, KeyedRow, ObjectList, Row, Value};
use std::alloc::{AllocError, Global};
use std::process::Abort;
use std::sync::Arc;
use std::test::Fail;

/// Objects of class 0 that are found by their keys. It shows no world: its answers are tested and not proved.
#[derive(Drop)]
struct Ends {
    objects: PlainObjects,
    // The keys that the hints are taken from, in ascending order; mostly those of the objects.
    hinted: Vec<Key>,
    asked: Calls,
}

/// What a look was asked since this was cleared.
#[derive(Clone, Copy, Debug, PartialEq, Eq)]
struct Calls {
    // Parts, and the objects in them.
    parts: usize,
    found: usize,
    counts: usize,
    // Everything else: rows, keys and lists.
    others: usize,
}

const NOTHING: Calls = Calls {
    parts: 0,
    found: 0,
    counts: 0,
    others: 0,
};

// One part with one object.
const ONE_END: Calls = Calls {
    parts: 1,
    found: 1,
    counts: 0,
    others: 0,
};

impl Look for Ends {
    ghost use Rattle.std.specs.Prelude.{⊤};

    ghost allows = { λ look world. ⊥ };

    ghost goes_on = { λ before after. ⊤ };

    ghost asks = { λ class before after. ⊤ };

    ghost asks_row = { λ class key before after. ⊤ };

    ghost asks_part = { λ class part before after. ⊤ };

    ghost goes_on_same = { λ look. tt };

    ghost goes_on_then = { λ first second third one two. tt };

    ghost asks_same = { λ class look. tt };

    ghost asks_then = { λ class first second third one two. tt };

    ghost asks_row_same = { λ class key look. tt };

    ghost narrows = { λ first second on world is. is };

    fn row(&mut self, alloc: Global, class: ClassNo, key: Key) -> Result<Option<Row>, AllocError> {
        self.asked.others += 1;
        Look::row(&mut self.objects, alloc, class, key)
    }

    fn keys(&mut self, alloc: Global, class: ClassNo) -> Result<Vec<Key>, AllocError> {
        self.asked.others += 1;
        Look::keys(&mut self.objects, alloc, class)
    }

    fn count(&mut self, alloc: Global, class: ClassNo) -> Result<usize, AllocError> {
        self.asked.counts += 1;
        Look::count(&mut self.objects, alloc, class)
    }

    fn greatest_key(&mut self, alloc: Global, class: ClassNo) -> Result<Option<Key>, AllocError> {
        self.asked.others += 1;
        Look::greatest_key(&mut self.objects, alloc, class)
    }

    fn objects(
        &mut self,
        alloc: Global,
        class: ClassNo,
    ) -> Result<Option<Arc<ObjectList>>, AllocError> {
        self.asked.others += 1;
        Ok(None)
    }

    fn part(
        &mut self,
        alloc: Global,
        class: ClassNo,
        part: &ClassPart<'_>,
    ) -> Result<Option<Vec<KeyedRow>>, AllocError> {
        let mut found = Vec::new(alloc);
        for key in Look::keys(&mut self.objects, alloc, class)? {
            if let Some(row) = Look::row(&mut self.objects, alloc, class, key)? {
                match part.has(key, &row) {
                    Ok(true) => found.push(KeyedRow { key, row })?,
                    Ok(false) => {}
                    Err(_) => return Ok(None),
                }
            }
        }
        self.asked.parts += 1;
        self.asked.found += found.len();
        Ok(Some(found))
    }

    fn likely_least(&self, class: ClassNo, low: Option<Key>) -> Option<Key> {
        if class != 0 {
            return None;
        }
        for key in &self.hinted {
            if low.is_none() || low <= Some(*key) {
                return Some(*key);
            }
        }
        None
    }

    fn likely_greatest(&self, class: ClassNo, high: Option<Key>) -> Option<Key> {
        if class != 0 {
            return None;
        }
        for key in self.hinted.iter().rev() {
            if high.is_none() || Some(*key) <= high {
                return Some(*key);
            }
        }
        None
    }
}

impl Ends {
    /// Accounts of class 0 with these keys, which ascend.
    fn new(alloc: Global, keys: &[Key]) -> Result<Ends, AllocError> {
        let mut ends = Ends {
            objects: PlainObjects::new(alloc),
            hinted: Vec::from_slice(alloc, keys)?,
            asked: NOTHING,
        };
        for key in keys {
            ends.objects.insert(0, *key, account(alloc, 1)?)?;
        }
        Ok(ends)
    }

    /// An aggregate over the rows x of a class; a count has no term.
    fn found(
        &mut self,
        alloc: Global,
        class: ClassNo,
        word: &str,
        predicate: &str,
        term: &str,
    ) -> Result<Option<Value>, Halt> {
        let rows = query(alloc, "x", class, predicate)?;
        let term = expression(alloc, term)?;
        let aggregate = match word {
            "least" => Aggregate::Least { rows, term },
            "greatest" => Aggregate::Greatest { rows, term },
            _ => Aggregate::Count(rows),
        };
        self.asked = NOTHING;
        aggregated(alloc, &aggregate, &Env::new(None, &[], &[], 0), self)
    }

    /// The least or the greatest key, and what the look was asked.
    fn key(
        &mut self,
        alloc: Global,
        word: &str,
        predicate: &str,
    ) -> Result<(Option<Value>, Calls), Halt> {
        let value = self.found(alloc, 0, word, predicate, "x.key")?;
        Ok((value, self.asked))
    }

    /// These keys are read at one end, each as one object.
    fn assert_ends(
        &mut self,
        rt: &impl Abort,
        alloc: Global,
        cases: &[(&'static str, &'static str, Key)],
    ) -> Result<(), Halt> {
        for (word, predicate, wanted) in cases {
            let (value, asked) = self.key(alloc, word, predicate)?;
            assert!(rt; value == Some(Value::Int(*wanted)), "{word} {predicate}");
            assert_eq!(rt; asked, ONE_END, "{word} {predicate}");
        }
        Ok(())
    }

    /// There is no such key.
    fn assert_none(
        &mut self,
        rt: &impl Abort,
        alloc: Global,
        predicates: &[&'static str],
    ) -> Result<(), Halt> {
        for predicate in predicates {
            for word in ["least", "greatest"] {
                let (value, _) = self.key(alloc, word, predicate)?;
                assert!(rt; value.is_none(), "{word} {predicate}");
            }
        }
        Ok(())
    }
}

// The keys -499 to 500.
fn thousand(alloc: Global) -> Result<Ends, AllocError> {
    let mut keys = Vec::new(alloc);
    for key in -499..=500i64 {
        keys.push(key)?;
    }
    Ends::new(alloc, &keys)
}

const OF_A_THOUSAND: [(&str, &str, Key); 12] = [
    ("least", "true", -499),
    ("greatest", "true", 500),
    ("least", "x.key 20 >", 21),
    ("least", "20 x.key <", 21),
    ("least", "x.key -20 >=", -20),
    ("least", "x.key 20 <", -499),
    ("least", "x.key 20 <=", -499),
    ("greatest", "x.key 20 <", 19),
    ("greatest", "20 x.key >", 19),
    ("greatest", "x.key -20 <=", -20),
    ("greatest", "x.key 20 >", 500),
    ("greatest", "x.key 10 2 * >=", 500),
];

#[test]
fn a_key_at_an_end_costs_one_object(rt: HostRuntime) -> Result<(), Fail> {
    let mut ends = thousand(rt.alloc())?;
    ends.assert_ends(&rt, rt.alloc(), &OF_A_THOUSAND)?;
    Ok(())
}

fn assert_counts(rt: &impl Abort, alloc: Global) -> Result<(), Halt> {
    let mut ends = thousand(alloc)?;
    let value = ends.found(alloc, 0, "count", "true", "0")?;
    assert!(rt; value == Some(Value::Int(1000)));
    let wanted = Calls {
        counts: 1,
        ..NOTHING
    };
    assert_eq!(rt; ends.asked, wanted);
    let value = ends.found(alloc, 1, "count", "true", "0")?;
    assert!(rt; value == Some(Value::Int(0)), "a class without objects");
    let value = ends.found(alloc, 0, "count", "false", "0")?;
    assert!(rt; value == Some(Value::Int(0)), "no row");
    assert_eq!(rt; ends.asked.counts, 0);
    Ok(())
}

#[test]
fn the_look_counts_a_class(rt: HostRuntime) -> Result<(), Fail> {
    assert_counts(&rt, rt.alloc())?;
    Ok(())
}

const AT_THE_LARGEST: [(&str, &str, Key); 8] = [
    ("least", "true", i64::MIN),
    ("greatest", "true", i64::MAX),
    ("least", "x.key -9223372036854775808 >", 0),
    ("greatest", "x.key 9223372036854775807 <", 0),
    ("least", "x.key -9223372036854775808 >=", i64::MIN),
    ("greatest", "x.key -9223372036854775808 <=", i64::MIN),
    ("least", "x.key 9223372036854775807 >=", i64::MAX),
    ("greatest", "x.key 9223372036854775807 <=", i64::MAX),
];

const BEYOND_THE_LARGEST: [&str; 3] = [
    "x.key 9223372036854775807 >",
    "x.key -9223372036854775808 <",
    "9223372036854775807 x.key <",
];

#[test]
fn the_largest_keys_are_found(rt: HostRuntime) -> Result<(), Fail> {
    let mut ends = Ends::new(rt.alloc(), &[i64::MIN, 0, i64::MAX])?;
    ends.assert_ends(&rt, rt.alloc(), &AT_THE_LARGEST)?;
    ends.assert_none(&rt, rt.alloc(), &BEYOND_THE_LARGEST)?;
    Ok(())
}

#[test]
fn where_no_object_is_there_is_no_key(rt: HostRuntime) -> Result<(), Fail> {
    let mut ends = Ends::new(rt.alloc(), &[-7, -3, 8])?;
    let nowhere = ["x.key 8 >", "x.key -7 <", "x.key 100 >=", "false"];
    ends.assert_none(&rt, rt.alloc(), &nowhere)?;
    let mut ends = Ends::new(rt.alloc(), &[])?;
    ends.assert_none(&rt, rt.alloc(), &["true", "x.key 0 >", "x.key 0 <="])?;
    Ok(())
}

fn assert_other_forms(rt: &impl Abort, alloc: Global) -> Result<(), Halt> {
    let mut ends = Ends::new(alloc, &[-7, -3, 8])?;
    for (word, predicate, wanted) in [
        ("least", "x.key -3 =", -3),
        ("greatest", "x.key 8 !=", -3),
        ("least", "x.key -7 > x.bal 1 = and", -3),
        ("greatest", "x.bal 1 =", 8),
        ("greatest", "x.key x.bal <", -3),
    ] {
        let (value, _) = ends.key(alloc, word, predicate)?;
        assert!(rt; value == Some(Value::Int(wanted)), "{word} {predicate}");
    }
    let value = ends.found(alloc, 0, "least", "true", "x.bal")?;
    assert!(rt; value == Some(Value::Int(1)), "the term is a field");
    Ok(())
}

#[test]
fn other_predicates_and_terms_go_the_ordinary_way(rt: HostRuntime) -> Result<(), Fail> {
    assert_other_forms(&rt, rt.alloc())?;
    Ok(())
}

// The faults are those of the first row; where there is none, there is no fault.
fn assert_faults(rt: &impl Abort, alloc: Global) -> Result<(), Halt> {
    let mut ends = Ends::new(alloc, &[-7, -3, 8])?;
    for (predicate, cause) in [
        ("x.key 'seven >", Cause::Kind),
        ("'seven x.key >=", Cause::Kind),
        ("x.key true <", Cause::Kind),
        ("x.key 9223372036854775807 1 + <", Cause::Overflow),
        ("x.key key_in_0 <", Cause::NoParameter),
    ] {
        for word in ["least", "greatest"] {
            let value = ends.found(alloc, 0, word, predicate, "x.key");
            assert!(rt; value == Err(Halt::Cause(cause)), "{word} {predicate}");
            let value = ends.found(alloc, 1, word, predicate, "x.key")?;
            assert!(rt; value.is_none(), "{word} {predicate} of no row");
        }
    }
    Ok(())
}

#[test]
fn a_faulty_bound_is_a_fault_of_the_first_row(rt: HostRuntime) -> Result<(), Fail> {
    assert_faults(&rt, rt.alloc())?;
    Ok(())
}

// The hints are of keys that have no object, or are not the least or the greatest.
fn assert_hints(rt: &impl Abort, alloc: Global, hinted: &[Key]) -> Result<(), Halt> {
    let mut ends = Ends::new(alloc, &[-7, -3, 8])?;
    ends.hinted = Vec::from_slice(alloc, hinted)?;
    for (word, predicate, wanted) in [
        ("least", "true", -7),
        ("greatest", "true", 8),
        ("least", "x.key -7 >", -3),
        ("greatest", "x.key 8 <", -3),
        ("least", "x.key -3 <=", -7),
        ("greatest", "x.key -3 >=", 8),
    ] {
        let (value, _) = ends.key(alloc, word, predicate)?;
        assert!(rt; value == Some(Value::Int(wanted)), "{word} {predicate}");
    }
    Ok(())
}

#[test]
fn a_wrong_hint_changes_no_answer(rt: HostRuntime) -> Result<(), Fail> {
    let hints: [&[Key]; 6] = [&[], &[-100], &[100], &[0], &[8], &[-100, -7, 100]];
    for hinted in hints {
        assert_hints(&rt, rt.alloc(), hinted)?;
    }
    Ok(())
}
