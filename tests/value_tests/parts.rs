//! Queries that begin by asking for a part of a class, with a look that finds parts and with one that doesn't.

use super::fixtures::{account, accounts, assert_fault, assert_keys, query, row, text_value};
use super::postfix::expression;
use hp_query::{Aggregate, Look, PlainObjects, aggregated, selected_rows};
use hp_value::{Cause, ClassNo, ClassPart, Env, Expr, Halt, Key, KeyedRow, ObjectList, Row, Value};
use std::alloc::{AllocError, Global};
use std::process::Abort;
use std::sync::Arc;
use std::test::Fail;

/// Objects in a plain map that also finds parts. It shows no world: its answers are tested and not proved.
#[derive(Drop)]
struct Parts {
    objects: PlainObjects,
    // The number of objects in the last part, if one was found since this was cleared.
    found: Option<usize>,
}

impl Look for Parts {
    ghost use Rattle.std.specs.Prelude.{⊤};

    ghost allows = { λ look world. ⊥ };

    ghost goes_on = { λ before after. ⊤ };

    ghost asks = { λ class before after. ⊤ };

    ghost asks_row = { λ class key before after. ⊤ };

    ghost asks_part = { λ class part before after. ⊤ };

    ghost goes_on_same = { λ look. tt };

    ghost goes_on_then = { λ first second third one two. tt };

    ghost asks_same = { λ class look. tt };

    ghost asks_then = { λ class first second third one two. tt };

    ghost asks_row_same = { λ class key look. tt };

    ghost narrows = { λ first second on world is. is };

    fn row(&mut self, alloc: Global, class: ClassNo, key: Key) -> Result<Option<Row>, AllocError> {
        Look::row(&mut self.objects, alloc, class, key)
    }

    fn keys(&mut self, alloc: Global, class: ClassNo) -> Result<Vec<Key>, AllocError> {
        Look::keys(&mut self.objects, alloc, class)
    }

    fn count(&mut self, alloc: Global, class: ClassNo) -> Result<usize, AllocError> {
        Look::count(&mut self.objects, alloc, class)
    }

    fn greatest_key(&mut self, alloc: Global, class: ClassNo) -> Result<Option<Key>, AllocError> {
        Look::greatest_key(&mut self.objects, alloc, class)
    }

    fn objects(
        &mut self,
        alloc: Global,
        class: ClassNo,
    ) -> Result<Option<Arc<ObjectList>>, AllocError> {
        Ok(None)
    }

    fn part(
        &mut self,
        alloc: Global,
        class: ClassNo,
        part: &ClassPart<'_>,
    ) -> Result<Option<Vec<KeyedRow>>, AllocError> {
        let mut found = Vec::new(alloc);
        for key in Look::keys(&mut self.objects, alloc, class)? {
            if let Some(row) = Look::row(&mut self.objects, alloc, class, key)? {
                match part.has(key, &row) {
                    Ok(true) => found.push(KeyedRow { key, row })?,
                    Ok(false) => {}
                    Err(_) => return Ok(None),
                }
            }
        }
        self.found = Some(found.len());
        Ok(Some(found))
    }

    fn likely_least(&self, class: ClassNo, low: Option<Key>) -> Option<Key> {
        None
    }

    fn likely_greatest(&self, class: ClassNo, high: Option<Key>) -> Option<Key> {
        None
    }
}

/// The same objects twice: in a look that doesn't find parts, and in one that does.
#[derive(Drop)]
struct Looks {
    plain: PlainObjects,
    parts: Parts,
}

impl Looks {
    fn new(alloc: Global) -> Result<Looks, AllocError> {
        let parts = Parts {
            objects: accounts(alloc)?,
            found: None,
        };
        Ok(Looks {
            plain: accounts(alloc)?,
            parts,
        })
    }

    fn put(
        &mut self,
        alloc: Global,
        class: ClassNo,
        key: Key,
        row: &Row,
    ) -> Result<(), AllocError> {
        self.plain.insert(class, key, row.clone()?)?;
        self.parts.objects.insert(class, key, row.clone()?)
    }

    /// The predicate's rows are those with these keys. Returns the number of objects in the part that was asked for, if
    /// one was.
    fn assert_rows(
        &mut self,
        rt: &impl Abort,
        alloc: Global,
        env: &Env,
        predicate: &str,
        keys: &[Key],
    ) -> Result<Option<usize>, Halt> {
        let predicate = expression(alloc, predicate)?;
        self.assert_both(rt, alloc, env, &predicate, keys)
    }

    fn assert_both(
        &mut self,
        rt: &impl Abort,
        alloc: Global,
        env: &Env,
        predicate: &Expr,
        keys: &[Key],
    ) -> Result<Option<usize>, Halt> {
        let rows = selected_rows(alloc, "x", 0, predicate, env, &mut self.plain)?;
        assert_keys(rt, &rows, keys);
        self.parts.found = None;
        let rows = selected_rows(alloc, "x", 0, predicate, env, &mut self.parts)?;
        assert_keys(rt, &rows, keys);
        Ok(self.parts.found)
    }

    /// The same where no other name has a row.
    fn assert_alone(
        &mut self,
        rt: &impl Abort,
        alloc: Global,
        predicate: &str,
        keys: &[Key],
    ) -> Result<Option<usize>, Halt> {
        self.assert_rows(rt, alloc, &Env::new(None, &[], &[], 0), predicate, keys)
    }

    /// Each comparison has its answer, with either side first.
    fn assert_cases(&mut self, rt: &impl Abort, alloc: Global, cases: &[Case]) -> Result<(), Halt> {
        for (one, other, keys, wanted) in cases {
            let found = self.assert_alone(rt, alloc, one, keys)?;
            assert_eq!(rt; found, *wanted, "{one}");
            let found = self.assert_alone(rt, alloc, other, keys)?;
            assert_eq!(rt; found, *wanted, "{other}");
        }
        Ok(())
    }

    /// The predicate has this fault, and no part is asked for.
    fn assert_faulty(
        &mut self,
        rt: &impl Abort,
        alloc: Global,
        predicate: &str,
        cause: Cause,
    ) -> Result<(), AllocError> {
        let predicate = expression(alloc, predicate)?;
        let env = Env::new(None, &[], &[], 0);
        let found = selected_rows(alloc, "x", 0, &predicate, &env, &mut self.plain);
        assert_fault(rt, found, cause);
        self.parts.found = None;
        let found = selected_rows(alloc, "x", 0, &predicate, &env, &mut self.parts);
        assert_fault(rt, found, cause);
        assert!(rt; self.parts.found.is_none());
        Ok(())
    }

    /// No object of class 2, which has none, is found with parts.
    fn assert_nowhere(
        &mut self,
        rt: &impl Abort,
        alloc: Global,
        predicate: &str,
    ) -> Result<(), Halt> {
        let predicate = expression(alloc, predicate)?;
        let env = Env::new(None, &[], &[], 0);
        let rows = selected_rows(alloc, "x", 2, &predicate, &env, &mut self.parts)?;
        assert_keys(rt, &rows, &[]);
        Ok(())
    }
}

// A comparison, the same one turned, the keys of its answer, and how many objects a part has, if one is asked for.
type Case = (&'static str, &'static str, &'static [Key], Option<usize>);

// A query for one key asks for no part.
const BY_KEY: [Case; 6] = [
    ("x.key 2 =", "2 x.key =", &[2], None),
    ("x.key 2 !=", "2 x.key !=", &[-20, -3, 10], None),
    ("x.key 2 <", "2 x.key >", &[-20, -3], Some(3)),
    ("x.key 2 <=", "2 x.key >=", &[-20, -3, 2], Some(3)),
    ("x.key 2 >", "2 x.key <", &[10], Some(2)),
    ("x.key 2 >=", "2 x.key <=", &[2, 10], Some(2)),
];

// The balances are 5, 0, 3 and 4.
const BY_BALANCE: [Case; 6] = [
    ("x.bal 3 =", "3 x.bal =", &[2], Some(1)),
    ("x.bal 3 !=", "3 x.bal !=", &[-20, -3, 10], None),
    ("x.bal 3 <", "3 x.bal >", &[-3], Some(2)),
    ("x.bal 3 <=", "3 x.bal >=", &[-3, 2], Some(2)),
    ("x.bal 3 >", "3 x.bal <", &[-20, 10], Some(3)),
    ("x.bal 3 >=", "3 x.bal <=", &[-20, 2, 10], Some(3)),
];

#[test]
fn each_comparison_of_a_key_finds_its_rows(rt: HostRuntime) -> Result<(), Fail> {
    let mut looks = Looks::new(rt.alloc())?;
    looks.assert_cases(&rt, rt.alloc(), &BY_KEY)?;
    Ok(())
}

#[test]
fn each_comparison_of_a_field_finds_its_rows(rt: HostRuntime) -> Result<(), Fail> {
    let mut looks = Looks::new(rt.alloc())?;
    looks.assert_cases(&rt, rt.alloc(), &BY_BALANCE)?;
    Ok(())
}

// The sum of the balances of the predicate's rows, with the number of objects in the part that was asked for.
fn part_summed(
    alloc: Global,
    parts: &mut Parts,
    predicate: &str,
) -> Result<(Option<Value>, Option<usize>), Halt> {
    let rows = query(alloc, "x", 0, predicate)?;
    let term = expression(alloc, "x.bal")?;
    let sum = Aggregate::Sum { rows, term };
    parts.found = None;
    let value = aggregated(alloc, &sum, &Env::new(None, &[], &[], 0), parts)?;
    Ok((value, parts.found))
}

fn assert_sums(rt: &impl Abort, alloc: Global, parts: &mut Parts) -> Result<(), Halt> {
    for (predicate, sum, found) in [
        ("x.bal 4 >=", 9, Some(2)),
        ("x.key 2 <=", 8, Some(3)),
        ("x.key 2 =", 3, None),
        ("x.key 2 !=", 9, None),
    ] {
        let wanted = (Some(Value::Int(sum)), found);
        assert!(rt;
            part_summed(alloc, parts, predicate)? == wanted,
            "{predicate}"
        );
    }
    Ok(())
}

#[test]
fn an_aggregate_asks_for_what_a_query_asks_for(rt: HostRuntime) -> Result<(), Fail> {
    let mut looks = Looks::new(rt.alloc())?;
    assert_sums(&rt, rt.alloc(), &mut looks.parts)?;
    Ok(())
}

// What follows the comparison is evaluated on the part alone: elsewhere it would have a fault.
#[test]
fn what_follows_a_comparison_is_evaluated_on_the_part_alone(rt: HostRuntime) -> Result<(), Fail> {
    let mut looks = Looks::new(rt.alloc())?;
    let asked = "3 x.bal <= x.bal 5 < and 7 x.bal / 0 > and";
    let found = looks.assert_alone(&rt, rt.alloc(), asked, &[2, 10])?;
    assert_eq!(rt; found, Some(3));
    Ok(())
}

// The field is below 3.
const IS_POOR: &str = "x.bal 3 <";

// The accounts and one more, which has a text in place of a balance, or another field.
fn with_one_more(alloc: Global, field: &str, value: Value) -> Result<Looks, AllocError> {
    let more = row(alloc, field, value)?;
    let mut looks = Looks::new(alloc)?;
    looks.put(alloc, 0, 11, &more)?;
    Ok(looks)
}

#[test]
fn a_row_that_lacks_the_field_is_a_fault(rt: HostRuntime) -> Result<(), Fail> {
    let mut looks = with_one_more(rt.alloc(), "other", Value::Int(1))?;
    looks.assert_faulty(&rt, rt.alloc(), IS_POOR, Cause::Kind)?;
    Ok(())
}

fn assert_no_text(rt: &impl Abort, alloc: Global, looks: &mut Looks) -> Result<(), AllocError> {
    looks.assert_faulty(rt, alloc, "x.bal 'much <", Cause::Kind)?;
    looks.assert_faulty(rt, alloc, "'much x.bal >", Cause::Kind)
}

fn with_a_text(alloc: Global) -> Result<Looks, AllocError> {
    let much = text_value(alloc, "much")?;
    with_one_more(alloc, "bal", much)
}

#[test]
fn a_value_of_another_kind_is_a_fault(rt: HostRuntime) -> Result<(), Fail> {
    assert_no_text(&rt, rt.alloc(), &mut Looks::new(rt.alloc())?)?;
    let mut looks = with_a_text(rt.alloc())?;
    looks.assert_faulty(&rt, rt.alloc(), IS_POOR, Cause::Kind)?;
    Ok(())
}

// The balances become booleans.
fn put_booleans(alloc: Global, looks: &mut Looks) -> Result<(), AllocError> {
    for key in [-20, -3, 2, 10] {
        let balance = row(alloc, "bal", Value::Bool(key > 0))?;
        looks.put(alloc, 0, key, &balance)?;
    }
    Ok(())
}

const IS_TRUE: &str = "x.bal true =";

// A boolean isn't an integer or a text, so no part is asked for, and all rows are looked at.
#[test]
fn a_comparison_with_a_boolean_asks_for_no_part(rt: HostRuntime) -> Result<(), Fail> {
    let mut looks = Looks::new(rt.alloc())?;
    looks.assert_faulty(&rt, rt.alloc(), IS_TRUE, Cause::Kind)?;
    put_booleans(rt.alloc(), &mut looks)?;
    let found = looks.assert_alone(&rt, rt.alloc(), IS_TRUE, &[2, 10])?;
    assert_eq!(rt; found, None);
    Ok(())
}

// The balances become texts.
fn put_texts(alloc: Global, looks: &mut Looks) -> Result<(), AllocError> {
    for (key, name) in [(-20, "b"), (-3, "a"), (2, "ab"), (10, "")] {
        let named = row(alloc, "bal", text_value(alloc, name)?)?;
        looks.put(alloc, 0, key, &named)?;
    }
    Ok(())
}

const BY_TEXT: [Case; 5] = [
    ("x.bal 'ab =", "'ab x.bal =", &[2], Some(1)),
    ("x.bal 'ab <", "'ab x.bal >", &[-3, 10], Some(3)),
    ("x.bal 'ab <=", "'ab x.bal >=", &[-3, 2, 10], Some(3)),
    ("x.bal 'ab >", "'ab x.bal <", &[-20], Some(2)),
    ("x.bal 'ab >=", "'ab x.bal <=", &[-20, 2], Some(2)),
];

#[test]
fn a_part_by_texts_goes_by_their_bytes(rt: HostRuntime) -> Result<(), Fail> {
    let mut looks = Looks::new(rt.alloc())?;
    put_texts(rt.alloc(), &mut looks)?;
    looks.assert_cases(&rt, rt.alloc(), &BY_TEXT)?;
    Ok(())
}

// A fault of the other side is one of the first row, if there is a row.
#[test]
fn a_fault_of_the_other_side_is_one_of_the_first_row(rt: HostRuntime) -> Result<(), Fail> {
    let mut looks = Looks::new(rt.alloc())?;
    for asked in ["x.bal key_in_0 <", "key_in_0 x.bal >"] {
        looks.assert_faulty(&rt, rt.alloc(), asked, Cause::NoParameter)?;
        looks.assert_nowhere(&rt, rt.alloc(), asked)?;
    }
    Ok(())
}

#[test]
fn a_part_of_a_class_without_objects_is_empty(rt: HostRuntime) -> Result<(), Fail> {
    let mut looks = Looks::new(rt.alloc())?;
    looks.assert_nowhere(&rt, rt.alloc(), IS_POOR)?;
    assert_eq!(rt; looks.parts.found, Some(0));
    Ok(())
}

fn assert_hidden(
    rt: &impl Abort,
    alloc: Global,
    looks: &mut Looks,
    outer: &Row,
) -> Result<(), Halt> {
    let env = Env::new(None, &[], &[], 0);
    let hidden = env.bound("x", 1, outer);
    for own in ["x.bal x.key <", "x.key x.bal >"] {
        assert_eq!(rt; looks.assert_alone(rt, alloc, own, &[10])?, None);
        assert_eq!(rt; looks.assert_rows(rt, alloc, &hidden, own, &[10])?, None);
    }
    let found = looks.assert_rows(rt, alloc, &hidden, IS_POOR, &[-3])?;
    assert_eq!(rt; found, None);
    Ok(())
}

// The other side names the row itself, even if an outer name means another row: no part is asked for.
#[test]
fn the_name_of_the_row_hides_an_outer_one(rt: HostRuntime) -> Result<(), Fail> {
    let mut looks = Looks::new(rt.alloc())?;
    let outer = account(rt.alloc(), 100)?;
    assert_hidden(&rt, rt.alloc(), &mut looks, &outer)?;

    // Another row's balance serves as a number does.
    let four = account(rt.alloc(), 4)?;
    let env = Env::new(None, &[], &[], 0);
    let env = env.bound("y", 1, &four);
    let found = looks.assert_rows(&rt, rt.alloc(), &env, "x.bal y.bal <", &[-3, 2])?;
    assert_eq!(rt; found, Some(3));
    Ok(())
}
