//! The objects and the emitted values of trees. The expected values are worked out by hand.

use super::fixtures::account;
use hp_tree::{
    ConditionEnd, Ending, Item, Node, Objects, Operation, TopReport, UnitReport, What, emits,
    replay,
};
use hp_value::{Cause, ClassNo, Coupling, Key, RuleOperation, Value};
use std::alloc::{AllocError, Global};
use std::process::Abort;
use std::test::Fail;

/// The class `acct`, whose one field is `bal`.
const ACCT: ClassNo = 0;

fn create(alloc: Global, key: Key, balance: i64) -> Result<Operation, Fail> {
    Ok(Operation::Create {
        class: ACCT,
        key,
        new: account(alloc, balance)?,
    })
}

fn update(alloc: Global, key: Key, balance: i64) -> Result<Operation, Fail> {
    Ok(Operation::Update {
        class: ACCT,
        key,
        new: account(alloc, balance)?,
    })
}

/// A firing of the rule `up`, whose action sets the balance of object 1 and then has this item.
fn up(alloc: Global, balance: i64, end: Ending, more: Option<Item>) -> Result<Item, Fail> {
    let mut items = Vec::new(alloc);
    items.push(Item::Operation(update(alloc, 1, balance)?))?;
    if let Some(item) = more {
        items.push(item)?;
    }
    Ok(Item::Node(Node {
        what: What::Fire {
            rule: 0,
            place: Coupling::Immediate,
            condition: ConditionEnd::WithAction,
        },
        end,
        items,
    }))
}

/// Three firings of the rule, one inside another, the third of which is too deep.
fn three_firings(alloc: Global) -> Result<Item, Fail> {
    let third = up(alloc, 4, Ending::Aborted(Cause::Depth), None)?;
    let second = up(alloc, 3, Ending::Committed, Some(third))?;
    up(alloc, 2, Ending::Committed, Some(second))
}

/// The tree of the depth limit: each update fires the rule again.
fn depth_limit(alloc: Global) -> Result<Vec<Item>, Fail> {
    let mut tree = Vec::new(alloc);
    tree.push(Item::Operation(Operation::OnRule {
        operation: RuleOperation::Install,
        rule: 0,
    }))?;
    tree.push(Item::Operation(create(alloc, 1, 0)?))?;
    tree.push(Item::Operation(update(alloc, 1, 1)?))?;
    tree.push(three_firings(alloc)?)?;
    Ok(tree)
}

/// The balance of an object of the class `acct`.
fn balance(objects: &Objects, key: Key) -> Option<i64> {
    objects.get(ACCT, key)?.field("bal").ok()?.as_int().ok()
}

/// There are objects of the class `acct` with these keys, and no others.
fn assert_keys(rt: &impl Abort, objects: &Objects, wanted: &[Key]) {
    assert_eq!(rt; objects.len(), wanted.len());
    for ((name, _), key) in objects.iter().zip(wanted) {
        assert_eq!(rt; (name.class, name.key), (ACCT, *key));
    }
}

/// The objects after the tree of the depth limit.
fn limited(alloc: Global) -> Result<Objects, Fail> {
    let tree = depth_limit(alloc)?;
    Ok(replay(Objects::new(alloc), &tree)?)
}

#[test]
fn a_replay_leaves_out_the_firing_that_is_too_deep(rt: HostRuntime) -> Result<(), Fail> {
    let objects = limited(rt.alloc())?;
    assert_keys(&rt, &objects, &[1]);
    assert!(rt; !objects.is_empty());
    assert_eq!(rt; balance(&objects, 1), Some(3));
    Ok(())
}

/// Objects -20 and -3, and one more that is removed again.
fn two_accounts(alloc: Global) -> Result<Objects, AllocError> {
    let mut objects = Objects::new(alloc);
    for (key, balance) in [(-20, 1), (-3, 2), (2, 3)] {
        objects.insert(ACCT, key, account(alloc, balance)?)?;
    }
    objects.remove(ACCT, 2);
    Ok(objects)
}

/// A tree that deletes object -20 and creates object 10.
fn delete_and_create(alloc: Global) -> Result<Vec<Item>, Fail> {
    let mut tree = Vec::new(alloc);
    tree.push(Item::Operation(Operation::Delete {
        class: ACCT,
        key: -20,
    }))?;
    tree.push(Item::Operation(create(alloc, 10, 4)?))?;
    Ok(tree)
}

#[test]
fn a_replay_goes_over_the_objects_before_it(rt: HostRuntime) -> Result<(), Fail> {
    let tree = delete_and_create(rt.alloc())?;
    let objects = replay(two_accounts(rt.alloc())?, &tree)?;
    assert_keys(&rt, &objects, &[-3, 10]);
    assert_eq!(rt; balance(&objects, -3), Some(2));
    assert_eq!(rt; balance(&objects, 10), Some(4));
    Ok(())
}

/// A node of a statement `sub` that emitted a number, and then has one more item.
fn sub(alloc: Global, end: Ending, number: i64, more: Option<Item>) -> Result<Item, Fail> {
    let mut items = Vec::new(alloc);
    items.push(Item::Emit(Value::Int(number)))?;
    if let Some(item) = more {
        items.push(item)?;
    }
    Ok(Item::Node(Node {
        what: What::Sub,
        end,
        items,
    }))
}

/// A node with this end that emitted a number, and another one inside it.
fn pair(alloc: Global, end: Ending, outer: i64, inner: i64) -> Result<Item, Fail> {
    let inner = sub(alloc, Ending::Committed, inner, None)?;
    sub(alloc, end, outer, Some(inner))
}

fn emitting(alloc: Global) -> Result<UnitReport, Fail> {
    let mut tree = Vec::new(alloc);
    tree.push(pair(alloc, Ending::Aborted(Cause::Asked), 1, 2)?)?;
    tree.push(pair(alloc, Ending::Committed, 3, 4)?)?;
    tree.push(Item::Emit(Value::Int(5)))?;
    let top = TopReport {
        task: None,
        end: Ending::Committed,
        tree,
    };
    Ok(UnitReport {
        moment: Some(7),
        tops: vec![in alloc; top]?,
    })
}

fn emitted(alloc: Global, unit: &UnitReport) -> Result<Vec<Option<i64>>, Fail> {
    let mut numbers = Vec::new(alloc);
    for top in &unit.tops {
        for value in emits(alloc, &top.tree)? {
            numbers.push(value.as_int().ok())?;
        }
    }
    Ok(numbers)
}

#[test]
fn an_aborted_node_emits_nothing(rt: HostRuntime) -> Result<(), Fail> {
    let unit = emitting(rt.alloc())?;
    let numbers = emitted(rt.alloc(), &unit)?;
    assert_eq!(rt; numbers.as_slice(), [Some(3), Some(4), Some(5)].as_slice());
    Ok(())
}
