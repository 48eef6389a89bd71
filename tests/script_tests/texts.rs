//! The text of reports, worked out by hand.

use super::fixtures::library;
use hp_report::{Report, Watched, write_report};
use hp_rule::rule_number;
use hp_store::{CellValue, Layer, Status, Store};
use hp_tree::{ConditionEnd, Ending, Item, Node, Operation, TopReport, UnitReport, What};
use hp_value::{
    Cause, Cell, ClassDef, Coupling, Field, Key, Kind, Row, RuleNo, RuleOperation, Value, Veto,
};
use std::alloc::{AllocError, Global};
use std::sync::Arc;
use std::test::Fail;

/// The class `acct` with its one field `bal`.
fn classes(alloc: Global) -> Result<Vec<ClassDef>, Fail> {
    let mut fields = Vec::new(alloc);
    fields.push(Field {
        name: String::from_str(alloc, "bal")?,
        kind: Kind::Int,
    })?;
    let mut classes = Vec::new(alloc);
    classes.push(ClassDef {
        name: String::from_str(alloc, "acct")?,
        fields: Arc::new(alloc, fields)?,
    })?;
    Ok(classes)
}

fn account(alloc: Global, classes: &[ClassDef], balance: i64) -> Result<Row, Fail> {
    let class = classes.first().ok_or("no class")?;
    let mut values = Vec::new(alloc);
    values.push(Value::Int(balance))?;
    Ok(Row::new(alloc, &class.fields, values.into())?)
}

/// An update of object 1 of the class `acct` to a balance.
fn update(alloc: Global, classes: &[ClassDef], balance: i64) -> Result<Item, Fail> {
    Ok(Item::Operation(Operation::Update {
        class: 0,
        key: 1,
        new: account(alloc, classes, balance)?,
    }))
}

fn create(alloc: Global, classes: &[ClassDef], balance: i64) -> Result<Item, Fail> {
    Ok(Item::Operation(Operation::Create {
        class: 0,
        key: 1,
        new: account(alloc, classes, balance)?,
    }))
}

fn install(rule: RuleNo) -> Item {
    Item::Operation(Operation::OnRule {
        operation: RuleOperation::Install,
        rule,
    })
}

/// A node with up to two items.
fn node(
    alloc: Global,
    what: What,
    end: Ending,
    first: Option<Item>,
    second: Option<Item>,
) -> Result<Item, Fail> {
    let mut items = Vec::new(alloc);
    if let Some(item) = first {
        items.push(item)?;
    }
    if let Some(item) = second {
        items.push(item)?;
    }
    Ok(Item::Node(Node { what, end, items }))
}

fn fire(rule: RuleNo, place: Coupling, condition: ConditionEnd) -> What {
    What::Fire {
        rule,
        place,
        condition,
    }
}

/// The end by a rule's veto.
fn veto(alloc: Global, rule: RuleNo, message: Option<Value>) -> Result<Ending, AllocError> {
    Ok(Ending::Vetoed(Veto::new(alloc, rule, message)?))
}

/// A store with these objects, whose rules have these statuses; those without one are absent.
fn store(
    alloc: Global,
    classes: &[ClassDef],
    objects: &[(Key, i64)],
    statuses: &[Option<Status>],
) -> Result<Store, Fail> {
    let mut layer = Layer::new(alloc);
    for (key, balance) in objects {
        let row = account(alloc, classes, *balance)?;
        let _ = layer.insert(Cell::Object(0, *key), Some(CellValue::Row(row)))?;
    }
    for (rule, status) in statuses.iter().enumerate() {
        if let Some(status) = status {
            let cell = Cell::Rule(rule_number(rule)?);
            let _ = layer.insert(cell, Some(CellValue::Status(*status)))?;
        }
    }
    let mut store = Store::empty(alloc)?;
    store.apply(alloc, Arc::new(alloc, layer)?)?;
    Ok(store)
}

fn unit(
    alloc: Global,
    moment: Option<u64>,
    end: Ending,
    tree: Vec<Item>,
) -> Result<UnitReport, Fail> {
    let mut tops = Vec::new(alloc);
    tops.push(TopReport {
        task: None,
        end,
        tree,
    })?;
    Ok(UnitReport { moment, tops })
}

/// A run into the depth limit: each update fires the rule again, and the third firing is too deep.
fn depth_limit(alloc: Global, classes: &[ClassDef]) -> Result<UnitReport, Fail> {
    let up = fire(0, Coupling::Immediate, ConditionEnd::WithAction);
    let change = update(alloc, classes, 4)?;
    let third = node(alloc, up, Ending::Aborted(Cause::Depth), Some(change), None)?;
    let change = update(alloc, classes, 3)?;
    let second = node(alloc, up, Ending::Committed, Some(change), Some(third))?;
    let change = update(alloc, classes, 2)?;
    let first = node(alloc, up, Ending::Committed, Some(change), Some(second))?;
    let mut tree = Vec::new(alloc);
    tree.push(install(0))?;
    tree.push(create(alloc, classes, 0)?)?;
    tree.push(update(alloc, classes, 1)?)?;
    tree.push(first)?;
    unit(alloc, None, Ending::Committed, tree)
}

/// A cascade: a separate rule fires, and its deferred action shows the answer that was kept.
fn kept_answers(alloc: Global, classes: &[ClassDef]) -> Result<UnitReport, Fail> {
    let z = fire(1, Coupling::Immediate, ConditionEnd::WithAction);
    let mut tree = Vec::new(alloc);
    tree.push(install(0))?;
    tree.push(install(1))?;
    tree.push(create(alloc, classes, 5)?)?;
    let change = update(alloc, classes, 6)?;
    tree.push(node(alloc, z, Ending::Committed, Some(change), None)?)?;
    let mut unit = unit(alloc, None, Ending::Committed, tree)?;
    let m = fire(0, Coupling::Separate, ConditionEnd::WithLaterAction);
    let act = What::Act {
        rule: 0,
        place: Coupling::Deferred,
    };
    let mut tree = Vec::new(alloc);
    tree.push(node(alloc, m, Ending::Committed, None, None)?)?;
    let change = update(alloc, classes, 7)?;
    tree.push(node(alloc, z, Ending::Committed, Some(change), None)?)?;
    let emit = Item::Emit(Value::Int(6));
    tree.push(node(alloc, act, Ending::Committed, Some(emit), None)?)?;
    unit.tops.push(TopReport {
        task: Some((0, Coupling::Separate)),
        end: Ending::Committed,
        tree,
    })?;
    Ok(unit)
}

const DEPTH_LIMIT: &str = "unit 1 committed
  op install up
  op create acct 1 bal=0
  op update acct 1 bal=1
  fire up immediate satisfied committed
    op update acct 1 bal=2
    fire up immediate satisfied committed
      op update acct 1 bal=3
      fire up immediate satisfied aborted A7
        op update acct 1 bal=4
final
object acct 1 bal=3
rule up enabled
end
";

/// The report of a unit, over rules of these names.
fn report(
    alloc: Global,
    rules: &[&str],
    unit: UnitReport,
    objects: &[(Key, i64)],
    statuses: &[Option<Status>],
) -> Result<Report, Fail> {
    let classes = classes(alloc)?;
    let store = store(alloc, &classes, objects, statuses)?;
    let library = library(alloc, classes, rules)?;
    Ok(Report {
        library: Arc::new(alloc, library)?,
        units: vec![in alloc; unit]?,
        store,
    })
}

/// The text that is written for a report.
fn written(alloc: Global, report: &Report, with_tree: bool) -> Result<String, Fail> {
    let mut writer = Watched::new(Vec::new(alloc));
    write_report(alloc, report, with_tree, &mut writer)?;
    Ok(String::from_utf8(writer.into_inner())?)
}

#[test]
fn shows_the_depth_limit(rt: HostRuntime) -> Result<(), Fail> {
    let alloc = rt.alloc();
    let unit = depth_limit(alloc, &classes(alloc)?)?;
    let report = report(alloc, &["up"], unit, &[(1, 3)], &[Some(Status::Enabled)])?;
    assert_eq!(rt; written(alloc, &report, true)?.as_str(), DEPTH_LIMIT);
    Ok(())
}

const KEPT_ANSWERS: &str = "unit 1 committed
  op install m
  op install z
  op create acct 1 bal=5
  fire z immediate satisfied committed
    op update acct 1 bal=6
separate m committed
emit 6
  fire m separate satisfied later
  fire z immediate satisfied committed
    op update acct 1 bal=7
  act m deferred committed
    emit 6
final
object acct 1 bal=7
rule m enabled
rule z enabled
end
";

#[test]
fn shows_a_cascade(rt: HostRuntime) -> Result<(), Fail> {
    let alloc = rt.alloc();
    let unit = kept_answers(alloc, &classes(alloc)?)?;
    let statuses = [Some(Status::Enabled), Some(Status::Enabled)];
    let report = report(alloc, &["m", "z"], unit, &[(1, 7)], &statuses)?;
    assert_eq!(rt; written(alloc, &report, true)?.as_str(), KEPT_ANSWERS);
    Ok(())
}

const OTHER_LINES: &str = r#"unit 1 time 9223372036854775807 aborted A9 down
  op delete acct -20
  op remove down
  op enable up
  op disable up
  emit "\u001f"
  sub aborted A8
    emit true
  fire up deferred unsatisfied none
  fire up dependent fault A5 none
  act down exclusive aborted A1
final
object acct -20 bal=1
object acct -3 bal=-9223372036854775808
object acct 2 bal=3
object acct 10 bal=4
rule up disabled
rule down absent
end
"#;

const WITHOUT_TREE: &str = "unit 1 time 9223372036854775807 aborted A9 down
final
object acct -20 bal=1
object acct -3 bal=-9223372036854775808
object acct 2 bal=3
object acct 10 bal=4
rule up disabled
rule down absent
end
";

/// A unit with the kinds of lines that the other reports lack.
fn others(alloc: Global) -> Result<UnitReport, Fail> {
    let mut tree = Vec::new(alloc);
    tree.push(Item::Operation(Operation::Delete { class: 0, key: -20 }))?;
    for (operation, rule) in [
        (RuleOperation::Remove, 1),
        (RuleOperation::Enable, 0),
        (RuleOperation::Disable, 0),
    ] {
        tree.push(Item::Operation(Operation::OnRule { operation, rule }))?;
    }
    tree.push(Item::Emit(Value::Text(Box::new(alloc, String::from_str(alloc, "\u{1f}")?)?)))?;
    let emit = Item::Emit(Value::Bool(true));
    let end = Ending::Aborted(Cause::Asked);
    tree.push(node(alloc, What::Sub, end, Some(emit), None)?)?;
    let fault = ConditionEnd::WithFault(Cause::DivideByZero);
    for (place, condition) in [
        (Coupling::Deferred, ConditionEnd::WithoutAction),
        (Coupling::Dependent, fault),
    ] {
        let what = fire(0, place, condition);
        tree.push(node(alloc, what, Ending::Committed, None, None)?)?;
    }
    let act = What::Act {
        rule: 1,
        place: Coupling::Exclusive,
    };
    let end = Ending::Aborted(Cause::Exists);
    tree.push(node(alloc, act, end, None, None)?)?;
    unit(
        alloc,
        Some(9223372036854775807),
        veto(alloc, 1, None)?,
        tree,
    )
}

#[test]
fn shows_each_other_kind_of_line(rt: HostRuntime) -> Result<(), Fail> {
    let alloc = rt.alloc();
    let objects = [(10, 4), (2, 3), (-3, i64::MIN), (-20, 1)];
    let statuses = [Some(Status::Disabled), None];
    let report = report(alloc, &["up", "down"], others(alloc)?, &objects, &statuses)?;
    assert_eq!(rt; written(alloc, &report, true)?.as_str(), OTHER_LINES);
    assert_eq!(rt; written(alloc, &report, false)?.as_str(), WITHOUT_TREE);
    Ok(())
}

const MESSAGES: &str = r#"unit 1 aborted A9 up -7
  sub aborted A9 down "say \"no\""
    fire down immediate satisfied aborted A9 down "say \"no\""
  sub aborted A9 up true
  act up deferred aborted A9 up -7
dependent down aborted A9 down "say \"no\""
  fire down dependent satisfied aborted A9 down "say \"no\""
final
rule up enabled
rule down enabled
end
"#;

/// A unit and a detached task that are aborted by vetoes with messages, as are the nodes in them.
fn messages(alloc: Global) -> Result<UnitReport, Fail> {
    let no = Value::Text(Box::new(alloc, String::from_str(alloc, "say \"no\"")?)?);
    let fires = fire(1, Coupling::Immediate, ConditionEnd::WithAction);
    let fired = node(alloc, fires, veto(alloc, 1, Some(no.clone()?))?, None, None)?;
    let act = What::Act {
        rule: 0,
        place: Coupling::Deferred,
    };
    let mut tree = Vec::new(alloc);
    tree.push(node(
        alloc,
        What::Sub,
        veto(alloc, 1, Some(no.clone()?))?,
        Some(fired),
        None,
    )?)?;
    tree.push(node(
        alloc,
        What::Sub,
        veto(alloc, 0, Some(Value::Bool(true)))?,
        None,
        None,
    )?)?;
    tree.push(node(
        alloc,
        act,
        veto(alloc, 0, Some(Value::Int(-7)))?,
        None,
        None,
    )?)?;
    let mut unit = unit(alloc, None, veto(alloc, 0, Some(Value::Int(-7)))?, tree)?;
    let fires = fire(1, Coupling::Dependent, ConditionEnd::WithAction);
    let fired = node(alloc, fires, veto(alloc, 1, Some(no.clone()?))?, None, None)?;
    unit.tops.push(TopReport {
        task: Some((1, Coupling::Dependent)),
        end: veto(alloc, 1, Some(no))?,
        tree: vec![in alloc; fired]?,
    })?;
    Ok(unit)
}

#[test]
fn shows_a_message_wherever_its_cause_stands(rt: HostRuntime) -> Result<(), Fail> {
    let alloc = rt.alloc();
    let statuses = [Some(Status::Enabled), Some(Status::Enabled)];
    let report = report(alloc, &["up", "down"], messages(alloc)?, &[], &statuses)?;
    assert_eq!(rt; written(alloc, &report, true)?.as_str(), MESSAGES);
    Ok(())
}
