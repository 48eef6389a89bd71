//! Libraries and bodies: their contents, the rules that they list for an occurrence, and their first fault.

use super::fixtures::{add_query, class, each, field_is, number, rule, text};
use hp_event::Pattern;
use hp_rule::{
    Assignment, Body, CheckError, CheckFault, EventExpr, Library, Limit, Member, PathStep, Rule,
    RuleOperation, Stmt,
};
use hp_value::{ClassDef, Comparison, Expr, Key, Prim, Row, Value};
use std::alloc::{AllocError, Global};
use std::sync::Arc;
use std::test::Fail;

// A boolean under a number of `not`s.
fn nested(alloc: Global, nots: usize) -> Result<Box<Expr>, AllocError> {
    let mut expr = Box::new(alloc, Expr::literal(Value::Bool(true)))?;
    for _ in 0..nots {
        expr = Box::new(alloc, Expr::Not(expr))?;
    }
    Ok(expr)
}

// The field `bal` of a row is below 0.
fn is_poor(alloc: Global, row: &str) -> Result<Box<Expr>, AllocError> {
    field_is(alloc, row, "bal", Comparison::Less)
}

fn accounts(alloc: Global) -> Result<Vec<ClassDef>, AllocError> {
    let mut all = Vec::new(alloc);
    all.push(class(alloc, "account", &["bal", "limit"])?)?;
    all.push(class(alloc, "log", &[])?)?;
    Ok(all)
}

fn both(alloc: Global, a: Pattern, b: Pattern) -> Result<[Box<EventExpr>; 2], AllocError> {
    let a = Box::new(alloc, EventExpr::One(a))?;
    let b = Box::new(alloc, EventExpr::One(b))?;
    Ok([a, b])
}

fn rules(alloc: Global) -> Result<Vec<Rule>, AllocError> {
    let mut all = Vec::new(alloc);
    let [a, b] = both(
        alloc,
        Pattern::Create(0),
        Pattern::Signal(text(alloc, "go")?),
    )?;
    let mut grows = rule(alloc, "grows", EventExpr::Or(a, b))?;
    let poor = is_poor(alloc, "poor")?;
    add_query(alloc, &mut grows, "poor", 0, poor)?;
    grows.action.push(Stmt::For {
        query: text(alloc, "poor")?,
        body: vec![in alloc; Stmt::Veto(None)]?,
    })?;
    all.push(grows)?;
    let every = Pattern::Every {
        first: 5,
        period: 5,
    };
    let [a, b] = both(alloc, every, Pattern::Commit)?;
    all.push(rule(alloc, "ticks", EventExpr::Seq(a, b))?)?;
    let [a, b] = both(alloc, Pattern::Update(0), Pattern::Delete(0))?;
    all.push(rule(alloc, "moves", EventExpr::Closure(a, b))?)?;
    all.push(rule(alloc, "rings", EventExpr::One(Pattern::At(7)))?)?;
    Ok(all)
}

fn library(alloc: Global) -> Result<Arc<Library>, CheckError> {
    let library = Library::check(alloc, accounts(alloc)?, rules(alloc)?, 8)?;
    Ok(Arc::new(alloc, library)?)
}

fn signal(alloc: Global, name: &str) -> Result<Prim, AllocError> {
    Ok(Prim::Signal {
        name: text(alloc, name)?,
        args: Vec::new(alloc),
    })
}

fn row(alloc: Global) -> Result<Row, AllocError> {
    let fields = Arc::new(alloc, Vec::new(alloc))?;
    Row::new(alloc, &fields, Vec::new(alloc).into())
}

#[test]
fn a_library_shows_its_parts(rt: HostRuntime) -> Result<(), Fail> {
    let library = library(rt.alloc())?;
    assert_eq!(rt; library.classes().len(), 2);
    assert_eq!(rt; library.rules().len(), 4);
    assert_eq!(rt; library.depth_limit(), 8);
    assert_eq!(rt; library.class(1).ok_or("class")?.name.as_str(), "log");
    assert_eq!(rt; library.rule(2).ok_or("rule")?.name.as_str(), "moves");
    assert!(rt; library.class(2).is_none());
    assert!(rt; library.rule(4).is_none());
    Ok(())
}

fn created(alloc: Global, class: u32) -> Result<Prim, AllocError> {
    let key: Key = 3;
    let new = row(alloc)?;
    Ok(Prim::Create { class, key, new })
}

fn updated(alloc: Global) -> Result<Prim, AllocError> {
    let key: Key = 3;
    let (old, new) = (row(alloc)?, row(alloc)?);
    Ok(Prim::Update {
        class: 0,
        key,
        old,
        new,
    })
}

fn deleted(alloc: Global) -> Result<Prim, AllocError> {
    let key: Key = 3;
    let old = row(alloc)?;
    Ok(Prim::Delete { class: 0, key, old })
}

// Occurrences, each with the rule that mentions it.
fn occurrences(alloc: Global) -> Result<Vec<(Box<Prim>, Option<u32>)>, AllocError> {
    let mut all = Vec::new(alloc);
    all.push((Box::new(alloc, created(alloc, 0)?)?, Some(0)))?;
    all.push((Box::new(alloc, created(alloc, 1)?)?, None))?;
    all.push((Box::new(alloc, created(alloc, 9)?)?, None))?;
    all.push((Box::new(alloc, updated(alloc)?)?, Some(2)))?;
    all.push((Box::new(alloc, deleted(alloc)?)?, Some(2)))?;
    all.push((Box::new(alloc, signal(alloc, "go")?)?, Some(0)))?;
    all.push((Box::new(alloc, signal(alloc, "stop")?)?, None))?;
    all.push((Box::new(alloc, Prim::Commit)?, Some(1)))?;
    for (time, wanted) in [(5, Some(1)), (6, None), (7, Some(3))] {
        all.push((Box::new(alloc, Prim::Time(time))?, wanted))?;
    }
    Ok(all)
}

#[test]
fn each_occurrence_is_mentioned_by_its_rule(rt: HostRuntime) -> Result<(), Fail> {
    let alloc = rt.alloc();
    let library = library(alloc)?;
    for (prim, wanted) in &occurrences(alloc)? {
        let found = library.mentions(alloc, prim)?;
        assert_eq!(rt; found.first().copied(), *wanted, "{prim:?}");
        assert!(rt; found.len() < 2);
    }
    Ok(())
}

fn fault<T: Drop>(checked: Result<T, CheckError>) -> Option<CheckFault> {
    match checked {
        Err(CheckError::Fault(fault)) => Some(fault),
        Err(CheckError::Memory) | Ok(_) => None,
    }
}

fn path(
    alloc: Global,
    member: Option<Member>,
    positions: &[usize],
) -> Result<Vec<PathStep>, AllocError> {
    let mut steps = Vec::new(alloc);
    if let Some(member) = member {
        steps.push(PathStep::Member(member))?;
    }
    for position in positions {
        steps.push(PathStep::Item(*position))?;
    }
    Ok(steps)
}

// An expected fault, with its path below a member or below the body.
#[derive(Clone, Copy)]
enum Wanted {
    Nothing,
    Name(Option<Member>, &'static [usize]),
    Shape(Option<Member>, &'static [usize]),
    Over(Limit),
}

fn wanted_fault(alloc: Global, wanted: Wanted) -> Result<Option<CheckFault>, AllocError> {
    match wanted {
        Wanted::Nothing => Ok(None),
        Wanted::Name(member, at) => Ok(Some(CheckFault::Name(path(alloc, member, at)?))),
        Wanted::Shape(member, at) => Ok(Some(CheckFault::Shape(path(alloc, member, at)?))),
        Wanted::Over(limit) => Ok(Some(CheckFault::Limit(limit))),
    }
}

// A library that has a fault, or a body of one statement for the library of these tests.
#[derive(Drop)]
enum Faulty {
    Classes(Vec<ClassDef>),
    // After the other rules.
    Rule(Rule),
    Body(Stmt),
}

fn fault_of(alloc: Global, faulty: Box<Faulty>) -> Result<Option<CheckFault>, CheckError> {
    match Box::into_inner(faulty) {
        Faulty::Classes(classes) => Ok(fault(Library::check(alloc, classes, Vec::new(alloc), 1))),
        Faulty::Rule(last) => {
            let mut all = rules(alloc)?;
            all.push(last)?;
            Ok(fault(Library::check(alloc, accounts(alloc)?, all, 16)))
        }
        Faulty::Body(statement) => {
            let statements = vec![in alloc; statement]?;
            Ok(fault(Library::body(&library(alloc)?, alloc, statements)))
        }
    }
}

// The index, from 0, of the first one whose fault isn't the expected one.
fn first_wrong(
    alloc: Global,
    cases: Vec<(Box<Faulty>, Wanted)>,
) -> Result<Option<usize>, CheckError> {
    for (i, (faulty, wanted)) in cases.into_iter().enumerate() {
        let wanted = wanted_fault(alloc, wanted)?;
        if fault_of(alloc, faulty)? != wanted {
            return Ok(Some(i));
        }
    }
    Ok(None)
}

fn classes(alloc: Global, all: Vec<ClassDef>) -> Result<Box<Faulty>, AllocError> {
    Ok(Box::new(alloc, Faulty::Classes(all))?)
}

fn last_rule(alloc: Global, rule: Rule) -> Result<Box<Faulty>, AllocError> {
    Ok(Box::new(alloc, Faulty::Rule(rule))?)
}

fn body(alloc: Global, statement: Stmt) -> Result<Box<Faulty>, AllocError> {
    Ok(Box::new(alloc, Faulty::Body(statement))?)
}

fn create(alloc: Global, class: u32, fields: &[&str]) -> Result<Stmt, AllocError> {
    let mut pairs = Vec::new(alloc);
    for field in fields {
        pairs.push(Assignment {
            field: text(alloc, *field)?,
            value: Expr::literal(Value::Int(1)),
        })?;
    }
    Ok(Stmt::Create {
        class,
        key: number(alloc, 1)?,
        pairs,
    })
}

#[test]
fn a_body_keeps_its_statements(rt: HostRuntime) -> Result<(), Fail> {
    let alloc = rt.alloc();
    let library = library(alloc)?;
    let mut statements = vec![in alloc; create(alloc, 0, &["limit", "bal"])?]?;
    statements.push(Stmt::OnRule {
        operation: RuleOperation::Install,
        rule: 3,
    })?;
    let body: Body = Library::body(&library, alloc, statements)?;
    assert_eq!(rt; body.statements().len(), 2);
    assert_eq!(rt; body.library().depth_limit(), 8);
    Ok(())
}

#[test]
fn depth_has_its_limits(rt: HostRuntime) -> Result<(), Fail> {
    let alloc = rt.alloc();
    for (depth, is_fine) in [(0, false), (1, true), (16, true), (17, false)] {
        let found = fault(Library::check(alloc, Vec::new(alloc), Vec::new(alloc), depth));
        assert_eq!(rt; found.is_none(), is_fine, "at {depth}");
    }
    Ok(())
}

fn wrong_names_of_classes(alloc: Global) -> Result<Vec<(Box<Faulty>, Wanted)>, AllocError> {
    let at = Some(Member::Classes);
    let field = vec![in alloc; class(alloc, "log", &["a", "a"])?]?;
    let mut doubled = vec![in alloc; class(alloc, "log", &[])?]?;
    doubled.push(class(alloc, "log", &["a", "a"])?)?;
    let malformed = vec![in alloc; class(alloc, "1st", &[])?]?;
    let mut cases = Vec::new(alloc);
    cases.push((classes(alloc, field)?, Wanted::Name(at, &[0, 1, 1, 0])))?;
    cases.push((classes(alloc, doubled)?, Wanted::Name(at, &[1, 0])))?;
    cases.push((classes(alloc, malformed)?, Wanted::Shape(at, &[0, 0])))?;
    Ok(cases)
}

#[test]
fn classes_have_a_first_fault(rt: HostRuntime) -> Result<(), Fail> {
    let alloc = rt.alloc();
    assert_eq!(rt; first_wrong(alloc, wrong_names_of_classes(alloc)?)?, None);
    Ok(())
}

#[test]
fn classes_and_fields_have_their_limits(rt: HostRuntime) -> Result<(), Fail> {
    let alloc = rt.alloc();
    let mut many = Vec::new(alloc);
    for _ in 0..65 {
        many.push(class(alloc, "", &[])?)?;
    }
    let found = fault_of(alloc, classes(alloc, many)?)?;
    assert_eq!(rt; found, Some(CheckFault::Limit(Limit::Classes)));
    let wide = vec![in alloc; class(alloc, "wide", &["a"; 33])?]?;
    let found = fault_of(alloc, classes(alloc, wide)?)?;
    assert_eq!(rt; found, Some(CheckFault::Limit(Limit::Fields)));
    Ok(())
}

fn asking(alloc: Global) -> Result<Rule, AllocError> {
    let mut asks = rule(alloc, "new", EventExpr::One(Pattern::Commit))?;
    for (name, row) in [("a", "a"), ("b", "a"), ("c", "d"), ("d", "d")] {
        let poor = is_poor(alloc, row)?;
        add_query(alloc, &mut asks, name, 0, poor)?;
    }
    Ok(asks)
}

fn standing_still(alloc: Global) -> Result<Rule, AllocError> {
    let still = Pattern::Every {
        first: 1,
        period: 0,
    };
    let [a, b] = both(alloc, Pattern::Commit, still)?;
    rule(alloc, "new", EventExpr::Or(a, b))
}

fn on_unknown_class(alloc: Global, name: &str) -> Result<Rule, AllocError> {
    rule(alloc, name, EventExpr::One(Pattern::Create(2)))
}

fn wrong_rules(alloc: Global) -> Result<Vec<(Box<Faulty>, Wanted)>, AllocError> {
    let at = Some(Member::Rules);
    let mut cases = Vec::new(alloc);
    cases.push((
        last_rule(alloc, on_unknown_class(alloc, "rings")?)?,
        Wanted::Name(at, &[4, 0]),
    ))?;
    cases.push((
        last_rule(alloc, on_unknown_class(alloc, "new")?)?,
        Wanted::Name(at, &[4, 1, 1]),
    ))?;
    cases.push((
        last_rule(alloc, standing_still(alloc)?)?,
        Wanted::Shape(at, &[4, 1, 2, 2]),
    ))?;
    cases.push((
        last_rule(alloc, asking(alloc)?)?,
        Wanted::Name(at, &[4, 3, 2, 2, 1, 1]),
    ))?;
    Ok(cases)
}

#[test]
fn rules_have_a_first_fault(rt: HostRuntime) -> Result<(), Fail> {
    let alloc = rt.alloc();
    assert_eq!(rt; first_wrong(alloc, wrong_rules(alloc)?)?, None);
    Ok(())
}

#[test]
fn rules_have_their_limit(rt: HostRuntime) -> Result<(), Fail> {
    let alloc = rt.alloc();
    let mut many = Vec::new(alloc);
    for _ in 0..257 {
        many.push(rule(alloc, "", EventExpr::One(Pattern::Commit))?)?;
    }
    let found = fault(Library::check(alloc, Vec::new(alloc), many, 16));
    assert_eq!(rt; found, Some(CheckFault::Limit(Limit::Rules)));
    Ok(())
}

fn subtransaction(alloc: Global, body: Vec<Stmt>) -> Stmt {
    Stmt::Sub {
        body,
        otherwise: Vec::new(alloc),
    }
}

// A body in which this many subtransactions nest around some statements.
fn nested_body(alloc: Global, levels: usize, inmost: Vec<Stmt>) -> Result<Box<Faulty>, AllocError> {
    let mut inner = inmost;
    for _ in 1..levels {
        inner = vec![in alloc; subtransaction(alloc, inner)]?;
    }
    body(alloc, subtransaction(alloc, inner))
}

fn emits(alloc: Global, value: Box<Expr>) -> Result<Box<Faulty>, AllocError> {
    body(alloc, Stmt::Emit(value))
}

fn high_rule(alloc: Global) -> Result<Box<Faulty>, AllocError> {
    let mut event = EventExpr::One(Pattern::Commit);
    for _ in 0..16 {
        let other = Box::new(alloc, EventExpr::One(Pattern::Commit))?;
        event = EventExpr::Or(Box::new(alloc, event)?, other);
    }
    last_rule(alloc, rule(alloc, "new", event)?)
}

fn levels(alloc: Global) -> Result<Vec<(Box<Faulty>, Wanted)>, AllocError> {
    let aborting = vec![in alloc; Stmt::Abort]?;
    let mut cases = Vec::new(alloc);
    cases.push((emits(alloc, nested(alloc, 15)?)?, Wanted::Nothing))?;
    cases.push((
        emits(alloc, nested(alloc, 16)?)?,
        Wanted::Over(Limit::Expression),
    ))?;
    cases.push((nested_body(alloc, 16, Vec::new(alloc))?, Wanted::Nothing))?;
    cases.push((
        nested_body(alloc, 16, aborting)?,
        Wanted::Over(Limit::Nesting),
    ))?;
    cases.push((high_rule(alloc)?, Wanted::Over(Limit::Event)))?;
    Ok(cases)
}

#[test]
fn levels_have_their_limits(rt: HostRuntime) -> Result<(), Fail> {
    let alloc = rt.alloc();
    assert_eq!(rt; first_wrong(alloc, levels(alloc)?)?, None);
    Ok(())
}

fn signalling(alloc: Global, count: usize) -> Result<Box<Faulty>, AllocError> {
    let mut arguments = Vec::new(alloc);
    for _ in 0..count {
        arguments.push(Expr::Count)?;
    }
    let name = text(alloc, "go")?;
    body(alloc, Stmt::Signal { name, arguments })
}

fn long_text(alloc: Global, length: usize) -> Result<Box<Faulty>, AllocError> {
    let mut long = String::new(alloc);
    for _ in 0..length {
        long.push('x')?;
    }
    emits(
        alloc,
        Box::new(alloc, Expr::literal(Value::Text(Box::new(alloc, long)?)))?,
    )
}

fn amounts(alloc: Global) -> Result<Vec<(Box<Faulty>, Wanted)>, AllocError> {
    let mut cases = Vec::new(alloc);
    cases.push((signalling(alloc, 32)?, Wanted::Nothing))?;
    cases.push((signalling(alloc, 33)?, Wanted::Over(Limit::Arguments)))?;
    cases.push((long_text(alloc, 1024)?, Wanted::Nothing))?;
    cases.push((long_text(alloc, 1025)?, Wanted::Over(Limit::Text)))?;
    Ok(cases)
}

#[test]
fn amounts_have_their_limits(rt: HostRuntime) -> Result<(), Fail> {
    let alloc = rt.alloc();
    assert_eq!(rt; first_wrong(alloc, amounts(alloc)?)?, None);
    Ok(())
}

fn creating(alloc: Global, class: u32, fields: &[&str]) -> Result<Box<Faulty>, AllocError> {
    body(alloc, create(alloc, class, fields)?)
}

fn wrong_pairs(alloc: Global) -> Result<Vec<(Box<Faulty>, Wanted)>, AllocError> {
    let mut cases = Vec::new(alloc);
    cases.push((creating(alloc, 0, &["bal"])?, Wanted::Name(None, &[0, 3])))?;
    cases.push((
        creating(alloc, 0, &["bal", "key"])?,
        Wanted::Name(None, &[0, 3, 1, 0]),
    ))?;
    cases.push((
        creating(alloc, 0, &["bal", "bal"])?,
        Wanted::Name(None, &[0, 3, 1, 0]),
    ))?;
    cases.push((creating(alloc, 2, &[])?, Wanted::Name(None, &[0, 1])))?;
    Ok(cases)
}

#[test]
fn pairs_have_a_first_fault(rt: HostRuntime) -> Result<(), Fail> {
    let alloc = rt.alloc();
    assert_eq!(rt; first_wrong(alloc, wrong_pairs(alloc)?)?, None);
    Ok(())
}

fn going_over(alloc: Global) -> Result<Box<Faulty>, AllocError> {
    let statement = Stmt::For {
        query: text(alloc, "poor")?,
        body: Vec::new(alloc),
    };
    body(alloc, statement)
}

// A statement `with`, whose name its key and its body may use.
fn with_object(
    alloc: Global,
    key: Box<Expr>,
    statements: Vec<Stmt>,
) -> Result<Box<Faulty>, AllocError> {
    let statement = Stmt::With {
        variable: text(alloc, "x")?,
        class: 0,
        key,
        body: statements,
    };
    body(alloc, statement)
}

fn wrong_statements(alloc: Global) -> Result<Vec<(Box<Faulty>, Wanted)>, AllocError> {
    let each_x = each(alloc, "x", 0, is_poor(alloc, "x")?, Vec::new(alloc))?;
    let again = with_object(alloc, number(alloc, 1)?, each_x)?;
    let own_key = with_object(alloc, is_poor(alloc, "x")?, Vec::new(alloc))?;
    let mut cases = Vec::new(alloc);
    cases.push((body(alloc, Stmt::Veto(None))?, Wanted::Shape(None, &[0])))?;
    cases.push((body(alloc, Stmt::Fire(4))?, Wanted::Name(None, &[0, 1])))?;
    cases.push((going_over(alloc)?, Wanted::Name(None, &[0, 1])))?;
    cases.push((again, Wanted::Name(None, &[0, 4, 0, 1])))?;
    cases.push((own_key, Wanted::Name(None, &[0, 3, 1, 1])))?;
    Ok(cases)
}

#[test]
fn statements_have_a_first_fault(rt: HostRuntime) -> Result<(), Fail> {
    let alloc = rt.alloc();
    assert_eq!(rt; first_wrong(alloc, wrong_statements(alloc)?)?, None);
    Ok(())
}
