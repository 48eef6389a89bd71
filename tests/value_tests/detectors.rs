//! Occurrences of nested events. The expected values are worked out by hand from the rules of events.

use hp_detect::{Detector, EventExpr, Knowledge, Occurrence, Pattern, Prim, detect, is_pure};
use hp_value::Value;
use std::alloc::{AllocError, Global};
use std::process::Abort;
use std::sync::Arc;
use std::test::Fail;

/// An event in postfix notation: a word is a signal's name, `|` a disjunction, `;` a sequence, `*` a closure.
fn event(alloc: Global, postfix: &str) -> Result<Arc<EventExpr>, AllocError> {
    let mut stack = Vec::new(alloc);
    for word in postfix.split_whitespace() {
        put_word(alloc, &mut stack, word)?;
    }
    Ok(Arc::new(alloc, stack.pop().unwrap_or(NO_EVENT))?)
}

fn put_word(alloc: Global, stack: &mut Vec<EventExpr>, word: &str) -> Result<(), AllocError> {
    let made = match word {
        "|" | ";" | "*" => {
            let second = popped(alloc, stack)?;
            composite(word, popped(alloc, stack)?, second)
        }
        _ => EventExpr::One(Pattern::Signal(String::from_str(alloc, word)?)),
    };
    stack.push(made)?;
    Ok(())
}

fn popped(alloc: Global, stack: &mut Vec<EventExpr>) -> Result<Box<EventExpr>, AllocError> {
    Ok(Box::new(alloc, stack.pop().unwrap_or(NO_EVENT))?)
}

const NO_EVENT: EventExpr = EventExpr::One(Pattern::Commit);

fn composite(word: &str, first: Box<EventExpr>, second: Box<EventExpr>) -> EventExpr {
    match word {
        "|" => EventExpr::Or(first, second),
        ";" => EventExpr::Seq(first, second),
        _ => EventExpr::Closure(first, second),
    }
}

/// A signal of this name with one argument.
fn signal(alloc: Global, name: &str, argument: i64) -> Result<Prim, AllocError> {
    let name = String::from_str(alloc, name)?;
    let args = vec![in alloc; Value::Int(argument)]?;
    Ok(Prim::Signal { name, args })
}

/// The signals of a text such as `a1 b2`: each a name of one letter and a digit.
fn signals(alloc: Global, words: &str) -> Result<Vec<Prim>, AllocError> {
    let mut all = Vec::new(alloc);
    for word in words.split_whitespace() {
        if let Some((name, digit)) = word.split_at_checked(1) {
            let argument = digit.parse::<i64>().unwrap_or(0);
            all.push(signal(alloc, name, argument)?)?;
        }
    }
    Ok(all)
}

/// Appends the name and the argument of a signal to a text.
fn put_part(text: &mut String, part: &Prim) -> Result<(), AllocError> {
    if let Prim::Signal { name, args } = part {
        text.push_str(name.as_str())?;
        if let Some(Value::Int(argument)) = args.first() {
            write!(text, "{argument}")?;
        }
    }
    Ok(())
}

/// Appends an occurrence to a text, such as `2:a1b2`: its count, and the name and argument of each part.
fn put_answer(text: &mut String, answer: &Option<Occurrence>) -> Result<(), AllocError> {
    let Some(occurrence) = answer else {
        return text.push('-');
    };
    let count = occurrence.count;
    write!(text, "{count}:")?;
    for part in &occurrence.parts {
        put_part(text, part)?;
    }
    Ok(())
}

/// The text of an answer.
fn shown(alloc: Global, answer: &Option<Occurrence>) -> Result<String, AllocError> {
    let mut text = String::new(alloc);
    put_answer(&mut text, answer)?;
    Ok(text)
}

/// Writes answers to an empty text.
fn put_answers(text: &mut String, answers: &[Option<Occurrence>]) -> Result<(), AllocError> {
    for answer in answers {
        if !text.is_empty() {
            text.push(' ')?;
        }
        put_answer(text, answer)?;
    }
    Ok(())
}

/// The event's answers along the signals.
fn answers(alloc: Global, postfix: &str, words: &str) -> Result<String, AllocError> {
    let expr = event(alloc, postfix)?;
    let signals = signals(alloc, words)?;
    let answers = detect(alloc, &expr, &signals)?;
    let mut text = String::new(alloc);
    put_answers(&mut text, &answers)?;
    Ok(text)
}

fn assert_answers(
    rt: &impl Abort,
    alloc: Global,
    postfix: &str,
    words: &str,
    wanted: &str,
) -> Result<(), AllocError> {
    let found = answers(alloc, postfix, words)?;
    assert_eq!(rt; found.as_str(), wanted, "{postfix} along {words}");
    Ok(())
}

#[test]
fn events_occur_as_worked_out_by_hand(rt: HostRuntime) -> Result<(), Fail> {
    let cases = [
        // A disjunction occurs once where both arms do, with the parts of the first.
        ("a a |", "a1 b2 a3", "1:a1 - 1:a3"),
        ("a a b ; |", "a1 b2 a3 b4 b5", "1:a1 2:a1b2 1:a3 2:a3b4 -"),
        // A sequence takes the oldest occurrence that isn't taken yet, and only an earlier one.
        ("a b ;", "b0 a1 a2 b3 b4 b5", "- - - 2:a1b3 2:a2b4 -"),
        ("a a ;", "a1 a2 a3", "- 2:a1a2 2:a2a3"),
        ("a b c ; ;", "b1 a2 b3 c4 c5", "- - - 3:a2b1c4 -"),
        // A closure occurs once, at its end. It begins again after each end, even one at which it didn't occur.
        ("a t *", "a7 a8 t0 t0", "- - 2:a8t0 -"),
        (
            "a t *",
            "t0 a1 t2 t3 a4 a5 a6 t7",
            "- - 1:a1t2 - - - - 3:a6t7",
        ),
        ("a a *", "a1 a2 a3", "- - -"),
        // A closure's count is the sum of the counts of its bodies, without the end's.
        ("a b ; t *", "a1 b2 a3 b4 t5", "- - - - 4:a3b4t5"),
        ("a t * b ;", "a1 a2 t0 b0", "- - - 3:a2t0b0"),
        ("a b ; a b * ;", "a1 b2 a3 b4", "- - - 3:a1b2a3b4"),
    ];
    for (postfix, words, wanted) in cases {
        assert_answers(&rt, rt.alloc(), postfix, words, wanted)?;
    }
    Ok(())
}

fn walk(alloc: Global, detector: &mut Detector, signals: &[Prim]) -> Result<(), AllocError> {
    for prim in signals {
        let _ = detector.step(alloc, prim)?;
    }
    Ok(())
}

/// A detector of the event after these signals.
fn stepped(alloc: Global, expr: &Arc<EventExpr>, words: &str) -> Result<Detector, AllocError> {
    let signals = signals(alloc, words)?;
    let mut detector = Detector::fresh(alloc, expr)?;
    walk(alloc, &mut detector, &signals)?;
    Ok(detector)
}

/// Whether two detectors of the event are equal after these and those signals.
fn are_equal(
    rt: &impl Abort,
    alloc: Global,
    postfix: &str,
    words: &str,
    others: &str,
) -> Result<bool, AllocError> {
    let expr = event(alloc, postfix)?;
    let detector = stepped(alloc, &expr, words)?;
    let other = stepped(alloc, &expr, others)?;
    assert_equals_copy(rt, &detector)?;
    Ok(detector == other)
}

fn assert_equals_copy(rt: &impl Abort, detector: &Detector) -> Result<(), AllocError> {
    let copy = detector.clone()?;
    assert!(rt; *detector == copy);
    Ok(())
}

#[test]
fn detectors_are_equal_if_they_know_the_same(rt: HostRuntime) -> Result<(), Fail> {
    let cases = [
        ("a b ;", "a1 b2 a5", "a5", true),
        ("a b ;", "a1 b2 a5", "a4", false),
        ("a b ;", "a1 b2 a5", "a1 a5", false),
        ("a b ;", "a1 b2 b3", "", true),
        ("a t *", "a1 t2 a3", "t0 a3", true),
        ("a t *", "a1 t2 a3", "a1 a3", false),
        ("a b |", "a1 b2 a3", "", true),
    ];
    for (postfix, words, others, wanted) in cases {
        let same = are_equal(&rt, rt.alloc(), postfix, words, others)?;
        assert_eq!(rt; same, wanted, "{postfix} along {words} and {others}");
    }
    Ok(())
}

fn mentions(alloc: Global, expr: &EventExpr, name: &str) -> Result<bool, AllocError> {
    let prim = signal(alloc, name, 2)?;
    Ok(expr.mentions(&prim))
}

fn assert_mentions(rt: &impl Abort, alloc: Global, expr: &EventExpr) -> Result<(), AllocError> {
    assert!(rt; mentions(alloc, expr, "b")?);
    assert!(rt; !mentions(alloc, expr, "c")?);
    Ok(())
}

#[test]
fn an_event_says_if_it_looks_back_and_what_it_mentions(rt: HostRuntime) -> Result<(), Fail> {
    let pure = event(rt.alloc(), "a b |")?;
    let sequence = event(rt.alloc(), "a b ;")?;
    assert!(rt; is_pure(&pure));
    assert!(rt; !is_pure(&sequence));
    assert!(rt; *pure != *sequence);
    assert_mentions(&rt, rt.alloc(), &pure)?;
    Ok(())
}

/// Steps until no allocation is refused. Says whether each refused step left the detector as it was.
fn steadily(
    alloc: Global,
    detector: &mut Detector,
    prim: &Prim,
) -> Result<(Option<Occurrence>, bool), AllocError> {
    let before = detector.clone()?;
    match detector.step(alloc, prim) {
        Ok(answer) => Ok((answer, true)),
        Err(AllocError) => {
            let unchanged = *detector == before;
            Ok((detector.step(alloc, prim)?, unchanged))
        }
    }
}

/// The last answer along the signals, if each refused step left the detector as it was.
fn last_answer(
    rt: &impl Abort,
    alloc: Global,
    detector: &mut Detector,
    signals: &[Prim],
) -> Result<Option<Occurrence>, AllocError> {
    let mut last = None;
    for prim in signals {
        let (answer, unchanged) = steadily(alloc, detector, prim)?;
        assert!(rt; unchanged);
        last = answer;
    }
    Ok(last)
}

/// Runs with each allocation refused in turn, by `rt try --test --fail-alloc N`: a refused step changes nothing, and
/// the next one answers as if it had not been.
#[test]
fn refused_steps_change_nothing(rt: HostRuntime) -> Result<(), Fail> {
    let expr = event(rt.alloc(), "a b ; t * c ;")?;
    let signals = signals(rt.alloc(), "a1 b2 a3 b4 t5 a6 c7")?;
    let mut detector = Detector::fresh(rt.alloc(), &expr)?;
    let last = last_answer(&rt, rt.alloc(), &mut detector, &signals)?;
    assert_shown(&rt, rt.alloc(), &last, "5:a3b4t5c7")?;
    Ok(())
}

/// Goes on from what is known by a signal, and gives the answer.
fn step_on(
    alloc: Global,
    expr: &EventExpr,
    known: &mut Knowledge,
    prim: &Prim,
) -> Result<Option<Occurrence>, AllocError> {
    let (answer, next) = known.step(alloc, expr, prim)?;
    *known = next;
    Ok(answer)
}

/// Goes on by a signal that changes what is known, and gives the answer.
fn learn(
    rt: &impl Abort,
    alloc: Global,
    expr: &EventExpr,
    known: &mut Knowledge,
    prim: &Prim,
) -> Result<Option<Occurrence>, AllocError> {
    let before = known.clone()?;
    let answer = step_on(alloc, expr, known, prim)?;
    assert!(rt; before != *known);
    Ok(answer)
}

/// What an event that knows nothing answers last along these signals.
fn last_learnt(
    rt: &impl Abort,
    alloc: Global,
    expr: &EventExpr,
    signals: &[Prim],
) -> Result<Option<Occurrence>, AllocError> {
    let mut known = Knowledge::fresh(alloc, expr)?;
    let mut last = None;
    for prim in signals {
        last = learn(rt, alloc, expr, &mut known, prim)?;
    }
    Ok(last)
}

fn assert_shown(
    rt: &impl Abort,
    alloc: Global,
    answer: &Option<Occurrence>,
    wanted: &str,
) -> Result<(), AllocError> {
    let text = shown(alloc, answer)?;
    assert_eq!(rt; text.as_str(), wanted);
    Ok(())
}

/// Knowledge steps as a detector of the event does.
#[test]
fn knowledge_steps_as_a_detector_does(rt: HostRuntime) -> Result<(), Fail> {
    let expr = event(rt.alloc(), "a b ;")?;
    let signals = signals(rt.alloc(), "a1 a2 b3")?;
    let last = last_learnt(&rt, rt.alloc(), &expr, &signals)?;
    assert_shown(&rt, rt.alloc(), &last, "2:a1b3")?;
    let known = Knowledge::fresh(rt.alloc(), &expr)?;
    assert!(rt; known == known.clone()?);
    Ok(())
}

fn step_by(
    alloc: Global,
    expr: &EventExpr,
    known: &mut Knowledge,
    name: &str,
    argument: i64,
) -> Result<Option<Occurrence>, AllocError> {
    let prim = signal(alloc, name, argument)?;
    step_on(alloc, expr, known, &prim)
}

/// What is known after further signals `a` with these arguments, in order. In a sequence each waits for a `b`.
fn waiting(
    alloc: Global,
    expr: &EventExpr,
    before: &Knowledge,
    first: i64,
    end: i64,
) -> Result<Knowledge, AllocError> {
    let mut known = before.clone()?;
    for argument in first..end {
        drop(step_by(alloc, expr, &mut known, "a", argument)?);
    }
    Ok(known)
}

/// Whether a further `b` takes the `a` with this argument.
fn takes(
    alloc: Global,
    expr: &EventExpr,
    known: &mut Knowledge,
    argument: i64,
) -> Result<bool, AllocError> {
    let answer = step_by(alloc, expr, known, "b", 0)?;
    let wanted = format!(in alloc; "2:a{argument}b0")?;
    Ok(shown(alloc, &answer)? == wanted)
}

/// What is known after a `b` for each of these arguments, and whether each took the `a` with its argument, in order.
fn taken(
    alloc: Global,
    expr: &EventExpr,
    before: &Knowledge,
    first: i64,
    end: i64,
) -> Result<(Knowledge, bool), AllocError> {
    let mut known = before.clone()?;
    let mut in_order = true;
    for argument in first..end {
        in_order &= takes(alloc, expr, &mut known, argument)?;
    }
    Ok((known, in_order))
}

fn take_all(
    rt: &impl Abort,
    alloc: Global,
    expr: &EventExpr,
    none: &Knowledge,
    former: &Knowledge,
) -> Result<(), AllocError> {
    let (left, in_order) = taken(alloc, expr, former, 0, 3000)?;
    assert!(rt; in_order);
    assert!(rt; left == *none);
    Ok(())
}

/// Everything that waits is taken, the oldest first, and what was known before stays the same.
#[test]
fn many_wait_and_are_taken_in_order(rt: HostRuntime) -> Result<(), Fail> {
    let expr = event(rt.alloc(), "a b ;")?;
    let none = Knowledge::fresh(rt.alloc(), &expr)?;
    let former = waiting(rt.alloc(), &expr, &none, 0, 3000)?;
    take_all(&rt, rt.alloc(), &expr, &none, &former)?;
    assert!(rt; former == waiting(rt.alloc(), &expr, &none, 0, 3000)?);
    take_all(&rt, rt.alloc(), &expr, &none, &former)?;
    Ok(())
}

/// However many wait, no call nests deeper than the logarithm of their number.
#[test]
fn a_million_wait(rt: HostRuntime) -> Result<(), Fail> {
    let expr = event(rt.alloc(), "a b ;")?;
    let none = Knowledge::fresh(rt.alloc(), &expr)?;
    let known = waiting(rt.alloc(), &expr, &none, 0, 1_000_000)?;
    let (_, in_order) = taken(rt.alloc(), &expr, &known, 0, 3)?;
    assert!(rt; in_order);
    Ok(())
}

/// More wait than the known ones: those from a first argument on.
fn compare_longer(
    rt: &impl Abort,
    alloc: Global,
    expr: &EventExpr,
    none: &Knowledge,
    known: &Knowledge,
    first: i64,
) -> Result<(), AllocError> {
    let longer = waiting(alloc, expr, none, first, 100)?;
    assert!(rt; *known != longer);
    compare_same(rt, alloc, expr, known, &longer, first)
}

/// Once as many are taken as wait longer, the same wait as the known ones.
fn compare_same(
    rt: &impl Abort,
    alloc: Global,
    expr: &EventExpr,
    known: &Knowledge,
    longer: &Knowledge,
    first: i64,
) -> Result<(), AllocError> {
    let (same, _) = taken(alloc, expr, longer, first, 0)?;
    assert!(rt; *known == same);
    compare_shorter(rt, alloc, expr, known, &same)
}

/// All of the known ones wait but the first, and then one more.
fn compare_shorter(
    rt: &impl Abort,
    alloc: Global,
    expr: &EventExpr,
    known: &Knowledge,
    same: &Knowledge,
) -> Result<(), AllocError> {
    let (shorter, _) = taken(alloc, expr, same, 0, 1)?;
    assert!(rt; *known != shorter);
    let moved = waiting(alloc, expr, &shorter, 100, 101)?;
    assert!(rt; *known != moved);
    Ok(())
}

/// A hundred wait, one of which has the argument -1 instead of its own.
fn with_one_changed(
    alloc: Global,
    expr: &EventExpr,
    none: &Knowledge,
    changed: i64,
) -> Result<Knowledge, AllocError> {
    let start = waiting(alloc, expr, none, 0, changed)?;
    let other = waiting(alloc, expr, &start, -1, 0)?;
    waiting(alloc, expr, &other, changed.wrapping_add(1), 100)
}

/// Queues are equal if the same items wait, however many preceded them, and unequal otherwise.
#[test]
fn queues_are_compared_by_what_waits(rt: HostRuntime) -> Result<(), Fail> {
    let expr = event(rt.alloc(), "a b ;")?;
    let none = Knowledge::fresh(rt.alloc(), &expr)?;
    let known = waiting(rt.alloc(), &expr, &none, 0, 100)?;
    for first in [-1, -3, -8, -13, -100] {
        compare_longer(&rt, rt.alloc(), &expr, &none, &known, first)?;
    }
    for changed in [0, 7, 50, 99] {
        assert!(rt; known != with_one_changed(rt.alloc(), &expr, &none, changed)?);
    }
    Ok(())
}
