//! Rule bases in the caller's own process.

use super::fixtures::{ANSWERS, SCRIPT, later_lines};
use hp_analysis::Declaration;
use hp_checked::declaration_for;
use hp_live::{Options, Outcome, Session};
use std::process::Abort;
use std::test::Fail;

const JSON: Options = Options {
    workers: 1,
    tree: false,
    text: false,
};

const TEXT: Options = Options {
    workers: 1,
    tree: false,
    text: true,
};

/// A script as text.
const NOTATION: &str = "version 1 class acct { bal: int }
transaction { create acct(1) set bal = 5 create acct(-9223372036854775808) set bal = 6 }";

/// A session keeps this answer, and its last line became this.
fn expect<R: Abort>(
    rt: &R,
    session: &Session,
    became: Outcome,
    outcome: Outcome,
    answer: &str,
) -> Result<(), Fail> {
    assert_eq!(*rt; session.answer.as_slice(), answer.as_bytes());
    assert_eq!(*rt; became, outcome);
    assert_eq!(*rt; session.lost, false);
    Ok(())
}

#[test]
fn the_answers_are_those_to_the_lines(rt: HostRuntime) -> Result<(), Fail> {
    let lines = later_lines(rt.alloc())?;
    let mut answers = Vec::new(rt.alloc());
    let (mut session, _) = Session::open(rt.alloc(), SCRIPT.as_bytes(), JSON, None)?;
    answers.extend_from_slice(&session.answer)?;
    for line in lines.split('\n') {
        session.line(rt.alloc(), line.as_bytes())?;
        answers.extend_from_slice(&session.answer)?;
    }
    assert_eq!(rt; answers.as_slice(), ANSWERS.as_bytes());
    Ok(())
}

#[test]
fn each_line_becomes_something(rt: HostRuntime) -> Result<(), Fail> {
    let (mut session, opened) = Session::open(rt.alloc(), NOTATION.as_bytes(), TEXT, None)?;
    expect(
        &rt,
        &session,
        opened,
        Outcome::Done,
        "unit 1 committed\nok 1\n",
    )?;
    let became = session.line(rt.alloc(), b"transaction { update acct(1) set bal = 7 }")?;
    expect(
        &rt,
        &session,
        became,
        Outcome::Done,
        "unit 2 committed\nok 2\n",
    )?;
    let became = session.line(rt.alloc(), b"transaction { update nothing(1) set bal = 1 }")?;
    expect(&rt, &session, became, Outcome::Refused, "refused S4 1:22\n")?;
    let became = session.show(rt.alloc())?;
    let state = "object acct -9223372036854775808 bal=6\nobject acct 1 bal=7\nok 2\n";
    expect(&rt, &session, became, Outcome::Done, state)
}

#[test]
fn an_object_is_asked_for_in_json(rt: HostRuntime) -> Result<(), Fail> {
    let (mut session, _) = Session::open(rt.alloc(), NOTATION.as_bytes(), TEXT, None)?;
    let became = session.get(rt.alloc(), b"acct", 1)?;
    expect(
        &rt,
        &session,
        became,
        Outcome::Done,
        "object acct 1 bal=5\nok 1\n",
    )?;
    let became = session.get(rt.alloc(), b"acct", i64::MIN)?;
    let least = "object acct -9223372036854775808 bal=6\nok 1\n";
    expect(&rt, &session, became, Outcome::Done, least)?;
    let became = session.get(rt.alloc(), b"acct", i64::MAX)?;
    expect(&rt, &session, became, Outcome::Done, "ok 1\n")?;
    let became = session.get(rt.alloc(), b"acc", 1)?;
    expect(&rt, &session, became, Outcome::Refused, "refused S4 /1\n")?;
    for class in [&b"a\"b"[..], b"acct\"]", b"\xff", b"acct\",1],[\"", b"\n"] {
        let became = session.get(rt.alloc(), class, 1)?;
        expect(&rt, &session, became, Outcome::Refused, "refused S1\n")?;
    }
    Ok(())
}

#[test]
fn nothing_is_answered_after_a_refused_script(rt: HostRuntime) -> Result<(), Fail> {
    let (mut session, opened) = Session::open(rt.alloc(), NOTATION.as_bytes(), JSON, None)?;
    expect(&rt, &session, opened, Outcome::Refused, "refused S1\n")?;
    let became = session.line(rt.alloc(), b"[\"show\"]")?;
    expect(&rt, &session, became, Outcome::Closed, "")?;
    let became = session.get(rt.alloc(), b"acct", 1)?;
    expect(&rt, &session, became, Outcome::Closed, "")
}

#[test]
fn a_line_has_the_size_of_a_script(rt: HostRuntime) -> Result<(), Fail> {
    let (mut session, _) = Session::open(rt.alloc(), NOTATION.as_bytes(), TEXT, None)?;
    let mut line = Vec::new(rt.alloc());
    line.extend_from_slice(b"show")?;
    for size in [1_048_576usize, 1_048_577, 1_048_578] {
        line.resize(size, b'\n')?;
        let became = session.line(rt.alloc(), &line)?;
        if size == 1_048_576 {
            assert_eq!(rt; became, Outcome::Done);
        } else {
            expect(&rt, &session, became, Outcome::Refused, "refused S5 size\n")?;
        }
    }
    Ok(())
}

/// A script whose rule uses the argument of its signal as a number.
const GUARDED: &str = "version 1 class acct { bal: int }
rule adds on signal go do { create acct(1) set bal = event.arg(0) }
transaction { install adds }";

#[test]
fn a_checked_session_refuses_other_kinds(rt: HostRuntime) -> Result<(), Fail> {
    let alloc = rt.alloc();
    let given = Declaration::new(alloc);
    let checks = Some(declaration_for(alloc, GUARDED.as_bytes(), true, given)?);
    let (mut session, opened) = Session::open(alloc, GUARDED.as_bytes(), TEXT, checks)?;
    let answer = "unit 1 committed\nok 1\n";
    expect(&rt, &session, opened, Outcome::Done, answer)?;
    let became = session.line(alloc, b"transaction { signal go(\"a\") }")?;
    let refusal = "refused S8 kinds /1/0/2/0\n";
    expect(&rt, &session, became, Outcome::Refused, refusal)?;
    let became = session.line(alloc, b"transaction { signal go(7) }")?;
    let answer = "unit 2 committed\nok 2\n";
    expect(&rt, &session, became, Outcome::Done, answer)?;
    let became = session.get(alloc, b"acct", 1)?;
    let object = "object acct 1 bal=7\nok 2\n";
    expect(&rt, &session, became, Outcome::Done, object)
}
