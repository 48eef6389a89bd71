//! Whole runs on devices that transfer little at a time, and that fail.

use super::fixtures::{
    ANSWERS, EASY, FOURTH_ANSWERS, Steps, bytes_until, fourth_session, new_device, session,
};
use hp_analysis::Declaration;
use hp_live::{Fault, Options, Start, Status, run};
use hp_report::Watched;
use hp_signals::read_signals;
use std::process::Abort;
use std::test::Fail;
use std::thread::Threads;

/// What is written for an input, and how the run ends.
fn served<R: AllocGlobal + Threads + Sync>(
    rt: &R,
    input: &[u8],
    reads: Steps,
    writes: Steps,
) -> (Vec<u8>, Result<Status, Fault>) {
    served_by(rt, input, None, reads, writes)
}

/// The same, by what is given of signals, if the rule base is checked.
fn served_by<R: AllocGlobal + Threads + Sync>(
    rt: &R,
    input: &[u8],
    given: Option<Declaration>,
    reads: Steps,
    writes: Steps,
) -> (Vec<u8>, Result<Status, Fault>) {
    let alloc = rt.alloc();
    let mut reader = Watched::new(new_device(alloc, input, reads));
    let mut writer = Watched::new(new_device(alloc, b"", writes));
    let options = Options {
        workers: 1,
        tree: false,
        text: false,
    };
    let start = Start::of(alloc, None, given, options.text, &mut reader);
    let ended = match start {
        Ok(start) => run(rt, alloc, start, &mut reader, &mut writer, options),
        Err(fault) => Err(fault),
    };
    (writer.into_inner().output, ended)
}

/// The whole input is answered.
fn expect_answers<R: Abort + AllocGlobal + Threads + Sync>(rt: &R, input: &[u8], reads: Steps) {
    let (output, ended) = served(rt, input, reads, EASY);
    assert_eq!(*rt; output.as_slice(), ANSWERS.as_bytes());
    assert_eq!(*rt; ended, Ok(Status::Reported));
}

/// A write fails, and what was written is the beginning of the answers.
fn expect_write_fault<R: Abort + AllocGlobal + Threads + Sync>(
    rt: &R,
    input: &[u8],
    writes: Steps,
    written: usize,
) {
    let (output, ended) = served(rt, input, EASY, writes);
    assert_eq!(*rt; ended, Err(Fault::Write));
    assert_eq!(*rt; output.len(), written);
    assert!(*rt; ANSWERS.as_bytes().starts_with(&output));
}

/// The complete lines among the first `count` bytes.
fn whole_lines(input: &[u8], count: usize) -> &[u8] {
    let mut end = 0usize;
    for (place, byte) in input.iter().take(count).enumerate() {
        if *byte == b'\n' {
            end = place.wrapping_add(1);
        }
    }
    &input[..end.min(input.len())]
}

#[test]
fn lines_are_answered_however_they_come(rt: HostRuntime) -> Result<(), Fail> {
    let input = session(rt.alloc())?;
    for step in [1usize, 7, 4096] {
        let reads = Steps {
            first: step,
            later: step,
            fails_at: 0,
        };
        expect_answers(&rt, input.as_bytes(), reads);
    }
    Ok(())
}

#[test]
fn lines_are_answered_wherever_they_are_cut(rt: HostRuntime) -> Result<(), Fail> {
    let input = session(rt.alloc())?;
    for first in 1..input.len() {
        let reads = Steps {
            first,
            later: 4096,
            fails_at: 0,
        };
        expect_answers(&rt, input.as_bytes(), reads);
    }
    Ok(())
}

#[test]
fn a_failed_read_ends_the_run_after_the_lines_before_it(rt: HostRuntime) -> Result<(), Fail> {
    let input = session(rt.alloc())?;
    // The last read finds the end of the input.
    for read in 0..=input.len() {
        let reads = bytes_until(read.wrapping_add(1));
        let (output, ended) = served(&rt, input.as_bytes(), reads, EASY);
        assert_eq!(rt; ended, Err(Fault::Read));
        let whole = whole_lines(input.as_bytes(), read);
        let (wanted, _ended) = served(&rt, whole, EASY, EASY);
        assert_eq!(rt; output, wanted);
        assert!(rt; ANSWERS.as_bytes().starts_with(&output));
    }
    Ok(())
}

#[test]
fn a_failed_write_ends_the_run_within_an_answer(rt: HostRuntime) -> Result<(), Fail> {
    let input = session(rt.alloc())?;
    for taken in 0..ANSWERS.len() {
        let writes = bytes_until(taken.wrapping_add(1));
        expect_write_fault(&rt, input.as_bytes(), writes, taken);
    }
    Ok(())
}

#[test]
fn a_write_that_takes_nothing_ends_the_run(rt: HostRuntime) -> Result<(), Fail> {
    let input = session(rt.alloc())?;
    let writes = Steps {
        first: 4096,
        later: 0,
        fails_at: 0,
    };
    let first_answer = "unit 1 committed\nok 1\n";
    expect_write_fault(&rt, input.as_bytes(), writes, first_answer.len());
    Ok(())
}

#[test]
fn lines_of_version_4_have_its_forms(rt: HostRuntime) -> Result<(), Fail> {
    let input = fourth_session(rt.alloc())?;
    let (output, ended) = served(&rt, input.as_bytes(), EASY, EASY);
    assert_eq!(rt; output.as_slice(), FOURTH_ANSWERS.as_bytes());
    assert_eq!(rt; ended, Ok(Status::Reported));
    Ok(())
}

#[test]
fn lines_of_version_2_have_none_of_them(rt: HostRuntime) -> Result<(), Fail> {
    let input = r#"{"version":2,"classes":[],"rules":[],"items":[]}
["tx",[["emit",["now"]]]]
["tx",[["let","k",1,[]]]]
"#;
    let answers = "ok 0\nrefused S2 /1/0/1\nrefused S2 /1/0\n";
    let (output, _ended) = served(&rt, input.as_bytes(), EASY, EASY);
    assert_eq!(rt; output.as_slice(), answers.as_bytes());
    Ok(())
}

#[test]
fn a_checked_rule_base_answers_lines_wherever_they_are_cut(rt: HostRuntime) -> Result<(), Fail> {
    let input = session(rt.alloc())?;
    for first in [1usize, 2, 100, 400, 700, 4096] {
        for later in [1usize, 4096] {
            let reads = Steps {
                first,
                later,
                fails_at: 0,
            };
            let given = Declaration::new(rt.alloc());
            let (output, ended) = served_by(&rt, input.as_bytes(), Some(given), reads, EASY);
            assert_eq!(rt; output.as_slice(), ANSWERS.as_bytes());
            assert_eq!(rt; ended, Ok(Status::Reported));
        }
    }
    Ok(())
}

#[test]
fn a_checked_rule_base_refuses_what_is_not_as_given(rt: HostRuntime) -> Result<(), Fail> {
    let input = r#"{"version":1,"classes":[],"rules":[],"items":[]}
["tx",[["signal","go",[1]]]]
["tx",[["signal","go",[true]]]]
"#;
    let answers = "ok 0\nunit 1 committed\nok 1\nrefused S8 kinds /1/0/2/0\n";
    let given = read_signals(rt.alloc(), br#"[["go",["int"]]]"#)?;
    let (output, _ended) = served_by(&rt, input.as_bytes(), Some(given), EASY, EASY);
    assert_eq!(rt; output.as_slice(), answers.as_bytes());
    Ok(())
}
