//! Runs whose script is in a file.

use super::fixtures::{ANSWERS, EASY, SCRIPT, Steps, bytes_until, later_lines, new_device};
use hp_live::{Fault, Options, Start, Status, run};
use hp_report::Watched;
use std::process::Abort;
use std::test::Fail;
use std::thread::Threads;

const JSON: Options = Options {
    workers: 1,
    tree: false,
    text: false,
};

const TEXT: Options = Options {
    workers: 1,
    tree: false,
    text: true,
};

/// A script as text, on lines of its own.
const NOTATION: &str = "version 1
# a class
class acct { bal: int }

transaction {
  create acct(1) set bal = 5 # an object
}
";

/// What is written for a file and an input, how many bytes of the input are left, and how the run ends.
fn answered<R: AllocGlobal + Threads + Sync>(
    rt: &R,
    file: &[u8],
    input: &[u8],
    options: Options,
    writes: Steps,
) -> Result<(Vec<u8>, usize, Result<Status, Fault>), Fail> {
    let alloc = rt.alloc();
    let mut script = Vec::new(alloc);
    script.extend_from_slice(file)?;
    let mut reader = Watched::new(new_device(alloc, input, EASY));
    let mut writer = Watched::new(new_device(alloc, b"", writes));
    let start = Start::of(alloc, Some(script), None, options.text, &mut reader);
    let ended = match start {
        Ok(start) => run(rt, alloc, start, &mut reader, &mut writer, options),
        Err(fault) => Err(fault),
    };
    Ok((
        writer.into_inner().output,
        reader.into_inner().input.len(),
        ended,
    ))
}

/// A file and an input have these answers.
fn expect<R: Abort + AllocGlobal + Threads + Sync>(
    rt: &R,
    file: &[u8],
    input: &[u8],
    options: Options,
    answers: &str,
) -> Result<(), Fail> {
    let (output, left, ended) = answered(rt, file, input, options, EASY)?;
    assert_eq!(*rt; output.as_slice(), answers.as_bytes());
    assert_eq!(*rt; left, 0);
    assert_eq!(*rt; ended, Ok(Status::Reported));
    Ok(())
}

/// A file is refused with this line, and then nothing is read.
fn expect_refused<R: Abort + AllocGlobal + Threads + Sync>(
    rt: &R,
    file: &[u8],
    options: Options,
    refusal: &str,
) -> Result<(), Fail> {
    let input = b"[\"show\"]\n";
    let (output, left, ended) = answered(rt, file, input, options, EASY)?;
    assert_eq!(*rt; output.as_slice(), refusal.as_bytes());
    assert_eq!(*rt; left, input.len());
    assert_eq!(*rt; ended, Ok(Status::Refused));
    Ok(())
}

#[test]
fn a_file_is_answered_as_a_first_line(rt: HostRuntime) -> Result<(), Fail> {
    let lines = later_lines(rt.alloc())?;
    expect(&rt, SCRIPT.as_bytes(), lines.as_bytes(), JSON, ANSWERS)
}

#[test]
fn a_file_of_text_has_its_comments(rt: HostRuntime) -> Result<(), Fail> {
    let lines = b"show\ntransaction { emit 7 } # a comment\n";
    let answers =
        "unit 1 committed\nok 1\nobject acct 1 bal=5\nok 1\nunit 2 committed\nemit 7\nok 2\n";
    expect(&rt, NOTATION.as_bytes(), lines, TEXT, answers)
}

#[test]
fn a_file_is_answered_where_there_are_no_lines(rt: HostRuntime) -> Result<(), Fail> {
    expect(
        &rt,
        NOTATION.as_bytes(),
        b"",
        TEXT,
        "unit 1 committed\nok 1\n",
    )
}

#[test]
fn a_script_is_no_later_line(rt: HostRuntime) -> Result<(), Fail> {
    let script = br#"{"version":1,"classes":[],"rules":[],"items":[]}"#;
    expect(&rt, script, script, JSON, "ok 0\nrefused S2 /\n")
}

#[test]
fn nothing_is_read_after_a_refused_file(rt: HostRuntime) -> Result<(), Fail> {
    expect_refused(&rt, b"", JSON, "refused S1\n")?;
    expect_refused(&rt, b"[]\n", JSON, "refused S2 /\n")?;
    expect_refused(&rt, b"version 1\nclass", TEXT, "refused S1 2:6\n")?;
    expect_refused(&rt, NOTATION.as_bytes(), JSON, "refused S1\n")
}

#[test]
fn a_file_has_the_size_of_a_script(rt: HostRuntime) -> Result<(), Fail> {
    let mut file = Vec::new(rt.alloc());
    file.extend_from_slice(br#"{"version":1,"classes":[],"rules":[],"items":[]}"#)?;
    file.resize(1_048_576, b'\n')?;
    expect(&rt, &file, b"[\"show\"]", JSON, "ok 0\nok 0\n")?;
    file.push(b'\n')?;
    expect_refused(&rt, &file, JSON, "refused S5 size\n")
}

#[test]
fn a_failed_write_of_its_answer_ends_the_run(rt: HostRuntime) -> Result<(), Fail> {
    let answer = "unit 1 committed\nok 1\n";
    for taken in 0..answer.len() {
        let writes = bytes_until(taken.wrapping_add(1));
        let (output, left, ended) = answered(&rt, NOTATION.as_bytes(), b"show\n", TEXT, writes)?;
        assert_eq!(rt; ended, Err(Fault::Write));
        assert_eq!(rt; output.as_slice(), &answer.as_bytes()[..taken]);
        assert_eq!(rt; left, 5);
    }
    Ok(())
}
