//! Lines to a rule base, read or refused.

use hp_rule::Unit;
use hp_script::{DecodeError, Excerpt, Request, Script, decode, decode_request, refusal_text};
use std::alloc::Global;
use std::process::Abort;
use std::test::Fail;

/// A class, and a rule that fires at 7.
const BASE: &str = r#"{
  "version": 1,
  "classes": [["acct", [["bal", "int"]]]],
  "rules": [["r", ["at", 7], "immediate", [], "immediate", []]],
  "items": [["clock", 5]]
}"#;

/// An excerpt in words.
fn name_of(alloc: Global, excerpt: Excerpt) -> Result<String, Fail> {
    match excerpt {
        Excerpt::State => Ok(String::from_str(alloc, "state")?),
        Excerpt::Class(class) => Ok(format!(in alloc; "class {class}")?),
        Excerpt::Object(class, key) => Ok(format!(in alloc; "object {class} {key}")?),
    }
}

/// The line for a refused request after the script, without its line feed, or else how many units it has, and the time
/// after it.
fn asked(alloc: Global, script: &Script, line: &str) -> Result<String, Fail> {
    match decode_request(
        alloc,
        script.version,
        &script.library,
        script.clock,
        line.as_bytes(),
    ) {
        Ok(Request::Show(excerpt)) => name_of(alloc, excerpt),
        Ok(Request::Item(schedule)) => {
            let count = schedule.units.len();
            let clock = schedule.clock;
            Ok(format!(in alloc; "{count} at {clock}")?)
        }
        Err(DecodeError::Refused(refusal)) => {
            let text = refusal_text(alloc, &refusal)?;
            Ok(String::from_str(alloc, text.as_str().trim_end())?)
        }
        Err(DecodeError::Memory) => Err(Fail::from("memory")),
    }
}

/// What is answered to a line after this script.
fn answer_after(alloc: Global, script: &str, line: &str) -> Result<String, Fail> {
    let Ok(script) = decode(alloc, script.as_bytes()) else {
        return Err(Fail::from("refused"));
    };
    asked(alloc, &script, line)
}

/// What is answered to a line after the script.
fn answer(alloc: Global, line: &str) -> Result<String, Fail> {
    answer_after(alloc, BASE, line)
}

fn expect(rt: &impl Abort, alloc: Global, line: &str, wanted: &str) -> Result<(), Fail> {
    let found = answer(alloc, line)?;
    assert!(rt; found.as_str() == wanted, "{line} gives {found}");
    Ok(())
}

#[test]
fn reads_a_transaction(rt: HostRuntime) -> Result<(), Fail> {
    let line = r#"["tx", [["install", "r"], ["delete", "acct", 1]]]"#;
    expect(&rt, rt.alloc(), line, "1 at 5")
}

#[test]
fn reads_moves_of_the_clock(rt: HostRuntime) -> Result<(), Fail> {
    expect(&rt, rt.alloc(), r#"["clock", 5]"#, "0 at 5")?;
    expect(&rt, rt.alloc(), r#"["clock", 9]"#, "1 at 9")
}

#[test]
fn reads_a_line_with_spaces_and_a_carriage_return(rt: HostRuntime) -> Result<(), Fail> {
    let alloc = rt.alloc();
    let mut line = String::from_str(alloc, r#" [ "clock", 9 ]"#)?;
    line.push('\r')?;
    expect(&rt, alloc, line.as_str(), "1 at 9")
}

#[test]
fn reads_a_question_for_the_state(rt: HostRuntime) -> Result<(), Fail> {
    expect(&rt, rt.alloc(), r#"["show"]"#, "state")?;
    expect(&rt, rt.alloc(), r#"["show", "acct"]"#, "class 0")?;
    expect(&rt, rt.alloc(), r#"["show", "acct", -7]"#, "object 0 -7")
}

#[test]
fn refuses_a_question_for_what_there_is_not(rt: HostRuntime) -> Result<(), Fail> {
    expect(&rt, rt.alloc(), r#"["show", 1]"#, "refused S2 /1")?;
    expect(&rt, rt.alloc(), r#"["show", "acc"]"#, "refused S4 /1")?;
    expect(&rt, rt.alloc(), r#"["show", "acct", "7"]"#, "refused S2 /2")?;
    expect(&rt, rt.alloc(), r#"["show", "acct", 7.5]"#, "refused S3 /2")?;
    expect(&rt, rt.alloc(), r#"["show", "acct", 7, 8]"#, "refused S2 /")
}

#[test]
fn refuses_a_clock_that_goes_back(rt: HostRuntime) -> Result<(), Fail> {
    expect(&rt, rt.alloc(), r#"["clock", 4]"#, "refused S2 /1")?;
    expect(&rt, rt.alloc(), r#"["clock", "5"]"#, "refused S2 /1")
}

#[test]
fn refuses_unknown_names(rt: HostRuntime) -> Result<(), Fail> {
    let rule = r#"["tx", [["install", "q"]]]"#;
    expect(&rt, rt.alloc(), rule, "refused S4 /1/0/1")?;
    let class = r#"["tx", [["delete", "acc", 1]]]"#;
    expect(&rt, rt.alloc(), class, "refused S4 /1/0/1")
}

#[test]
fn refuses_what_is_no_item(rt: HostRuntime) -> Result<(), Fail> {
    expect(&rt, rt.alloc(), "{}", "refused S2 /")?;
    expect(&rt, rt.alloc(), "", "refused S1")
}

/// The same in version 4.
const NEW_BASE: &str = r#"{"version": 4, "classes": [], "rules": [], "items": [["clock", 5]]}"#;

#[test]
fn reads_items_in_the_version_of_the_script(rt: HostRuntime) -> Result<(), Fail> {
    let alloc = rt.alloc();
    let line = r#"["tx", [["let", "n", ["now"], [["emit", ["value", "n"]]]]]]"#;
    assert!(rt; answer_after(alloc, BASE, line)?.as_str() == "refused S2 /1/0");
    assert!(rt; answer_after(alloc, NEW_BASE, line)?.as_str() == "1 at 5");
    Ok(())
}

#[test]
fn runs_a_transaction_at_the_time_of_the_clock(rt: HostRuntime) -> Result<(), Fail> {
    let alloc = rt.alloc();
    let Ok(script) = decode(alloc, NEW_BASE.as_bytes()) else {
        return Err(Fail::from("refused"));
    };
    let line = br#"["tx", []]"#;
    let read = decode_request(alloc, script.version, &script.library, script.clock, line);
    let Ok(Request::Item(schedule)) = read else {
        return Err(Fail::from("no item"));
    };
    assert!(rt;
        matches!(
            schedule.units.as_slice(),
            [Unit::Transaction { time: 5, .. }]
        )
    );
    Ok(())
}
