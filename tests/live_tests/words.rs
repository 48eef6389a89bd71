//! The command line of the rule base that stays up.

use hp_words::{LiveOptions, Options, WordFault, parse_live_words};
use std::test::Fail;

/// What these words ask for, after the program's name.
fn asked<R: AllocGlobal>(rt: &R, given: &[&str]) -> Result<Result<LiveOptions, WordFault>, Fail> {
    let mut words = Vec::new(rt.alloc());
    words.push(String::from_str(rt.alloc(), "hipac_live")?)?;
    for word in given {
        words.push(String::from_str(rt.alloc(), word)?)?;
    }
    Ok(parse_live_words(rt.alloc(), words.as_slice()))
}

/// The options for JSON or text, and a file.
fn with_file<R: AllocGlobal>(rt: &R, text: bool, name: &str) -> Result<LiveOptions, Fail> {
    Ok(LiveOptions {
        options: Options {
            workers: 4,
            tree: false,
            text,
        },
        script: Some(String::from_str(rt.alloc(), name)?),
        checked: false,
        signals: None,
    })
}

#[test]
fn words_may_name_a_file(rt: HostRuntime) -> Result<(), Fail> {
    let json = with_file(&rt, false, "a.json")?;
    assert_eq!(rt; asked(&rt, &["--script", "a.json"])?, Ok(json));
    let rules = with_file(&rt, true, "a=b.rules")?;
    assert_eq!(rt; asked(&rt, &["--script=a=b.rules", "--text"])?, Ok(rules));
    let text = with_file(&rt, true, "text")?;
    assert_eq!(rt; asked(&rt, &["--text", "--script", "text"])?, Ok(text));
    Ok(())
}

#[test]
fn words_may_name_none(rt: HostRuntime) -> Result<(), Fail> {
    let options = Options {
        workers: 2,
        tree: true,
        text: false,
    };
    let wanted = LiveOptions {
        options,
        script: None,
        checked: false,
        signals: None,
    };
    assert_eq!(rt; asked(&rt, &["--workers", "2", "--tree"])?, Ok(wanted));
    Ok(())
}

#[test]
fn words_may_ask_for_checks(rt: HostRuntime) -> Result<(), Fail> {
    let mut checked = with_file(&rt, false, "a")?;
    checked.checked = true;
    assert_eq!(rt; asked(&rt, &["--script", "a", "--checked"])?, Ok(checked));
    let mut declared = with_file(&rt, false, "a")?;
    declared.signals = Some(String::from_str(rt.alloc(), "b")?);
    assert_eq!(rt;
        asked(&rt, &["--signals", "b", "--script", "a"])?,
        Ok(declared)
    );
    Ok(())
}

#[test]
fn other_words_are_refused(rt: HostRuntime) -> Result<(), Fail> {
    assert_eq!(rt; asked(&rt, &["--script"])?, Err(WordFault::Refused));
    assert_eq!(rt;
        asked(&rt, &["--script", "--text"])?,
        Err(WordFault::Refused)
    );
    assert_eq!(rt;
        asked(&rt, &["--script", "a", "--script", "b"])?,
        Err(WordFault::Refused)
    );
    assert_eq!(rt;
        asked(&rt, &["--script", "a", "b"])?,
        Err(WordFault::Refused)
    );
    assert_eq!(rt;
        asked(&rt, &["--script", "a", "--workers", "0"])?,
        Err(WordFault::Refused)
    );
    assert_eq!(rt; asked(&rt, &["a.json"])?, Err(WordFault::Refused));
    Ok(())
}
