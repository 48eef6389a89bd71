//! The command line, and devices that move little at a time or fail.

use super::program::program;
use super::running::run;
use hp_report::{Fault, Status, Watched, exit_code};
use hp_words::{Options, WordFault, parse_words, word_code};
use std::io;
use std::io::{Read, Write};
use std::process::Abort;
use std::test::Fail;
use std::thread::Threads;

/// The thinnest run: one update, and a rule that emits the difference.
const SCRIPT: &[u8] = br#"{
  "version": 1,
  "classes": [["acct", [["bal", "int"]]]],
  "rules": [
    ["r", ["update", "acct"], "immediate", [], "immediate",
      [["emit", ["-", ["new", 0, "bal"], ["old", 0, "bal"]]]]]
  ],
  "items": [["tx", [["install", "r"], ["create", "acct", 1, [["bal", 5]]], ["update", "acct", 1, [["bal", 7]]]]]]
}"#;

/// The same script in the text notation.
const NOTATION: &[u8] = b"version 1
class acct { bal: int }
rule r on update acct do { emit new.bal - old.bal }
transaction { install r create acct(1) set bal = 5 update acct(1) set bal = 7 }
";

const TEXT: &[u8] = b"unit 1 committed\nemit 2\nfinal\nobject acct 1 bal=7\nrule r enabled\nend\n";

const ONE_WORKER: Options = Options {
    workers: 1,
    tree: false,
    text: false,
};

/// A device that moves at most `step` bytes per call, and fails at one call: it returns `Err`, or moves nothing.
#[derive(Drop)]
struct Device<'a> {
    input: &'a [u8],
    output: Vec<u8>,
    step: usize,
    calls: usize,
    fails_at: usize,
    takes_none: bool,
}

impl Device<'_> {
    fn turn(&mut self) -> io::Result<()> {
        self.calls = self.calls.wrapping_add(1);
        if self.calls == self.fails_at {
            return Err(io::Error::from(io::ErrorKind::Interrupted));
        }
        Ok(())
    }
}

impl Read for Device<'_> {
    fn read(&mut self, buf: &mut [u8]) -> io::Result<usize> {
        self.turn()?;
        let count = self.step.min(buf.len()).min(self.input.len());
        let (now, later) = self.input.split_at(count);
        buf[..count].copy_from_slice(now);
        self.input = later;
        Ok(count)
    }
}

impl Write for Device<'_> {
    fn write(&mut self, buf: &[u8]) -> io::Result<usize> {
        match self.turn() {
            Ok(()) => {}
            Err(_) if self.takes_none => return Ok(0),
            Err(error) => return Err(error),
        }
        let count = self.step.min(buf.len());
        self.output.extend_from_slice(&buf[..count])?;
        Ok(count)
    }

    fn flush(&mut self) -> io::Result<()> {
        Ok(())
    }
}

fn slow_device<'a>(rt: &impl AllocGlobal, input: &'a [u8], step: usize) -> Device<'a> {
    Device {
        input,
        output: Vec::new(rt.alloc()),
        step,
        calls: 0,
        fails_at: 0,
        takes_none: false,
    }
}

/// The options in these words, after the program's name.
fn asked<R: AllocGlobal>(rt: &R, given: &[&str]) -> Result<Result<Options, WordFault>, Fail> {
    let mut words = Vec::new(rt.alloc());
    words.push(String::from_str(rt.alloc(), "hipac")?)?;
    for word in given {
        words.push(String::from_str(rt.alloc(), word)?)?;
    }
    Ok(parse_words(rt.alloc(), words.as_slice()))
}

#[test]
fn words_give_their_options(rt: HostRuntime) -> Result<(), Fail> {
    assert_eq!(rt;
        asked(&rt, &[])?,
        Ok(Options {
            workers: 4,
            tree: false,
            text: false
        })
    );
    assert_eq!(rt;
        asked(&rt, &["--tree"])?,
        Ok(Options {
            workers: 4,
            tree: true,
            text: false
        })
    );
    assert_eq!(rt;
        asked(&rt, &["--workers", "1"])?,
        Ok(Options {
            workers: 1,
            tree: false,
            text: false
        })
    );
    assert_eq!(rt;
        asked(&rt, &["--workers", "64", "--tree"])?,
        Ok(Options {
            workers: 64,
            tree: true,
            text: false
        })
    );
    assert_eq!(rt;
        asked(&rt, &["--tree", "--workers=8"])?,
        Ok(Options {
            workers: 8,
            tree: true,
            text: false
        })
    );
    assert_eq!(rt;
        asked(&rt, &["--text"])?,
        Ok(Options {
            workers: 4,
            tree: false,
            text: true
        })
    );
    Ok(())
}

#[test]
fn other_words_are_refused(rt: HostRuntime) -> Result<(), Fail> {
    assert_eq!(rt; asked(&rt, &["--workers", "0"])?, Err(WordFault::Refused));
    assert_eq!(rt; asked(&rt, &["--workers", "65"])?, Err(WordFault::Refused));
    assert_eq!(rt; asked(&rt, &["--workers", "256"])?, Err(WordFault::Refused));
    assert_eq!(rt; asked(&rt, &["--workers"])?, Err(WordFault::Refused));
    assert_eq!(rt; asked(&rt, &["--help"])?, Err(WordFault::Refused));
    assert_eq!(rt; asked(&rt, &["x"])?, Err(WordFault::Refused));
    assert_eq!(rt; asked(&rt, &["--text=true"])?, Err(WordFault::Refused));
    assert_eq!(rt; asked(&rt, &["--text", "--text"])?, Err(WordFault::Refused));
    assert_eq!(rt;
        asked(&rt, &["--script", "a.json"])?,
        Err(WordFault::Refused)
    );
    Ok(())
}

#[test]
fn each_ending_has_its_exit_status(rt: HostRuntime) -> Result<(), Fail> {
    assert_eq!(rt; exit_code(&Ok(Status::Reported)), 0);
    assert_eq!(rt; exit_code(&Ok(Status::Refused)), 2);
    assert_eq!(rt; exit_code(&Err(Fault::NoMemory)), 4);
    assert_eq!(rt; word_code(WordFault::Refused), 3);
    assert_eq!(rt; word_code(WordFault::NoMemory), 4);
    Ok(())
}

#[test]
fn without_options_no_device_is_called(rt: HostRuntime) -> Result<(), Fail> {
    for (fault, code) in [(WordFault::Refused, 3), (WordFault::NoMemory, 4)] {
        let mut reader = Watched::new(slow_device(&rt, SCRIPT, 1));
        let mut writer = Watched::new(slow_device(&rt, b"", 1));
        let ended = program(&rt, rt.alloc(), Err(fault), &mut reader, &mut writer);
        assert_eq!(rt; ended.code, code);
        assert_eq!(rt; reader.into_inner().calls, 0);
        assert_eq!(rt; writer.into_inner().calls, 0);
    }
    Ok(())
}

const WITH_TREE: &[u8] = b"unit 1 committed
emit 2
  op install r
  op create acct 1 bal=5
  op update acct 1 bal=7
  fire r immediate satisfied committed
    emit 2
final
object acct 1 bal=7
rule r enabled
end
";

#[test]
fn the_program_passes_its_options_on(rt: HostRuntime) -> Result<(), Fail> {
    for (words, script, text) in [
        (["--workers", "2"].as_slice(), SCRIPT, TEXT),
        (["--tree"].as_slice(), SCRIPT, WITH_TREE),
        (["--text"].as_slice(), NOTATION, TEXT),
    ] {
        let options = asked(&rt, words)?;
        let mut reader = Watched::new(slow_device(&rt, script, 4096));
        let mut writer = Watched::new(slow_device(&rt, b"", 4096));
        let ended = program(&rt, rt.alloc(), options, &mut reader, &mut writer);
        assert_eq!(rt; (ended.code, ended.stop), (0, None));
        assert_eq!(rt; writer.into_inner().output.as_slice(), text);
    }
    Ok(())
}

#[test]
fn a_refused_text_has_a_place(rt: HostRuntime) -> Result<(), Fail> {
    let options = Options {
        text: true,
        ..ONE_WORKER
    };
    let text = b"version 1\ntransaction { delete nobody(1) }\n";
    let mut reader = Watched::new(slow_device(&rt, text, 1));
    let mut writer = Watched::new(slow_device(&rt, b"", 1));
    let status = run(&rt, rt.alloc(), &mut reader, &mut writer, options)?;
    assert_eq!(rt; status, Status::Refused);
    assert_eq!(rt;
        writer.into_inner().output.as_slice(),
        b"refused S4 2:22\n".as_slice()
    );
    Ok(())
}

#[test]
fn a_script_runs_byte_by_byte(rt: HostRuntime) -> Result<(), Fail> {
    let mut reader = Watched::new(slow_device(&rt, SCRIPT, 1));
    let mut writer = Watched::new(slow_device(&rt, b"", 1));
    let status = run(&rt, rt.alloc(), &mut reader, &mut writer, ONE_WORKER)?;
    assert_eq!(rt; status, Status::Reported);
    assert_eq!(rt; writer.into_inner().output.as_slice(), TEXT);
    Ok(())
}

/// For each read, a run in which that read fails, with this number of bytes per call: `Fault::Read`, and nothing
/// written.
fn expect_read_faults<R: Abort + AllocGlobal + Threads + Sync>(
    rt: &R,
    script: &[u8],
    step: usize,
    calls: usize,
) {
    for call in 1..=calls {
        let mut reader = slow_device(rt, script, step);
        reader.fails_at = call;
        let mut reader = Watched::new(reader);
        let mut writer = Watched::new(slow_device(rt, b"", 1));
        let ended = run(rt, rt.alloc(), &mut reader, &mut writer, ONE_WORKER);
        assert_eq!(*rt; ended, Err(Fault::Read), "call {call}");
        let writer = writer.into_inner();
        assert_eq!(*rt; (writer.output.len(), writer.calls), (0, 0), "call {call}");
    }
}

#[test]
fn a_failed_read_is_the_fault_and_nothing_is_written(rt: HostRuntime) -> Result<(), Fail> {
    let spaces = vec![in rt.alloc(); 32; 1_048_576]?;
    expect_read_faults(&rt, SCRIPT, 1, SCRIPT.len() + 1);
    expect_read_faults(&rt, spaces.as_slice(), 4096, 257);
    Ok(())
}

/// For each write, a run in which that write fails or writes nothing, with one byte per call: `Fault::Write`, and a
/// prefix of the text.
fn expect_write_faults<R: Abort + AllocGlobal + Threads + Sync>(
    rt: &R,
    script: &[u8],
    text: &[u8],
    takes_none: bool,
) {
    for call in 1..=text.len() {
        let mut reader = Watched::new(slow_device(rt, script, 4096));
        let mut writer = slow_device(rt, b"", 1);
        writer.fails_at = call;
        writer.takes_none = takes_none;
        let mut writer = Watched::new(writer);
        let ended = run(rt, rt.alloc(), &mut reader, &mut writer, ONE_WORKER);
        assert_eq!(*rt; ended, Err(Fault::Write), "call {call}");
        let writer = writer.into_inner();
        assert_eq!(*rt; writer.calls, call);
        assert_eq!(*rt; writer.output.as_slice(), &text[..call - 1]);
    }
}

#[test]
fn after_a_failed_write_a_prefix_is_written(rt: HostRuntime) {
    let rows: [(&[u8], &[u8]); 2] = [(SCRIPT, TEXT), (b"{", b"refused S1\n")];
    for (script, text) in rows {
        expect_write_faults(&rt, script, text, false);
        expect_write_faults(&rt, script, text, true);
    }
}
