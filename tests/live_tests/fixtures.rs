//! A session of lines with its answers, and the devices that it runs on.

use std::alloc::{AllocError, Global};
use std::io;
use std::io::{Read, Write};

/// A class, a rule that reports changes, and one that fires at 7 and 9.
pub const SCRIPT: &str = r#"{
  "version": 1,
  "classes": [["acct", [["bal", "int"]]]],
  "rules": [
    ["reports", ["update", "acct"], "immediate", [], "immediate", [["emit", ["new", 0, "bal"]]]],
    ["wakes", ["or", ["at", 7], ["at", 9]], "immediate", [], "immediate", [["emit", ["time", 0]]]]
  ],
  "items": [
    ["tx", [["install", "reports"], ["install", "wakes"], ["create", "acct", 1, [["bal", 5]]]]],
    ["clock", 3]
  ]
}"#;

/// A line that ends with a carriage return and a line feed.
const UPDATE: &str = r#"["tx", [["update", "acct", 1, [["bal", 6]]]]]"#;

/// The lines after it. The second is empty, and the last has no line feed.
const LINES: &str = r#"["tx", [["install", "nobody"]]]

["clock", 8]
["clock", 7]
["show"]
["show", "acct", 1]
["show", "acct", 2]
["show", "acct"]
["show", "acc"]
["clock", 9]"#;

/// The answers to the session.
pub const ANSWERS: &str = "unit 1 committed
ok 1
unit 2 committed
emit 6
ok 2
refused S4 /1/0/1
refused S1
unit 3 time 7 committed
emit 7
ok 3
refused S2 /1
object acct 1 bal=6
rule reports enabled
rule wakes enabled
ok 3
object acct 1 bal=6
ok 3
ok 3
object acct 1 bal=6
ok 3
refused S4 /1
unit 4 time 9 committed
emit 9
ok 4
";

/// A rule base of version 4. Its rule vetoes with the clock's moment.
const FOURTH: &str = r#"{
  "version": 4,
  "classes": [["acct", [["bal", "int"]]]],
  "rules": [["vetoes", ["signal", "go"], "immediate", [], "immediate", [["veto", ["now"]]]]],
  "items": [["tx", [["install", "vetoes"], ["emit", ["now"]]]]]
}"#;

/// The lines after it.
const FOURTH_LINES: &str = r#"["clock", 5]
["tx", [["let", "k", ["next", "acct"], [["create", "acct", ["value", "k"], [["bal", ["now"]]]]]]]]
["tx", [["signal", "go", []]]]
["tx", [["let", "k", ["least", "a", "acct", false, 1], []]]]
["tx", [["emit", ["value", "k"]]]]
["show", "acct"]
"#;

/// The answers to them.
pub const FOURTH_ANSWERS: &str = "unit 1 committed
emit 0
ok 1
ok 1
unit 2 committed
ok 2
unit 3 aborted A9 vetoes 5
ok 3
unit 4 aborted A2
ok 4
refused S4 /1/0/1/1
object acct 1 bal=5
ok 4
";

/// A script on one line, with its line feed.
fn one_line(alloc: Global, script: &str) -> Result<String, AllocError> {
    let mut line = String::new(alloc);
    for letter in script.chars() {
        if letter != '\n' {
            line.push(letter)?;
        }
    }
    line.push('\n')?;
    Ok(line)
}

/// The lines after the script.
pub fn later_lines(alloc: Global) -> Result<String, AllocError> {
    let mut input = String::from_str(alloc, UPDATE)?;
    input.push_str("\r\n")?;
    input.push_str(LINES)?;
    Ok(input)
}

/// The script on one line, followed by the lines.
pub fn session(alloc: Global) -> Result<String, AllocError> {
    let mut input = one_line(alloc, SCRIPT)?;
    let lines = later_lines(alloc)?;
    input.push_str(&lines)?;
    Ok(input)
}

/// The same in version 4.
pub fn fourth_session(alloc: Global) -> Result<String, AllocError> {
    let mut input = one_line(alloc, FOURTH)?;
    input.push_str(FOURTH_LINES)?;
    Ok(input)
}

/// What a device does at its calls. A call transfers a limited number of bytes.
#[derive(Clone, Copy)]
pub struct Steps {
    pub first: usize,
    pub later: usize,
    /// The number of the call that fails, from 1.
    pub fails_at: usize,
}

/// A device that takes and gives as much as it is asked to.
pub const EASY: Steps = Steps {
    first: 4096,
    later: 4096,
    fails_at: 0,
};

/// A device that transfers a byte a call, up to a call that fails.
pub fn bytes_until(fails_at: usize) -> Steps {
    Steps {
        first: 1,
        later: 1,
        fails_at,
    }
}

/// A device that gives its input and keeps its output.
#[derive(Drop)]
pub struct Device<'a> {
    pub input: &'a [u8],
    pub output: Vec<u8>,
    steps: Steps,
    calls: usize,
}

impl Device<'_> {
    /// The most bytes that this call transfers.
    fn turn(&mut self) -> io::Result<usize> {
        self.calls = self.calls.wrapping_add(1);
        if self.calls == self.steps.fails_at {
            return Err(io::Error::from(io::ErrorKind::Interrupted));
        }
        Ok(if self.calls == 1 {
            self.steps.first
        } else {
            self.steps.later
        })
    }
}

impl Read for Device<'_> {
    fn read(&mut self, buf: &mut [u8]) -> io::Result<usize> {
        let most = self.turn()?;
        let count = most.min(buf.len()).min(self.input.len());
        let (now, later) = self.input.split_at(count);
        buf[..count].copy_from_slice(now);
        self.input = later;
        Ok(count)
    }
}

impl Write for Device<'_> {
    fn write(&mut self, buf: &[u8]) -> io::Result<usize> {
        let most = self.turn()?;
        let count = most.min(buf.len());
        self.output.extend_from_slice(&buf[..count])?;
        Ok(count)
    }

    fn flush(&mut self) -> io::Result<()> {
        Ok(())
    }
}

pub fn new_device<'a>(alloc: Global, input: &'a [u8], steps: Steps) -> Device<'a> {
    Device {
        input,
        output: Vec::new(alloc),
        steps,
        calls: 0,
    }
}
