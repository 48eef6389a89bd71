//! Reading from devices and writing to devices that move one byte a call.

use super::fixtures::library;
use hp_report::{ReadFault, Report, Sink, Source, Watched, read_up_to, write_report, write_text};
use hp_store::Store;
use hp_tree::{Ending, Item, TopReport, UnitReport};
use hp_value::Value;
use std::alloc::Global;
use std::io;
use std::io::{Read, Write};
use std::sync::Arc;
use std::test::Fail;

/// A reader that gives one byte a call. Call number `fails_at` gives none, and later calls work again.
#[derive(Drop)]
struct SlowReader {
    input: &'static [u8],
    calls: usize,
    fails_at: usize,
}

impl Read for SlowReader {
    fn read(&mut self, buf: &mut [u8]) -> io::Result<usize> {
        self.calls = self.calls.wrapping_add(1);
        if self.calls == self.fails_at {
            return Err(io::Error::from(io::ErrorKind::Interrupted));
        }
        let ([first, rest @ ..], [place, ..]) = (self.input, buf) else {
            return Ok(0);
        };
        *place = *first;
        self.input = rest;
        Ok(1)
    }
}

/// A writer that takes one byte a call.
#[derive(Drop)]
struct SlowWriter {
    output: Vec<u8>,
    calls: usize,
}

impl Write for SlowWriter {
    fn write(&mut self, buf: &[u8]) -> io::Result<usize> {
        self.calls = self.calls.wrapping_add(1);
        match buf {
            [] => Ok(0),
            [first, ..] => {
                self.output.push(*first)?;
                Ok(1)
            }
        }
    }

    fn flush(&mut self) -> io::Result<()> {
        Ok(())
    }
}

fn reader(input: &'static [u8], fails_at: usize) -> Watched<SlowReader> {
    Watched::new(SlowReader {
        input,
        calls: 0,
        fails_at,
    })
}

fn writer(alloc: Global) -> Watched<SlowWriter> {
    Watched::new(SlowWriter {
        output: Vec::new(alloc),
        calls: 0,
    })
}

#[test]
fn reads_to_the_end_or_the_limit(rt: HostRuntime) -> Result<(), Fail> {
    for (limit, want) in [(0usize, ""), (2, "ab"), (5, "abcde"), (9, "abcde")] {
        let mut reader = reader(b"abcde", 0);
        let input = read_up_to(rt.alloc(), &mut reader, limit)?;
        assert_eq!(rt; input.as_slice(), want.as_bytes(), "limit {limit}");
        assert!(rt; !Source::failed(&reader));
    }
    Ok(())
}

#[test]
fn a_failed_read_is_the_fault(rt: HostRuntime) -> Result<(), Fail> {
    for call in 1..=6usize {
        let mut reader = reader(b"abcde", call);
        let input = read_up_to(rt.alloc(), &mut reader, 100);
        assert_eq!(rt; input.err(), Some(ReadFault::Read), "call {call}");
        assert!(rt; Source::failed(&reader));
        assert_eq!(rt; reader.into_inner().calls, call);
    }
    Ok(())
}

#[test]
fn nothing_is_written_by_no_call(rt: HostRuntime) -> Result<(), Fail> {
    let mut writer = writer(rt.alloc());
    write_text(&mut writer, b"")?;
    assert!(rt; !Sink::failed(&writer));
    assert_eq!(rt; writer.into_inner().calls, 0);
    Ok(())
}

#[test]
fn a_source_is_not_read_after_its_end(rt: HostRuntime) -> Result<(), Fail> {
    let mut reader = reader(b"abcde", 0);
    let input = read_up_to(rt.alloc(), &mut reader, 5)?;
    assert_eq!(rt; input.as_slice(), b"abcde".as_slice());
    assert!(rt; !Source::ended(&reader));
    let rest = read_up_to(rt.alloc(), &mut reader, 5)?;
    assert!(rt; rest.is_empty() && Source::ended(&reader));
    let none = read_up_to(rt.alloc(), &mut reader, 5)?;
    assert!(rt; none.is_empty());
    // Five reads of a byte, and one that finds the end.
    assert_eq!(rt; reader.into_inner().calls, 6);
    Ok(())
}

/// The report of one transaction that emitted a number, over no classes and no rules.
fn small_report(alloc: Global) -> Result<Report, Fail> {
    let library = library(alloc, Vec::new(alloc), &[])?;
    let mut tree = Vec::new(alloc);
    tree.push(Item::Emit(Value::Int(2)))?;
    let mut tops = Vec::new(alloc);
    tops.push(TopReport {
        task: None,
        end: Ending::Committed,
        tree,
    })?;
    let mut units = Vec::new(alloc);
    units.push(UnitReport { moment: None, tops })?;
    Ok(Report {
        library: Arc::new(alloc, library)?,
        units,
        store: Store::empty(alloc)?,
    })
}

#[test]
fn a_report_goes_out_byte_by_byte(rt: HostRuntime) -> Result<(), Fail> {
    let alloc = rt.alloc();
    let report = small_report(alloc)?;
    for (with_tree, text) in [
        (false, "unit 1 committed\nemit 2\nfinal\nend\n"),
        (true, "unit 1 committed\nemit 2\n  emit 2\nfinal\nend\n"),
    ] {
        let mut writer = writer(alloc);
        write_report(alloc, &report, with_tree, &mut writer)?;
        let output = writer.into_inner().output;
        assert_eq!(rt; output.as_slice(), text.as_bytes());
    }
    Ok(())
}
