//! Texts that are no scripts, and the places of their faults.

use hp_text::{ReadError, read_line, read_text};
use std::alloc::Global;
use std::process::Abort;
use std::test::Fail;

/// The place of a fault, or what else came of reading.
fn place_of<T: Drop>(alloc: Global, read: Result<T, ReadError>) -> Result<String, Fail> {
    Ok(match read {
        Ok(_) => String::from_str(alloc, "read")?,
        Err(ReadError::Fault(place)) => format!(in alloc; "{place}")?,
        Err(ReadError::Memory) => String::from_str(alloc, "no memory")?,
    })
}

/// Each of these texts of a script has its fault there.
fn expect(rt: &impl Abort, alloc: Global, texts: &[(&str, &str)]) -> Result<(), Fail> {
    for (text, place) in texts {
        let found = place_of(alloc, read_text(alloc, text.as_bytes()))?;
        assert!(*rt; found.as_str() == *place, "{text}: {found} and not {place}");
    }
    Ok(())
}

/// Each of these lines has its fault there.
fn expect_lines(rt: &impl Abort, alloc: Global, texts: &[(&str, &str)]) -> Result<(), Fail> {
    for (text, place) in texts {
        let found = place_of(alloc, read_line(alloc, text.as_bytes()))?;
        assert!(*rt; found.as_str() == *place, "{text}: {found} and not {place}");
    }
    Ok(())
}

#[test]
fn faults_of_classes_and_rules(rt: HostRuntime) -> Result<(), Fail> {
    expect(
        &rt,
        rt.alloc(),
        &[
            ("", "1:1"),
            ("{\"version\": 1}", "1:1"),
            ("version one", "1:9"),
            ("version 1 depth\nclass a {}", "2:1"),
            ("version 1\nclass a {}\ndepth 8\n", "3:1"),
            ("version 1\nclock 3\nrule r on commit do {}\n", "3:1"),
            ("version 1\n\ntx {}\n", "3:1"),
            ("version 1\nclass { a: int }", "2:7"),
            ("version 1\nclass item { stock int }", "2:20"),
            ("version 1\nclass item { stock: int; price: int }", "2:24"),
            ("version 1\nclass item { key: int }", "2:14"),
            ("version 1\nclass item { stock: `int` }", "2:21"),
            (
                "version 1\nrule \"no oversell\" on update item do {}",
                "2:6",
            ),
            ("version 1\nrule r on insert item do {}", "2:11"),
            ("version 1\nrule r on update of item do {}", "2:21"),
            (
                "version 1\nrule r on update item\n  if new.stock < 3 do {}",
                "3:6",
            ),
            (
                "version 1\nrule r on update item\n  if some item where i.stock < 0 do {}",
                "3:16",
            ),
            (
                "version 1\nrule r on update item\n  if some item i where i.stock < 0\n  and some item j\n  do {}",
                "4:12",
            ),
            (
                "version 1\nrule r on update item\n  deferred separate do {}",
                "3:12",
            ),
            (
                "version 1\nrule r on update item\n  do {\n    veto\n  }\nend\n",
                "6:1",
            ),
            (
                "version 1\nrule r on create a or create b then create c do {}",
                "2:32",
            ),
            ("version 1\nrule r on create a and create b do {}", "2:20"),
            ("version 1\nrule r on every 30 do {}", "2:20"),
            ("version 1\nrule r on at 3 do {}", "2:11"),
        ],
    )
}

#[test]
fn faults_of_statements(rt: HostRuntime) -> Result<(), Fail> {
    expect(
        &rt,
        rt.alloc(),
        &[
            (
                "version 1\nrule r on closure(create a, create b) do {}",
                "2:27",
            ),
            ("version 1\ntransaction {\n  emit\n}", "4:1"),
            ("version 1\ntransaction {\n  emit 1", "3:9"),
            ("version 1\ntransaction {\n  insert item 7\n}", "3:3"),
            (
                "version 1\ntransaction {\n  update item(7) stock = 3\n}",
                "3:18",
            ),
            (
                "version 1\ntransaction {\n  update item(7) set stock 3\n}",
                "3:28",
            ),
            (
                "version 1\ntransaction {\n  update item(7) set stock == 3\n}",
                "3:29",
            ),
            (
                "version 1\ntransaction {\n  update item 7 set stock = 3\n}",
                "3:15",
            ),
            ("version 1\ntransaction {\n  delete item()\n}", "3:15"),
            ("version 1\ntransaction {\n  create item(7, 3)\n}", "3:16"),
            ("version 1\ntransaction {\n  signal go(1\n}", "4:1"),
            (
                "version 1\ntransaction {\n  if true then { abort }\n}",
                "3:11",
            ),
            ("version 1\ntransaction {\n  if { abort }\n}", "3:6"),
            (
                "version 1\ntransaction {\n  for o in order { abort }\n}",
                "3:9",
            ),
            (
                "version 1\ntransaction {\n  each order where true {}\n}",
                "3:14",
            ),
            ("version 1\ntransaction {\n  with item(7) as {}\n}", "3:19"),
            (
                "version 1\ntransaction {\n  if a.b {} elif a.c {}\n}",
                "3:13",
            ),
            ("version 1\ntransaction {\n  sub {} otherwise\n}", "4:1"),
            ("version 1\ntransaction {\n  abort()\n}", "3:8"),
            ("version 1\ntransaction {\n  install rule a, b\n}", "3:16"),
            ("version 1\ntransaction {\n  ;\n}", "3:3"),
            ("version 1\nclock later", "2:7"),
            ("version 1\ntransaction {\n  emit key(i)\n}", "3:8"),
            ("version 1\ntransaction {\n  emit new.key\n}", "3:12"),
        ],
    )
}

#[test]
fn faults_of_expressions_and_tokens(rt: HostRuntime) -> Result<(), Fail> {
    expect(
        &rt,
        rt.alloc(),
        &[
            ("version 1\ntransaction {\n  emit new[1,2].stock\n}", "3:13"),
            ("version 1\ntransaction {\n  emit event\n}", "4:1"),
            ("version 1\ntransaction {\n  emit event.arg[0]\n}", "3:17"),
            ("version 1\ntransaction {\n  emit event.arg\n}", "4:1"),
            ("version 1\ntransaction {\n  emit 1 < 2 < 3\n}", "3:14"),
            ("version 1\ntransaction {\n  emit a.b == 1\n}", "3:13"),
            ("version 1\ntransaction {\n  emit !a.b\n}", "3:8"),
            ("version 1\ntransaction {\n  emit -(5\n}", "4:1"),
            ("version 1\ntransaction {\n  emit a.b = not a.c\n}", "3:14"),
            (
                "version 1\ntransaction {\n  emit (1 + 2\n  emit 3\n}",
                "4:3",
            ),
            ("version 1\ntransaction {\n  emit 1.5\n}", "3:9"),
            (
                "version 1\ntransaction {\n  emit 9223372036854775808\n}",
                "3:8",
            ),
            (
                "version 1\ntransaction {\n  emit new[9223372036854775808].a\n}",
                "3:12",
            ),
            ("version 1\ntransaction {\n  emit 'open'\n}", "3:8"),
            ("version 1\ntransaction {\n  emit \"open", "3:13"),
            ("version 1\ntransaction {\n  emit \"a\\u12\"\n}", "3:10"),
            ("version 1\ntransaction {\n  emit \"é\tb\"\n}", "3:10"),
            ("version 1\ntransaction {\n  emit $x.a\n}", "3:8"),
            ("version 1\ntransaction {\n  emit ``.b\n}", "3:9"),
            ("version 1\ntransaction {\n  -- a comment\n}", "3:3"),
            ("version 1\ntransaction {\n  emit \"é\" é\n}", "3:12"),
            ("version 1\ntransaction {\n  emit 1 2 'x'\n}", "3:10"),
            ("version 1\ntransaction {\n  \temit\t1\t2\n}", "3:11"),
            (
                "version 1\nrule r on update item\n  if some item(stock < 3) i do {}",
                "3:15",
            ),
            (
                "version 1\ntransaction {\n  delete item where stock = 0\n}",
                "3:15",
            ),
            ("version 1\ntransaction {\n  ROLLBACK;\n}", "3:3"),
        ],
    )
}

#[test]
fn faults_of_version_4(rt: HostRuntime) -> Result<(), Fail> {
    expect(
        &rt,
        rt.alloc(),
        &[
            ("version 4\nrule closed r on update item do {}", "2:13"),
            ("version 4\nclosed rule r on update item do {}", "2:1"),
            (
                "version 4\nrule r closed deferred on update item do {}",
                "2:15",
            ),
            (
                "version 4\nrule r on update item\n  if not some item i do {}",
                "3:6",
            ),
            (
                "version 4\nrule r on update item\n  if exists item i do {}",
                "3:6",
            ),
            (
                "version 4\nrule r on update item\n  if no item i and i.stock < 3 do {}",
                "3:16",
            ),
            ("version 4\nrule r on update item\n  if n > 3 do {}", "3:6"),
            (
                "version 4\nrule r on update item\n  if let n = do {}",
                "3:14",
            ),
            (
                "version 4\nrule r on update item\n  if let n: count order o do {}",
                "3:11",
            ),
            (
                "version 4\nrule r on update item\n  if let n = count do {}",
                "3:20",
            ),
            (
                "version 4\nrule r on update item\n  if let n = count order where true do {}",
                "3:26",
            ),
            (
                "version 4\nrule r on update item\n  if let n = sum order o do {}",
                "3:24",
            ),
            (
                "version 4\nrule r on update item\n  if let n = sum o.price over o do {}",
                "3:33",
            ),
            (
                "version 4\nrule r on update item\n  if let n = least of o.price over order o do {}",
                "3:23",
            ),
            (
                "version 4\nrule r on update item\n  if let n = next order + 1 do {}",
                "3:25",
            ),
            (
                "version 4\nrule r on update item\n  if let n = `count` order o do {}",
                "3:22",
            ),
            (
                "version 4\nrule r on update item\n  if let n = next do {}",
                "3:19",
            ),
            (
                "version 2\nrule r on update item\n  if let n = 3 do {}",
                "3:6",
            ),
            (
                "version 4\nrule r on update item\n  if let n = 3 {}\n  do {}",
                "3:16",
            ),
            (
                "version 4\ntransaction {\n  let n = next order; emit n\n}",
                "3:21",
            ),
            ("version 4\ntransaction {\n  let n = sum - 1 {}\n}", "3:19"),
            ("version 4\ntransaction {\n  let n == 3 {}\n}", "3:10"),
            (
                "version 4\ntransaction {\n  install let n = 3 {}\n}",
                "3:15",
            ),
            ("version 4\ntransaction {\n  emit next order\n}", "3:13"),
            ("version 4\ntransaction {\n  emit now()\n}", "3:11"),
            ("version 4\ntransaction {\n  emit event.now\n}", "3:14"),
            ("version 4\ntransaction {\n  emit n(3)\n}", "3:9"),
            ("version 4\ntransaction {\n  emit n.\n}", "4:1"),
            ("version 4\ntransaction {\n  veto let\n}", "4:1"),
            ("version 4\ntransaction {\n  veto \"a\", n\n}", "3:11"),
            ("version 4\ntransaction {\n  veto then {}\n}", "3:8"),
            ("version 4\ntransaction {\n  LET n = 3 {}\n}", "3:3"),
            ("version 4\ntransaction {\n  emit value n\n}", "3:14"),
            ("version 4\ntransaction {\n  let n = {} {}\n}", "3:11"),
            ("version 4\nclock now", "2:7"),
            ("version 4\nif no item i", "2:1"),
            (
                "version 4\nrule r on update item\n  if let `let` = 3 do {}\n}",
                "4:1",
            ),
            (
                "version 4\nrule r on update item\n  if some item i if let n = least i.stock over item do {}",
                "3:53",
            ),
            (
                "version 4\ntransaction {\n  let n = count order o where {}\n}",
                "3:31",
            ),
            (
                "version 4\ntransaction {\n  let n = (sum o.a over order o) {}\n}",
                "3:16",
            ),
            ("version 4\ntransaction {\n  veto if\n}", "4:1"),
        ],
    )
}

#[test]
fn faults_of_lines(rt: HostRuntime) -> Result<(), Fail> {
    expect_lines(
        &rt,
        rt.alloc(),
        &[
            ("", "1:1"),
            ("show show", "1:6"),
            ("clock 5 clock 6", "1:9"),
            ("version 4", "1:1"),
            ("emit 3", "1:1"),
            ("transaction { # x }", "1:20"),
        ],
    )
}

/// An expression of 65 levels is a fault at the last one.
#[test]
fn faults_of_nesting(rt: HostRuntime) -> Result<(), Fail> {
    let alloc = rt.alloc();
    let mut text = String::from_str(alloc, "version 1 transaction { emit ")?;
    for _ in 0..65 {
        text.push_str("(")?;
    }
    let found = place_of(alloc, read_text(alloc, text.as_bytes()))?;
    assert!(rt; found.as_str() == "1:94", "{found}");
    Ok(())
}

/// A byte that isn't UTF-8 is a fault where it stands, after the faults before it.
#[test]
fn faults_of_bytes(rt: HostRuntime) -> Result<(), Fail> {
    let alloc = rt.alloc();
    let found = place_of(alloc, read_text(alloc, b"version 1 # \xc3\xa9\n\xff"))?;
    assert!(rt; found.as_str() == "2:1", "{found}");
    let found = place_of(alloc, read_text(alloc, b"version 1\nclass \"\xff"))?;
    assert!(rt; found.as_str() == "2:8", "{found}");
    Ok(())
}
