//! One wording: what each number says in Rust is what `dm_message` says of it in C, from the table in
//! `include/deletion_messages.h`. And one version.

mod common;

use common::{at, c_program, file};
use deletion_machine::{
    library_version, CheckError, LuaError, LuaErrorKind, Outcome, ReadError, StartError,
};
use std::collections::BTreeMap;
use std::process::Command;

/// The lines of the table: numbers and texts. Its texts have no escapes.
fn table() -> BTreeMap<u32, String> {
    let text = String::from_utf8(file("include/deletion_messages.h")).unwrap();
    let mut table = BTreeMap::new();
    for line in text.lines().filter(|line| line.starts_with("DM_MESSAGE")) {
        let (number, text) = line
            .strip_prefix("DM_MESSAGE(")
            .and_then(|line| line.strip_suffix("\")"))
            .and_then(|line| line.split_once(", \""))
            .unwrap_or_else(|| panic!("{line}"));
        assert!(!text.contains(['\\', '"']), "{line}");
        let before = table.insert(number.parse().unwrap(), text.to_string());
        assert_eq!(before, None, "{line}");
    }
    table
}

/// What the package says of each number, without the place.
fn rust() -> Vec<(u8, String)> {
    let mut said = Vec::new();
    let line = 9;
    for (error, place) in [
        (ReadError::NotHex { line }, "line 9 (from 0): "),
        (ReadError::NotAFrame { line }, "line 9 (from 0): "),
        (ReadError::TooLong { bytes: 70_000 }, "70000 bytes: "),
        (ReadError::TooMany { line }, "line 9 (from 0): "),
        (ReadError::NoEnd { line }, "after 9 lines: "),
    ] {
        said.push((error.number(), error.to_string(), place));
    }
    for error in [
        CheckError::Operation,
        CheckError::Unused,
        CheckError::Register,
        CheckError::Constant,
        CheckError::Target,
        CheckError::Prototype,
        CheckError::Upvalue,
    ] {
        let error = error(at(1, 2));
        let place = "prototype 1, instruction 2: ";
        said.push((error.number(), error.to_string(), place));
    }
    let error = StartError::Arguments;
    said.push((error.number().unwrap(), error.to_string(), ""));
    let outcomes = LuaErrorKind::ALL
        .iter()
        .map(|&kind| {
            Outcome::Failed(LuaError {
                kind,
                operand: None,
            })
        })
        .chain([Outcome::Finished, Outcome::Fault, Outcome::Paused]);
    said.extend(outcomes.map(|outcome| (outcome.number(), outcome.to_string(), "")));
    said.into_iter()
        .map(|(number, text, place)| {
            let text = text.strip_prefix(place).expect(place);
            (number, text.to_string())
        })
        .collect()
}

#[test]
fn the_texts_are_the_tables() {
    let mut table = table();
    for (number, text) in rust() {
        assert_eq!(table.get(&number.into()), Some(&text), "{number}");
    }
    // 5 and 6, which a host in Rust never meets, are left
    for (number, _) in rust() {
        table.remove(&number.into());
    }
    let left: Vec<u32> = table.into_keys().collect();
    assert_eq!(left, [5, 6]);
}

#[test]
fn the_table_has_the_headers_numbers() {
    let header = String::from_utf8(file("include/deletion_machine.h")).unwrap();
    let (_, list) = header.split_once("enum dm_number {").unwrap();
    let (list, _) = list.split_once("};").unwrap();
    let numbers: Vec<u32> = list
        .lines()
        .filter_map(|line| line.trim().strip_prefix("DM_")?.split_once(" = "))
        .map(|(_, rest)| {
            let digits = rest.split(|c: char| !c.is_ascii_digit()).next();
            digits.unwrap().parse().unwrap()
        })
        .collect();
    assert_eq!(numbers.len(), 39);
    assert_eq!(table().into_keys().collect::<Vec<u32>>(), numbers);
}

#[test]
fn c_says_what_the_table_has() {
    let program = match c_program("stored") {
        Some(program) => program,
        None => return,
    };
    let output = Command::new(program).arg("messages").output().unwrap();
    assert!(output.status.success());
    let unknown = "a number that this version doesn't have";
    let mut expected: String = table()
        .iter()
        .map(|(number, text)| format!("{number} {text}\n"))
        .collect();
    expected.push_str(&format!("- {unknown}\n"));
    let said = String::from_utf8(output.stdout).unwrap();
    let stored = said.strip_prefix(&expected).unwrap_or_else(|| {
        panic!("C says:\n{said}\nand the table has:\n{expected}");
    });
    // those of dm_stored: 0 to 6 say each something else, 7 is none
    let stored: Vec<&str> = stored.lines().collect();
    assert_eq!(stored.len(), 8);
    assert_eq!(stored[7], format!("7 {unknown}"));
    for (i, line) in stored[..7].iter().enumerate() {
        let text = line.strip_prefix(&format!("{i} ")).unwrap();
        assert!(text.contains("stored state"), "{line}");
        assert!(stored[i + 1..].iter().all(|other| other[2..] != *text));
    }
}

#[test]
fn one_version() {
    let (major, minor, patch) = library_version();
    let package = env!("CARGO_PKG_VERSION");
    assert_eq!(format!("{major}.{minor}.{patch}"), package);
    let header = String::from_utf8(file("include/deletion_machine.h")).unwrap();
    let defined = header
        .lines()
        .find_map(|line| line.strip_prefix("#define DM_VERSION "))
        .unwrap();
    let number = 10_000 * major + 100 * minor + patch;
    assert_eq!(defined, number.to_string());
}
