//! The names, numbers and texts of the wrapper are those of the header, and its functions are those of the archive.

use dimpsyholt::{Cause, FORMAT, LOG_WORDS, MODEL_WORDS, PLACES, VERSION};
use std::collections::{BTreeMap, BTreeSet};
use std::path::Path;
use std::process::Command;

const HEADER: &str = include_str!("../../../include/dimpsyholt.h");

/// Every `#define DIMPSYHOLT_NAME NUMBER`.
fn numbers() -> BTreeMap<String, u32> {
    let mut found = BTreeMap::new();
    for line in HEADER.lines() {
        let mut words = line.split_whitespace();
        if words.next() != Some("#define") {
            continue;
        }
        let name = words.next().unwrap().strip_prefix("DIMPSYHOLT_").unwrap();
        if let Some(Ok(number)) = words.next().map(str::parse) {
            assert_eq!(
                found.insert(name.to_string(), number),
                None,
                "{name} is defined twice"
            );
        }
    }
    found
}

/// `ModelTooLong` as the header writes it: `MODEL_TOO_LONG`.
fn in_capitals(name: &str) -> String {
    let mut capitals = String::new();
    for c in name.chars() {
        if c.is_uppercase() && !capitals.is_empty() {
            capitals.push('_');
        }
        capitals.push(c.to_ascii_uppercase());
    }
    capitals
}

#[test]
fn every_number_has_its_name() {
    let mut expected: BTreeMap<String, u32> = Cause::ALL
        .iter()
        .map(|cause| (in_capitals(&format!("{cause:?}")), cause.number()))
        .collect();
    for (name, number) in [
        ("VERSION", VERSION),
        ("FORMAT", FORMAT),
        ("MODEL_WORDS", MODEL_WORDS as u32),
        ("LOG_WORDS", LOG_WORDS as u32),
        ("PLACES", PLACES as u32),
        ("REFUSED", 0),
        ("ACCEPTED", 1),
        ("CARRIED", 2),
        ("NO_ASSIGNMENT", 3),
        ("NEVER_BELOW", 4),
    ] {
        expected.insert(name.to_string(), number);
    }
    assert_eq!(numbers(), expected);
}

#[test]
fn every_refusal_has_its_text() {
    let cases = HEADER
        .lines()
        .filter(|line| line.trim_start().starts_with("case "));
    let told: BTreeSet<String> = cases.map(|line| line.trim().to_string()).collect();
    let expected: BTreeSet<String> = Cause::ALL
        .iter()
        .map(|cause| {
            let name = in_capitals(&format!("{cause:?}"));
            format!("case DIMPSYHOLT_{name}: return \"{cause}\";")
        })
        .collect();
    assert_eq!(told, expected);
}

/// The functions that the header declares, those that it defines itself left out.
fn declared() -> BTreeSet<String> {
    let lines = HEADER.lines().filter(|line| !line.starts_with("static"));
    let starts = lines
        .filter(|line| line.starts_with("uint32_t ") || line.starts_with("dimpsyholt_answer "));
    let names = starts.filter_map(|line| line.split_whitespace().nth(1)?.split_once('('));
    names.map(|(name, _)| name.to_string()).collect()
}

#[test]
fn the_archive_exports_what_the_header_declares() {
    let folder = std::env::var("DIMPSYHOLT_LIB_DIR").expect("DIMPSYHOLT_LIB_DIR");
    let archive = Path::new(&folder).join("libdimpsyholt.a");
    let said = Command::new("nm")
        .args(["-g", "--defined-only"])
        .arg(&archive)
        .output()
        .expect("nm");
    assert!(said.status.success(), "nm {}", archive.display());
    let exported: BTreeSet<String> = String::from_utf8_lossy(&said.stdout)
        .lines()
        .filter_map(|line| line.split_whitespace().nth(2))
        .map(str::to_string)
        .collect();
    assert_eq!(exported, declared());
    assert_eq!(exported.len(), 3);
}
