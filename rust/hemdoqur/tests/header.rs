//! include/hemdoqur.h says what this crate says.
use hemdoqur::*;

const HEADER: &str = include_str!("../../../include/hemdoqur.h");

/// The number that the header gives a macro.
fn defined(name: &str) -> usize {
    let value = |line: &str| line.strip_prefix("#define ")?.strip_prefix(name)?.strip_prefix(' ')?.parse().ok();
    HEADER.lines().find_map(value).unwrap_or_else(|| panic!("{name} is not defined"))
}

#[test]
fn the_version_is_this_one() {
    let parts = ["MAJOR", "MINOR", "PATCH"].map(|part| defined(&format!("SHEET_VERSION_{part}")).to_string());
    assert_eq!(parts.join("."), env!("CARGO_PKG_VERSION"));
}

#[test]
fn the_limits_are_these() {
    assert_eq!(defined("SHEET_TABLE_WORDS"), TABLE_WORDS);
    assert_eq!(defined("SHEET_TEXT_BYTES"), TEXT_BYTES);
    assert_eq!(defined("SHEET_MOST_ACTIONS"), ACTIONS);
    assert_eq!(defined("SHEET_MOST_VARIABLES"), VARIABLES);
    assert_eq!(defined("SHEET_MOST_AUTOMATA"), AUTOMATA);
}

/// Each row has a name and the same sentence in both, and no other number has.
#[test]
fn the_rows_are_these() {
    let named = |number: u32| HEADER.lines().any(|line| line.trim_end_matches(',').ends_with(&format!(" = {number}")));
    for number in 0..200 {
        let told = format!("    case {number}: return \"{}\";", sentence(number));
        assert_eq!(named(number), !sentence(number).is_empty(), "{number}");
        assert_eq!(HEADER.lines().any(|line| line == told), !sentence(number).is_empty(), "{number}");
        assert_eq!(HEADER.contains(&format!("case {number}:")), !sentence(number).is_empty(), "{number}");
    }
}
