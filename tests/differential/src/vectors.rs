//! Vectors: what the program writes for a text, and what a judge answers to a line of judge.txt.
use crate::calls::{self, Sheets};
use crate::reference::judge::{Proposal, NO, REFUSED, YES, YES_MARKED};
use crate::reference::model::{TABLE_WORDS, TEXT_BYTES};
use std::fs;
use std::path::Path;

/// The names of a folder's files; a folder that is not there ends the program as a failure.
pub fn files_in(folder: &Path) -> Vec<String> {
    let Ok(entries) = fs::read_dir(folder) else { fail(&format!("there is no folder {}", folder.display())) };
    entries.map(|entry| entry.expect("an entry").file_name().to_string_lossy().into_owned()).collect()
}

/// Ends the program as one failure.
pub fn fail(why: &str) -> ! {
    println!("FAILED: {why}\n0 passed, 1 failed");
    std::process::exit(1)
}

/// What the program writes for a sheet text.
pub fn program(sheets: &dyn Sheets, text: &[u8]) -> Vec<u8> {
    let mut table = vec![0; TABLE_WORDS];
    let answer = sheets.read(text, &mut table);
    if answer != 0 {
        return refused(calls::row(answer), calls::line(answer));
    }
    let mut out = vec![0; TEXT_BYTES];
    let answer = sheets.merge(&table, &mut out);
    if calls::row(answer) != 0 {
        return refused(calls::row(answer), 0);
    }
    out.truncate(calls::length(answer));
    out
}

pub fn refused(row: u32, line: u32) -> Vec<u8> {
    format!("refused={row},{line}\n").into_bytes()
}

/// The answer to a proposal, a line of judge.txt; the answer that the line has is not looked at.
pub fn judged(sheets: &dyn Sheets, table: &[u32], line: &str) -> String {
    let (kind, rest) = line.split_once(' ').unwrap_or((line, ""));
    let fields: Vec<_> = rest.split('|').collect();
    match (kind, fields.len()) {
        ("step", 7) => step(sheets, table, &fields),
        ("env", 5) => environment(sheets, table, &fields),
        _ => panic!("judge.txt has a line that is no proposal: {line}"),
    }
}

/// The answer that a line of judge.txt has.
pub fn answer_of(line: &str) -> &str {
    line.rsplit('|').next().expect("a last field")
}

fn step(sheets: &dyn Sheets, table: &[u32], fields: &[&str]) -> String {
    let (locations, values) = (list(fields[1]), list(fields[2]));
    let (new_locations, new_values) = (list(fields[4]), list(fields[5]));
    let proposal = Proposal {
        phase: fields[0].parse().expect("a phase"),
        locations: &locations,
        values: &values,
        new_locations: &new_locations,
        new_values: &new_values,
    };
    match sheets.step(table, &proposal, fields[3].parse().expect("an action")) {
        NO => "no".to_string(),
        YES => "yes False".to_string(),
        YES_MARKED => "yes True".to_string(),
        other => format!("refused {}", other - REFUSED),
    }
}

fn environment(sheets: &dyn Sheets, table: &[u32], fields: &[&str]) -> String {
    let (locations, values, new_values) = (list(fields[1]), list(fields[2]), list(fields[3]));
    let proposal = Proposal {
        phase: fields[0].parse().expect("a phase"),
        locations: &locations,
        values: &values,
        new_locations: &locations,
        new_values: &new_values,
    };
    match sheets.environment(table, &proposal) {
        NO => "no".to_string(),
        YES => "yes".to_string(),
        other => format!("refused {}", other - REFUSED),
    }
}

fn list<T: std::str::FromStr>(field: &str) -> Vec<T>
where
    T::Err: std::fmt::Debug,
{
    field.split(',').filter(|item| !item.is_empty()).map(|item| item.parse().expect("a number")).collect()
}
