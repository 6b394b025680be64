//! The proved sheet functions for Rust. They keep nothing between calls, and every slice of any length and content is allowed.
//!
//! The crate links `libexports.a`, which `rt lib` makes in crates/exports for x86-64 Linux: that of the repository's
//! crates/exports/out, or of the folder that `HEMDOQUR_LIB` names. `include/hemdoqur.h` says how much stack each function
//! needs.
//!
//! A host reads a text, asks for the `size` of the sheet, and makes its lists of locations and values by it:
//!
//! ```no_run
//! use hemdoqur::{read, size, step, State, TABLE_WORDS};
//!
//! fn opens(text: &[u8]) -> Result<bool, hemdoqur::Refusal> {
//!     let mut table = [0; TABLE_WORDS];
//!     read(text, &mut table)?;
//!     let size = size(&table)?;
//!     let (locations, values) = ([0; hemdoqur::AUTOMATA], [0; hemdoqur::VARIABLES]);
//!     let from = State { phase: 0, locations: &locations[..size.automata], values: &values[..size.variables] };
//!     Ok(step(&table, &from, 1, from.locations, from.values)?.is_some())
//! }
//! ```
#![no_std]
mod judge;
pub mod numbers;
mod refusal;

pub use judge::{environment, run, step, Answer, Proposals, Room, Run, State, ENVIRONMENT};
pub use refusal::{sentence, Refusal, RunRefusal};

/// The words that a table has at least. A table belongs to the version of this crate that read it: from 4.0 on a
/// variable has three words, so texts are read again.
pub const TABLE_WORDS: usize = 16_384;
/// The bytes that a text has at most, also a written or merged one.
pub const TEXT_BYTES: usize = 65_536;
/// The most actions, variables and automata that a sheet has.
pub const ACTIONS: usize = 63;
pub const VARIABLES: usize = 48;
pub const AUTOMATA: usize = 16;

/// What the merger wrote.
#[derive(Clone, Copy, Debug, PartialEq, Eq)]
pub struct Merged {
    pub edges: usize,
    pub length: usize,
}

/// How many actions (the silent one not counted), variables and automata a sheet has.
#[derive(Clone, Copy, Debug, PartialEq, Eq)]
pub struct Size {
    pub actions: usize,
    pub variables: usize,
    pub automata: usize,
}

/// Reads a text into the table's first words.
pub fn read(text: &[u8], table: &mut [u32]) -> Result<(), Refusal> {
    match numbers::read(text, table) {
        0 => Ok(()),
        answer => Err(Refusal { row: row(answer), line: answer as u32 }),
    }
}

/// The numbers of a table's sheet, by which a caller makes its lists.
pub fn size(table: &[u32]) -> Result<Size, Refusal> {
    let answer = numbers::size(table);
    let part = |shift: u32| (answer >> shift) as usize % (1 << 8);
    match row(answer) {
        0 => Ok(Size { actions: part(16), variables: part(8), automata: part(0) }),
        row => Err(Refusal { row, line: 0 }),
    }
}

/// Writes the text of a table: its length.
pub fn write(table: &[u32], out: &mut [u8]) -> Result<usize, Refusal> {
    delivered(numbers::write(table, out)).map(|merged| merged.length)
}

/// Writes the text of the one automaton that does what all automata of the table do together, equal edges once, in the format of the
/// table's own text.
pub fn merge(table: &[u32], out: &mut [u8]) -> Result<Merged, Refusal> {
    delivered(numbers::merge(table, out))
}

fn row(answer: u64) -> u32 {
    (answer >> 32) as u32
}

/// A text of the writer or the merger; the writer counts no edges.
fn delivered(answer: u64) -> Result<Merged, Refusal> {
    match row(answer) {
        0 => Ok(Merged { edges: (answer >> 17) as usize, length: (answer % (1 << 17)) as usize }),
        row => Err(Refusal { row, line: 0 }),
    }
}
