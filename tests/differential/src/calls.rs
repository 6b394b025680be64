//! The seven calls, as the library has them and as the reference answers them.
use crate::reference::{self, judge::Proposal, judge::REFUSED, run::List};
use hemdoqur::numbers;

/// A way to answer the calls. Numbers and slices only, as in C.
pub trait Sheets {
    /// row * 2^32 + line; 0: accepted, and the table is written
    fn read(&self, text: &[u8], table: &mut [u32]) -> u64;
    /// row * 2^32 + length
    fn write(&self, table: &[u32], out: &mut [u8]) -> u64;
    /// row * 2^32 + edges * 2^17 + length
    fn merge(&self, table: &[u32], out: &mut [u8]) -> u64;
    /// 0 no, 1 yes with mark false, 2 yes with mark true, 100 + row refused
    fn step(&self, table: &[u32], proposal: &Proposal, action: u32) -> u32;
    /// 0 no, 1 yes, 100 + row refused; the proposal's new locations play no part
    fn environment(&self, table: &[u32], proposal: &Proposal) -> u32;
    /// The phase at the end, and what the run gives is at the front of the lent memory; else 100 + the row or fault of the list
    fn run(&self, table: &[u32], list: &List, lent: Lent) -> u32;
    /// row * 2^32 + actions * 2^16 + variables * 2^8 + automata
    fn size(&self, table: &[u32]) -> u64;
}

/// What a run is lent: for its answers, and for the locations and the values at the end.
pub struct Lent<'a> {
    pub answers: &'a mut [u32],
    pub locations: &'a mut [u32],
    pub values: &'a mut [i32],
}

/// A row as the 64-bit answers carry it.
pub const ROW: u64 = 1 << 32;
/// An edge as a merger's answer carries it.
pub const EDGE: u64 = 1 << 17;

pub fn row(answer: u64) -> u32 {
    (answer / ROW) as u32
}

/// A reader's line.
pub fn line(answer: u64) -> u32 {
    (answer % ROW) as u32
}

/// A writer's or merger's length.
pub fn length(answer: u64) -> usize {
    (answer % EDGE) as usize
}

/// A merger's count of edges.
pub fn edges(answer: u64) -> usize {
    (answer % ROW / EDGE) as usize
}

/// The second implementation.
pub struct Reference;

impl Sheets for Reference {
    fn read(&self, text: &[u8], table: &mut [u32]) -> u64 {
        match reference::read(text, table.len()) {
            Ok(model) => {
                let words = reference::table(&model);
                table[..words.len()].copy_from_slice(&words);
                0
            }
            Err((row, line)) => row as u64 * ROW + line as u64,
        }
    }

    fn write(&self, table: &[u32], out: &mut [u8]) -> u64 {
        match reference::open(table).map(|model| reference::write(&model)) {
            Ok(text) => deliver(&text, 0, out),
            Err(row) => row as u64 * ROW,
        }
    }

    fn merge(&self, table: &[u32], out: &mut [u8]) -> u64 {
        match reference::open(table).and_then(|model| reference::merge(&model)) {
            Ok((text, edges)) => deliver(&text, edges, out),
            Err(row) => row as u64 * ROW,
        }
    }

    fn step(&self, table: &[u32], proposal: &Proposal, action: u32) -> u32 {
        reference::step(table, proposal, action)
    }

    fn environment(&self, table: &[u32], proposal: &Proposal) -> u32 {
        reference::environment(table, proposal.phase, proposal.locations, proposal.values, proposal.new_values)
    }

    fn run(&self, table: &[u32], list: &List, lent: Lent) -> u32 {
        match reference::run(table, list, (lent.answers.len(), lent.locations.len(), lent.values.len())) {
            Ok(given) => {
                lent.answers[..given.answers.len()].copy_from_slice(&given.answers);
                lent.locations[..given.locations.len()].copy_from_slice(given.locations);
                lent.values[..given.values.len()].copy_from_slice(given.values);
                given.phase
            }
            Err(number) => REFUSED + number,
        }
    }

    fn size(&self, table: &[u32]) -> u64 {
        match reference::open(table) {
            Ok(model) => (model.actions as u64) << 16 | (model.ranges.len() as u64) << 8 | model.automata.len() as u64,
            Err(row) => row as u64 * ROW,
        }
    }
}

/// Row 35, or the text at the front of the buffer, whose rest stays.
fn deliver(text: &[u8], edges: usize, out: &mut [u8]) -> u64 {
    if out.len() < text.len() {
        return 35 * ROW;
    }
    out[..text.len()].copy_from_slice(text);
    edges as u64 * EDGE + text.len() as u64
}

/// The proved library.
pub struct Library;

impl Sheets for Library {
    fn read(&self, text: &[u8], table: &mut [u32]) -> u64 {
        numbers::read(text, table)
    }

    fn write(&self, table: &[u32], out: &mut [u8]) -> u64 {
        numbers::write(table, out)
    }

    fn merge(&self, table: &[u32], out: &mut [u8]) -> u64 {
        numbers::merge(table, out)
    }

    fn step(&self, table: &[u32], from: &Proposal, action: u32) -> u32 {
        numbers::step(table, from.phase, from.locations, from.values, action, from.new_locations, from.new_values)
    }

    fn environment(&self, table: &[u32], from: &Proposal) -> u32 {
        numbers::environment(table, from.phase, from.locations, from.values, from.new_values)
    }

    fn run(&self, table: &[u32], list: &List, lent: Lent) -> u32 {
        let &List { phase, locations, values, actions, new_locations, new_values } = list;
        let Lent { answers, locations: ends, values: end_values } = lent;
        numbers::run(table, phase, locations, values, actions, new_locations, new_values, answers, ends, end_values)
    }

    fn size(&self, table: &[u32]) -> u64 {
        numbers::size(table)
    }
}
