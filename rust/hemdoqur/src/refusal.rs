//! Why a call is refused.
use core::error::Error;
use core::fmt::{Display, Formatter, Result};

/// A row of the table of docs/FORMAT.md, and the line of the text, 0 where none is meant. Lent memory is as it was.
#[derive(Clone, Copy, Debug, PartialEq, Eq)]
pub struct Refusal {
    pub row: u32,
    pub line: u32,
}

/// Why a list of proposals is not run: a row, of the table, the phase or the state at the start; or a fault of the list itself. Lent memory
/// is as it was.
#[derive(Clone, Copy, Debug, PartialEq, Eq)]
pub enum RunRefusal {
    Row(Refusal),
    /// There is not a location for each automaton and a value for each variable at each action.
    Uneven,
    /// There are fewer places for answers than actions.
    AnswersShort,
    /// There are fewer places than the state at the end has locations or values.
    EndShort,
}

impl Display for Refusal {
    fn fmt(&self, out: &mut Formatter) -> Result {
        match self.line {
            0 => write!(out, "row {}: {}", self.row, sentence(self.row)),
            line => write!(out, "row {}, line {line}: {}", self.row, sentence(self.row)),
        }
    }
}

impl Display for RunRefusal {
    fn fmt(&self, out: &mut Formatter) -> Result {
        match self {
            RunRefusal::Row(refusal) => refusal.fmt(out),
            RunRefusal::Uneven => out.write_str(sentence(101)),
            RunRefusal::AnswersShort => out.write_str(sentence(102)),
            RunRefusal::EndShort => out.write_str(sentence(103)),
        }
    }
}

impl Error for Refusal {}

impl Error for RunRefusal {}

/// What a row says, in short; from 101 up, what is wrong with a list of proposals. "" for a number that is not in use.
pub fn sentence(number: u32) -> &'static str {
    match number {
        1 => "the text has more than 65,536 bytes",
        2 => "the line is not the one that is due, or has a wrong number of fields, a forbidden byte or no LF",
        3 => "a number is misspelled or out of its range",
        4 => "a variable's least value is above its greatest",
        5 => "a list does not rise, or a list of actions has 0 or an action above the highest",
        6 => "this is no predicate",
        7 => "the sheet has no such variable",
        8 => "an init, an inv or a start condition cannot have a new value",
        9 => "the predicate is deeper than 24",
        10 => "an expression can leave the numbers from -2^62 to 2^62",
        11 => "with this line the predicates have more than 4,096 nodes",
        12 => "the edge has a location or an action that is not there",
        13 => "this is no composition",
        14 => "the composition does not name the automata in order, each once",
        15 => "with this line there are more than 512 edges",
        16 => "the composition has more than 64 nodes",
        18 => "the table has fewer than 16,384 words",
        19 => "the table is not one that the reader makes",
        20 => "the phase is neither 0 nor 1",
        21 => "there are too many or too few locations or values",
        22 => "an automaton has no such location",
        23 => "a value is out of its variable's range",
        24 => "the sheet has no such action",
        31 => "merged, the sheet has more than 48 variables: its own and one for each automaton",
        32 => "merged, the sheet has more than 512 edges",
        33 => "merged, a predicate is deeper than 24",
        34 => "merged, the predicates have more than 4,096 nodes",
        35 => "the buffer is shorter than the text",
        44 => "the list is not that of the variables whose new value the edge mentions",
        50 => "a variable belongs to an automaton that is not there",
        51 => "the edge writes a variable that does not belong to its automaton",
        101 => "the list does not have a location for each automaton and a value for each variable at each action",
        102 => "there are fewer places for answers than actions",
        103 => "there are too few places for the locations or values at the end",
        _ => "",
    }
}
