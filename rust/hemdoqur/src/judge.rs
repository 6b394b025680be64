//! The judges, one proposal at a time or a list of them.
use crate::{numbers, Refusal, RunRefusal};

/// In the place of an action in a list: the proposal is for the environment judge.
pub const ENVIRONMENT: u32 = u32::MAX;

/// From here on the judges' numbers are refusals.
const REFUSED: u32 = 100;

/// Where the oven stands: the phase (0 start, 1 running), a location for each automaton, a value for each variable.
#[derive(Clone, Copy, Debug, PartialEq, Eq)]
pub struct State<'a> {
    pub phase: u32,
    pub locations: &'a [u32],
    pub values: &'a [i32],
}

/// A list of proposals: for each an action, a location for each automaton, a value for each variable, one proposal after the other.
/// The environment judge does not read its locations, but they have their places.
#[derive(Clone, Copy, Debug)]
pub struct Proposals<'a> {
    pub actions: &'a [u32],
    pub locations: &'a [u32],
    pub values: &'a [i32],
}

/// Memory for what a run gives back: at least a word for each proposal, for each automaton and for each variable. What is behind these
/// stays as it was.
#[derive(Debug)]
pub struct Room<'a> {
    pub answers: &'a mut [u32],
    pub locations: &'a mut [u32],
    pub values: &'a mut [i32],
}

/// What a run says to one proposal. With the step judge's yes comes the mark; with the environment judge's it is false.
#[derive(Clone, Copy, Debug, PartialEq, Eq)]
pub enum Answer {
    No,
    Yes { marked: bool },
    Refused { row: u32 },
}

impl Answer {
    fn of(number: u32) -> Answer {
        match number {
            0 => Answer::No,
            1 => Answer::Yes { marked: false },
            2 => Answer::Yes { marked: true },
            refused => Answer::Refused { row: refused - REFUSED },
        }
    }
}

/// A run: an answer for each proposal, in their order, and the state at the end.
#[derive(Clone, Copy, Debug)]
pub struct Run<'a> {
    numbers: &'a [u32],
    pub end: State<'a>,
}

impl<'a> Run<'a> {
    pub fn answers(&self) -> impl ExactSizeIterator<Item = Answer> + 'a {
        self.numbers.iter().map(|number| Answer::of(*number))
    }
}

/// May the composition take the action? With yes comes the mark: is the action in the whole's set?
pub fn step(table: &[u32], from: &State, action: u32, new_locations: &[u32], new_values: &[i32]) -> Result<Option<bool>, Refusal> {
    match Answer::of(numbers::step(table, from.phase, from.locations, from.values, action, new_locations, new_values)) {
        Answer::No => Ok(None),
        Answer::Yes { marked } => Ok(Some(marked)),
        Answer::Refused { row } => Err(Refusal { row, line: 0 }),
    }
}

/// May the variables change so while every automaton is still? In a sheet of format 3 those that have an owner may not.
pub fn environment(table: &[u32], from: &State, new_values: &[i32]) -> Result<bool, Refusal> {
    match Answer::of(numbers::environment(table, from.phase, from.locations, from.values, new_values)) {
        Answer::No => Ok(false),
        Answer::Yes { .. } => Ok(true),
        Answer::Refused { row } => Err(Refusal { row, line: 0 }),
    }
}

/// Puts each proposal to its judge; a yes moves the state.
pub fn run<'a>(table: &[u32], from: &State, list: &Proposals, room: Room<'a>) -> Result<Run<'a>, RunRefusal> {
    let Room { answers, locations, values } = room;
    let State { phase, locations: old_locations, values: old_values } = *from;
    let Proposals { actions, locations: new_locations, values: new_values } = *list;
    match numbers::run(table, phase, old_locations, old_values, actions, new_locations, new_values, answers, locations, values) {
        201 => Err(RunRefusal::Uneven),
        202 => Err(RunRefusal::AnswersShort),
        203 => Err(RunRefusal::EndShort),
        phase if phase < REFUSED => {
            let (locations, values) = (&locations[..old_locations.len()], &values[..old_values.len()]);
            Ok(Run { numbers: &answers[..actions.len()], end: State { phase, locations, values } })
        }
        refused => Err(RunRefusal::Row(Refusal { row: refused - REFUSED, line: 0 })),
    }
}
