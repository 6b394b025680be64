//! A list of proposals (the paper's "Runs"): each is judged where the ones before it have led.
use super::judge::{environment_of, refusal, step_of, Proposal, NO, REFUSED};
use super::model::Model;
use super::table::open;

/// In the place of an action: the proposal is for the environment judge, and its locations are not read.
pub const ENVIRONMENT: u32 = u32::MAX;

/// Where the run begins, and its proposals: an action each, a location for each automaton, a value for each variable.
#[derive(Clone, Copy)]
pub struct List<'a> {
    pub phase: u32,
    pub locations: &'a [u32],
    pub values: &'a [i32],
    pub actions: &'a [u32],
    pub new_locations: &'a [u32],
    pub new_values: &'a [i32],
}

/// What a list is refused with beside rows: its lengths do not fit together; there is no place for each answer; or none for each
/// location or value at the end.
pub const UNEVEN: u32 = 101;
pub const ANSWERS_SHORT: u32 = 102;
pub const END_SHORT: u32 = 103;

/// How many answers, locations and values there is room for.
pub type Rooms = (usize, usize, usize);

/// What a run gives: the answers, and the state at the end.
pub struct Given<'a> {
    pub answers: Vec<u32>,
    pub phase: u32,
    pub locations: &'a [u32],
    pub values: &'a [i32],
}

/// The run; or the row that refuses the table, the phase or the beginning, or a fault of the list.
pub fn run<'a>(table: &[u32], list: &List<'a>, rooms: Rooms) -> Result<Given<'a>, u32> {
    let model = open(table)?;
    match beginning_refusal(&model, list).or_else(|| list_fault(&model, list, rooms)) {
        Some(number) => Err(number),
        None => Ok(given(&model, list)),
    }
}

/// Rows 20 to 23 of the state where it begins.
fn beginning_refusal(model: &Model, list: &List) -> Option<u32> {
    let &List { phase, locations, values, .. } = list;
    refusal(model, &Proposal { phase, locations, values, new_locations: locations, new_values: values })
}

fn list_fault(model: &Model, list: &List, (answers, locations, values): Rooms) -> Option<u32> {
    let (count, automata, variables) = (list.actions.len(), model.automata.len(), model.ranges.len());
    if list.new_locations.len() != count * automata || list.new_values.len() != count * variables {
        return Some(UNEVEN);
    }
    if answers < count {
        return Some(ANSWERS_SHORT);
    }
    (locations < automata || values < variables).then_some(END_SHORT)
}

fn given<'a>(model: &Model, list: &List<'a>) -> Given<'a> {
    let (automata, variables) = (model.automata.len(), model.ranges.len());
    let (mut phase, mut locations, mut values) = (list.phase, list.locations, list.values);
    let mut answers = Vec::new();
    for (k, action) in list.actions.iter().enumerate() {
        let environment = *action == ENVIRONMENT;
        let named = &list.new_locations[k * automata..(k + 1) * automata];
        let new_locations = if environment { locations } else { named };
        let new_values = &list.new_values[k * variables..(k + 1) * variables];
        let proposal = Proposal { phase, locations, values, new_locations, new_values };
        let answer = if environment { environment_of(model, &proposal) } else { step_of(model, &proposal, *action) };
        if answer != NO && answer < REFUSED {
            (phase, locations, values) = (1, new_locations, new_values);
        }
        answers.push(answer);
    }
    Given { answers, phase, locations, values }
}
