//! The paper's "Runs": proposals one after the other, on a sheet's table and on the merged one, singly and as lists.
use crate::compare::Comparison;
use crate::generate::*;
use crate::reference::judge::{NO, REFUSED};
use crate::reference::model::{Automaton, Model, Range, OWNERS_FORMAT};
use crate::reference::run::ENVIRONMENT;

/// What was put to the single judges, as a list for one call, with their answers.
struct Told {
    from: State,
    list: Listed,
    answers: Vec<u32>,
}

impl Told {
    fn new(from: &State) -> Told {
        Told { from: from.clone(), list: Listed::default(), answers: Vec::new() }
    }

    /// A list has no place for a wrong length, and the environment judge's mark is no action there.
    fn note(&mut self, random: &mut Random, proposed: &Proposed, answer: u32) {
        if answer != REFUSED + 21 && proposed.action != Some(ENVIRONMENT) {
            self.list.push(random, proposed, self.from.locations.len());
            self.answers.push(answer);
        }
    }

    /// One call answers as the single ones did, and ends where they have led.
    fn try_as_one(&self, comparison: &mut Comparison, table: &[u32], end: &State) {
        let (_, answers, ended) = comparison.run(table, &self.from, &self.list, &vec![5; self.answers.len()]);
        comparison.law("a run answers as the judges do", ended == *end && answers == self.answers, || {
            format!("{:?} {:?}", self.from, self.list)
        });
    }
}

/// A list of proposals on both tables, each run moving by its own answers; then each list in one call. The merged run
/// is also put what the other has no word for: environment proposals that would move a pointer.
pub fn run(comparison: &mut Comparison, random: &mut Random, model: &Model, table: &[u32], merged: Option<&[u32]>) {
    let mut here = state(random, model);
    let mut there = joined(&here);
    let (mut told_here, mut told_there) = (Told::new(&here), Told::new(&there));
    let mut alike = true;
    for _ in 0..24 {
        let mut proposed = proposal(random, model, &here);
        if random.percent(12) {
            spoil_proposed(random, model, &mut proposed);
        }
        let answer = comparison.judge(table, &here, &proposed);
        told_here.note(random, &proposed, answer);
        if let Some(merged) = merged.filter(|_| translates(answer)) {
            let translated = translation(&proposed, &there, model.ranges.len());
            if let Some(strayed) = strayed(random, model, &translated, &there) {
                let strayed_answer = comparison.judge(merged, &there, &strayed);
                told_there.note(random, &strayed, strayed_answer);
                alike &= strayed_answer == answer_to_strayed(model, &strayed, answer);
            }
            let merged_answer = comparison.judge(merged, &there, &translated);
            told_there.note(random, &translated, merged_answer);
            alike &= answer == merged_answer;
            there = moved(there, &translated, merged_answer);
        }
        here = moved(here, &proposed, answer);
    }
    told_here.try_as_one(comparison, table, &here);
    if let Some(merged) = merged {
        told_there.try_as_one(comparison, merged, &there);
        comparison.runs += 1;
        comparison.law("runs are alike", alike && joined(&here) == there, || format!("{here:?} {there:?}"));
    }
}

/// The merged run's state: location 0, and the locations behind the values.
fn joined(state: &State) -> State {
    State { phase: state.phase, locations: vec![0], values: with_pointers(&state.values, &state.locations) }
}

fn with_pointers(values: &[i32], locations: &[u32]) -> Vec<i32> {
    values.iter().copied().chain(locations.iter().map(|location| *location as i32)).collect()
}

/// What 21 or 22 refuses has no translation.
fn translates(answer: u32) -> bool {
    answer != REFUSED + 21 && answer != REFUSED + 22
}

fn translation(proposed: &Proposed, there: &State, variables: usize) -> Proposed {
    match proposed.action {
        Some(_) => Proposed { locations: vec![0], values: with_pointers(&proposed.values, &proposed.locations), ..*proposed },
        None => {
            let values = [&proposed.values[..], &there.values[variables..]].concat();
            Proposed { action: None, locations: Vec::new(), values }
        }
    }
}

/// Where owners hold the pointers still, an environment proposal may name any: the same with others, in their ranges or
/// out of them.
fn strayed(random: &mut Random, model: &Model, translated: &Proposed, there: &State) -> Option<Proposed> {
    if model.format < OWNERS_FORMAT || translated.action.is_some() {
        return None;
    }
    let mut strayed = translated.clone();
    let first = model.ranges.len();
    for _ in 0..1 + random.below(2) {
        let i = random.below(model.automata.len());
        let count = model.automata[i].locations.len();
        let outside = random.pick(&[-1, count as i32, i32::MIN, i32::MAX]);
        strayed.values[first + i] = if random.percent(20) { outside } else { random.below(count) as i32 };
    }
    (strayed.values[first..] != there.values[first..]).then_some(strayed)
}

/// What a proposal with other pointers must be answered with, beside this answer to the one that it strayed from.
fn answer_to_strayed(model: &Model, strayed: &Proposed, answer: u32) -> u32 {
    let pointers = &strayed.values[model.ranges.len()..];
    let there = |(pointer, automaton): (&i32, &Automaton)| (0..automaton.locations.len() as i32).contains(pointer);
    let all_there = pointers.iter().zip(&model.automata).all(there);
    if all_there && answer < REFUSED {
        NO
    } else {
        REFUSED + 23
    }
}

/// On a sheet and on its merged one, each environment step from each state, to values and pointers that are there or
/// one past.
pub fn every_environment_step(comparison: &mut Comparison, model: &Model, table: &[u32], merged: &[u32]) {
    let outside = |values: &[i32]| Proposed { action: None, locations: Vec::new(), values: values.to_vec() };
    let first = model.ranges.len();
    let pointers = model.automata.iter().map(|automaton| (0, automaton.locations.len() as i32 - 1));
    let ranges: Vec<Range> = model.ranges.iter().copied().chain(pointers).collect();
    let wider: Vec<Range> = ranges.iter().map(|(low, high)| (*low, high + 1)).collect();
    for phase_and_old in every_choice(&[&[(0, 1)], &ranges[..]].concat()) {
        let there = State { phase: phase_and_old[0] as u32, locations: vec![0], values: phase_and_old[1..].to_vec() };
        let locations = there.values[first..].iter().map(|location| *location as u32).collect();
        let here = State { phase: there.phase, locations, values: there.values[..first].to_vec() };
        for new in every_choice(&wider) {
            let answer = comparison.judge(table, &here, &outside(&new[..first]));
            let translated = outside(&new);
            let kept = new[first..] == there.values[first..];
            let expected = if kept { answer } else { answer_to_strayed(model, &translated, answer) };
            let got = comparison.judge(merged, &there, &translated);
            comparison.law("the environment keeps the pointers", got == expected, || format!("{there:?} {new:?}"));
        }
    }
}

/// Each choice of a number from each range.
fn every_choice(ranges: &[Range]) -> Vec<Vec<i32>> {
    ranges.iter().fold(vec![Vec::new()], |choices, (low, high)| {
        choices.iter().flat_map(|choice| (*low..=*high).map(move |number| [&choice[..], &[number]].concat())).collect()
    })
}

/// Lists in one call: good ones with more and less room for the answers and for the end, and faulty ones.
pub fn lists(comparison: &mut Comparison, random: &mut Random, model: &Model, table: &[u32]) {
    let from = state(random, model);
    let list = list(random, model, &from);
    let count = list.actions.len();
    for room in [count, count + 1, count + 9, count.saturating_sub(1), 0] {
        comparison.run(table, &from, &list, &vec![0xEEEE_EEEE; room]);
    }
    let (n, v) = (from.locations.len(), from.values.len());
    for room in [[n + 1, v + 1], [n + 20, v], [n, v + 50], [n - 1, v], [n, v.saturating_sub(1)], [0, 0]] {
        comparison.run_into(table, &from, &list, &vec![2; count], room);
    }
    for other in wrong_lengths(&list) {
        comparison.run(table, &from, &other, &vec![0; count + 1]);
    }
    for _ in 0..6 {
        let (from, list) = faulty_list(random, model, &from, &list);
        let room = if random.percent(70) { count + 2 } else { random.below(count + 1) };
        comparison.run(table, &from, &list, &vec![1; room]);
    }
}

/// One list on a table that may be bad.
pub fn list_on_any_table(comparison: &mut Comparison, random: &mut Random, model: &Model, table: &[u32]) {
    let from = state(random, model);
    let list = list(random, model, &from);
    comparison.run(table, &from, &list, &vec![4; list.actions.len()]);
}

/// On the oven: lists of every small length, with every beginning, and one that is long.
pub fn oven_lists(comparison: &mut Comparison, random: &mut Random, model: &Model, table: &[u32]) {
    let from = State { phase: 0, locations: vec![0, 0], values: vec![0] };
    lengths(comparison, table, &from);
    for phase in [0, 1, 2, u32::MAX] {
        beginnings(comparison, table, phase);
    }
    let long = long_list(random, model, &from, 5_000);
    comparison.run(table, &from, &long, &vec![6; 5_001]);
}

/// So many actions, locations and values of a list for the oven; with 3, 6 and 3 each proposal is answered with yes.
fn oven_list(actions: usize, locations: usize, values: usize) -> Listed {
    Listed {
        actions: [2, ENVIRONMENT, 1, 2][..actions].to_vec(),
        locations: [0, 0, 9, 9, 1, 0, 1, 0][..locations].to_vec(),
        values: [1, 0, 0, 0][..values].to_vec(),
    }
}

fn lengths(comparison: &mut Comparison, table: &[u32], from: &State) {
    for drawn in 0..5 * 9 * 5 * 6 {
        let (actions, locations, values, room) = (drawn % 5, drawn / 5 % 9, drawn / 45 % 5, drawn / 225);
        comparison.run(table, from, &oven_list(actions, locations, values), &vec![6; room]);
    }
}

fn beginnings(comparison: &mut Comparison, table: &[u32], phase: u32) {
    for locations in [vec![0, 0], vec![1, 0], vec![2, 0], vec![0, 1], vec![0], vec![0; 3], vec![]] {
        for values in [vec![0], vec![1], vec![2], vec![-1], vec![], vec![0, 0]] {
            let from = State { phase, locations: locations.clone(), values };
            comparison.run(table, &from, &oven_list(3, 6, 3), &[6; 3]);
            comparison.run(table, &from, &oven_list(3, 6, 3), &[6; 2]);
            comparison.run(table, &from, &oven_list(3, 6, 2), &[6; 2]);
        }
    }
}
