//! States, and proposals from them: good, doubtful and faulty.
use super::predicates::always;
use super::Random;
use crate::reference::judge::{environment_of, step_of, Proposal, NO, REFUSED};
use crate::reference::model::*;
use crate::reference::run::{List, ENVIRONMENT};
use std::borrow::Cow;

#[derive(Clone, Debug, PartialEq)]
pub struct State {
    pub phase: u32,
    pub locations: Vec<u32>,
    pub values: Vec<i32>,
}

/// A step proposal (with an action) or an environment proposal (without one, and without new locations).
#[derive(Clone, Debug, PartialEq)]
pub struct Proposed {
    pub action: Option<u32>,
    pub locations: Vec<u32>,
    pub values: Vec<i32>,
}

impl Proposed {
    pub fn from<'a>(&'a self, state: &'a State) -> Proposal<'a> {
        let new_locations = if self.action.is_some() { &self.locations } else { &state.locations };
        Proposal { phase: state.phase, locations: &state.locations, values: &state.values, new_locations, new_values: &self.values }
    }

    fn answer(&self, model: &Model, state: &State) -> u32 {
        match self.action {
            Some(action) => step_of(model, &self.from(state), action),
            None => environment_of(model, &self.from(state)),
        }
    }
}

/// A list of proposals as a run takes it: an action each, and then their locations and values one after the other.
#[derive(Clone, Debug, Default, PartialEq)]
pub struct Listed {
    pub actions: Vec<u32>,
    pub locations: Vec<u32>,
    pub values: Vec<i32>,
}

impl Listed {
    pub fn from<'a>(&'a self, state: &'a State) -> List<'a> {
        List {
            phase: state.phase,
            locations: &state.locations,
            values: &state.values,
            actions: &self.actions,
            new_locations: &self.locations,
            new_values: &self.values,
        }
    }

    /// An environment proposal gets locations too, which nobody is to read.
    pub fn push(&mut self, random: &mut Random, proposed: &Proposed, automata: usize) {
        self.actions.push(proposed.action.unwrap_or(ENVIRONMENT));
        self.values.extend(&proposed.values);
        match proposed.action {
            Some(_) => self.locations.extend(&proposed.locations),
            None => self.locations.extend((0..automata).map(|_| random.pick(&[0, 1, 32, u32::MAX]))),
        }
    }
}

fn value_in(random: &mut Random, (low, high): Range) -> i32 {
    match random.below(8) {
        0 => low,
        1 => high,
        2 => random.between(low as i64, high as i64) as i32,
        _ => {
            let near = random.between(-4, 6) as i32;
            if low <= near && near <= high {
                near
            } else {
                random.between(low as i64, high as i64) as i32
            }
        }
    }
}

fn any_state(random: &mut Random, model: &Model) -> State {
    State {
        phase: random.below(2) as u32,
        locations: model.automata.iter().map(|automaton| random.below(automaton.locations.len()) as u32).collect(),
        values: model.ranges.iter().map(|range| value_in(random, *range)).collect(),
    }
}

/// The model whose start conditions hold always.
fn unstarted(model: &Model) -> Model {
    let mut unstarted = model.clone();
    unstarted.composition.starts_mut().into_iter().for_each(|p| *p = always());
    unstarted
}

/// A state; where some are found easily, one in which the automata can be still, or could but for a start condition.
pub fn state(random: &mut Random, model: &Model) -> State {
    let asked = if random.percent(40) { Cow::Owned(unstarted(model)) } else { Cow::Borrowed(model) };
    let mut drawn = any_state(random, model);
    for _ in 0..12 {
        let stay = Proposed { action: None, locations: Vec::new(), values: drawn.values.clone() };
        if stay.answer(&asked, &drawn) != NO {
            break;
        }
        drawn = any_state(random, model);
    }
    drawn
}

/// A proposal from a state; where one is found easily, one that is answered with yes, or would be but for a start condition.
pub fn proposal(random: &mut Random, model: &Model, state: &State) -> Proposed {
    let asked = if state.phase == 0 { Cow::Owned(unstarted(model)) } else { Cow::Borrowed(model) };
    let tries = random.pick(&[1, 1, 10]);
    let mut drawn = any_proposal(random, model, state);
    for _ in 1..tries {
        if drawn.answer(&asked, state) != NO {
            break;
        }
        drawn = any_proposal(random, model, state);
    }
    drawn
}

fn any_proposal(random: &mut Random, model: &Model, state: &State) -> Proposed {
    match random.below(10) {
        0 | 1 => Proposed { action: None, locations: Vec::new(), values: values_from_outside(random, model, state) },
        2 => Proposed {
            action: Some(random.below(model.actions as usize + 1) as u32),
            locations: any_state(random, model).locations,
            values: changed_values(random, model, state),
        },
        kind => {
            let mut drawn = guided(random, model, state);
            if kind <= 4 {
                disturb(random, model, &mut drawn);
            }
            drawn
        }
    }
}

fn changed_values(random: &mut Random, model: &Model, state: &State) -> Vec<i32> {
    let mut values = state.values.clone();
    for _ in 0..random.below(4) {
        let k = random.below(values.len());
        if let Some(value) = values.get_mut(k) {
            *value = value_in(random, model.ranges[k]);
        }
    }
    values
}

/// Values as the environment may propose them; mostly those of variables that belong to an automaton are kept.
fn values_from_outside(random: &mut Random, model: &Model, state: &State) -> Vec<i32> {
    let mut values = changed_values(random, model, state);
    if random.percent(60) {
        let owned = model.owned();
        (0..values.len()).filter(|k| owned >> k & 1 == 1).for_each(|k| values[k] = state.values[k]);
    }
    values
}

fn disturb(random: &mut Random, model: &Model, drawn: &mut Proposed) {
    if random.percent(50) || drawn.values.is_empty() {
        let k = random.below(drawn.locations.len());
        drawn.locations[k] = random.below(model.automata[k].locations.len()) as u32;
    } else {
        let last = drawn.values.len() - 1;
        let k = if random.percent(30) { last } else { random.below(last + 1) };
        drawn.values[k] = value_in(random, model.ranges[k]);
    }
}

/// A proposal that follows edges from the state: where they go, and values that their updates name.
fn guided(random: &mut Random, model: &Model, state: &State) -> Proposed {
    let leaving: Vec<&Edge> = model
        .automata
        .iter()
        .zip(&state.locations)
        .flat_map(|(automaton, here)| automaton.edges.iter().filter(|edge| edge.from == *here as usize))
        .collect();
    let action = if leaving.is_empty() { 0 } else { random.pick(&leaving).action };
    let mut takers = Vec::new();
    choose_takers(random, model, state, &model.composition, action, &mut takers);
    let mut locations = state.locations.clone();
    let mut values = state.values.clone();
    for (k, edge) in takers {
        locations[k] = edge.to as u32;
        follow(random, model, &edge.update, &state.values, &mut values);
    }
    Proposed { action: Some(action), locations, values }
}

/// For each automaton that would take the action, one of its edges.
fn choose_takers<'a>(
    random: &mut Random,
    model: &'a Model,
    state: &State,
    composition: &Composition,
    action: u32,
    takers: &mut Vec<(usize, &'a Edge)>,
) {
    match composition {
        Composition::Leaf(k) => {
            let here = state.locations[*k] as usize;
            let edges = model.automata[*k].edges.iter();
            let fitting: Vec<&Edge> = edges.filter(|edge| edge.action == action && edge.from == here).collect();
            if !fitting.is_empty() {
                takers.push((*k, random.pick(&fitting)));
            }
        }
        Composition::Syn(_, inner) | Composition::Ini(_, inner) => choose_takers(random, model, state, inner, action, takers),
        Composition::Par(left, right) => {
            let in_left = left.shares(action, &model.automata);
            let in_right = right.shares(action, &model.automata);
            let left_first = random.percent(50);
            if in_left || !in_right && left_first {
                choose_takers(random, model, state, left, action, takers);
            }
            if in_right || !in_left && (!left_first || takers.is_empty()) {
                choose_takers(random, model, state, right, action, takers);
            }
        }
    }
}

/// New values that the update seems to ask for.
fn follow(random: &mut Random, model: &Model, update: &Predicate, old: &[i32], new: &mut [i32]) {
    match update {
        Predicate::All(operands) | Predicate::Any(operands) => {
            operands.iter().for_each(|p| follow(random, model, p, old, new));
        }
        Predicate::Imp(_, q) => follow(random, model, q, old, new),
        Predicate::Eq(Expression::New(k), x) | Predicate::Eq(x, Expression::New(k)) => {
            let (low, high) = model.ranges[*k];
            let wanted = if x.interval(&model.ranges).is_some() { x.value(old, new) } else { 0 };
            new[*k] = wanted.clamp(low as i128, high as i128) as i32;
        }
        other => {
            let mentioned = other.mentions_new();
            for k in (0..model.ranges.len()).filter(|k| mentioned >> k & 1 == 1) {
                if random.percent(70) {
                    new[k] = value_in(random, model.ranges[k]);
                }
            }
        }
    }
}

/// A yes moves the run, and ends in phase 1; anything else leaves it.
pub fn moved(state: State, proposed: &Proposed, answer: u32) -> State {
    if !is_yes(answer) {
        return state;
    }
    let locations = if proposed.action.is_some() { proposed.locations.clone() } else { state.locations };
    State { phase: 1, locations, values: proposed.values.clone() }
}

/// A list of proposals that follow each other from a state: none, few or some.
pub fn list(random: &mut Random, model: &Model, from: &State) -> Listed {
    let count = random.pick(&[0, 1, 2, 3, 8]);
    long_list(random, model, from, count)
}

/// So many proposals that follow each other from a state; some of them have a location, a value or an action that is not there.
pub fn long_list(random: &mut Random, model: &Model, from: &State, count: usize) -> Listed {
    let mut list = Listed::default();
    let mut here = from.clone();
    for _ in 0..count {
        let mut proposed = proposal(random, model, &here);
        if random.percent(12) {
            spoil_content(random, model, &mut proposed);
        }
        let answer = proposed.answer(model, &here);
        list.push(random, &proposed, model.automata.len());
        here = moved(here, &proposed, answer);
    }
    list
}

/// The list with each of its three lists one too short and one too long.
pub fn wrong_lengths(list: &Listed) -> Vec<Listed> {
    let mut all = vec![list.clone(); 6];
    all[0].actions.pop();
    all[1].actions.push(1);
    all[2].locations.pop();
    all[3].locations.push(0);
    all[4].values.pop();
    all[5].values.push(0);
    all
}

/// A list, and the state it begins at, with faults of rows 20 to 23: one or several.
pub fn faulty_list(random: &mut Random, model: &Model, from: &State, list: &Listed) -> (State, Listed) {
    let (mut from, mut list) = (from.clone(), list.clone());
    loop {
        match random.below(8) {
            0 => spoil_length(random, &mut list.actions),
            1 => spoil_length(random, &mut list.locations),
            2 => spoil_length(random, &mut list.values),
            _ => spoil_state(random, model, &mut from),
        }
        if random.percent(60) {
            return (from, list);
        }
    }
}

/// A proposal, and the state it is made from, with faults of rows 20 to 24: one or several.
pub fn faulty(random: &mut Random, model: &Model, state: &State, proposed: &Proposed) -> (State, Proposed) {
    let (mut state, mut proposed) = (state.clone(), proposed.clone());
    loop {
        if random.percent(70) {
            spoil_state(random, model, &mut state);
        } else {
            spoil_proposed(random, model, &mut proposed);
        }
        if random.percent(60) {
            return (state, proposed);
        }
    }
}

fn spoil_state(random: &mut Random, model: &Model, state: &mut State) {
    match random.below(5) {
        0 => state.phase = random.pick(&[2, 3, u32::MAX]),
        1 => spoil_length(random, &mut state.locations),
        2 => spoil_length(random, &mut state.values),
        3 => spoil_location(random, model, &mut state.locations),
        _ => spoil_value(random, model, &mut state.values),
    }
}

/// A proposal with faults of its own alone, as a run can meet them.
pub fn spoil_proposed(random: &mut Random, model: &Model, proposed: &mut Proposed) {
    match random.below(5) {
        0 if proposed.action.is_some() => spoil_length(random, &mut proposed.locations),
        1 => spoil_length(random, &mut proposed.values),
        _ => spoil_content(random, model, proposed),
    }
}

/// The same without a wrong length, as a list can have them.
fn spoil_content(random: &mut Random, model: &Model, proposed: &mut Proposed) {
    match random.below(3) {
        0 if proposed.action.is_some() => spoil_location(random, model, &mut proposed.locations),
        1 if proposed.action.is_some() => proposed.action = Some(random.pick(&[model.actions + 1, 64, 65, u32::MAX])),
        _ => spoil_value(random, model, &mut proposed.values),
    }
}

fn spoil_length<T: Clone + Default>(random: &mut Random, list: &mut Vec<T>) {
    match random.below(4) {
        0 if !list.is_empty() => {
            list.pop();
        }
        1 => list.clear(),
        2 => list.resize(list.len() + 40, T::default()),
        _ => list.push(T::default()),
    }
}

fn spoil_location(random: &mut Random, model: &Model, list: &mut [u32]) {
    let k = random.below(list.len().min(model.automata.len()));
    if let Some(location) = list.get_mut(k) {
        *location = random.pick(&[model.automata[k].locations.len() as u32, 32, 33, u32::MAX]);
    }
}

fn spoil_value(random: &mut Random, model: &Model, list: &mut [i32]) {
    let k = random.below(list.len().min(model.ranges.len()));
    if let (Some(value), Some((low, high))) = (list.get_mut(k), model.ranges.get(k)) {
        *value = random.pick(&[low - 1, high + 1, i32::MIN, i32::MAX]);
    }
}

/// Whether the answer is a yes.
pub fn is_yes(answer: u32) -> bool {
    answer != NO && answer < REFUSED
}
