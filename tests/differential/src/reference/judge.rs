//! The judges: rows 18 to 24, then Table 1's rules with the paper's differences.
use super::model::*;
use super::table::open;
use std::collections::HashSet;

pub const NO: u32 = 0;
pub const YES: u32 = 1;
pub const YES_MARKED: u32 = 2;
/// What is added to a row that refuses.
pub const REFUSED: u32 = 100;

/// A proposed step: from a state to new locations and values. An environment step has no new locations.
#[derive(Clone, Copy, Debug)]
pub struct Proposal<'a> {
    pub phase: u32,
    pub locations: &'a [u32],
    pub values: &'a [i32],
    pub new_locations: &'a [u32],
    pub new_values: &'a [i32],
}

pub fn step(table: &[u32], proposal: &Proposal, action: u32) -> u32 {
    match open(table) {
        Ok(model) => step_of(&model, proposal, action),
        Err(row) => REFUSED + row,
    }
}

pub fn environment(table: &[u32], phase: u32, locations: &[u32], values: &[i32], new_values: &[i32]) -> u32 {
    let proposal = Proposal { phase, locations, values, new_locations: locations, new_values };
    match open(table) {
        Ok(model) => environment_of(&model, &proposal),
        Err(row) => REFUSED + row,
    }
}

/// The step judge on a model.
pub fn step_of(model: &Model, proposal: &Proposal, action: u32) -> u32 {
    if let Some(row) = refusal(model, proposal) {
        return REFUSED + row;
    }
    if action > model.actions {
        return REFUSED + 24;
    }
    if !started(model, proposal) || !allowed(model, proposal, action) {
        return NO;
    }
    if model.composition.shares(action, &model.automata) {
        YES_MARKED
    } else {
        YES
    }
}

/// The environment judge on a model: what belongs to an automaton is not the environment's to change.
pub fn environment_of(model: &Model, proposal: &Proposal) -> u32 {
    if let Some(row) = refusal(model, proposal) {
        return REFUSED + row;
    }
    let kept = changes(proposal) & model.owned() == 0;
    if kept && started(model, proposal) && (0..model.automata.len()).all(|i| still(model, proposal, i)) {
        YES
    } else {
        NO
    }
}

/// Rows 20 to 23.
pub fn refusal(model: &Model, proposal: &Proposal) -> Option<u32> {
    let locations = [proposal.locations, proposal.new_locations];
    let values = [proposal.values, proposal.new_values];
    if proposal.phase > 1 {
        return Some(20);
    }
    if locations.iter().any(|list| list.len() != model.automata.len()) || values.iter().any(|list| list.len() != model.ranges.len())
    {
        return Some(21);
    }
    let there = |(location, automaton): (&u32, &Automaton)| (*location as usize) < automaton.locations.len();
    if !locations.iter().all(|list| list.iter().zip(&model.automata).all(there)) {
        return Some(22);
    }
    let in_range = |(value, (low, high)): (&i32, &Range)| low <= value && value <= high;
    if !values.iter().all(|list| list.iter().zip(&model.ranges).all(in_range)) {
        return Some(23);
    }
    None
}

fn location<'a>(model: &'a Model, i: usize, list: &[u32]) -> &'a Location {
    &model.automata[i].locations[list[i] as usize]
}

/// What phase 0 asks of every step, whoever takes: each `ini` of the composition holds of the old values.
fn started(model: &Model, proposal: &Proposal) -> bool {
    let old = proposal.values;
    proposal.phase == 1 || model.composition.starts().iter().all(|p| p.holds(old, old))
}

/// What both rules ask of the old location: init in phase 0, and inv.
fn ready(model: &Model, proposal: &Proposal, i: usize) -> bool {
    let here = location(model, i, proposal.locations);
    let old = proposal.values;
    (proposal.phase == 1 || here.init.holds(old, old)) && here.invariant.holds(old, old)
}

/// Rule 2: automaton i stays where it is.
fn still(model: &Model, proposal: &Proposal, i: usize) -> bool {
    proposal.new_locations[i] == proposal.locations[i]
        && ready(model, proposal, i)
        && location(model, i, proposal.locations).invariant.holds(proposal.new_values, proposal.new_values)
}

/// Rule 1: automaton i takes the edge.
fn takes(model: &Model, proposal: &Proposal, i: usize, edge: &Edge) -> bool {
    edge.from == proposal.locations[i] as usize
        && edge.to == proposal.new_locations[i] as usize
        && ready(model, proposal, i)
        && location(model, i, proposal.new_locations).invariant.holds(proposal.new_values, proposal.new_values)
        && edge.update.holds(proposal.values, proposal.new_values)
}

/// Whether some choice of taking edges allows the step: rules 3 and 4, and the edges' `n`s cover all that changed.
fn allowed(model: &Model, proposal: &Proposal, action: u32) -> bool {
    let changed = changes(proposal);
    let covers = |i: usize| {
        let edges = model.automata[i].edges.iter().filter(|edge| edge.action == action && takes(model, proposal, i, edge));
        let mut covers: Vec<u64> = edges.map(|edge| edge.update.mentions_new() & changed).collect();
        covers.sort_unstable();
        covers.dedup();
        covers
    };
    let automata = 0..model.automata.len();
    let mut search = Search {
        model,
        action,
        covers: automata.clone().map(covers).collect(),
        still: automata.map(|i| still(model, proposal, i)).collect(),
        failed: HashSet::new(),
    };
    search.can(&[&model.composition], changed)
}

/// The variables that change, one bit each.
fn changes(proposal: &Proposal) -> u64 {
    let pairs = proposal.values.iter().zip(proposal.new_values).enumerate();
    pairs.filter(|(_, (old, new))| old != new).fold(0, |bits, (k, _)| bits | 1 << k)
}

struct Search<'a> {
    model: &'a Model,
    action: u32,
    /// For each automaton what its edges that can be taken would cover, each once.
    covers: Vec<Vec<u64>>,
    still: Vec<bool>,
    /// Compositions (by address) that cannot all take the action and cover these variables.
    failed: HashSet<(Vec<usize>, u64)>,
}

impl Search<'_> {
    /// Whether all of `owed` can take the action so that their edges together cover `uncovered`.
    fn can(&mut self, owed: &[&Composition], uncovered: u64) -> bool {
        let Some((first, rest)) = owed.split_first() else {
            return uncovered == 0;
        };
        if uncovered & !self.reach(owed) != 0 {
            return false;
        }
        let key = (owed.iter().map(|c| *c as *const Composition as usize).collect(), uncovered);
        if self.failed.contains(&key) {
            return false;
        }
        let found = self.first_moves(first, rest, uncovered);
        if !found {
            self.failed.insert(key);
        }
        found
    }

    fn first_moves(&mut self, first: &Composition, rest: &[&Composition], uncovered: u64) -> bool {
        match first {
            Composition::Leaf(k) => {
                let covers = self.covers[*k].clone();
                covers.iter().any(|cover| self.can(rest, uncovered & !cover))
            }
            Composition::Syn(_, inner) | Composition::Ini(_, inner) => self.can(&[&[inner.as_ref()], rest].concat(), uncovered),
            Composition::Par(left, right) => {
                let in_left = left.shares(self.action, &self.model.automata);
                let in_right = right.shares(self.action, &self.model.automata);
                if in_left && in_right {
                    return self.can(&[&[left.as_ref(), right.as_ref()], rest].concat(), uncovered);
                }
                (!in_right && self.rests(right) && self.can(&[&[left.as_ref()], rest].concat(), uncovered))
                    || (!in_left && self.rests(left) && self.can(&[&[right.as_ref()], rest].concat(), uncovered))
            }
        }
    }

    fn rests(&self, composition: &Composition) -> bool {
        composition.leaves().iter().all(|k| self.still[*k])
    }

    /// All that the edges below could cover together: without it a search for too much would try every choice.
    fn reach(&self, owed: &[&Composition]) -> u64 {
        let leaves = owed.iter().flat_map(|composition| composition.leaves());
        leaves.flat_map(|k| &self.covers[k]).fold(0, |all, cover| all | cover)
    }
}
